//! States of nested belief.
//!
//! A state means one thing: for each chain of characters, the values found where it leads. Here it is kept as its merged
//! graph numbered breadth first. That form is unique, so two states are the same exactly when they are equal (`==`).

use crate::graph::{merge, Node};

#[derive(Clone, PartialEq, Eq, Hash, Debug)]
pub struct State {
    nodes: Vec<Node>,
}

impl State {
    /// The state that a node of a graph means.
    pub fn new(graph: &[Node], root: usize) -> State {
        State { nodes: merge(graph, root) }
    }

    /// The different states reached by beliefs, this one first.
    pub fn nodes(&self) -> &[Node] {
        &self.nodes
    }

    /// The state that a character believes in.
    pub fn belief(&self, character: usize) -> State {
        State::new(&self.nodes, self.nodes[0].beliefs[character])
    }

    /// Where a chain leads from a node: the first character's belief, in it the second's, and so on.
    pub fn follow(&self, from: usize, chain: &[usize]) -> &Node {
        let end = chain.iter().fold(from, |node, &character| self.nodes[node].beliefs[character]);
        &self.nodes[end]
    }
}
