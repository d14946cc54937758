//! Belief graphs: nodes with values and one believed node per character, and the two ways to make one smaller.
//!
//! A chain of characters leads from a node along the beliefs. Nodes from which all chains find the same values mean the
//! same; `partition` puts exactly those together.

use std::collections::HashMap;
use std::hash::Hash;

/// A node: each fluent's value, and per character the number of the node it believes in.
#[derive(Clone, PartialEq, Eq, Hash, Debug)]
pub struct Node {
    pub values: Vec<u8>,
    pub beliefs: Vec<usize>,
}

/// Builds a graph from descriptions of nodes. `describe` gives a description's values and the descriptions that its
/// characters believe in. The nodes are numbered in the order met breadth first from `root`, characters in rising order.
pub fn grow<D: Clone + Eq + Hash>(root: D, describe: impl Fn(&D) -> (Vec<u8>, Vec<D>)) -> Vec<Node> {
    let mut met = vec![root.clone()];
    let mut number = HashMap::from([(root, 0)]);
    let mut graph = Vec::new();
    while graph.len() < met.len() {
        let (values, believed) = describe(&met[graph.len()]);
        let mut beliefs = Vec::new();
        for description in believed {
            let next = *number.entry(description.clone()).or_insert(met.len());
            if next == met.len() {
                met.push(description);
            }
            beliefs.push(next);
        }
        graph.push(Node { values, beliefs });
    }
    graph
}

/// The class of each node, by partition refinement: at first nodes with equal values are together; a class is split
/// while some character's beliefs in it lead to different classes. What is never split means the same.
pub fn partition(graph: &[Node]) -> Vec<usize> {
    let (mut class, mut count) = classes(graph.iter().map(|node| node.values.clone()));
    loop {
        let (finer, more) = classes(graph.iter().enumerate().map(|(i, node)| {
            let believed: Vec<usize> = node.beliefs.iter().map(|&next| class[next]).collect();
            (class[i], believed)
        }));
        if more == count {
            return class;
        }
        (class, count) = (finer, more);
    }
}

/// Numbers equal items alike: each item's number, and how many there are.
fn classes<T: Eq + Hash>(items: impl Iterator<Item = T>) -> (Vec<usize>, usize) {
    let mut numbers = HashMap::new();
    let mut class = Vec::new();
    for item in items {
        let fresh = numbers.len();
        class.push(*numbers.entry(item).or_insert(fresh));
    }
    (class, numbers.len())
}

/// The graph of what `root` means: each different state reachable by beliefs once, numbered breadth first.
pub fn merge(graph: &[Node], root: usize) -> Vec<Node> {
    let class = partition(graph);
    grow(class[root], |wanted| {
        let node = &graph[class.iter().position(|found| found == wanted).unwrap()];
        (node.values.clone(), node.beliefs.iter().map(|&next| class[next]).collect())
    })
}
