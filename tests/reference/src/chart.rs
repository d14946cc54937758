//! Charts: a state as bytes. Any table of nodes is read; what is written is the merged graph, numbered breadth first.

use crate::graph::Node;
use crate::number::Numbers;
use crate::pack::{self, Pack};
use crate::refusal::{Refusal, IN_CHART};
use crate::state::State;

/// Reads a chart under a pack. All its nodes are checked, those out of reach too.
pub fn table(pack: &Pack, bytes: &[u8]) -> Result<Vec<Node>, Refusal> {
    let mut numbers = Numbers::new(bytes, IN_CHART);
    let nodes = pack::nodes(&mut numbers, pack.characters, &pack.domains)?;
    numbers.end()?;
    Ok(nodes)
}

/// The state that a chart means: that of its node 0.
pub fn read(pack: &Pack, bytes: &[u8]) -> Result<State, Refusal> {
    Ok(State::new(&table(pack, bytes)?, 0))
}

/// The bytes of any table. Every number here is below 128 and so takes one byte.
pub fn bytes(nodes: &[Node]) -> Vec<u8> {
    let mut bytes = vec![nodes.len() as u8];
    for node in nodes {
        bytes.extend(&node.values);
        bytes.extend(node.beliefs.iter().map(|&next| next as u8 + 1));
    }
    bytes
}

/// A state's chart.
pub fn write(state: &State) -> Vec<u8> {
    bytes(state.nodes())
}
