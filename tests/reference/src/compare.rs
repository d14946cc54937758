//! Comparing two states: the shortest chain that leads to a difference.

use std::collections::{HashSet, VecDeque};

use crate::state::State;

#[derive(Clone, PartialEq, Eq, Debug)]
pub struct Difference {
    pub chain: Vec<usize>,
    pub fluent: usize,
}

/// Walks both states by the same chains, shorter ones first and then by character numbers. A pair of nodes already met
/// was met by a chain that comes before, and from there on both would find the same again.
pub fn difference(first: &State, second: &State) -> Option<Difference> {
    let mut met = HashSet::from([(0, 0)]);
    let mut waiting = VecDeque::from([(0, 0, Vec::new())]);
    while let Some((left, right, chain)) = waiting.pop_front() {
        let (l, r) = (&first.nodes()[left], &second.nodes()[right]);
        if let Some(fluent) = (0..l.values.len()).find(|&fluent| l.values[fluent] != r.values[fluent]) {
            return Some(Difference { chain, fluent });
        }
        for (character, pair) in l.beliefs.iter().copied().zip(r.beliefs.iter().copied()).enumerate() {
            if met.insert(pair) {
                let longer = [&chain[..], &[character]].concat();
                waiting.push_back((pair.0, pair.1, longer));
            }
        }
    }
    None
}
