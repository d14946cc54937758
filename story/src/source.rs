//! Where a story's text says what, and the beliefs that it states.

use std::collections::{HashMap, VecDeque};

use crate::pack::Node;
use crate::problem::{Place, Span};
use crate::scope::Placed;
use crate::write::{Owner, Part};

/// The longest chain that is asked back, which is the longest by which two states can differ.
const LONGEST: usize = 62;

/// Of the chains that lead to a view so many go on.
const MOST_CHAINS: usize = 64;

/// Where the text says each part of the pack, and what it says by a short form.
#[derive(Clone, PartialEq, Eq, Debug, Default)]
pub struct Source {
    places: HashMap<Part, Span>,
    filled: HashMap<Part, Filled>,
}

/// A short form that says a fact or a belief.
#[derive(Clone, PartialEq, Eq, Debug)]
pub struct Filled {
    pub at: Span,
    pub words: String,
}

/// A belief that the text states: the value of a fact where a chain of characters leads, the outermost first.
#[derive(Clone, PartialEq, Eq, Debug)]
pub struct Stated {
    pub chain: Vec<usize>,
    pub fluent: usize,
    pub value: usize,
    pub at: Place,
}

impl Source {
    /// Notes where a part is said: by itself, or else by a short form.
    pub(crate) fn put(&mut self, part: Part, at: Option<Span>, short: &Option<Filled>) {
        if let Some(at) = at {
            self.places.insert(part, at);
        } else if let Some(short) = short {
            self.places.insert(part, short.at);
            self.filled.insert(part, short.clone());
        }
    }

    pub(crate) fn at(&mut self, part: Part, at: Span) {
        self.places.insert(part, at);
    }

    pub(crate) fn condition(&mut self, of: Owner, placed: &Placed) {
        self.at(Part::Condition(of), placed.at);
        for (i, (at, tests)) in placed.alternatives.iter().enumerate() {
            self.at(Part::Alternative(of, i), *at);
            tests.iter().enumerate().for_each(|(j, &at)| self.at(Part::Test(of, i, j), at));
        }
    }

    /// Where the text says a part of the pack. A count of nothing is said nowhere.
    pub fn span(&self, part: Part) -> Option<Span> {
        self.places.get(&part).copied()
    }

    /// The short form that says a part.
    pub fn filled(&self, part: Part) -> Option<&Filled> {
        self.filled.get(&part)
    }
}

/// All that the views state, each view by the chains that lead to it.
pub fn stated(nodes: &[Node], source: &Source) -> Vec<Stated> {
    let mut stated = Vec::new();
    for (chain, view) in chains(nodes) {
        for (fluent, &value) in nodes[view].values.iter().enumerate() {
            let Some(Span { at, .. }) = source.span(Part::Value(view, fluent)) else { continue };
            stated.push(Stated { chain: chain.clone(), fluent, value, at });
        }
    }
    stated
}

/// The chains by which views are reached from the truth, the shortest first. One that comes back to a view where it has
/// been ends there; and so that there aren't too many, of those that lead to a view only the first go on.
fn chains(nodes: &[Node]) -> Vec<(Vec<usize>, usize)> {
    let mut found = Vec::new();
    let mut went_on = vec![0; nodes.len()];
    let mut open = VecDeque::from([(Vec::new(), vec![0])]);
    while let Some((chain, way)) = open.pop_front() {
        let view = way[chain.len()];
        let is_back = way[..chain.len()].contains(&view);
        if !is_back && went_on[view] < MOST_CHAINS && chain.len() < LONGEST {
            went_on[view] += 1;
            for (character, &next) in nodes[view].beliefs.iter().enumerate() {
                open.push_back(([&chain[..], &[character]].concat(), [&way[..], &[next]].concat()));
            }
        }
        found.push((chain, view));
    }
    found
}
