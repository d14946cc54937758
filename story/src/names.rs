//! The names of what a pack numbers. A pack has none, so where it comes without a story they are made up.

use std::collections::VecDeque;

use crate::pack::{Node, Pack};

#[derive(Clone, PartialEq, Eq, Debug)]
pub struct Names {
    pub characters: Vec<String>,
    pub facts: Vec<Fact>,
    pub views: Vec<Label>,
    pub actions: Vec<String>,
    pub triggers: Vec<String>,
}

/// A fluent and its values.
#[derive(Clone, PartialEq, Eq, Debug)]
pub struct Fact {
    pub name: String,
    pub values: Vec<String>,
    /// Whether it is told with `are`, as the truth tells it, instead of `is`.
    pub plural: bool,
}

/// What a view (a node) is called.
#[derive(Clone, PartialEq, Eq, Debug)]
pub enum Label {
    /// Node 0, and the chain of nobody.
    Truth,
    /// What the first believes the second believes, and so on. It says where the view is: the view with the label of
    /// one character less, or the truth, has it as that character's belief.
    Believed(Vec<usize>),
    Named(String),
}

pub const TRUTH: &str = "the truth";

/// The longest chain by which a view is called if its name is made up.
const LONGEST: usize = 4;

impl Label {
    /// The label of what a character believes in a view with this one, if there can be one.
    pub fn of_belief(&self, character: usize) -> Option<Label> {
        match self {
            Label::Truth => Some(Label::Believed(vec![character])),
            Label::Believed(chain) => Some(Label::Believed([&chain[..], &[character]].concat())),
            Label::Named(_) => None,
        }
    }

    /// The label of the view that holds this one as a belief, and whose belief it is.
    pub fn holder(&self) -> Option<(Label, usize)> {
        let Label::Believed(chain) = self else { return None };
        let (&last, before) = chain.split_last()?;
        let holder = if before.is_empty() { Label::Truth } else { Label::Believed(before.to_vec()) };
        Some((holder, last))
    }

    /// The heading of its section, without the colon.
    pub fn heading(&self, characters: &[String]) -> String {
        let text = self.text(characters);
        if let Label::Named(_) = self {
            format!("view {text}")
        } else {
            text
        }
    }

    pub fn text(&self, characters: &[String]) -> String {
        match self {
            Label::Truth => TRUTH.to_string(),
            Label::Believed(chain) => format!("what {}", chain_text(chain, characters)),
            Label::Named(name) => name.clone(),
        }
    }
}

/// `Ada believes Ben believes`.
pub fn chain_text(chain: &[usize], characters: &[String]) -> String {
    let each: Vec<String> = chain.iter().map(|&character| format!("{} believes", characters[character])).collect();
    each.join(" ")
}

impl Names {
    pub fn made_up(pack: &Pack) -> Names {
        let facts = pack.domains.iter().enumerate().map(|(i, &size)| Fact {
            name: format!("fact {i}"),
            values: (0..size).map(|value| value.to_string()).collect(),
            plural: false,
        });
        Names {
            characters: ('A'..).take(pack.characters).map(String::from).collect(),
            facts: facts.collect(),
            views: labels(&pack.nodes),
            actions: (0..pack.actions.len()).map(|i| i.to_string()).collect(),
            triggers: (0..pack.triggers.len()).map(|i| i.to_string()).collect(),
        }
    }
}

/// Labels for the nodes of a table: each reached one by the chain that meets it first, breadth first.
pub fn labels(nodes: &[Node]) -> Vec<Label> {
    let mut labels: Vec<Option<Label>> = vec![None; nodes.len()];
    labels[0] = Some(Label::Truth);
    let mut met = VecDeque::from([(0, Label::Truth)]);
    while let Some((node, label)) = met.pop_front() {
        for (character, &next) in nodes[node].beliefs.iter().enumerate() {
            let chain = label.of_belief(character).filter(|label| !too_long(label));
            if let (None, Some(chain)) = (&labels[next], chain) {
                labels[next] = Some(chain.clone());
                met.push_back((next, chain));
            }
        }
    }
    let named = |(i, label): (usize, Option<Label>)| label.unwrap_or_else(|| Label::Named(format!("number {i}")));
    labels.into_iter().enumerate().map(named).collect()
}

fn too_long(label: &Label) -> bool {
    matches!(label, Label::Believed(chain) if chain.len() > LONGEST)
}
