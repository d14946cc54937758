//! Views as they are shown, of a story or of a chart: every fact and every belief, and what short forms filled.

use crate::names::{Label, Names};
use crate::pack::Node;
use crate::print::belief;
use crate::source::{Filled, Source};
use crate::write::Part;
use crate::Story;

/// Views to be shown, of a story or of a chart.
pub struct Shown<'s> {
    pub names: &'s Names,
    pub nodes: &'s [Node],
    pub labels: &'s [Label],
    pub source: Option<&'s Source>,
}

impl<'s> Shown<'s> {
    pub fn of(story: &'s Story) -> Shown<'s> {
        let Story { pack, names, source } = story;
        Shown { names, nodes: &pack.nodes, labels: &names.views, source: source.as_ref() }
    }

    /// The short form that says a part of a view.
    pub fn filled(&self, part: Part) -> Option<&'s Filled> {
        self.source.and_then(|source| source.filled(part))
    }

    /// Whether a view's heading says that this is what a character believes in another one.
    fn is_tied(&self, view: usize, character: usize) -> bool {
        let next = self.nodes[view].beliefs[character];
        self.labels[view].of_belief(character).as_ref() == Some(&self.labels[next])
    }

    /// `Ada believes the truth`
    fn belief(&self, view: usize, who: &str, next: usize) -> String {
        let believed = if next == view { "this".to_string() } else { self.labels[next].text(&self.names.characters) };
        format!("{who} believes {believed}")
    }
}

/// The views: every fact of each, and every belief that no heading tells.
pub fn views(shown: &Shown) -> String {
    let mut out = String::new();
    for (view, (node, label)) in shown.nodes.iter().zip(shown.labels).enumerate() {
        out += &format!("\n{}:\n", label.heading(&shown.names.characters));
        for (fact, &value) in node.values.iter().enumerate() {
            out += &marked(belief(shown.names, &[], fact, value), shown.filled(Part::Value(view, fact)));
        }
        out += &beliefs(shown, view);
    }
    out
}

/// What is believed in a view: by everyone, or by one after the other.
fn beliefs(shown: &Shown, view: usize) -> String {
    let next = &shown.nodes[view].beliefs;
    let all = 0..next.len();
    if all.clone().all(|character| !shown.is_tied(view, character) && next[character] == next[0]) {
        return marked(shown.belief(view, "everyone", next[0]), None);
    }
    let untied = all.filter(|&character| !shown.is_tied(view, character));
    let line = |character: usize| {
        let told = shown.belief(view, &shown.names.characters[character], next[character]);
        marked(told, shown.filled(Part::Belief(view, character)))
    };
    untied.map(line).collect()
}

/// A line, with a remark where a short form says it.
fn marked(line: String, filled: Option<&Filled>) -> String {
    match filled {
        Some(Filled { at, words }) => format!("    {line}  # by line {}: {words}\n", at.at.line),
        None => format!("    {line}\n"),
    }
}
