//! What short forms fill in a view, and what is blank: no fact and no belief is filled without a statement.

use crate::faults::{joined, none_left, not_all, one_of};
use crate::found::Found;
use crate::names::Label;
use crate::pack::Node;
use crate::problem::Problem;
use crate::source::Filled;
use crate::views::{Said, Sections, Told};
use crate::write::Part;

/// The views as nodes, unless something is left blank.
pub fn nodes(views: &Sections, found: &mut Found) -> Option<Vec<Node>> {
    found.problems.extend(circles(views));
    for (view, said) in views.said.iter().enumerate() {
        shorts(views, said, found);
        found.problems.extend(blank_facts(views, said));
        found.problems.extend(blank_beliefs(views, said));
        source(views, view, found);
    }
    (0..views.said.len()).map(|view| node(views, view)).collect()
}

fn node(views: &Sections, view: usize) -> Option<Node> {
    let said = &views.said[view];
    let values = (0..said.values.len()).map(|fact| value(views, view, fact)).collect::<Option<_>>()?;
    let beliefs = said.beliefs.iter().map(|belief| belief.or(said.others)?.what).collect::<Option<_>>()?;
    Some(Node { values, beliefs })
}

/// A fact's value: as the view says, or as in the view that the rest is as in, and so on.
fn value(views: &Sections, view: usize, fact: usize) -> Option<usize> {
    let mut said = &views.said[view];
    for _ in 0..views.said.len() {
        if let Some(told) = said.values[fact] {
            return told.what;
        }
        said = &views.said[said.rest?.what?];
    }
    None
}

/// Views of which each says that the rest is as in the next, and the last as in the first.
fn circles(views: &Sections) -> Vec<Problem> {
    let mut found = Vec::new();
    for view in 0..views.said.len() {
        let Some(rest) = views.said[view].rest else { continue };
        let mut circle = Vec::new();
        let mut at = Some(view);
        while let Some(next) = at.filter(|next| !circle.contains(next)) {
            circle.push(next);
            at = views.said[next].rest.and_then(|rest| rest.what);
        }
        if at == Some(view) && circle.iter().all(|&other| view <= other) {
            let all: Vec<String> = circle.iter().map(|&view| format!("'{}'", views.said[view].heading)).collect();
            let each = if all.len() == 1 { "itself" } else { "each other" };
            let message = format!("the rest of {} is as in {each}", joined(&all, "and"));
            found.push(rest.at.problem(message, "write how it is in one of these views"));
        }
    }
    found
}

/// A short form that speaks of all, although some are named, or of others, although none are left.
fn shorts(views: &Sections, said: &Said, found: &mut Found) {
    let (facts, characters) = (&views.scope.facts.names.names, &views.scope.characters.names);
    for (short, named, names, instead) in [
        (said.rest, &said.values, facts, "the rest is as in …"),
        (said.others, &said.beliefs, characters, "everyone else believes …"),
    ] {
        let Some(Told { at, of_all, .. }) = short else { continue };
        let first = named.iter().zip(names).find_map(|(told, name)| Some((name.as_str(), told.as_ref()?.at)));
        match first {
            Some(first) if of_all => found.problems.push(not_all(at, first, instead)),
            _ if named.iter().all(Option::is_some) => found.warnings.push(none_left(at)),
            _ => {}
        }
    }
}

/// The facts that a view leaves blank.
fn blank_facts(views: &Sections, said: &Said) -> Option<Problem> {
    let blank: Vec<usize> = (0..said.values.len()).filter(|&fact| said.values[fact].is_none()).collect();
    let first = *blank.first().filter(|_| said.rest.is_none() && !said.unread)?;
    let facts = &views.scope.facts;
    let names: Vec<String> = blank.iter().map(|&fact| format!("'{}'", facts.names.names[fact])).collect();
    let is = |value: &String| format!("{} is {value}", facts.names.names[first]);
    let mut ways: Vec<String> = facts.values[first].names.iter().map(is).collect();
    if blank.len() > 1 || ways.is_empty() {
        ways = vec![ways.first().map_or_else(|| is(&"…".to_string()), String::clone)];
    }
    let each = if blank.len() > 1 { "write a line for each, as in" } else { "write" };
    let short = if said.label == Some(Label::Truth) { "" } else { ", or 'the rest is as in the truth'" };
    let are = if blank.len() > 1 { "are" } else { "is" };
    let message = format!("'{}' doesn't say what {} {are}", said.heading, joined(&names, "and"));
    Some(said.at.problem(message, format!("{each} {}{short}", one_of(&ways))))
}

/// The characters of whom a view doesn't say what they believe.
fn blank_beliefs(views: &Sections, said: &Said) -> Option<Problem> {
    let blank: Vec<usize> = (0..said.beliefs.len()).filter(|&character| said.beliefs[character].is_none()).collect();
    let first = *blank.first().filter(|_| said.others.is_none() && !said.unread && views.whole)?;
    let characters = &views.scope.characters.names;
    let names: Vec<String> = blank.iter().map(|&character| format!("'{}'", characters[character])).collect();
    let verb = if blank.len() > 1 { "believe" } else { "believes" };
    let section = said.label.as_ref().and_then(|label| label.of_belief(first));
    let section = section.map_or(String::new(), |label| format!(", a section '{}:'", label.text(characters)));
    let everyone = if blank.len() == said.beliefs.len() { "everyone" } else { "everyone else" };
    let message = format!("'{}' doesn't say what {} {verb}", said.heading, joined(&names, "and"));
    let help = format!("write '{} believes this'{section} or '{everyone} believes this'", characters[first]);
    Some(said.at.problem(message, help))
}

/// Notes where the view's facts and beliefs are said, and what a short form filled.
fn source(views: &Sections, view: usize, found: &mut Found) {
    let said = &views.said[view];
    let name = |what: usize| if what == view { "this".to_string() } else { views.name(what) };
    let filled = |told: Told, of_all: &str, of_the_rest: &str| {
        let words = if told.of_all { of_all } else { of_the_rest };
        Some(Filled { at: told.at, words: format!("{words} {}", name(told.what?)) })
    };
    let rest = said.rest.and_then(|told| filled(told, "everything is as in", "the rest is as in"));
    let others = said.others.and_then(|told| filled(told, "everyone believes", "everyone else believes"));
    for (fact, told) in said.values.iter().enumerate() {
        found.source.put(Part::Value(view, fact), told.map(|told| told.at), &rest);
    }
    for (character, told) in said.beliefs.iter().enumerate() {
        found.source.put(Part::Belief(view, character), told.map(|told| told.at), &others);
    }
}
