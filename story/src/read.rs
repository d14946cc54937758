//! A text read as a story.

use crate::declare::{self, Known};
use crate::found::Found;
use crate::happenings;
use crate::names::{Fact, Names};
use crate::pack::{Pack, LONGEST_PACK, MOST_ACTIONS, MOST_TRIGGERS};
use crate::problem::{Problem, Span};
use crate::scope::Scope;
use crate::sections::{sections, Kind, Section, Text};
use crate::views::{views, Views};
use crate::wishes::utilities;
use crate::write::Part;
use crate::{warnings, words, write, Story};

/// A story that was read, and what in it is seldom meant.
#[derive(Clone, Debug)]
pub struct Reading {
    pub story: Story,
    pub warnings: Vec<Problem>,
}

/// Reads a story from its text, or tells all that is wrong with it, in the order of its lines. Nothing that the text
/// leaves blank is filled in. What is read can be written as a pack.
pub fn read(bytes: &[u8]) -> Result<Reading, Vec<Problem>> {
    let text = words::text(bytes)?;
    let mut found = Found::default();
    let lines = words::lines(text, &mut found);
    let text = sections(lines, &mut found);
    let read = story(&text, &mut found);
    let sorted = |mut problems: Vec<Problem>| {
        problems.sort_by_key(|problem| problem.at);
        problems.dedup();
        problems
    };
    match read {
        Some((pack, names)) if found.problems.is_empty() => {
            let story = Story { pack, names, source: Some(found.source) };
            found.warnings.extend(warnings::of(&story));
            Ok(Reading { story, warnings: sorted(found.warnings) })
        }
        _ => Err(sorted(found.problems)),
    }
}

/// The pack and its names. Where something is wrong, that is told in `found`, and what is given counts for nothing.
fn story(text: &Text, found: &mut Found) -> Option<(Pack, Names)> {
    let scope = &scope(text, found);
    let views = views(scope, text, found);
    let (action_names, actions) =
        happenings_of(text, Kind::Action, found, |section, i, found| happenings::action(scope, section, i, found));
    let (trigger_names, triggers) =
        happenings_of(text, Kind::Trigger, found, |section, i, found| happenings::trigger(scope, section, i, found));
    let utilities = utilities(scope, text, found);
    let Views { nodes, labels, plural } = views?;
    let domains = scope.facts.values.iter().map(|values| values.names.len()).collect();
    let characters = scope.characters.names.clone();
    let pack = Pack { characters: characters.len(), domains, nodes, actions: actions?, triggers: triggers?, utilities };
    let length = write::pack(&pack).bytes.len();
    if length > LONGEST_PACK {
        found.problems.push(too_long(text.end, length));
    }
    let facts = scope.facts.names.names.iter().zip(&scope.facts.values).zip(plural);
    let facts = facts.map(|((name, values), plural)| Fact { name: name.clone(), values: values.names.clone(), plural });
    let facts = facts.collect();
    Some((pack, Names { characters, facts, views: labels, actions: action_names, triggers: trigger_names }))
}

fn too_long(end: Span, length: usize) -> Problem {
    let message = format!("the story's pack has {length} bytes, and a pack has at most {LONGEST_PACK}");
    end.problem(message, "leave something out; conditions take most of the room")
}

/// The characters and facts, and where they stand.
fn scope(text: &Text, found: &mut Found) -> Scope {
    let characters = text.only(Kind::Characters, "characters", found);
    let facts = text.only(Kind::Facts, "facts", found);
    for (part, section) in [(Part::Characters, characters), (Part::Facts, facts)] {
        section.into_iter().for_each(|section| found.source.at(part, section.span));
    }
    let scope = Scope { characters: declare::characters(characters, found), facts: declare::facts(facts, found) };
    scope.facts.names.spans.iter().enumerate().for_each(|(i, &span)| found.source.at(Part::Fact(i), span));
    scope
}

/// The names of a kind's sections, and what is read of them, unless something is wrong with one.
fn happenings_of<T>(
    text: &Text,
    kind: Kind,
    found: &mut Found,
    read: impl Fn(&Section, usize, &mut Found) -> Option<T>,
) -> (Vec<String>, Option<Vec<T>>) {
    let (part, mut names) = match kind {
        Kind::Action => (Part::Actions, Known::new("action", ("actions", MOST_ACTIONS))),
        _ => (Part::Triggers, Known::new("trigger", ("triggers", MOST_TRIGGERS))),
    };
    let mut all = Vec::new();
    for (i, section) in text.of(kind).enumerate() {
        if let Some(title) = found.kept(&section.heading, section.title()) {
            found.problems.extend(names.add(title).err());
        }
        if i == 0 {
            found.source.at(part, section.span);
        }
        all.push(read(section, i, found));
    }
    (names.names, all.into_iter().collect())
}
