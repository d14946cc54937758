//! A story printed as text, and a chart with the story's names.

use crate::decode::{self, Unreadable};
use crate::names::{chain_text, labels, Fact, Names};
use crate::pack::{Condition, Effect, How, Rule, Test};
use crate::shown::{views, Shown};
use crate::Story;

/// Tests that would make a longer line than this stand on a line each.
const LONGEST_LINE: usize = 90;

/// The whole text. Read again it gives the same pack and names. Every fact and belief is told, and what a short form of
/// the text filled is marked with its line.
pub fn story(story: &Story) -> String {
    let Story { pack, names, .. } = story;
    let mut out = format!("characters: {}\n\nfacts:\n", names.characters.join(", "));
    names.facts.iter().for_each(|fact| out += &format!("    {}: {}\n", fact.name, values(fact)));
    out += &views(&Shown::of(story));
    for (action, name) in pack.actions.iter().zip(&names.actions) {
        out += &format!("\naction {name}:\n");
        out += &happening(names, &action.condition, &action.effects);
        let by = if action.consenters.is_empty() { "nobody".to_string() } else { people(names, &action.consenters) };
        out += &format!("    by {by}\n");
        out += &sight(names, &action.observations);
    }
    for (trigger, name) in pack.triggers.iter().zip(&names.triggers) {
        out += &format!("\ntrigger {name}:\n");
        out += &happening(names, &trigger.condition, &trigger.effects);
    }
    let wanting = std::iter::once("author").chain(names.characters.iter().map(String::as_str));
    for (name, rules) in wanting.zip(&pack.utilities) {
        let nothing = if rules.is_empty() { " nothing" } else { "" };
        out += &format!("\n{name} wants:{nothing}\n");
        rules.iter().enumerate().for_each(|(i, rule)| out += &wish(names, i, rule));
    }
    out
}

/// The values' names; numbers in a row as a range.
fn values(fact: &Fact) -> String {
    let numbers: Vec<u32> = fact.values.iter().map_while(|name| name.parse().ok()).collect();
    let rising = numbers.windows(2).all(|pair| pair[1].checked_sub(pair[0]) == Some(1));
    let plain = numbers.iter().map(u32::to_string).eq(fact.values.iter().cloned());
    match (&fact.values[..], rising && plain) {
        ([first, _, .., last], true) => format!("{first} to {last}"),
        (all, _) => all.join(", "),
    }
}

/// `the letter is burnt`; `how` is what stands before the value: nothing, `not ` or `at least `.
fn is(names: &Names, fact: usize, how: &str, value: usize) -> String {
    let fact = &names.facts[fact];
    let verb = if fact.plural { "are" } else { "is" };
    format!("{} {verb} {how}{}", fact.name, fact.values[value])
}

fn happening(names: &Names, condition: &Condition, effects: &[Effect]) -> String {
    let effects: Vec<String> = effects.iter().map(|told| effect(names, told)).collect();
    let then = if effects.is_empty() { "nothing".to_string() } else { effects.join("\n     and ") };
    format!("    when {}\n    then {then}\n", conditional(names, condition))
}

/// A condition on one line.
pub fn condition(names: &Names, condition: &Condition) -> String {
    conditional(names, condition).split_whitespace().collect::<Vec<_>>().join(" ")
}

/// `Ada believes Ben believes the letter is burnt`
pub fn belief(names: &Names, chain: &[usize], fluent: usize, value: usize) -> String {
    in_belief(names, chain, is(names, fluent, "", value))
}

/// A condition, each alternative on a line of its own.
fn conditional(names: &Names, condition: &Condition) -> String {
    if condition.alternatives.is_empty() {
        return "never".to_string();
    }
    let alternatives: Vec<String> = condition.alternatives.iter().map(|tests| alternative(names, tests)).collect();
    alternatives.join("\n      or ")
}

fn alternative(names: &Names, tests: &[Test]) -> String {
    if tests.is_empty() {
        return "always".to_string();
    }
    let tests: Vec<String> = tests.iter().map(|told| test(names, told)).collect();
    let line = tests.join(" and ");
    if line.chars().count() > LONGEST_LINE {
        return tests.join("\n     and ");
    }
    line
}

/// A test: whose belief, which fact, which value.
pub fn test(names: &Names, test: &Test) -> String {
    in_belief(names, &test.chain, is(names, test.fluent, how(test.how), test.value))
}

/// What stands before the value.
pub fn how(how: How) -> &'static str {
    match how {
        How::Is => "",
        How::IsNot => "not ",
        How::AtLeast => "at least ",
    }
}

/// An effect: whose belief it is written into, which fact, which value.
pub fn effect(names: &Names, effect: &Effect) -> String {
    let chain: Vec<usize> = effect.whom.into_iter().collect();
    in_belief(names, &chain, is(names, effect.fluent, "", effect.value))
}

fn in_belief(names: &Names, chain: &[usize], told: String) -> String {
    if chain.is_empty() {
        return told;
    }
    format!("{} {told}", chain_text(chain, &names.characters))
}

/// `Ada, Ben and Carl`
pub fn people(names: &Names, characters: &[usize]) -> String {
    let all: Vec<&str> = characters.iter().map(|&character| names.characters[character].as_str()).collect();
    match all.split_last() {
        Some((last, others)) if !others.is_empty() => format!("{} and {last}", others.join(", ")),
        _ => all.concat(),
    }
}

/// Who sees an action when, those with the same condition together.
fn sight(names: &Names, observations: &[Condition]) -> String {
    let mut groups: Vec<(String, Vec<usize>)> = Vec::new();
    for (character, condition) in observations.iter().enumerate().filter(|(_, seen)| !seen.is_never()) {
        let when = if condition.is_always() { String::new() } else { format!(" if {}", conditional(names, condition)) };
        match groups.iter_mut().find(|(known, _)| *known == when) {
            Some((_, characters)) => characters.push(character),
            None => groups.push((when, vec![character])),
        }
    }
    let mut out = String::new();
    for (when, characters) in &groups {
        let everyone = characters.len() == observations.len() && characters.len() > 1;
        let who = if everyone { "everyone".to_string() } else { people(names, characters) };
        out += &format!("    seen by {who}{when}\n");
    }
    let nobody = if groups.is_empty() { "nobody" } else { "nobody else" };
    if observations.iter().any(Condition::is_never) {
        out += &format!("    seen by {nobody}\n");
    }
    out
}

fn wish(names: &Names, place: usize, rule: &Rule) -> String {
    if place > 0 && rule.condition.is_always() {
        return format!("    {} otherwise\n", rule.worth);
    }
    format!("    {} if {}\n", rule.worth, conditional(names, &rule.condition))
}

/// A chart under a story: its views, with labels of their own.
pub fn chart(story: &Story, bytes: &[u8]) -> Result<String, Unreadable> {
    let nodes = decode::chart(&story.pack, bytes)?;
    let shown = Shown { names: &story.names, nodes: &nodes, labels: &labels(&nodes), source: None };
    Ok(views(&shown).trim_start().to_string())
}
