//! One action told: who saw it and who missed it, who is wrong afterwards; or why it can't be played.

use pirwodd::refusal::{CONDITION, ROUNDS, STATES};
use pirwodd::{Chart, Refusal};
use story::pack::Test;
use story::print::{belief, people, test};

use crate::judge::{failing, holds};
use crate::mistakes::mistakes;
use crate::said::Refused;
use crate::stage::Stage;

/// How many wrong beliefs are told of one action.
const MOST_TOLD: usize = 8;

/// An action that was played: the states before and after it.
pub struct Act {
    pub action: usize,
    pub before: Chart,
    pub after: Chart,
}

/// `1. Ada burns the letter`
pub fn heading(stage: &Stage, place: usize, action: usize) -> String {
    format!("{}. {}\n", place + 1, stage.names().actions[action])
}

/// A line of what is told of an action.
pub fn line(text: impl AsRef<str>) -> String {
    format!("     {}\n", text.as_ref())
}

/// A line below such a line.
fn below(text: impl AsRef<str>) -> String {
    line(format!("  {}", text.as_ref()))
}

/// Who saw an action, which is judged in the state before it, and who is wrong after it.
pub fn outcome(stage: &mut Stage, act: &Act) -> Result<String, Refused> {
    Ok(sight(stage, act)? + &wrong(stage, &act.after)?)
}

fn sight(stage: &mut Stage, act: &Act) -> Result<String, Refused> {
    let observations = stage.story.pack.actions[act.action].observations.clone();
    let (mut saw, mut missed) = (Vec::new(), Vec::new());
    for (character, condition) in observations.iter().enumerate() {
        let side = if holds(stage, &act.before, condition)? { &mut saw } else { &mut missed };
        side.push(character);
    }
    let names = stage.names();
    Ok(match (&saw[..], &missed[..]) {
        ([], _) => line("seen by nobody"),
        (_, []) => line(format!("seen by {}", people(names, &saw))),
        _ => line(format!("seen by {}; missed by {}", people(names, &saw), people(names, &missed))),
    })
}

fn wrong(stage: &mut Stage, chart: &[u8]) -> Result<String, Refused> {
    let mistakes = mistakes(stage, chart)?;
    if mistakes.is_empty() {
        return Ok(line("nobody is wrong afterwards"));
    }
    let told: String = mistakes.iter().take(MOST_TOLD).map(|mistake| below(mistake.told(stage.names()))).collect();
    let rest = mistakes.len().saturating_sub(MOST_TOLD);
    let more = if rest > 0 { below(format!("and {rest} more")) } else { String::new() };
    Ok(line("wrong afterwards:") + &told + &more)
}

/// Why an action can't be played in a state, by Step's refusal.
pub fn unplayable(stage: &mut Stage, chart: &[u8], action: usize, refusal: Refusal) -> Result<String, Refused> {
    let why = match refusal.number {
        CONDITION => return condition_fails(stage, chart, action),
        ROUNDS => "the triggers don't come to rest: one still holds after 16 rounds of them",
        STATES => "what everyone would believe of everyone then has more than 32 different states",
        _ => return Err(refusal.into()),
    };
    Ok(line(format!("can't be played: {why}")))
}

/// The tests of a condition that fail, alternative by alternative, each with what is so.
fn condition_fails(stage: &mut Stage, chart: &[u8], action: usize) -> Result<String, Refused> {
    let condition = stage.story.pack.actions[action].condition.clone();
    if condition.is_never() {
        return Ok(line("can't be played: its condition never holds"));
    }
    let mut told = line("can't be played: its condition fails");
    for (i, tests) in failing(stage, chart, &condition)?.into_iter().enumerate() {
        if i > 0 {
            told += &below("or, in its next alternative:");
        }
        for test in tests {
            told += &below(missing(stage, chart, test)?);
        }
    }
    Ok(told)
}

/// `the desk is locked (the desk is broken open)`
fn missing(stage: &mut Stage, chart: &[u8], of: &Test) -> Result<String, Refused> {
    let found = stage.value(chart, &of.chain, of.fluent)?;
    let names = stage.names();
    Ok(format!("{} ({})", test(names, of), belief(names, &of.chain, of.fluent, found)))
}
