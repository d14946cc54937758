//! `try`: the writer's own list of actions, played up to the first that fails.

use pirwodd::{Chart, Limits};

use crate::act::{self, Act};
use crate::judge::worth;
use crate::open::open;
use crate::play::out_of_range;
use crate::said::{Refused, Said};
use crate::stage::Stage;

/// An ending has at most so many actions, whatever T is.
pub const LONGEST_ENDING: usize = 8;

pub fn attempt(file: &str, lists: &[&str], limits: Limits) -> Result<Said, Refused> {
    let mut stage = open(file)?.stage;
    let mut list = Vec::new();
    for part in lists {
        list.extend(stage.listed(part)?);
    }
    let mut out = String::new();
    let mut chart = stage.start.clone();
    for (place, &action) in list.iter().enumerate() {
        out += &act::heading(&stage, place, action);
        let (told, after) = played(&mut stage, chart, action, limits)?;
        out += &told;
        match after {
            Some(after) => chart = after,
            None => return Ok(Said::no(out)),
        }
    }
    out += &verdict(&mut stage, &chart, list.len())?;
    Ok(Said::answer(out))
}

/// What is told of an action, and the state that it leaves, if it doesn't fail.
fn played(stage: &mut Stage, chart: Chart, action: usize, limits: Limits) -> Result<(String, Option<Chart>), Refused> {
    let after = match stage.step(&chart, action) {
        Ok(after) => after,
        Err(refusal) => return Ok((act::unplayable(stage, &chart, action, refusal)?, None)),
    };
    let (told, explained) = reasons(stage, &chart, action, limits)?;
    if !explained {
        return Ok((told, None));
    }
    let act = Act { action, before: chart, after };
    Ok((told + &act::outcome(stage, &act)?, Some(act.after)))
}

/// Which of those whose reasons an action needs have one, and whether all have.
fn reasons(stage: &mut Stage, chart: &[u8], action: usize, limits: Limits) -> Result<(String, bool), Refused> {
    let (mut told, mut all) = (String::new(), true);
    for who in stage.story.pack.actions[action].consenters.clone() {
        let has = stage.has_reason(chart, who, action, limits).map_err(out_of_range)?;
        let name = &stage.names().characters[who];
        let (foresight, nesting) = (limits.foresight.0, limits.nesting.0);
        told += &act::line(match has {
            true => format!("{name} has a reason"),
            false => format!("fails: {name} has no reason for it (foresight {foresight}, nesting {nesting})"),
        });
        all &= has;
    }
    if told.is_empty() {
        told = act::line("nobody needs a reason");
    }
    Ok((told, all))
}

/// Whether the whole list is an ending.
fn verdict(stage: &mut Stage, chart: &[u8], length: usize) -> Result<String, Refused> {
    let rules = stage.story.pack.utilities[0].clone();
    let start = stage.start.clone();
    let (before, after) = (worth(stage, &start, &rules)?, worth(stage, chart, &rules)?);
    let what = match (after > before, length <= LONGEST_ENDING) {
        (false, _) => "this is no ending",
        (true, false) => "this is no ending, which has at most 8 actions",
        (true, true) => "this is an ending",
    };
    Ok(format!("\nThe author goes from {before} to {after}: {what}.\n"))
}
