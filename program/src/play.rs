//! `play`: the shortest ending in words, or the limits under which there is none.

use pirwodd::refusal::{NO_ENDING, RANGE};
use pirwodd::{Ending, Limits, Refusal};
use story::print::people;

use crate::act::{self, Act};
use crate::open::open;
use crate::progress;
use crate::said::{Refused, Said};
use crate::stage::Stage;

pub fn play(file: &str, limits: Limits) -> Result<Said, Refused> {
    let mut stage = open(file)?.stage;
    match progress::search(&mut stage, limits) {
        Ok(ending) => Ok(Said::answer(told(&mut stage, &ending, limits)?)),
        Err(Refusal { number: NO_ENDING, .. }) => Ok(Said::no(none(limits))),
        Err(refusal) => Err(out_of_range(refusal)),
    }
}

/// A limit that the planner refuses, with what limits may be.
pub fn out_of_range(refusal: Refusal) -> Refused {
    match refusal.number {
        RANGE => Refused::new(format!("{refusal} (-T is 1 to 8, -K 1 to 6, -E 0 to 3)")),
        _ => refusal.into(),
    }
}

fn none(limits: Limits) -> String {
    let Limits { story, foresight, nesting } = limits;
    let actions = counted(story.0.into());
    format!("There is no ending of at most {actions} with foresight {} and nesting {}.\n", foresight.0, nesting.0)
}

pub fn counted(actions: usize) -> String {
    if actions == 1 {
        return "1 action".to_string();
    }
    format!("{actions} actions")
}

fn told(stage: &mut Stage, ending: &Ending, limits: Limits) -> Result<String, Refused> {
    let Limits { story, foresight, nesting } = limits;
    let Ending { actions, before, after } = ending;
    let under = format!("at most {}, foresight {}, nesting {}", counted(story.0.into()), foresight.0, nesting.0);
    let length = counted(actions.len());
    let mut out = format!("The shortest ending has {length}: the author goes from {before} to {after} ({under}).\n\n");
    let mut chart = stage.start.clone();
    for (place, action) in actions.iter().enumerate() {
        let action = action.0.into();
        let after = stage.step(&chart, action)?;
        let act = Act { action, before: chart, after };
        out += &act::heading(stage, place, action);
        out += &act::line(needs(stage, action));
        out += &act::outcome(stage, &act)?;
        chart = act.after;
    }
    Ok(out)
}

/// Whose reasons an action of an ending needs. They have them, or it would be none.
fn needs(stage: &Stage, action: usize) -> String {
    let consenters = &stage.story.pack.actions[action].consenters;
    let who = people(stage.names(), consenters);
    match consenters.len() {
        0 => "nobody needs a reason".to_string(),
        1 => format!("{who} needs a reason and has one"),
        _ => format!("{who} need reasons and have them"),
    }
}
