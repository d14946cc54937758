//! What a step that is played meets of its limits: its rounds, and the states that it leaves or stops at.

use crate::lending::Seen;
use crate::tally::Tally;
use reference::call::{Ask, Call, Outcome};
use reference::chart;
use reference::happening::{after_rounds, course, settle, MOST_ROUNDS};
use reference::pack::{self, Pack};
use reference::refusal::{ROUNDS, STATES};
use reference::state::State;

/// Notes the rounds of a step whose action may be done, and the states at its end.
pub fn note(tally: &mut Tally, call: &Call, seen: &Seen) {
    let played = match seen.outcome {
        Outcome::Length(_) => true,
        Outcome::Refused(refused) => matches!(refused.number, ROUNDS | STATES),
        _ => false,
    };
    if let (Ask::Step { chart, action }, true) = (&call.ask, played) {
        let pack = pack::read(&call.pack).expect("the pack was read");
        let state = chart::read(&pack, chart).expect("the chart was read");
        met(tally, &pack, &state, *action as usize);
    }
}

fn met(tally: &mut Tally, pack: &Pack, state: &State, action: usize) {
    match course(pack, state, action) {
        (Ok(left), rounds) => {
            tally.note(format!("settled after {}", several(rounds, &[0, 1, 15, 16])));
            tally.note(format!("states left: {}", several(left.nodes().len(), &[1, 31, 32])));
        }
        (Err(ROUNDS), _) => {
            let later = after_rounds(pack, state, action, MOST_ROUNDS + 1);
            let settled = matches!(settle(pack, later.nodes().to_vec()), (Ok(_), 0));
            tally.note(if settled { "would settle after 17" } else { "would settle later or never" }.to_string());
        }
        (Err(_), rounds) => {
            let states = after_rounds(pack, state, action, rounds).nodes().len();
            let part = if rounds == 0 { "part 1" } else { "a round" };
            tally.note(format!("states after {part}: {}", several(states, &[33])));
        }
    }
}

/// A number that is counted by itself, or one of the others.
fn several(number: usize, named: &[usize]) -> String {
    if named.contains(&number) {
        number.to_string()
    } else {
        "others".to_string()
    }
}
