//! Conditions and utilities, judged in a state.

use crate::pack::{Condition, Rule, Test};
use crate::state::State;

/// Whether a condition holds in the state at `node`: some alternative has all its tests true.
pub fn holds(condition: &Condition, state: &State, node: usize) -> bool {
    condition.alternatives.iter().any(|tests| tests.iter().all(|test| passes(test, state, node)))
}

/// A test looks where its chain leads.
fn passes(test: &Test, state: &State, node: usize) -> bool {
    let found = state.follow(node, &test.chain).values[test.fluent];
    match test.kind {
        0 => found == test.value,
        1 => found != test.value,
        2 => found >= test.value,
        _ => unreachable!("the reader refuses other kinds"),
    }
}

/// The utility ("worth") of a state: the first rule that holds gives it, and if none holds it is 0.
pub fn utility(rules: &[Rule], state: &State) -> usize {
    rules.iter().find(|rule| holds(&rule.condition, state, 0)).map_or(0, |rule| rule.worth)
}
