//! Each misreading that document 01 excludes, and others that come easily, by a call whose answer would be another.

mod common;

use common::{chart, hex, node, says};
use reference::generate::draft::*;
use reference::pack::Pack;

fn step(pack: &Pack) -> String {
    let answer = says(&format!("step {} {} 0", hex(pack), chart(&pack.nodes)));
    answer.trim_end_matches(", work zeroed").to_string()
}

fn written(nodes: &[reference::graph::Node]) -> String {
    let bytes = chart(nodes);
    format!("chart {bytes} of {} bytes", bytes.len() / 2)
}

/// Observation is judged in the state that holds the belief, not in the belief.
#[test]
fn observation_in_the_state_that_holds_the_belief() {
    let mut pack = empty(1, &[2, 2]);
    pack.nodes = vec![node(&[0, 1], &[1]), node(&[0, 0], &[1])];
    let mut seen = action(&pack, always(), vec![effect(0, 0, 1)], &[]);
    seen.observations[0] = is(1, 1);
    pack.actions.push(seen);
    // The true state lets it be seen. Its belief takes the action, but there it isn't seen.
    let after = [node(&[1, 1], &[1]), node(&[1, 0], &[2]), node(&[0, 0], &[2])];
    assert_eq!(step(&pack), written(&after));
}

/// Observation is judged before the action.
#[test]
fn observation_before_the_action() {
    let mut pack = empty(1, &[2]);
    let mut seen = action(&pack, always(), vec![effect(0, 0, 1)], &[]);
    seen.observations[0] = is(0, 1);
    pack.actions.push(seen);
    assert_eq!(step(&pack), written(&[node(&[1], &[1]), node(&[0], &[1])]));
    pack.actions[0].observations[0] = is(0, 0);
    assert_eq!(step(&pack), written(&[node(&[1], &[0])]));
}

/// States with the same fluents and first beliefs may differ further on.
#[test]
fn sameness_needs_all_chains() {
    let pack = empty(1, &[2]);
    let first = [node(&[0], &[1]), node(&[0], &[2]), node(&[0], &[2])];
    let second = [node(&[0], &[1]), node(&[0], &[2]), node(&[1], &[2])];
    let answer = says(&format!("compare {} {} {}", hex(&pack), chart(&first), chart(&second)));
    assert_eq!(answer, "differ by chain 0000 of 2 at fluent 0, work zeroed");
    let mut pack = pack;
    pack.nodes = vec![node(&[0], &[1]), node(&[0], &[2]), node(&[0], &[3]), node(&[1], &[3])];
    assert_eq!(says(&format!("start {}", hex(&pack))), "chart 040002000300040104 of 9 bytes, work zeroed");
}

/// A pair met while a comparison is under way isn't "same" because of that.
#[test]
fn no_same_remembered_from_a_pair_under_comparison() {
    let pack = empty(2, &[2]);
    // The pair of nodes 0 is met again by character 0; the difference lies with character 1.
    let first = [node(&[0], &[0, 1]), node(&[0], &[0, 1])];
    let second = [node(&[0], &[1, 1]), node(&[0], &[0, 2]), node(&[1], &[2, 2])];
    let answer = says(&format!("compare {} {} {}", hex(&pack), chart(&first), chart(&second)));
    assert_eq!(answer, "differ by chain 0001 of 2 at fluent 0, work zeroed");
}

/// An observed action takes effect even where the belief forbids it.
#[test]
fn an_observed_action_takes_effect_in_a_belief_that_forbids_it() {
    let mut pack = empty(1, &[3]);
    pack.nodes = vec![node(&[0], &[1]), node(&[1], &[1])];
    pack.actions.push(action(&pack, is(0, 0), vec![effect(0, 0, 2)], &[]));
    assert_eq!(step(&pack), written(&[node(&[2], &[0])]));
}

/// Effects into a belief are written whether it observes or not, after its own, and change nothing that it believes.
#[test]
fn effects_into_beliefs() {
    let mut pack = empty(1, &[4]);
    let mut told = action(&pack, always(), vec![effect(1, 0, 2), effect(0, 0, 1)], &[]);
    told.observations[0] = never();
    pack.actions.push(told);
    assert_eq!(step(&pack), written(&[node(&[1], &[1]), node(&[2], &[2]), node(&[0], &[2])]));
    // Observed: the belief has the action's own effects first, then what is written, at every depth.
    pack.actions[0].observations[0] = always();
    assert_eq!(step(&pack), written(&[node(&[1], &[1]), node(&[2], &[1])]));
    // Later ones win.
    pack.actions[0].effects.push(effect(1, 0, 3));
    assert_eq!(step(&pack), written(&[node(&[1], &[1]), node(&[3], &[1])]));
}

/// All states of a round together, judged before it; the lowest trigger that holds; what is written comes after.
#[test]
fn rounds_are_simultaneous() {
    let mut pack = empty(1, &[2, 4]);
    pack.nodes = vec![node(&[0, 0], &[1]), node(&[0, 0], &[1])];
    pack.actions.push(action(&pack, always(), vec![effect(0, 0, 1)], &[]));
    // In every state: fluent 1 becomes 1 in the state and 2 in its belief. The belief's own 1 comes before the 2.
    pack.triggers.push(trigger(is(0, 1), vec![effect(1, 1, 2), effect(0, 1, 1), effect(0, 0, 0)]));
    assert_eq!(step(&pack), written(&[node(&[0, 1], &[1]), node(&[0, 2], &[1])]));
    pack.triggers.insert(0, trigger(is(0, 1), vec![effect(0, 0, 0)]));
    assert_eq!(step(&pack), written(&[node(&[0, 0], &[0])]));
}

/// A belief that neither observes nor is written is the old one, all the way down.
#[test]
fn an_unobserving_belief_is_the_old_one() {
    let mut pack = empty(2, &[2]);
    let mut half = action(&pack, always(), vec![effect(0, 0, 1)], &[]);
    half.observations[1] = never();
    pack.actions.push(half);
    assert_eq!(step(&pack), written(&[node(&[1], &[0, 1]), node(&[0], &[1, 1])]));
}

/// A pack of steps 0, 1, .. each by one of two characters who gain only at the end.
fn relay(hands: &[usize]) -> Pack {
    let mut pack = empty(2, &[hands.len() + 1]);
    for (i, &hand) in hands.iter().enumerate() {
        pack.actions.push(action(&pack, is(0, i as u8), vec![effect(0, 0, i as u8 + 1)], &[hand]));
    }
    for rules in &mut pack.utilities {
        rules.push(rule(is(0, hands.len() as u8), 1));
    }
    pack
}

fn search(pack: &Pack, limits: &str) -> String {
    let answer = says(&format!("search {} {limits}", hex(pack)));
    answer.trim_end_matches(", work zeroed").to_string()
}

/// Each change of hands needs one nesting limit more; the foresight is full again at each.
#[test]
fn nesting_limits() {
    let none = "refused 13 at 0";
    assert_eq!(search(&relay(&[0, 1]), "2 2 1"), none);
    assert_eq!(search(&relay(&[0, 1]), "2 1 2"), none);
    assert_eq!(search(&relay(&[0, 1]), "1 2 2"), none);
    assert_eq!(search(&relay(&[0, 1]), "2 2 2"), "list 0001 of 2, author 0 1");
    assert_eq!(search(&relay(&[0, 1, 0]), "3 3 2"), none);
    assert_eq!(search(&relay(&[0, 1, 0]), "3 3 3"), "list 000102 of 3, author 0 1");
    assert_eq!(search(&relay(&[0, 1, 0, 1]), "4 4 3"), none);
    // One's own later actions need no further explanation.
    assert_eq!(search(&relay(&[0, 0, 0]), "3 3 1"), "list 000102 of 3, author 0 1");
    assert_eq!(search(&relay(&[0, 0, 0]), "3 2 3"), none);
}

/// The second consenter of the first action is not asked within the first one's explanation.
#[test]
fn the_first_action_is_not_put_to_other_consenters() {
    let mut pack = relay(&[0]);
    pack.actions[0].consenters = vec![0, 1];
    pack.utilities[2].clear();
    let explained = |character| says(&format!("explained {} 01000101 {character} 0 1 1", hex(&pack)));
    assert_eq!(explained(0), "yes, work zeroed");
    assert_eq!(explained(1), "no, work zeroed");
    assert_eq!(search(&pack, "1 1 1"), "refused 13 at 0");
}

/// The utility is measured from the belief before the first action, and judged in the state at the list's end.
#[test]
fn utility_is_measured_from_the_belief() {
    let mut pack = empty(1, &[3]);
    // The truth is worth 2 to the character, the belief 1, and what the action leaves 2.
    pack.nodes = vec![node(&[1], &[1]), node(&[0], &[1])];
    pack.actions.push(action(&pack, always(), vec![effect(0, 0, 2)], &[0]));
    pack.utilities[1] = vec![rule(is(0, 0), 1), rule(always(), 2)];
    pack.utilities[0] = vec![rule(is(0, 2), 1)];
    assert_eq!(search(&pack, "1 1 1"), "list 00 of 1, author 0 1");
    pack.utilities[1][0].worth = 2;
    assert_eq!(search(&pack, "1 1 1"), "refused 13 at 0");
}

/// Not in what the character believes at the end: an unobserved gain counts.
#[test]
fn utility_is_judged_in_the_state_at_the_end() {
    let mut pack = relay(&[0]);
    pack.actions[0].observations[0] = never();
    assert_eq!(search(&pack, "1 1 1"), "list 00 of 1, author 0 1");
}

/// Explained asks for the belief alone: the action need not be playable in the state, nor the character consent to it.
#[test]
fn explained_looks_at_the_belief_alone() {
    let mut pack = relay(&[1]);
    pack.nodes = vec![node(&[1], &[1, 1]), node(&[0], &[1, 1])];
    let table = chart(&pack.nodes);
    assert_eq!(says(&format!("step {} {table} 0", hex(&pack))), "refused 10 at 0, work zeroed");
    assert_eq!(says(&format!("explained {} {table} 0 0 1 1", hex(&pack))), "yes, work zeroed");
}

/// Triggers that hold in the start act only in the step that follows.
#[test]
fn worth_at_the_start_is_measured_without_triggers() {
    let mut pack = empty(1, &[2, 2]);
    pack.triggers.push(trigger(is(0, 0), vec![effect(0, 0, 1)]));
    pack.utilities[0].push(rule(is(0, 1), 3));
    assert_eq!(search(&pack, "8 1 0"), "refused 13 at 0");
    pack.actions.push(action(&pack, always(), vec![], &[]));
    assert_eq!(search(&pack, "1 1 0"), "list 00 of 1, author 0 3");
}

/// A false belief at the second level: character 0 believes that character 1 believes to have all it wants, and so can't
/// explain to itself that character 1 will go on.
#[test]
fn nested_false_belief() {
    let mut pack = empty(2, &[3, 2]);
    for (step, hand) in [(0, 0), (1, 1)] {
        pack.actions.push(action(&pack, is(0, step), vec![effect(0, 0, step + 1)], &[hand]));
    }
    pack.utilities = (0..3).map(|_| vec![rule(is(1, 1), 9), rule(is(0, 2), 1)]).collect();
    assert_eq!(search(&pack, "2 2 2"), "list 0001 of 2, author 0 1");
    pack.nodes = vec![node(&[0, 0], &[1, 0]), node(&[0, 0], &[1, 2]), node(&[0, 1], &[2, 2])];
    assert_eq!(search(&pack, "2 2 2"), "refused 13 at 0");
}
