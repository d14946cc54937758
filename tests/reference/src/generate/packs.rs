//! Random packs: small ones with a bit of everything, and ones of the largest sizes.

use super::draft::*;
use super::random::Random;
use super::tables;
use crate::pack::{Action, Condition, Effect, Pack, Rule, Test, Trigger, LONGEST_PACK};

/// A small pack in which most conditions hold often and most triggers come to an end.
pub fn small(r: &mut Random) -> Pack {
    let characters = r.from(1, 4);
    let domains: Vec<usize> = (0..r.from(1, 3)).map(|_| r.from(2, 3)).collect();
    let mut pack = empty(characters, &domains);
    let count = r.pick(&[1, 1, 2, 2, 3, 4, 6, 9, 14]);
    pack.nodes = tables::random(r, characters, &domains, count);
    pack.actions = (0..r.from(1, 4)).map(|_| random_action(r, &pack)).collect();
    let triggers = r.pick(&[0, 0, 1, 2, 3]);
    pack.triggers = (0..triggers).map(|_| random_trigger(r, &pack)).collect();
    pack.utilities = (0..=characters).map(|_| (0..r.from(1, 3)).map(|_| random_rule(r, &pack)).collect()).collect();
    if r.chance(1, 8) {
        fill(r, &mut pack);
    }
    pack
}

/// Makes some count or value as large as it may be or one larger. Where it is one larger, or the consenters don't rise
/// or aren't there, the pack will be refused.
fn fill(r: &mut Random, pack: &mut Pack) {
    let over = r.below(2);
    let tests = |r: &mut Random, count: usize| (0..count).map(|_| random_test(r, pack)).collect::<Vec<_>>();
    match r.below(12) {
        0 => pack.actions[0].consenters = (0..r.from(2, 7)).map(|_| r.below(pack.characters + 1)).collect(),
        1 => pack.actions[0].condition.alternatives = (0..8 + over).map(|_| tests(r, 1)).collect(),
        2 => pack.actions[0].observations[0] = all(tests(r, 8 + over)),
        3 => pack.actions[0].effects = (0..16 + over).map(|i| effect(i % 2, 0, (i / 2 % 2) as u8)).collect(),
        4 => pack.utilities[1] = (0..8 + over).map(|_| random_rule(r, pack)).collect(),
        5 => {
            let chain: Vec<usize> = (0..4 + over).map(|_| r.below(pack.characters)).collect();
            pack.utilities[0].insert(0, rule(all(vec![test(&chain, IS, 0, 1)]), 7));
        }
        6 => pack.domains[0] = 128 + over,
        7 => pack.nodes = tables::random(r, pack.characters, &pack.domains, 32 + over),
        9 => pack.actions[0].consenters = vec![pack.characters - 1; 2],
        10 => pack.triggers = vec![trigger(is(0, (pack.domains[0] - 1 + over) as u8), vec![])],
        11 => pack.actions[0].effects = vec![effect(over, 0, (pack.domains[0] - 1 + over) as u8)],
        _ => pack.triggers = (0..16 + over).map(|_| random_trigger(r, pack)).collect(),
    }
}

/// A pack with as many characters, fluents, nodes, actions and triggers as there may be, or nearly, as far as they fit.
pub fn large(r: &mut Random) -> Pack {
    let characters = r.from(5, 6);
    let domains: Vec<usize> = (0..r.from(20, 24)).map(|_| r.pick(&[1, 2, 2, 3, 127, 128])).collect();
    let mut pack = empty(characters, &domains);
    let count = r.pick(&[1, 4, 31, 32, 32]);
    pack.nodes = tables::random(r, characters, &domains, count);
    let (actions, triggers) = (r.pick(&[4, 31, 32]), r.pick(&[0, 3, 15, 16]));
    pack.actions = (0..actions).map(|_| random_action(r, &pack)).collect();
    pack.triggers = (0..triggers).map(|_| random_trigger(r, &pack)).collect();
    pack.utilities = (0..=characters).map(|_| (0..8).map(|_| random_rule(r, &pack)).collect()).collect();
    while bytes(&pack).len() > LONGEST_PACK {
        pack.actions.pop();
    }
    pack
}

/// Makes a pack exactly as long as is asked, by tests put into the last rules of the author. At least 8 bytes more.
pub fn lengthen(pack: &mut Pack, length: usize) {
    let missing = |pack: &Pack| length - bytes(pack).len();
    pack.utilities[0].truncate(6);
    while missing(pack) > 1_000 && pack.actions.len() < 32 {
        let full = (0..8).map(|_| (0..8).map(|_| test(&[0, 0, 0, 0], IS, 0, 0)).collect()).collect();
        let mut more = action(pack, Condition { alternatives: full }, Vec::new(), &[]);
        more.effects = (0..16).map(|_| effect(0, 0, 0)).collect();
        pack.actions.push(more);
    }
    for whose in 0..pack.utilities.len() {
        while missing(pack) >= 16 && pack.utilities[whose].len() < 8 {
            pack.utilities[whose].push(rule(never(), 0));
            pad(pack, whose, length);
        }
    }
}

/// Tests of 4 to 8 bytes, eight to an alternative, until nothing is missing.
fn pad(pack: &mut Pack, whose: usize, length: usize) {
    for _ in 0..8 {
        let missing = length - bytes(pack).len();
        if missing == 0 {
            return;
        }
        let alternatives = &mut pack.utilities[whose].last_mut().unwrap().condition.alternatives;
        let mut left = missing - 1;
        let mut tests = Vec::new();
        while left >= 4 && tests.len() < 8 {
            let size = if left >= 12 {
                8
            } else if left > 8 {
                left - 4
            } else {
                left
            };
            tests.push(test(&vec![0; size - 4], IS, 0, 0));
            left -= size;
        }
        alternatives.push(tests);
    }
}

/// A random condition: mostly one alternative of few tests.
pub fn condition(r: &mut Random, pack: &Pack) -> Condition {
    let alternatives = r.pick(&[0, 1, 1, 1, 1, 1, 2, 2]);
    let tests = |r: &mut Random| {
        let count = r.pick(&[0, 1, 1, 1, 2]);
        (0..count).map(|_| random_test(r, pack)).collect()
    };
    Condition { alternatives: (0..alternatives).map(|_| tests(r)).collect() }
}

fn random_test(r: &mut Random, pack: &Pack) -> Test {
    let length = r.pick(&[0, 0, 0, 0, 1, 1, 2, 4]);
    let chain: Vec<usize> = (0..length).map(|_| r.below(pack.characters)).collect();
    let (fluent, value) = fluent_and_value(r, pack);
    test(&chain, r.below(3), fluent, value)
}

fn fluent_and_value(r: &mut Random, pack: &Pack) -> (usize, u8) {
    let fluent = r.below(pack.domains.len());
    (fluent, r.below(pack.domains[fluent]) as u8)
}

fn random_effects(r: &mut Random, pack: &Pack, most: usize) -> Vec<Effect> {
    (0..r.from(0, most))
        .map(|_| {
            let whom = if r.chance(2, 3) { 0 } else { r.from(1, pack.characters) };
            let (fluent, value) = fluent_and_value(r, pack);
            effect(whom, fluent, value)
        })
        .collect()
}

fn random_action(r: &mut Random, pack: &Pack) -> Action {
    let consenters = (0..pack.characters).filter(|_| r.chance(1, 3)).collect();
    let observations = (0..pack.characters).map(|_| if r.chance(1, 2) { always() } else { condition(r, pack) });
    let observations = observations.collect();
    Action { condition: condition(r, pack), effects: random_effects(r, pack, 3), consenters, observations }
}

/// A trigger that changes what it tests, three times in four upwards, so that it can't hold forever by itself.
fn random_trigger(r: &mut Random, pack: &Pack) -> Trigger {
    let (fluent, value) = fluent_and_value(r, pack);
    let mut tests = vec![test(&[], IS, fluent, value)];
    if r.chance(1, 3) {
        tests.push(random_test(r, pack));
    }
    let greatest = (pack.domains[fluent] - 1) as u8;
    let next =
        if r.chance(3, 4) { value + (value < greatest) as u8 } else { fluent_and_value(r, pack).1.min(greatest) };
    let mut effects = random_effects(r, pack, 1);
    effects.push(effect(0, fluent, next));
    if r.chance(1, 4) {
        // What the belief's own trigger would write too.
        effects.push(effect(r.from(1, pack.characters), fluent, r.below(pack.domains[fluent]) as u8));
    }
    trigger(if r.chance(1, 8) { condition(r, pack) } else { all(tests) }, effects)
}

fn random_rule(r: &mut Random, pack: &Pack) -> Rule {
    let worth = r.pick(&[0, 1, 2, 3, 127, 128, 16_383, 16_384, 65_535]);
    rule(condition(r, pack), worth)
}
