//! Changes to a story: secrets, false beliefs, other consenters, other wishes, detours and short cuts.

use super::draft::*;
use super::random::Random;
use super::stories::PROGRESS;
use crate::graph::Node;
use crate::pack::Pack;

/// A second fluent for secrets, detours and triggers.
const SIDE: usize = 1;

/// One change: some make the ending impossible, some only harder, some add others of the same length.
pub fn bend(r: &mut Random, pack: &mut Pack, length: usize) {
    let chosen = r.below(pack.actions.len());
    let character = r.below(pack.characters);
    match r.below(14) {
        0 => secret(r, pack, chosen, character),
        1 => secret_but_told(pack, chosen, character),
        2 => false_belief(r, pack, character, length),
        3 => add_consenter(pack, chosen, character),
        4 => twin(r, pack, chosen),
        5 => detour(r, pack, length),
        6 => shortcut(r, pack, length),
        7 => by_trigger(pack, chosen),
        8 => author_wants_belief(r, pack, length),
        9 => wants_less(r, pack, character, length),
        10 => restricted(r, pack, chosen),
        11 | 12 => wants_later(pack, character, length),
        _ => open_secret(r, pack, chosen, character),
    }
}

/// Where an action leads, if it is one of the steps onward.
fn goes_to(pack: &Pack, chosen: usize) -> Option<u8> {
    let last = pack.actions[chosen].effects.last()?;
    (last.whom == 0 && last.fluent == PROGRESS && last.value > 0).then_some(last.value)
}

/// A character doesn't see an action.
fn secret(r: &mut Random, pack: &mut Pack, chosen: usize, character: usize) {
    pack.actions[chosen].observations[character] = if r.chance(1, 2) { never() } else { is(SIDE, 1) };
}

/// A character doesn't see an action but is told what came of it.
fn secret_but_told(pack: &mut Pack, chosen: usize, character: usize) {
    let Some(told) = goes_to(pack, chosen) else { return };
    let action = &mut pack.actions[chosen];
    action.observations[character] = never();
    action.effects.insert(0, effect(character + 1, PROGRESS, told));
}

/// A character begins with a belief of its own.
fn false_belief(r: &mut Random, pack: &mut Pack, character: usize, length: usize) {
    let number = pack.nodes.len();
    let holder = r.below(number);
    let values = vec![r.from(0, length.min(2)) as u8, r.below(3) as u8];
    let beliefs = (0..pack.characters).map(|_| r.below(number + 1)).collect();
    pack.nodes.push(Node { values, beliefs });
    pack.nodes[holder].beliefs[character] = number;
}

fn add_consenter(pack: &mut Pack, chosen: usize, character: usize) {
    let consenters = &mut pack.actions[chosen].consenters;
    if !consenters.contains(&character) {
        consenters.push(character);
        consenters.sort();
    }
}

/// The same action once more, to be taken by another or by nobody in particular.
fn twin(r: &mut Random, pack: &mut Pack, chosen: usize) {
    let Some(to) = goes_to(pack, chosen) else { return };
    let consenters: Vec<usize> = (0..pack.characters).filter(|_| r.chance(1, 2)).collect();
    let again = action(pack, is(PROGRESS, to - 1), vec![effect(0, PROGRESS, to)], &consenters);
    pack.actions.push(again);
}

/// Actions beside the way: they change the side fluent or go back.
fn detour(r: &mut Random, pack: &mut Pack, length: usize) {
    let back = effect(0, PROGRESS, r.below(length) as u8);
    let aside = effect(0, SIDE, r.below(3) as u8);
    let consenters: Vec<usize> = (0..pack.characters).filter(|_| r.chance(1, 3)).collect();
    let effects = if r.chance(1, 2) { vec![aside] } else { vec![back, aside] };
    pack.actions.push(action(pack, always(), effects, &consenters));
}

/// An action that jumps ahead once the side fluent is set, and one that sets it.
fn shortcut(r: &mut Random, pack: &mut Pack, length: usize) {
    let ready = all(vec![test(&[], IS, SIDE, 2)]);
    let jump = vec![effect(0, PROGRESS, r.from(1, length) as u8), effect(0, SIDE, 0)];
    let who = [r.below(pack.characters)];
    pack.actions.push(action(pack, ready, jump, if r.chance(1, 2) { &who } else { &[] }));
    let other = [r.below(pack.characters)];
    pack.actions.push(action(pack, is(SIDE, 0), vec![effect(0, SIDE, 2)], if r.chance(1, 2) { &other } else { &[] }));
}

/// The action only prepares; a trigger carries it out.
fn by_trigger(pack: &mut Pack, chosen: usize) {
    let Some(to) = goes_to(pack, chosen) else { return };
    pack.actions[chosen].effects = vec![effect(0, SIDE, 1)];
    let due = all(vec![test(&[], IS, SIDE, 1), test(&[], IS, PROGRESS, to - 1)]);
    pack.triggers.push(trigger(due, vec![effect(0, SIDE, 0), effect(0, PROGRESS, to)]));
}

/// The author wants somebody to know, or not to know.
fn author_wants_belief(r: &mut Random, pack: &mut Pack, length: usize) {
    let chain: Vec<usize> = (0..r.from(1, 2)).map(|_| r.below(pack.characters)).collect();
    let kind = if r.chance(3, 4) { IS } else { IS_NOT };
    let tests = vec![test(&[], IS, PROGRESS, length as u8), test(&chain, kind, PROGRESS, length as u8)];
    pack.utilities[0][0].condition = all(tests);
}

/// A character's utility falls somewhere on the way, or is high from the start.
fn wants_less(r: &mut Random, pack: &mut Pack, character: usize, length: usize) {
    let place = r.from(0, length) as u8;
    let rules = &mut pack.utilities[character + 1];
    rules.truncate(7);
    rules.insert(0, rule(is(PROGRESS, place), r.pick(&[0, 50, 150, 65_535])));
}

/// A character gains one step later than the others: its plan goes further than theirs.
pub fn wants_later(pack: &mut Pack, character: usize, length: usize) {
    for rule in &mut pack.utilities[character + 1] {
        for test in rule.condition.alternatives.iter_mut().flatten() {
            test.value = (test.value + 1).min(length as u8);
        }
    }
}

/// An action that needs a belief besides.
fn restricted(r: &mut Random, pack: &mut Pack, chosen: usize) {
    let chain = [r.below(pack.characters)];
    let Some(to) = goes_to(pack, chosen) else { return };
    let known = to - r.from(1, 2.min(to as usize)) as u8;
    pack.actions[chosen].condition.alternatives[0].push(test(&chain, AT_LEAST, PROGRESS, known));
}

/// An action that a character sees only if it could be seen before.
fn open_secret(r: &mut Random, pack: &mut Pack, chosen: usize, character: usize) {
    let Some(to) = goes_to(pack, chosen) else { return };
    let seen = if r.chance(1, 2) { to - 1 } else { to };
    pack.actions[chosen].observations[character] = is(PROGRESS, seen);
}
