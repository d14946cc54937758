//! Packs at the limits of Step: rounds of triggers about 16, states about 32.

use super::draft::*;
use super::random::Random;
use super::tables;
use crate::pack::Pack;

const BITS: usize = 5;

/// A counter of five bits that triggers count up to 31, one round a number, and an action that sets it back. It needs
/// 31 less the number set rounds: often 15, 16 or 17. Some triggers also tell a character what they do.
pub fn counter(r: &mut Random) -> Pack {
    let characters = r.from(1, 3);
    let mut pack = empty(characters, &[2; BITS + 1]);
    let count = r.from(1, 3);
    pack.nodes = tables::random(r, characters, &[2; BITS + 1], count);
    for node in &mut pack.nodes {
        node.values[..BITS].fill(1);
    }
    let number = if r.chance(1, 2) { r.from(13, 17) } else { r.from(13, 31) };
    let set = (0..BITS).map(|bit| effect(0, bit, (number >> bit & 1) as u8)).collect();
    let mut reset = action(&pack, always(), set, &[]);
    for observation in &mut reset.observations {
        *observation = if r.chance(1, 2) { always() } else { is(BITS, r.below(2) as u8) };
    }
    pack.actions.push(reset);
    for bit in 0..BITS {
        let mut effects: Vec<_> = (0..bit).map(|lower| effect(0, lower, 0)).collect();
        effects.push(effect(0, bit, 1));
        if r.chance(1, 8) {
            effects.push(effect(r.from(1, characters), BITS, r.below(2) as u8));
        }
        pack.triggers.push(trigger(is(bit, 0), effects));
    }
    pack
}

/// News that goes along a ring of beliefs: who knows tells the next. Each round makes one state more, without end, so
/// that a ring of 15 ends with 11 and one of 16 with 12 after the same round.
pub fn gossip(r: &mut Random) -> Pack {
    let characters = r.from(1, 2);
    let count = if r.chance(2, 3) { r.from(14, 17) } else { r.from(1, 32) };
    let mut pack = empty(characters, &[2, 32, 2]);
    pack.nodes = tables::ring(r, characters, 3, 1, count);
    let mut tell = action(&pack, always(), vec![effect(0, 0, 1)], &[]);
    tell.observations.iter_mut().for_each(|observation| *observation = never());
    pack.actions.push(tell);
    let knows = all(vec![test(&[], IS, 0, 1), test(&[0], IS, 0, 0)]);
    pack.triggers.push(trigger(knows, vec![effect(1, 0, 1)]));
    if r.chance(1, 3) {
        // Heard by the number of the node: then the news stops there.
        pack.triggers
            .insert(0, trigger(all(vec![test(&[], IS, 0, 1), test(&[], AT_LEAST, 1, 9)]), vec![effect(0, 0, 0)]));
    }
    pack
}

/// A ring of 29 to 32 different states and an action that few observe: 30 to 64 states in its wake. Sometimes a trigger
/// would put them together again or make one more.
pub fn crowd(r: &mut Random) -> Pack {
    let characters = r.from(1, 6);
    let mut pack = empty(characters, &[2, 32]);
    let count = r.from(29, 32);
    pack.nodes = tables::ring(r, characters, 2, 1, count);
    let mut change = action(&pack, always(), vec![effect(0, 0, 1)], &[]);
    for observation in &mut change.observations {
        *observation = if r.chance(1, 4) { all(vec![test(&[], AT_LEAST, 1, r.from(1, 31) as u8)]) } else { never() };
    }
    if r.chance(1, 3) {
        change.effects.push(effect(r.from(1, characters), 0, 1));
    }
    pack.actions.push(change);
    match r.below(4) {
        0 => pack.triggers.push(trigger(is(0, 1), vec![effect(0, 0, 0)])),
        1 => {
            let once = all(vec![test(&[], IS, 0, 1), test(&[0], IS, 0, 0)]);
            pack.triggers.push(trigger(once, vec![effect(0, 0, 0), effect(1, 0, 1)]));
        }
        _ => {}
    }
    pack
}

/// The example of 11: a trigger that always holds and does nothing.
pub fn restless(r: &mut Random) -> Pack {
    let mut pack = empty(r.from(1, 6), &[2]);
    pack.actions.push(action(&pack, always(), vec![effect(0, 0, 1)], &[]));
    pack.triggers.push(trigger(always(), Vec::new()));
    pack
}
