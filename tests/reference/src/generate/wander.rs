//! Stories without a plan: a few places, actions that lead from one to another, and utilities at random. Where the
//! limits, the consenters and the order of utilities matter, they show it in ways nobody thought of.

use super::draft::*;
use super::random::Random;
use super::tables;
use crate::pack::{Action, Pack};

const PLACE: usize = 0;

pub fn wander(r: &mut Random) -> Pack {
    let characters = r.from(2, 3);
    let places = r.from(3, 6);
    let mut pack = empty(characters, &[places, 2]);
    if r.chance(1, 2) {
        let count = r.from(2, 3);
        pack.nodes = tables::random(r, characters, &[places, 2], count);
    }
    pack.actions = (0..r.from(3, 7)).map(|_| leads(r, &pack, places)).collect();
    if r.chance(1, 5) {
        let (from, to) = (r.below(places) as u8, r.below(places) as u8);
        pack.triggers.push(trigger(is(PLACE, from), vec![effect(r.below(2), PLACE, to)]));
    }
    pack.utilities[0].push(rule(is(PLACE, (places - 1) as u8), 5));
    for character in 0..characters {
        pack.utilities[character + 1] = (0..places).map(|place| rule(is(PLACE, place as u8), r.below(4))).collect();
    }
    pack
}

/// An action from one place to another, or from anywhere, with up to three consenters; most are seen by all.
fn leads(r: &mut Random, pack: &Pack, places: usize) -> Action {
    let from = r.below(places) as u8;
    let condition = match r.below(6) {
        0 => always(),
        1 => all(vec![test(&[r.below(pack.characters)], IS, PLACE, from)]),
        _ => is(PLACE, from),
    };
    let consenters: Vec<usize> = (0..pack.characters).filter(|_| r.chance(2, 5)).collect();
    let mut effects = vec![effect(0, PLACE, r.below(places) as u8)];
    if r.chance(1, 5) {
        effects.push(effect(r.from(1, pack.characters), PLACE, r.below(places) as u8));
    }
    let mut made = action(pack, condition, effects, &consenters);
    for observation in &mut made.observations {
        if r.chance(1, 5) {
            *observation = if r.chance(1, 2) { never() } else { is(1, r.below(2) as u8) };
        }
    }
    made
}
