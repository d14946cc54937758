//! Stories with endings of a known shape: progress from 0 to a length by one action each, in segments. Within
//! a segment the consenters take turns and gain only at its end, so that the first needs a plan in which the others act,
//! and they need plans in turn: one more nesting limit for each change of hands.

use super::bends::{bend, wants_later};
use super::draft::*;
use super::random::Random;
use super::tables;
use crate::pack::Pack;

/// The fluent of a story's progress. A second one is for secrets, detours and triggers.
pub const PROGRESS: usize = 0;

/// A story and the least limits under which it has its ending, if nothing was spoilt.
pub struct Story {
    pub pack: Pack,
    pub story: usize,
    pub foresight: usize,
    pub nesting: usize,
}

/// Draws a story, and in half of the cases spoils or bends it by one or two changes.
pub fn story(r: &mut Random) -> Story {
    let characters = r.from(2, 3);
    let segments = segments(r);
    let length: usize = segments.iter().sum();
    let hands = hands(r, characters, &segments);
    let mut pack = empty(characters, &[length + 1, 3]);
    for (step, &hand) in hands.iter().enumerate() {
        let consenters = if r.chance(1, 12) { vec![] } else { vec![hand] };
        let onward = action(&pack, is(PROGRESS, step as u8), vec![effect(0, PROGRESS, step as u8 + 1)], &consenters);
        pack.actions.push(onward);
    }
    utilities(&mut pack, &segments, length);
    let (foresight, nesting) = needs(&segments, &hands);
    if r.chance(1, 6) {
        wants_later(&mut pack, r.below(characters), length);
    }
    if r.chance(2, 3) {
        for _ in 0..r.from(1, 2) {
            bend(r, &mut pack, length);
        }
    }
    r.shuffle(&mut pack.actions);
    if r.chance(1, 3) {
        pack.nodes = tables::equivalent(r, &pack.nodes);
    }
    Story { pack, story: length.min(8), foresight: foresight.min(6), nesting: nesting.min(3) }
}

/// Two rows of steps on two fluents, each with hands of its own; the author wants both at their ends. The steps may be
/// mixed in any order, so that the earliest list is one of many, and what others see of them decides which are explained.
pub fn tangle(r: &mut Random) -> Pack {
    let characters = r.from(2, 4);
    let lengths = [r.from(1, 3), r.from(1, 3)];
    let mut pack = empty(characters, &[lengths[0] + 1, lengths[1] + 1]);
    for (row, &length) in lengths.iter().enumerate() {
        let hands = [r.below(characters), r.below(characters)];
        for step in 0..length {
            let (from, to) = (step as u8, step as u8 + 1);
            let consenters = if r.chance(1, 5) { vec![] } else { vec![hands[step % 2]] };
            let mut onward = action(&pack, is(row, from), vec![effect(0, row, to)], &consenters);
            if r.chance(1, 4) {
                onward.observations[r.below(characters)] = never();
            }
            pack.actions.push(onward);
        }
    }
    let ends = [lengths[0] as u8, lengths[1] as u8];
    let both = || all(vec![test(&[], IS, 0, ends[0]), test(&[], IS, 1, ends[1])]);
    pack.utilities[0].push(rule(both(), 3));
    for rules in &mut pack.utilities[1..] {
        let mut worths = [1, 2, 3];
        r.shuffle(&mut worths[..2]);
        *rules = vec![rule(both(), worths[2]), rule(is(0, ends[0]), worths[0]), rule(is(1, ends[1]), worths[1])];
    }
    r.shuffle(&mut pack.actions);
    pack
}

/// Lengths of segments, 1 to 8 together.
fn segments(r: &mut Random) -> Vec<usize> {
    let mut left = r.from(1, 8);
    let mut segments = Vec::new();
    if left >= 6 && r.chance(1, 3) {
        segments.push(6);
        left -= 6;
    }
    while left > 0 {
        let segment = r.pick(&[1, 2, 2, 3, 3, 4, 6]).min(left);
        segments.push(segment);
        left -= segment;
    }
    segments
}

/// Who acts at each step: within a segment the hands change seldom enough that a nesting limit of 3 mostly does.
fn hands(r: &mut Random, characters: usize, segments: &[usize]) -> Vec<usize> {
    let mut hands = Vec::new();
    for &segment in segments {
        let mut hand = r.below(characters);
        let changes = if segment > 4 { r.below(2) } else { r.pick(&[0, 1, 2, 3, 3]) };
        for _ in 0..segment {
            hands.push(hand);
            if r.chance(changes, 3) {
                hand = (hand + r.from(1, characters - 1)) % characters;
            }
        }
    }
    hands
}

/// Everyone gains at the end of each segment, the author at the end of the last.
fn utilities(pack: &mut Pack, segments: &[usize], length: usize) {
    pack.utilities[0].push(rule(is(PROGRESS, length as u8), 9));
    for rules in &mut pack.utilities[1..] {
        let mut reached = length;
        for (i, &segment) in segments.iter().enumerate().rev() {
            rules.push(rule(all(vec![test(&[], AT_LEAST, PROGRESS, reached as u8)]), 100 * (i + 1)));
            reached -= segment;
        }
        rules.truncate(8);
    }
}

/// The foresight and nesting limits that the straight story needs.
fn needs(segments: &[usize], hands: &[usize]) -> (usize, usize) {
    let (mut foresight, mut nesting) = (1, 0);
    let mut first = 0;
    for &segment in segments {
        let mut needed = vec![1; segment];
        for i in (0..segment).rev() {
            let others = (i + 1..segment).filter(|&j| hands[first + j] != hands[first + i]);
            needed[i] = 1 + others.map(|j| needed[j]).max().unwrap_or(0);
        }
        foresight = foresight.max(segment);
        nesting = nesting.max(needed.into_iter().max().unwrap());
        first += segment;
    }
    (foresight, nesting)
}
