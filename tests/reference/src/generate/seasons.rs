//! Packs of a season's size, in kinds that are hard for a search in different ways: many characters, many actions,
//! reasons that rest on others' reasons. Each is drawn from a seed, and all are accepted.

use super::draft::*;
use super::random::Random;
use crate::pack::{Pack, Rule, Test};

fn fluent_is(fluent: usize, value: u8) -> Test {
    test(&[], IS, fluent, value)
}

fn at_least(fluent: usize, value: u8) -> Test {
    test(&[], AT_LEAST, fluent, value)
}

/// Makes some actions unseen by somebody who doesn't consent to them.
fn secrets(r: &mut Random, pack: &mut Pack, part: usize, whole: usize) {
    for action in &mut pack.actions {
        for character in 0..pack.characters {
            if !action.consenters.contains(&character) && r.chance(part, whole) {
                action.observations[character] = never();
            }
        }
    }
}

/// Favours at a court of so many (3 to 6). A favour takes the consent of two or three, in two stages, of which the
/// second needs that the next one's favour has begun. Some gain by what they agree to, others only by what somebody
/// else is granted after it: a reason to agree is then that others will agree to something else. The author wants as
/// many favours as fit into a story.
pub fn court(r: &mut Random, size: usize) -> Pack {
    let mut pack = empty(size, &vec![3; size]);
    for whose in 0..size {
        let next = (whose + 1) % size;
        for stage in 0..2 {
            let mut consenters = vec![whose, next];
            if r.chance(1, 3) {
                consenters.push((whose + 2) % size);
            }
            consenters.sort();
            let mut due = vec![fluent_is(whose, stage)];
            if stage == 1 {
                due.push(at_least(next, 1));
            }
            let favour = action(&pack, all(due), vec![effect(0, whose, stage + 1)], &consenters);
            pack.actions.push(favour);
        }
        let withdrawn = action(&pack, is(whose, 1), vec![effect(0, whose, 0)], &[next]);
        pack.actions.push(withdrawn);
        pack.utilities[whose + 1] = wishes_at_court(r, whose, size);
    }
    secrets(r, &mut pack, 1, 12);
    let wanted = (0..size).map(|whose| at_least(whose, if whose + 6 < size + 2 { 2 } else { 1 })).collect();
    pack.utilities[0].push(rule(all(wanted), 5));
    r.shuffle(&mut pack.actions);
    pack
}

/// First a favour of one's own or of the one before, which one agrees to; then those of others too.
fn wishes_at_court(r: &mut Random, whose: usize, size: usize) -> Vec<Rule> {
    let near = (whose + r.pick(&[0, 0, size - 1, size - 1, 1])) % size;
    let far = (near + r.from(1, size - 1)) % size;
    let farther = (near + r.from(1, size - 1)) % size;
    let all_three = all(vec![at_least(near, 1), at_least(far, 1), at_least(farther, 2)]);
    let two = all(vec![at_least(near, 1), at_least(far, 1)]);
    vec![rule(all_three, 4), rule(two, 3), rule(all(vec![at_least(near, 1)]), 1)]
}

/// So many switches (1 to 8) that anyone may throw, which one character never sees, and a door that opens only with
/// that character's consent. The character has a small world of its own to look through for a reason, and there is
/// none: the question is put again in every state of the switches, and is the same question every time.
pub fn stubborn(r: &mut Random, switches: usize) -> Pack {
    const CHARACTERS: usize = 3;
    const ROOMS: usize = 3;
    let door = switches + ROOMS;
    let mut domains = vec![2; switches];
    domains.extend([3; ROOMS]);
    domains.push(2);
    let mut pack = empty(CHARACTERS, &domains);
    for switch in 0..switches {
        for to in 0..2 {
            let mut thrown = action(&pack, is(switch, 1 - to), vec![effect(0, switch, to)], &[]);
            thrown.observations[0] = never();
            pack.actions.push(thrown);
        }
    }
    for room in switches..door {
        for to in 0..3 {
            let from = all(vec![test(&[], IS_NOT, room, to)]);
            let moved = action(&pack, from, vec![effect(0, room, to)], &[0]);
            pack.actions.push(moved);
        }
    }
    let opened = action(&pack, is(door, 0), vec![effect(0, door, 1)], &[0, r.from(1, CHARACTERS - 1)]);
    pack.actions.push(opened);
    let never_so = (0..8).map(|i| fluent_is(switches + i % ROOMS, (i / ROOMS) as u8)).collect();
    pack.utilities[1].push(rule(all(never_so), 1));
    for rules in &mut pack.utilities[2..] {
        rules.push(rule(is(door, 1), 1));
    }
    pack.utilities[0].push(rule(is(door, 1), 1));
    pack
}

/// So many bargains (1 to 3), each between two: one hands over a good for the other's later one, and the other's is
/// handed over for the deal's being closed by both. Goods may be taken back, or sold for less. The author wants all
/// deals closed.
pub fn bargain(r: &mut Random, deals: usize) -> Pack {
    let mut pack = empty(2 * deals, &[[3, 3, 2]].repeat(deals).concat());
    for deal in 0..deals {
        let (first, second) = (2 * deal, 2 * deal + 1);
        let [good, price, closed] = [3 * deal, 3 * deal + 1, 3 * deal + 2];
        for (thing, owner, other) in [(good, first, second), (price, second, first)] {
            let open = |at: u8| all(vec![fluent_is(thing, at), fluent_is(closed, 0)]);
            for (from, to, by) in [(0, 1, owner), (1, 0, other), (0, 2, owner)] {
                let moved = action(&pack, open(from), vec![effect(0, thing, to)], &[by]);
                pack.actions.push(moved);
            }
        }
        let both = all(vec![fluent_is(good, 1), fluent_is(price, 1), fluent_is(closed, 0)]);
        let close = action(&pack, both, vec![effect(0, closed, 1)], &[first, second]);
        pack.actions.push(close);
        for (who, gets, gives) in [(first, price, good), (second, good, price)] {
            let done = all(vec![fluent_is(gets, 1), fluent_is(closed, 1)]);
            let worths = [(done, 9), (is(gets, 1), 4), (is(gives, 0), 3), (is(gives, 2), r.from(1, 2))];
            pack.utilities[who + 1] = worths.into_iter().map(|(condition, worth)| rule(condition, worth)).collect();
        }
    }
    secrets(r, &mut pack, 1, 8);
    let all_closed = (0..deals).map(|deal| fluent_is(3 * deal + 2, 1)).collect();
    pack.utilities[0].push(rule(all(all_closed), 5));
    r.shuffle(&mut pack.actions);
    pack
}

/// 24 fluents in chains, so many of them (2 to 8), each fluent set once the one before it is, by six characters in turn
/// who want the ends of chains; with actions besides that unset one, 32 actions. The author wants two ends, or one
/// where the chains are long.
pub fn chain(r: &mut Random, chains: usize) -> Pack {
    const FLUENTS: usize = 24;
    let length = FLUENTS / chains;
    let mut pack = empty(6, &[2; FLUENTS]);
    let mut hand = r.below(6);
    for fluent in 0..FLUENTS {
        let mut due = vec![fluent_is(fluent, 0)];
        if fluent % length > 0 {
            due.push(fluent_is(fluent - 1, 1));
        }
        let set = action(&pack, all(due), vec![effect(0, fluent, 1)], &[hand]);
        pack.actions.push(set);
        if r.chance(1, 2) {
            hand = (hand + r.from(1, 5)) % 6;
        }
    }
    for _ in FLUENTS..32 {
        let fluent = r.below(FLUENTS);
        let unset = action(&pack, is(fluent, 1), vec![effect(0, fluent, 0)], &[r.below(6)]);
        pack.actions.push(unset);
    }
    for rules in &mut pack.utilities[1..] {
        let end = |r: &mut Random| (r.below(chains) + 1) * length - 1;
        let (one, other) = (end(r), end(r));
        let half = one - length / 2;
        *rules = vec![rule(is(one, 1), 3), rule(is(other, 1), 2), rule(is(half, 1), 1)];
    }
    secrets(r, &mut pack, 1, 10);
    let ends = if length > 4 { vec![length - 1] } else { vec![length - 1, 2 * length - 1] };
    pack.utilities[0].push(rule(all(ends.into_iter().map(|end| fluent_is(end, 1)).collect()), 5));
    pack
}

/// A court whose author wants nothing: there is no rule, or none above what is so at the start.
pub fn idle(r: &mut Random, size: usize) -> Pack {
    let mut pack = court(r, size);
    pack.utilities[0] = match r.below(3) {
        0 => vec![],
        1 => vec![rule(always(), 7), rule(is(0, 2), 9)],
        _ => vec![rule(is(0, 0), 4), rule(is(1, 1), 3), rule(is(1, 2), 4)],
    };
    pack
}
