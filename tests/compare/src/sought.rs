//! Packs that the benchmark of Search is run on.

use reference::generate::draft::{self, action, all, effect, is, rule, test, IS};
use reference::generate::random::Random;
use reference::generate::{packs, seasons, stories, wander};
use reference::pack::Pack;

/// Draws a pack of one kind.
pub type Draw = fn(&mut Random) -> Pack;

/// So many packs of a kind, from fixed seeds.
pub fn family(draw: Draw, count: u64) -> Vec<Vec<u8>> {
    (0..count).map(|seed| draft::bytes(&draw(&mut Random::new(500 + seed)))).collect()
}

/// The kinds of packs that are drawn.
pub const KINDS: [(&str, Draw); 4] = [
    ("stories with a known ending, some spoilt", |r| stories::story(r).pack),
    ("two stories side by side", stories::tangle),
    ("stories at random", wander::wander),
    ("small packs", packs::small),
];

/// A kind of packs of a season's size: how it is drawn, the size that is asked for, and how many are drawn.
pub struct Season {
    name: &'static str,
    draw: fn(&mut Random, usize) -> Pack,
    size: usize,
    count: u64,
}

impl Season {
    pub fn title(&self) -> String {
        let packs = if self.count == 1 { "pack" } else { "packs" };
        format!("{} of {}, {} {packs}", self.name, self.size, self.count)
    }
}

pub const SEASONS: [Season; 9] = [
    Season { name: "court", draw: seasons::court, size: 5, count: 6 },
    Season { name: "court", draw: seasons::court, size: 6, count: 6 },
    Season { name: "stubborn", draw: seasons::stubborn, size: 4, count: 1 },
    Season { name: "stubborn", draw: seasons::stubborn, size: 6, count: 1 },
    Season { name: "bargain", draw: seasons::bargain, size: 2, count: 4 },
    Season { name: "bargain", draw: seasons::bargain, size: 3, count: 4 },
    Season { name: "chain", draw: seasons::chain, size: 3, count: 4 },
    Season { name: "chain", draw: seasons::chain, size: 4, count: 4 },
    Season { name: "idle", draw: seasons::idle, size: 5, count: 6 },
];

/// The packs of such a kind, from fixed seeds.
pub fn sized(season: &Season) -> Vec<Vec<u8>> {
    let drawn = |seed| (season.draw)(&mut Random::new(900 + seed), season.size);
    (0..season.count).map(|seed| draft::bytes(&drawn(seed))).collect()
}

/// Doors that may be opened and closed in any order, so that so many actions are playable in each of the 2^doors states
/// and lists lead to few states; the author wants the first both open and closed, which never is and only a search can
/// tell. With a guard for each door who wants it open, nobody has a reason to close one.
pub fn doors(doors: usize, guarded: bool) -> Vec<u8> {
    let mut pack = draft::empty(doors, &vec![2; doors]);
    for door in 0..doors {
        let guard: &[usize] = if guarded { &[door] } else { &[] };
        for (from, to) in [(0, 1), (1, 0)] {
            let moved = action(&pack, is(door, from), vec![effect(0, door, to)], guard);
            pack.actions.push(moved);
        }
        pack.utilities[door + 1].push(rule(is(door, 1), 1));
    }
    let both = [0, 1].map(|value| test(&[], IS, 0, value));
    pack.utilities[0].push(rule(all(both.into()), 1));
    draft::bytes(&pack)
}
