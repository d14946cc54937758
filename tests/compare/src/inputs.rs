//! Packs and charts to be read, from a seed: in order, damaged at one number, cut off, too long, or any bytes.

use reference::chart;
use reference::generate::random::Random;
use reference::generate::{draft, limits, packs, stories, tables, wander};
use reference::pack::{Pack, LONGEST_PACK};

/// The pack P of document 01.
pub const P: [u8; 42] = [
    1, 2, 1, 3, 1, 0, 1, 1, 1, 1, 1, 0, 0, 0, 0, 1, 0, 0, 1, 1, 0, 1, 0, 0, 0, 1, 1, 1, 0, 0, 0, 1, 5, 1, 1, 1, 0, 0,
    0, 1, 5, 0,
];

/// A pack, mostly one that is accepted (some counts are one too large).
pub fn pack(r: &mut Random) -> Pack {
    match r.below(20) {
        0..=7 => packs::small(r),
        8..=10 => consenting(r),
        11..=13 => stories::story(r).pack,
        14 | 15 => wander::wander(r),
        16 => limits::counter(r),
        17 => limits::gossip(r),
        18 => limits::crowd(r),
        _ => packs::large(r),
    }
}

/// A pack in which everyone consents to every action, so that much of it is consenters.
fn consenting(r: &mut Random) -> Pack {
    let characters = r.from(2, 6);
    let mut pack = draft::empty(characters, &[2, 3]);
    let everyone: Vec<usize> = (0..characters).collect();
    for _ in 0..r.from(1, 32) {
        let action = draft::action(&pack, draft::never(), Vec::new(), &everyone);
        pack.actions.push(action);
    }
    pack
}

/// A pack of exactly 8,192 bytes.
pub fn longest(r: &mut Random) -> Vec<u8> {
    let mut pack = packs::small(r);
    packs::lengthen(&mut pack, LONGEST_PACK);
    draft::bytes(&pack)
}

/// A head and one node, for charts to be read under: all numbers of characters and fluents, small and large domains.
pub fn frame(r: &mut Random) -> Pack {
    let characters = r.from(1, 6);
    let fluents = r.pick(&[1, 1, 2, 2, 3, 4, 8, 23, 24]);
    let domains: Vec<usize> = (0..fluents).map(|_| r.pick(&[1, 2, 2, 3, 4, 32, 127, 128])).collect();
    draft::empty(characters, &domains)
}

/// A chart under a pack's head; one in 16 has 33 nodes.
pub fn table(r: &mut Random, pack: &Pack) -> Vec<u8> {
    let count = r.pick(&[1, 1, 2, 2, 3, 3, 4, 5, 6, 8, 12, 16, 24, 31, 32, 33]);
    chart::bytes(&tables::random(r, pack.characters, &pack.domains, count))
}

/// Any bytes, few of them above 127, so that some are read for a while; half begin as a pack does.
pub fn noise(r: &mut Random) -> Vec<u8> {
    let greatest = r.pick(&[2, 3, 6, 24, 127, 255]);
    let most = r.pick(&[4, 40, 400]);
    let length = r.below(most);
    let start: &[u8] = if r.chance(1, 2) { &[1, 2, 1, 3, 1, 0, 1, 1] } else { &[] };
    start.iter().copied().chain((0..length).map(|_| r.from(0, greatest) as u8)).collect()
}
