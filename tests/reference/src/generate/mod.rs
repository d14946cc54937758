//! Generated calls: a seed gives a call, the same one everywhere and always.
//!
//! What is drawn is listed in `drawn`. Packs and charts may be steered by this implementation's own answers (a chart is
//! often one that some steps lead to), but no call is left out because of its answer.

pub mod about;
pub mod bends;
pub mod coverage;
pub mod damage;
pub mod draft;
pub mod limits;
pub mod packs;
pub mod random;
pub mod seasons;
pub mod stories;
pub mod tables;
pub mod wander;

pub use crate::call::{Answer, Ask, Call};
pub use crate::implementation::answer;

use crate::calls::search_pack;
use crate::chart;
use crate::pack::LONGEST_PACK;
use about::{any, on_the_way, search, step_from};
use random::Random;

/// The call of a seed. One in four has faults.
pub fn call(seed: u64) -> Call {
    let r = &mut Random::new(seed);
    let mut call = drawn(r);
    if r.chance(1, 4) {
        damage::spoil(r, &mut call);
    }
    call
}

/// A call without faults, of one of the kinds that are drawn.
fn drawn(r: &mut Random) -> Call {
    match r.below(100) {
        0..=25 => small(r),
        26..=46 => story(r),
        47..=51 => tangle(r),
        52..=68 => wandering(r),
        69..=76 => limits(r),
        77..=80 => {
            let pack = limits::crowd(r);
            step_from(r, &pack, 0)
        }
        81..=90 => comparison(r),
        91..=96 => large(r),
        97 | 98 => longest(r),
        _ => {
            let pack = limits::restless(r);
            step_from(r, &pack, 0)
        }
    }
}

fn small(r: &mut Random) -> Call {
    let pack = packs::small(r);
    let (story, foresight, nesting) = (r.from(1, 3), r.from(1, 3), r.from(0, 3));
    any(r, &pack, story, foresight, nesting)
}

/// A story under just the limits it needs, or with one of them one less or more.
fn story(r: &mut Random) -> Call {
    let stories::Story { pack, mut story, mut foresight, mut nesting } = stories::story(r);
    match r.below(8) {
        0 => story = (story - 1).max(1),
        1 => foresight = (foresight - 1).max(1),
        2 | 3 => nesting = nesting.saturating_sub(1),
        4 => (foresight, nesting) = (r.from(1, 6), r.from(0, 3)),
        _ => {}
    }
    match r.below(8) {
        0 => any(r, &pack, story, foresight, nesting),
        1 | 2 => on_the_way(r, &pack, foresight, nesting),
        3 => Call::new(draft::bytes(&pack), Ask::Ending),
        _ => search(&pack, story, foresight, nesting),
    }
}

/// Two stories side by side, with many endings of one length.
fn tangle(r: &mut Random) -> Call {
    let pack = stories::tangle(r);
    let (story, foresight, nesting) = (r.from(3, 7), r.from(1, 4), r.from(0, 3));
    match r.below(6) {
        0 => any(r, &pack, story, foresight, nesting),
        1 => on_the_way(r, &pack, foresight, nesting),
        _ => search(&pack, story, foresight, nesting),
    }
}

/// Draws up to four times for a pack that has an ending under the widest limits here; which of them are asked for
/// is drawn anew.
fn wandering(r: &mut Random) -> Call {
    let mut pack = wander::wander(r);
    for _ in 0..3 {
        if search_pack(&pack, 5, 4, 3).is_ok() {
            break;
        }
        pack = wander::wander(r);
    }
    let (story, foresight, nesting) = (r.from(1, 5), r.from(1, 4), r.from(0, 3));
    match r.below(3) {
        0 => any(r, &pack, story, foresight, nesting),
        _ => search(&pack, story, foresight, nesting),
    }
}

fn limits(r: &mut Random) -> Call {
    let pack = if r.chance(1, 2) { limits::counter(r) } else { limits::gossip(r) };
    if r.chance(1, 6) {
        let nesting = r.from(0, 1);
        return any(r, &pack, 1, 1, nesting);
    }
    step_from(r, &pack, 0)
}

/// Two charts: the same in another form, one change apart, or different only after a long chain.
pub fn comparison(r: &mut Random) -> Call {
    let characters = r.from(1, 6);
    let domains: Vec<usize> = (0..r.from(1, 4)).map(|_| r.from(2, 4)).collect();
    let pack = draft::empty(characters, &domains);
    let (first, second) = match r.below(4) {
        0 | 1 => {
            let count = r.pick(&[1, 2, 4, 8, 16, 31, 32]);
            let table = tables::random(r, characters, &domains, count);
            let other = if r.chance(1, 2) { table.clone() } else { tables::altered(r, &table, &domains) };
            (table, tables::equivalent(r, &other))
        }
        2 => {
            let length = if r.chance(1, 2) { r.pick(&[1, 2, 20, 40, 61, 62]) } else { r.from(1, 62) };
            tables::long_difference(r, characters, domains.len(), length)
        }
        _ => {
            let (one, two) = (r.from(1, 4), r.from(1, 4));
            (tables::random(r, characters, &domains, one), tables::random(r, characters, &domains, two))
        }
    };
    let (first, second) = (chart::bytes(&first), chart::bytes(&second));
    let ask =
        if r.chance(1, 2) { Ask::Compare { first, second } } else { Ask::Compare { first: second, second: first } };
    Call::new(draft::bytes(&pack), ask)
}

fn large(r: &mut Random) -> Call {
    let pack = packs::large(r);
    let nesting = r.from(0, 1);
    let call = any(r, &pack, 1, 1, nesting);
    // The limits of `ending` are too wide for the readable implementation here.
    if call.ask == Ask::Ending {
        search(&pack, 1, 2, 1)
    } else {
        call
    }
}

/// A pack of exactly 8,192 bytes.
fn longest(r: &mut Random) -> Call {
    let mut pack = packs::small(r);
    packs::lengthen(&mut pack, LONGEST_PACK);
    any(r, &pack, 1, 1, 1)
}
