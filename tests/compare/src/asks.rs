//! Calls of one kind each, from a seed: half of them in order, the others with faults.

use crate::{inputs, numbers};
use reference::call::{Ask, Call};
use reference::chart;
use reference::generate::random::Random;
use reference::generate::{about, comparison, damage, draft, limits, packs, stories, tables, wander};
use reference::graph::Node;
use reference::pack::Pack;

pub fn start(r: &mut Random) -> Call {
    let mut pack = inputs::pack(r);
    if r.chance(2, 3) {
        pack.nodes = nodes(r, &pack);
    }
    faulty(r, Call::new(draft::bytes(&pack), Ask::Start))
}

pub fn query(r: &mut Random) -> Call {
    let pack = if r.chance(1, 2) { inputs::frame(r) } else { inputs::pack(r) };
    let chart = chart::bytes(&nodes(r, &pack));
    let (chain, fluent) = (about::chain(r, &pack), r.below(pack.domains.len()) as u64);
    faulty(r, Call::new(draft::bytes(&pack), Ask::Query { chart, chain, fluent }))
}

/// Pairs that are the same in other bytes, one change apart, or part only after a chain of up to 62.
pub fn compare(r: &mut Random) -> Call {
    let call = comparison(r);
    faulty(r, call)
}

/// Steps of every kind of pack, many of them at the limits of 16 rounds and 32 states.
pub fn step(r: &mut Random) -> Call {
    let call = step_in_order(r);
    faulty(r, call)
}

fn step_in_order(r: &mut Random) -> Call {
    let at_a_limit: Option<fn(&mut Random) -> Pack> = match r.below(16) {
        0 | 1 => Some(limits::counter),
        2 | 3 => Some(limits::gossip),
        4 | 5 => Some(limits::crowd),
        6 => Some(limits::restless),
        _ => None,
    };
    match at_a_limit {
        Some(draw) => {
            let pack = draw(r);
            about::step_from(r, &pack, 0)
        }
        None => {
            let pack = story(r);
            about::step_somewhere(r, &pack)
        }
    }
}

/// A pack with actions to go from one state to another.
fn story(r: &mut Random) -> Pack {
    match r.below(32) {
        0..=13 => packs::small(r),
        14..=19 => stories::story(r).pack,
        20..=22 => stories::tangle(r),
        23..=30 => wander::wander(r),
        _ => packs::large(r),
    }
}

/// A table under a pack's head: random, doubled and mixed up, or with states that are told apart late.
fn nodes(r: &mut Random, pack: &Pack) -> Vec<Node> {
    let count = r.pick(&[1, 2, 2, 3, 4, 6, 8, 12, 16, 24, 31, 32]);
    let late = pack.domains.iter().all(|&size| size > 1);
    match r.below(4) {
        0 if late => {
            let length = r.from(1, 62);
            let (first, second) = tables::long_difference(r, pack.characters, pack.domains.len(), length);
            r.pick(&[first, second])
        }
        1 | 2 => {
            let table = tables::random(r, pack.characters, &pack.domains, count);
            tables::equivalent(r, &table)
        }
        _ => tables::random(r, pack.characters, &pack.domains, count),
    }
}

/// Half of the calls stay as they are. The others have faults of any kind, or one number of the pack or of a chart
/// damaged.
pub fn faulty(r: &mut Random, mut call: Call) -> Call {
    match r.below(8) {
        0..=3 => {}
        4 | 5 => damage::spoil(r, &mut call),
        6 => call.pack = numbers::damaged(r, &call.pack, &numbers::numbers(&call.pack)),
        _ => {
            if let Some(chart) = chart_of(r, &mut call.ask) {
                *chart = numbers::damaged(r, chart, &numbers::numbers(chart));
            }
        }
    }
    call
}

/// One of the charts that are handed in, if any is.
fn chart_of<'a>(r: &mut Random, ask: &'a mut Ask) -> Option<&'a mut Vec<u8>> {
    match ask {
        Ask::Query { chart, .. } | Ask::Step { chart, .. } | Ask::Explained { chart, .. } => Some(chart),
        Ask::Compare { first, second } => Some(if r.chance(1, 2) { first } else { second }),
        Ask::Start | Ask::Search { .. } | Ask::Ending => None,
    }
}
