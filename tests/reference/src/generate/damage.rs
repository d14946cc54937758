//! Faults put into calls: damaged bytes of every kind, buffers too short, numbers out of range.

use super::random::Random;
use crate::call::{Ask, Call};
use crate::pack::LONGEST_PACK;

/// One to three faults in a call, anywhere; or one in each place after the pack, to see which is told.
pub fn spoil(r: &mut Random, call: &mut Call) {
    if r.chance(1, 8) {
        charts(&mut call.ask).into_iter().for_each(|chart| damage(r, chart));
        buffers(r, call);
        number(r, call);
        return;
    }
    for _ in 0..r.pick(&[1, 1, 1, 2, 2, 3]) {
        match r.below(8) {
            0 | 1 => damage(r, &mut call.pack),
            2 | 3 => charts(&mut call.ask).into_iter().for_each(|chart| {
                if r.chance(2, 3) {
                    damage(r, chart);
                }
            }),
            4 => buffers(r, call),
            5 => lengthen(r, &mut call.pack),
            _ => number(r, call),
        }
    }
}

fn charts(ask: &mut Ask) -> Vec<&mut Vec<u8>> {
    match ask {
        Ask::Query { chart, .. } | Ask::Step { chart, .. } | Ask::Explained { chart, .. } => vec![chart],
        Ask::Compare { first, second } => vec![first, second],
        Ask::Start | Ask::Search { .. } | Ask::Ending => Vec::new(),
    }
}

/// Lends one byte less than is needed, none, or some more.
fn buffers(r: &mut Random, call: &mut Call) {
    let length = |r: &mut Random, needed: usize| match r.below(4) {
        0 | 1 => needed.saturating_sub(1),
        2 => r.below(needed + 1),
        _ => needed + r.from(1, 40),
    };
    if r.chance(1, 2) {
        call.work = length(r, call.work);
    } else {
        call.result = length(r, call.result);
    }
}

/// A pack of 8,192, 8,193 or more bytes: zeros after its end.
fn lengthen(r: &mut Random, pack: &mut Vec<u8>) {
    let length = LONGEST_PACK + r.pick(&[0, 1, 1, 2, 8_192, 57_344]);
    pack.resize(length.max(pack.len()), 0);
}

/// Puts a number handed in at or past its limits.
fn number(r: &mut Random, call: &mut Call) {
    match &mut call.ask {
        Ask::Query { chain, .. } if r.chance(1, 2) => {
            let at = r.below(chain.len() + 1);
            chain.insert(at, r.pick(&[1, 2, 3, 5, 6, 7, 128, 255]));
        }
        Ask::Query { fluent, .. } => *fluent = past(r, *fluent, &[1, 2, 3, 24]),
        Ask::Step { action, .. } => *action = past(r, *action, &[1, 2, 3, 4, 32]),
        Ask::Explained { character, action, foresight, nesting, .. } => match r.below(4) {
            0 => *character = past(r, *character, &[1, 2, 3, 6]),
            1 => *action = past(r, *action, &[1, 2, 3, 4, 32]),
            2 => *foresight = past(r, *foresight, &[0, 6, 7]),
            _ => *nesting = past(r, *nesting, &[0, 3, 4]),
        },
        Ask::Search { story, foresight, nesting } => match r.below(3) {
            0 => *story = past(r, *story, &[0, 8, 9]),
            1 => *foresight = past(r, *foresight, &[0, 6, 7]),
            _ => *nesting = past(r, *nesting, &[0, 3, 4]),
        },
        Ask::Start | Ask::Compare { .. } | Ask::Ending => {}
    }
}

/// One of the numbers about a limit, or one whose low bits alone would do.
fn past(r: &mut Random, n: u64, about: &[u64]) -> u64 {
    if r.chance(1, 2) {
        return r.pick(about);
    }
    r.pick(&[n + 1, n + 256, n + 65_536, n + (1 << 32), n.wrapping_add(1 << 63), u64::MAX])
}

/// One fault in the bytes of a pack or chart, often near the beginning, where the nodes are.
fn damage(r: &mut Random, bytes: &mut Vec<u8>) {
    let reach = if r.chance(1, 3) { bytes.len().min(16) } else { bytes.len() };
    let at = r.below(reach + 1);
    let near = if bytes.is_empty() { 0 } else { at.min(bytes.len() - 1) };
    match r.below(13) {
        0 => bytes.truncate(at),
        1 => {
            bytes.truncate(at);
            bytes.extend(vec![r.pick(&[0x80, 0x81, 0xFF]); r.from(1, 3)]);
        }
        2 => bytes.insert(at, r.word() as u8),
        3 => bytes.extend((0..r.from(1, 3)).map(|_| r.pick(&[0, 1, 0x80, 0xFF]))),
        4 => replace(bytes, near, &[0x80, 0x00]),
        5 => {
            let low = bytes.get(near).copied().unwrap_or(0) & 0x7F;
            replace(bytes, near, if r.chance(1, 2) { &[0x80, 0x80, 0x00] } else { &[0xFF, 0xFF, 0x03] });
            if r.chance(1, 2) {
                replace(bytes, near, &[low | 0x80]);
            }
        }
        6 => replace(bytes, near, &[0xFF, 0xFF, 0x04]),
        7 => replace(bytes, near, &[0xFF, 0xFF, 0xFF]),
        8 if !bytes.is_empty() => drop(bytes.remove(near)),
        9 => bytes.iter_mut().skip(near).take(1).for_each(|byte| *byte = 0),
        10 => bytes.iter_mut().skip(near).take(1).for_each(|byte| *byte = r.word() as u8),
        11 => bytes.iter_mut().take(1).for_each(|byte| *byte = r.pick(&[0, 2, 33, 34])),
        _ => bytes.iter_mut().skip(near).take(1).for_each(|byte| *byte = byte.wrapping_add(1)),
    }
}

fn replace(bytes: &mut Vec<u8>, at: usize, by: &[u8]) {
    let end = (at + 1).min(bytes.len());
    bytes.splice(at..end, by.iter().copied());
}
