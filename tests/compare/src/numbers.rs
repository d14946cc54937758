//! The numbers of a pack or chart, and one of them damaged.

use reference::generate::draft::put;
use reference::generate::random::Random;
use std::ops::Range;

/// Where each number of bytes in order stands. The last may be cut off.
pub fn numbers(bytes: &[u8]) -> Vec<Range<usize>> {
    let mut from = 0;
    let mut found = Vec::new();
    for (at, &byte) in bytes.iter().enumerate() {
        if byte < 0x80 {
            found.push(from..at + 1);
            from = at + 1;
        }
    }
    if from < bytes.len() {
        found.push(from..bytes.len());
    }
    found
}

/// Numbers at the limits of document 01 and next to them, and where a number takes a byte more.
const EDGES: [usize; 34] = [
    0, 1, 2, 3, 4, 5, 6, 7, 8, 9, 10, 15, 16, 17, 18, 23, 24, 25, 26, 31, 32, 33, 34, 127, 128, 129, 130, 255, 256,
    16_383, 16_384, 32_768, 65_534, 65_535,
];

/// Bytes in the place of a number: another number in its shortest form, or what no number is.
pub fn instead(r: &mut Random, bytes: &[u8]) -> Vec<u8> {
    let shortest = |number: usize| {
        let mut out = Vec::new();
        put(&mut out, number);
        out
    };
    let value = value(bytes);
    match r.below(16) {
        0 | 1 => shortest(0),
        2..=4 => shortest(value + 1),
        5 => shortest(value.saturating_sub(1)),
        6 | 7 => shortest(r.pick(&EDGES)),
        8 => shortest(r.below(65_536)),
        9 => shortest(r.below(128)),
        // not the shortest form
        10 => vec![0x80 | value as u8, 0],
        11 => vec![0x80 | value as u8, 0x80 | (value >> 7) as u8, 0],
        // above 65,535
        12 => vec![0x80 | r.word() as u8, 0x80 | r.word() as u8, r.from(4, 0x7F) as u8],
        // longer than three bytes, or so long with what follows
        13 => vec![0xFF; 3],
        14 => vec![0x80 | r.word() as u8, 0x80 | r.word() as u8, 0x80 | r.word() as u8, r.below(4) as u8],
        // any bytes
        _ => (0..r.from(1, 3)).map(|_| r.word() as u8).collect(),
    }
}

fn value(bytes: &[u8]) -> usize {
    bytes.iter().take(3).rev().fold(0, |sum, &byte| sum << 7 | (byte & 0x7F) as usize)
}

/// The bytes with one fault at one number, which is any of `places`, or with bytes behind the end.
pub fn damaged(r: &mut Random, bytes: &[u8], places: &[Range<usize>]) -> Vec<u8> {
    let i = r.below(places.len());
    let here = places[i].clone();
    let with = |part: Range<usize>, by: &[u8]| [&bytes[..part.start], by, &bytes[part.end..]].concat();
    match r.below(24) {
        // cut off before a number, or within what is left of one
        0 => bytes[..here.start].to_vec(),
        1 => [&bytes[..here.start], &vec![0x80 | r.word() as u8; r.from(1, 3)]].concat(),
        // one number less, and one more
        2 => with(here, &[]),
        3 => with(here.start..here.start, &instead(r, &bytes[here.clone()])),
        // two neighbours change places, or the second is as the first
        4 | 5 if i > 0 => {
            let before = places[i - 1].clone();
            let swapped = [&bytes[here.clone()], &bytes[before.clone()]].concat();
            with(before.start..here.end, &swapped)
        }
        6 if i > 0 => with(here, &bytes[places[i - 1].clone()]),
        // one byte of the number, any
        7 => {
            let mut other = bytes.to_vec();
            other[r.from(here.start, here.end - 1)] = r.word() as u8;
            other
        }
        // bytes after the end
        8 => [bytes, &(0..r.from(1, 4)).map(|_| r.pick(&[0, 1, 0x80, 0xFF])).collect::<Vec<u8>>()].concat(),
        _ => with(here.clone(), &instead(r, &bytes[here])),
    }
}
