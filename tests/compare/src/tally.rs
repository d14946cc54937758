//! Puts packs and charts to both implementations and counts what they say.

use crate::{expected, probe};
use reference::refusal::Refusal;
use std::collections::BTreeMap;
use std::fmt;
use std::hint::black_box;

/// How many inputs met what.
#[derive(Default)]
pub struct Tally {
    met: BTreeMap<String, usize>,
}

/// Bytes before, between and behind what is lent. A number read there would be in order.
const MARGIN: [u8; 16] = [1; 16];

impl Tally {
    /// Both read a pack. Panics where they differ, or where the library changes a byte of what it is lent.
    pub fn pack(&mut self, pack: &[u8]) {
        let expected = expected::pack(pack);
        let found = lending([pack], |[pack]| probe::pack(pack));
        assert_eq!(found, expected, "the library and the reference differ on the pack {}", hex(pack));
        self.count(expected.err());
    }

    /// Both read a chart under a pack.
    pub fn chart(&mut self, pack: &[u8], chart: &[u8]) {
        let expected = expected::chart(pack, chart);
        let found = lending([pack, chart], |[pack, chart]| probe::chart(pack, chart));
        assert_eq!(found, expected, "the two differ on the chart {} under the pack {}", hex(chart), hex(pack));
        self.count(expected.err());
    }

    fn count(&mut self, refusal: Option<Refusal>) {
        self.note(refusal.map_or(ACCEPTED.to_string(), |refusal| refused(refusal.number)));
    }

    pub fn note(&mut self, what: String) {
        *self.met.entry(what).or_default() += 1;
    }

    /// How many met a refusal's number, or 0: were accepted.
    pub fn of(&self, number: u8) -> usize {
        self.met(&if number == 0 { ACCEPTED.to_string() } else { refused(number) })
    }

    pub fn met(&self, what: &str) -> usize {
        self.met.get(what).copied().unwrap_or(0)
    }

    pub fn all(&self) -> usize {
        self.met.values().sum()
    }
}

const ACCEPTED: &str = "accepted";

pub fn refused(number: u8) -> String {
    format!("refused as {number:2}")
}

impl fmt::Display for Tally {
    fn fmt(&self, f: &mut fmt::Formatter) -> fmt::Result {
        write!(f, "{} compared:", self.all())?;
        self.met
            .iter()
            .enumerate()
            .try_for_each(|(i, (what, met))| write!(f, "{} {met} {what}", if i == 0 { "" } else { "," }))
    }
}

/// Lends copies. They and what is around them must stay as they are.
fn lending<const N: usize, T>(parts: [&[u8]; N], ask: impl FnOnce([&[u8]; N]) -> T) -> T {
    let mut room = MARGIN.to_vec();
    let places = parts.map(|part| {
        let start = room.len();
        room.extend(part);
        room.extend(MARGIN);
        start..start + part.len()
    });
    let before = room.clone();
    let answer = ask(places.map(|place| &room[place]));
    assert!(*black_box(&room) == before, "lent bytes were changed: {}", hex(&before));
    answer
}

fn hex(bytes: &[u8]) -> String {
    bytes.iter().map(|byte| format!("{byte:02x}")).collect()
}
