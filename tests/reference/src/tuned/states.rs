//! States met in a search, each kept once, and what is known of each: filled in as it is asked for, and true for ever.
//! The memory stays from search to search and grows only when a search meets more states than any before.

use super::rules::Rules;
use super::table::{Row, Table};

pub type Id = u32;
pub const UNKNOWN: u32 = u32::MAX;
/// An action that isn't playable.
pub const NOWHERE: u32 = u32::MAX - 1;

/// The most further actions in a character's list, and the nesting limits at which they are explained (0 to 2).
const LEFTS: usize = 5;
const NESTINGS: usize = 3;

#[derive(Clone, Copy)]
struct Record {
    first: u32,
    count: u32,
    hash: u64,
}

#[derive(Default)]
pub struct States {
    characters: usize,
    actions: usize,
    rows: Vec<Row>,
    records: Vec<Record>,
    /// Where states are found by their hash: the search's stamp above the number.
    slots: Vec<u64>,
    stamp: u32,
    /// By state and action: the state that it leaves.
    pub next: Vec<u32>,
    /// By state and character.
    pub beliefs: Vec<u32>,
    /// By state and whose utility (0 the author's).
    pub utilities: Vec<u32>,
    /// By believed state, character, action and nesting limit: 0 unknown, 1 no, 2 yes.
    pub verdicts: Vec<u8>,
    /// By state, character, nesting limit and actions left: no list of so many or fewer ends above this or more.
    pub hopeless: Vec<u32>,
    /// By state: the lengths, as bits, of which no list makes an ending.
    pub exhausted: Vec<u16>,
}

impl States {
    /// Forgets all states. Slots of earlier searches are known by their stamp.
    pub fn begin(&mut self, rules: &Rules) {
        (self.characters, self.actions) = (rules.characters, rules.actions.len());
        self.rows.clear();
        self.records.clear();
        self.next.clear();
        self.beliefs.clear();
        self.utilities.clear();
        self.verdicts.clear();
        self.hopeless.clear();
        self.exhausted.clear();
        self.stamp = self.stamp.wrapping_add(1);
        if self.slots.is_empty() || self.stamp == 0 {
            let length = self.slots.len().max(1_024);
            self.slots.clear();
            self.slots.resize(length, 0);
            self.stamp = 1;
        }
    }

    pub fn rows(&self, state: Id) -> &[Row] {
        let record = self.records[state as usize];
        &self.rows[record.first as usize..(record.first + record.count) as usize]
    }

    pub fn action(&self, state: Id, action: usize) -> usize {
        state as usize * self.actions + action
    }

    pub fn character(&self, state: Id, character: usize) -> usize {
        state as usize * self.characters + character
    }

    pub fn whose(&self, state: Id, who: usize) -> usize {
        state as usize * (self.characters + 1) + who
    }

    pub fn verdict(&self, belief: Id, character: usize, action: usize, nesting: usize) -> usize {
        (self.character(belief, character) * self.actions + action) * NESTINGS + nesting - 1
    }

    pub fn hope(&self, state: Id, character: usize, nesting: usize, left: usize) -> usize {
        (self.character(state, character) * NESTINGS + nesting) * LEFTS + left - 1
    }

    /// The number of a state, a new one if it wasn't met.
    pub fn intern(&mut self, table: &Table) -> Id {
        let hash = hash(table.rows());
        let mask = self.slots.len() - 1;
        let mut slot = hash as usize & mask;
        loop {
            let entry = self.slots[slot];
            if (entry >> 32) as u32 != self.stamp {
                break;
            }
            let id = entry as u32;
            if self.records[id as usize].hash == hash && self.rows(id) == table.rows() {
                return id;
            }
            slot = (slot + 1) & mask;
        }
        let id = self.records.len() as u32;
        self.slots[slot] = (self.stamp as u64) << 32 | id as u64;
        self.records.push(Record { first: self.rows.len() as u32, count: table.count as u32, hash });
        self.rows.extend_from_slice(table.rows());
        self.room();
        if self.records.len() * 2 > self.slots.len() {
            self.rehash();
        }
        id
    }

    /// Room for what will be known of the newest state.
    fn room(&mut self) {
        let count = self.records.len();
        self.next.resize(count * self.actions, UNKNOWN);
        self.beliefs.resize(count * self.characters, UNKNOWN);
        self.utilities.resize(count * (self.characters + 1), UNKNOWN);
        self.verdicts.resize(count * self.characters * self.actions * NESTINGS, 0);
        self.hopeless.resize(count * self.characters * NESTINGS * LEFTS, UNKNOWN);
        self.exhausted.resize(count, 0);
    }

    #[cold]
    fn rehash(&mut self) {
        let length = self.slots.len() * 2;
        self.slots.clear();
        self.slots.resize(length, 0);
        for (id, record) in self.records.iter().enumerate() {
            let mut slot = record.hash as usize & (length - 1);
            while (self.slots[slot] >> 32) as u32 == self.stamp {
                slot = (slot + 1) & (length - 1);
            }
            self.slots[slot] = (self.stamp as u64) << 32 | id as u64;
        }
    }
}

/// Four lanes, so that the rows' words are mixed side by side.
pub fn hash(rows: &[Row]) -> u64 {
    let mut lanes = [1u64, 2, 3, 4];
    for row in rows {
        let words = row.words();
        for (lane, word) in lanes.iter_mut().zip(words) {
            *lane = (*lane ^ word).wrapping_mul(0x9E37_79B9_7F4A_7C15).rotate_left(29);
        }
    }
    let mixed = lanes.iter().fold(0u64, |sum, lane| (sum ^ lane).wrapping_mul(0xBF58_476D_1CE4_E5B9).rotate_left(31));
    mixed ^ mixed >> 32
}
