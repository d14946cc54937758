//! A memory of limited size: states under numbers, and facts about them. What is kept is counted in bytes, keys and
//! all.
//!
//! Each fact has a rank, by how many steps it took to find. When the memory is full it is sifted: the facts of the
//! highest ranks stay, with the states that they are about, and all else is forgotten. Forgetting everything, or by two
//! generations, was tried on a draft of `examples/necklace`: at T 8 K 6 E 3 both made over 20 times the steps. Numbers
//! are good until the memory is sifted.

use super::table::{Row, MOST};
use std::cmp::Reverse;

pub type Id = u16;
pub const NONE: Id = Id::MAX;

/// A state's place, its count, and its share of the index.
const HEAD: usize = 8;
/// A key of four bytes, a value of two, a rank, and a share of the places that stay empty.
const FACT: usize = 10;
/// The fewest bytes that a memory may have.
const LEAST: usize = 4_096;

#[derive(Clone, Copy)]
struct Record {
    first: u32,
    count: u32,
    hash: u64,
}

#[derive(Clone, Copy, Default)]
struct Fact {
    key: u32,
    value: u16,
    rank: u8,
    stamp: u16,
}

/// Entries of an earlier stamp are empty.
#[derive(Default)]
struct Store {
    rows: Vec<Row>,
    records: Vec<Record>,
    index: Vec<(u16, Id)>,
    facts: Vec<Fact>,
    stamp: u16,
    used: usize,
}

impl Store {
    fn new(bytes: usize) -> Store {
        let index = vec![(0, NONE); (bytes / HEAD).next_power_of_two()];
        let facts = vec![Fact::default(); (bytes / FACT * 4 / 3).next_power_of_two()];
        Store { index, facts, stamp: 1, ..Store::default() }
    }

    fn clear(&mut self) {
        self.rows.clear();
        self.records.clear();
        (self.used, self.stamp) = (0, self.stamp.wrapping_add(1));
        if self.stamp == 0 {
            self.index.fill((0, NONE));
            self.facts.fill(Fact::default());
            self.stamp = 1;
        }
    }

    fn rows(&self, state: Id) -> &[Row] {
        let record = self.records[state as usize];
        &self.rows[record.first as usize..(record.first + record.count) as usize]
    }

    /// The number of a state, or the place for it in the index.
    fn find(&self, rows: &[Row], hash: u64) -> Result<Id, usize> {
        let mask = self.index.len() - 1;
        let mut at = hash as usize & mask;
        while self.index[at].0 == self.stamp {
            let id = self.index[at].1;
            if self.records[id as usize].hash == hash && self.rows(id) == rows {
                return Ok(id);
            }
            at = (at + 1) & mask;
        }
        Err(at)
    }

    fn add(&mut self, rows: &[Row], hash: u64, at: usize, width: usize) -> Id {
        let id = self.records.len() as Id;
        self.index[at] = (self.stamp, id);
        self.records.push(Record { first: self.rows.len() as u32, count: rows.len() as u32, hash });
        self.rows.extend_from_slice(rows);
        self.used += HEAD + rows.len() * width;
        id
    }

    /// Where a fact stands, or would.
    fn place(&self, key: u32) -> usize {
        let mask = self.facts.len() - 1;
        let mut at = (key.wrapping_mul(0x9E37_79B9) >> 12) as usize & mask;
        while self.facts[at].stamp == self.stamp && self.facts[at].key != key {
            at = (at + 1) & mask;
        }
        at
    }

    fn put(&mut self, key: u32, value: u16, rank: u8) {
        let at = self.place(key);
        let before = self.facts[at];
        let known = before.stamp == self.stamp;
        if !known {
            self.used += FACT;
        }
        let rank = if known { rank.max(before.rank) } else { rank };
        self.facts[at] = Fact { key, value, rank, stamp: self.stamp };
    }
}

pub struct Memory {
    store: Store,
    spare: Store,
    /// Places of facts in the order of their ranks, the highest first.
    order: Vec<u32>,
    bytes: usize,
    width: usize,
    /// Whether anything has been forgotten.
    pub sifted: bool,
}

impl Memory {
    pub fn new(bytes: usize) -> Memory {
        assert!(bytes >= LEAST, "a memory of {bytes} bytes is too small");
        let order = Vec::new();
        Memory { store: Store::new(bytes), spare: Store::new(bytes), order, bytes, width: 0, sifted: false }
    }

    /// Forgets everything; a row of a state takes so many bytes from now on.
    pub fn begin(&mut self, width: usize) {
        self.store.clear();
        (self.width, self.sifted) = (width, false);
    }

    /// Makes room for a fact, and for so many states of so many rows together.
    pub fn room(&mut self, states: usize, rows: usize) {
        let wanted = FACT + states * HEAD + rows * self.width;
        if self.store.used + wanted > self.bytes {
            self.sift((self.bytes - wanted).min(self.bytes / 8 * 7));
        }
    }

    /// Forgets but for the facts of the highest ranks, of at most so many bytes. Those of rank 0 are all forgotten.
    #[cold]
    fn sift(&mut self, most: usize) {
        let Memory { store, spare, order, .. } = self;
        let rank = |at: u32| store.facts[at as usize].rank;
        let there = |at: &u32| store.facts[*at as usize].stamp == store.stamp && rank(*at) > 0;
        order.clear();
        order.extend((0..store.facts.len() as u32).filter(there));
        order.sort_unstable_by_key(|&at| Reverse(rank(at)));
        spare.clear();
        for &at in &*order {
            let Fact { key: old, value, rank, .. } = store.facts[at as usize];
            let (id, about) = ((old >> 16) as Id, old as u16);
            let (rows, hash) = (store.rows(id), store.records[id as usize].hash);
            if spare.used + FACT + HEAD + rows.len() * self.width <= most {
                let id = spare.find(rows, hash).unwrap_or_else(|at| spare.add(rows, hash, at, self.width));
                spare.put(key(id, about), value, rank);
            }
        }
        std::mem::swap(store, spare);
        self.sifted = true;
    }

    /// The number of a state that something is known of.
    pub fn find(&self, rows: &[Row], hash: u64) -> Option<Id> {
        self.store.find(rows, hash).ok()
    }

    /// The number of a state, a new one if nothing is known of it. There must be room for it.
    pub fn intern(&mut self, rows: &[Row], hash: u64) -> Id {
        let width = self.width;
        self.store.find(rows, hash).unwrap_or_else(|at| self.store.add(rows, hash, at, width))
    }

    pub fn rows(&self, state: Id) -> &[Row] {
        self.store.rows(state)
    }

    pub fn get(&self, state: Id, about: u16) -> Option<u16> {
        let fact = self.store.facts[self.store.place(key(state, about))];
        (fact.stamp == self.store.stamp).then_some(fact.value)
    }

    /// Learns a fact, for which there must be room.
    pub fn put(&mut self, state: Id, about: u16, value: u16, rank: u8) {
        self.store.put(key(state, about), value, rank);
        debug_assert!(self.store.used <= self.bytes);
    }
}

fn key(state: Id, about: u16) -> u32 {
    (state as u32) << 16 | about as u32
}

// There is room for two of the largest states and a fact.
const _: () = assert!(2 * (HEAD + MOST * 30) + FACT < LEAST);
