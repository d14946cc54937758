//! Step from table to table without allocation.
//!
//! The rows of a new graph are described by keys, numbered breadth first through a table of all keys. In part 1 there
//! are at most 225 of them: the old rows (32), the root, and for each belief of an acting row (32 times 6) one. After
//! a round it is at most 193.

use super::rules::{Rules, Span};
use super::table::{Fresh, Row, Table, MOST, MOST_FRESH};
use crate::refusal::{CONDITION, ROUNDS, STATES};

const UNMET: u8 = 255;
const KEYS: usize = 4_096;
const QUIET: u8 = 255;

/// What Step writes to, kept from step to step.
pub struct Stepper {
    fresh: Fresh,
    /// The number of each key met, else `UNMET`.
    number: Box<[u8; KEYS]>,
    keys: [u16; MOST_FRESH],
    /// For each row the trigger that fires, else `QUIET`.
    fired: [u8; MOST],
    spare: Table,
}

impl Stepper {
    pub fn new() -> Stepper {
        Stepper {
            fresh: Fresh::new(),
            number: Box::new([UNMET; KEYS]),
            keys: [0; MOST_FRESH],
            fired: [QUIET; MOST],
            spare: Table::new(),
        }
    }

    /// The state that a row of any table means.
    pub fn state(&mut self, rules: &Rules, rows: &[Row], root: usize, result: &mut Table) {
        self.fresh.reach(rows, root, rules.characters);
        let few = self.fresh.merge(rules.characters, result);
        debug_assert!(few);
    }

    /// The belief of a state, which needs no merging.
    pub fn belief(&mut self, rules: &Rules, rows: &[Row], character: usize, result: &mut Table) {
        self.fresh.reach(rows, rows[0].belief(character), rules.characters);
        result.copy(&self.fresh.rows[..self.fresh.count]);
    }

    /// The state that an action leaves, or 10, 11 or 12.
    pub fn step(&mut self, rules: &Rules, state: &Table, action: usize, result: &mut Table) -> Result<(), u8> {
        if !rules.holds(rules.actions[action].condition, &state.rows, 0) {
            return Err(CONDITION);
        }
        self.act(rules, state, action);
        if !self.fresh.merge(rules.characters, result) {
            return Err(STATES);
        }
        if rules.triggers.is_empty() {
            Ok(())
        } else {
            self.settle(rules, result)
        }
    }

    /// The number of a key, a new one at the end if it wasn't met.
    #[inline(always)]
    fn meet(&mut self, key: usize) -> u8 {
        let number = &mut self.number[key % KEYS];
        if *number == UNMET {
            *number = self.fresh.count as u8;
            self.keys[self.fresh.count] = key as u16;
            self.fresh.count += 1;
        }
        *number
    }

    fn begin(&mut self, root: usize) {
        self.fresh.count = 0;
        self.meet(root);
    }

    /// Makes all keys unmet again.
    fn forget(&mut self) {
        for &key in &self.keys[..self.fresh.count] {
            self.number[key as usize] = UNMET;
        }
    }

    /// Part 1. A key: the old row, 32 if it acts, 64 times the character + 1 whose belief it is if it is written.
    fn act(&mut self, rules: &Rules, state: &Table, action: usize) {
        let action = &rules.actions[action];
        let mut seen = [UNMET; MOST];
        self.begin(32);
        let mut done = 0;
        while done < self.fresh.count {
            let key = self.keys[done] as usize;
            let (node, acts, written) = (key & 31, key & 32 != 0, key >> 6);
            let mut row = state.rows[node];
            if acts {
                rules.write(action.effects.writes[0], &mut row);
                if seen[node] == UNMET {
                    seen[node] = observers(rules, &action.observations, state, node);
                }
            }
            if written > 0 {
                rules.write(action.effects.writes[written], &mut row);
            }
            let (seen, tells) = if acts { (seen[node], action.effects.tells) } else { (0, 0) };
            for character in 0..rules.characters {
                let observes = (seen >> character & 1) as usize;
                let told = (tells >> character & 1) as usize;
                let next = state.rows[node].belief(character);
                row.believe(character, self.meet(next | observes << 5 | (told * (character + 1)) << 6));
            }
            self.fresh.rows[done] = row;
            done += 1;
        }
        self.forget();
    }

    /// Rounds until no trigger holds; `state` becomes what they leave.
    fn settle(&mut self, rules: &Rules, state: &mut Table) -> Result<(), u8> {
        for rounds in 0.. {
            let (fires, tells) = self.judge(rules, state);
            if !fires {
                return Ok(());
            }
            if rounds == 16 {
                return Err(ROUNDS);
            }
            if tells {
                self.round_with_tales(rules, state)
            } else {
                self.round(rules, state)
            }
            if !self.fresh.merge(rules.characters, &mut self.spare) {
                return Err(STATES);
            }
            state.copy(self.spare.rows());
        }
        unreachable!()
    }

    /// Finds the trigger that fires at each row: whether any does, and whether any of them tells a belief.
    fn judge(&mut self, rules: &Rules, state: &Table) -> (bool, bool) {
        let (mut fires, mut tells) = (false, false);
        for row in 0..state.count {
            self.fired[row] = QUIET;
            for (i, trigger) in rules.triggers.iter().enumerate() {
                if rules.holds(trigger.condition, &state.rows, row) {
                    self.fired[row] = i as u8;
                    (fires, tells) = (true, tells | (trigger.effects.tells != 0));
                    break;
                }
            }
        }
        (fires, tells)
    }

    /// A round in which nobody is told anything: the rows stay where they are.
    fn round(&mut self, rules: &Rules, state: &Table) {
        self.fresh.count = state.count;
        for node in 0..state.count {
            let mut row = state.rows[node];
            if self.fired[node] != QUIET {
                rules.write(rules.triggers[self.fired[node] as usize].effects.writes[0], &mut row);
            }
            self.fresh.rows[node] = row;
        }
    }

    /// Any round. A key: the old row, 32 times the character + 1 whose belief it is if it is written, and 256 times the
    /// trigger that writes it.
    fn round_with_tales(&mut self, rules: &Rules, state: &Table) {
        self.begin(0);
        let mut done = 0;
        while done < self.fresh.count {
            let key = self.keys[done] as usize;
            let (node, written, teller) = (key & 31, key >> 5 & 7, key >> 8);
            let mut row = state.rows[node];
            let mut tells = 0;
            let fired = self.fired[node] as usize;
            if self.fired[node] != QUIET {
                rules.write(rules.triggers[fired].effects.writes[0], &mut row);
                tells = rules.triggers[fired].effects.tells;
            }
            if written > 0 {
                rules.write(rules.triggers[teller].effects.writes[written], &mut row);
            }
            for character in 0..rules.characters {
                let next = state.rows[node].belief(character);
                let told = tells >> character & 1 == 1;
                let key = if told { next | (character + 1) << 5 | fired << 8 } else { next };
                row.believe(character, self.meet(key));
            }
            self.fresh.rows[done] = row;
            done += 1;
        }
        self.forget();
    }
}

/// The characters that observe an action in the state at a row, as bits.
fn observers(rules: &Rules, observations: &[Span; 6], state: &Table, row: usize) -> u8 {
    (0..rules.characters)
        .fold(0, |seen, character| seen | (rules.holds(observations[character], &state.rows, row) as u8) << character)
}
