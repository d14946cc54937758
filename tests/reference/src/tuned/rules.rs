//! The pack as flat lists: conditions as ranges of tests of eight bytes each, effects sorted by whom they are for.

use super::table::{Row, MOST};

/// A range in one of the lists.
#[derive(Clone, Copy, Default)]
pub struct Span {
    pub first: u16,
    pub end: u16,
}

impl Span {
    #[inline(always)]
    pub fn of<T>(self, list: &[T]) -> &[T] {
        &list[self.first as usize..self.end as usize]
    }

    pub fn is_empty(self) -> bool {
        self.first == self.end
    }
}

/// A test: the value found less `low` is at most `width`, or above it where `not` is set.
#[derive(Clone, Copy)]
pub struct Test {
    pub chain: [u8; 4],
    /// The chain's length, and `NOT` for "is not".
    pub length: u8,
    pub fluent: u8,
    pub low: u8,
    pub width: u8,
}

pub const NOT: u8 = 0x80;

#[derive(Clone, Copy, Default)]
pub struct Write {
    pub fluent: u8,
    pub value: u8,
}

/// Effects by whom: the state's own first, then for each character's belief.
#[derive(Clone, Copy, Default)]
pub struct Effects {
    pub writes: [Span; 7],
    /// The characters whose beliefs are written, as bits.
    pub tells: u8,
}

#[derive(Clone, Copy, Default)]
pub struct Action {
    pub condition: Span,
    pub effects: Effects,
    /// As bits.
    pub consenters: u8,
    pub observations: [Span; 6],
}

#[derive(Clone, Copy, Default)]
pub struct Trigger {
    pub condition: Span,
    pub effects: Effects,
}

#[derive(Clone, Copy, Default)]
pub struct Rule {
    pub condition: Span,
    pub worth: u32,
}

#[derive(Default)]
pub struct Rules {
    pub characters: usize,
    pub fluents: usize,
    pub domains: [u8; 24],
    pub start: Vec<Row>,
    pub tests: Vec<Test>,
    pub alternatives: Vec<Span>,
    pub writes: Vec<Write>,
    pub actions: Vec<Action>,
    pub triggers: Vec<Trigger>,
    pub rules: Vec<Rule>,
    pub utilities: [Span; 7],
    /// The fluents that some trigger writes in the state itself, as bits.
    pub moved: u32,
}

impl Rules {
    /// Whether a condition holds at a row.
    #[inline]
    pub fn holds(&self, condition: Span, rows: &[Row; MOST], row: usize) -> bool {
        for tests in condition.of(&self.alternatives) {
            if tests.of(&self.tests).iter().all(|test| test.passes(rows, row)) {
                return true;
            }
        }
        false
    }

    #[inline(always)]
    pub fn write(&self, writes: Span, row: &mut Row) {
        for write in writes.of(&self.writes) {
            row.set(write.fluent, write.value);
        }
    }

    /// The utility of `who` (0 the author) in a state.
    pub fn utility(&self, who: usize, rows: &[Row; MOST]) -> u32 {
        let rules = self.utilities[who].of(&self.rules);
        rules.iter().find(|rule| self.holds(rule.condition, rows, 0)).map_or(0, |rule| rule.worth)
    }

    /// Whether a rule above some worth could hold in a state whose own values were these before the triggers. What
    /// triggers may write and what others believe is left open.
    pub fn could_exceed(&self, who: usize, above: u32, row: &Row) -> bool {
        let open = |test: &Test| test.length & 7 > 0 || self.moved >> test.fluent & 1 == 1 || test.accepts(row);
        let mut higher = self.utilities[who].of(&self.rules).iter().filter(|rule| rule.worth > above);
        higher.any(|rule| {
            let mut alternatives = rule.condition.of(&self.alternatives).iter();
            alternatives.any(|tests| tests.of(&self.tests).iter().all(open))
        })
    }
}

impl Test {
    #[inline(always)]
    fn passes(&self, rows: &[Row; MOST], row: usize) -> bool {
        let mut at = row;
        for i in 0..(self.length & 7) as usize {
            at = rows[at & 31].belief(self.chain[i & 3] as usize);
        }
        self.accepts(&rows[at & 31])
    }

    #[inline(always)]
    fn accepts(&self, row: &Row) -> bool {
        let within = row.value(self.fluent).wrapping_sub(self.low) <= self.width;
        within != (self.length & NOT != 0)
    }
}
