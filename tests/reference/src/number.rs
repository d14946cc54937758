//! Numbers as packs and charts write them: groups of seven bits, lowest first, the top bit set on all but the last.
//!
//! One number has its faults tested in the order 1, 2, 3, 5, 4, 6. The first two are about its form and are found by
//! `next`; the others depend on what the number stands for and are found by the function that reads such a number.

use crate::refusal::{Refusal, ABSENT, AFTER, BLANK, ENDS, FORM, LIMIT, ORDER};

const LONGEST: usize = 3;
const GREATEST: usize = 65_535;

/// Hands out number after number of the lent bytes.
pub struct Numbers<'a> {
    bytes: &'a [u8],
    at: usize,
    added: u8,
}

/// A number and the place of its first byte.
struct Number {
    value: usize,
    place: usize,
}

impl<'a> Numbers<'a> {
    /// `added` is 0 for a pack and 20 for a chart: what its refusals' numbers have more.
    pub fn new(bytes: &'a [u8], added: u8) -> Self {
        Numbers { bytes, at: 0, added }
    }

    fn refuse<T>(&self, number: u8, place: usize) -> Result<T, Refusal> {
        Err(Refusal { number: number + self.added, place })
    }

    /// The next number. Three bytes with the top bit set are one too long (2), fewer that meet the end are cut off (1).
    fn next(&mut self) -> Result<Number, Refusal> {
        let place = self.at;
        let mut value = 0;
        for i in 0..LONGEST {
            let Some(&byte) = self.bytes.get(place + i) else {
                return self.refuse(ENDS, self.bytes.len());
            };
            value += ((byte & 0x7F) as usize) << (7 * i);
            if byte < 0x80 {
                let shortest = i == 0 || byte != 0;
                if !shortest || value > GREATEST {
                    return self.refuse(FORM, place);
                }
                self.at = place + i + 1;
                return Ok(Number { value, place });
            }
        }
        self.refuse(FORM, place)
    }

    /// Any number, such as a worth.
    pub fn any(&mut self) -> Result<usize, Refusal> {
        Ok(self.next()?.value)
    }

    /// A version, count, domain size or chain length, with its limits.
    pub fn within(&mut self, least: usize, most: usize) -> Result<usize, Refusal> {
        let Number { value, place } = self.next()?;
        if value < least || value > most {
            return self.refuse(LIMIT, place);
        }
        Ok(value)
    }

    /// A character, fluent, value, whom or kind, of which there are `count`.
    pub fn one_of(&mut self, count: usize) -> Result<usize, Refusal> {
        let Number { value, place } = self.next()?;
        if value >= count {
            return self.refuse(ABSENT, place);
        }
        Ok(value)
    }

    /// A believed node, written plus 1. A 0 is a blank.
    pub fn belief(&mut self, nodes: usize) -> Result<usize, Refusal> {
        let Number { value, place } = self.next()?;
        if value == 0 {
            return self.refuse(BLANK, place);
        }
        if value > nodes {
            return self.refuse(ABSENT, place);
        }
        Ok(value - 1)
    }

    /// A consenter: a character above the one before it.
    pub fn consenter(&mut self, characters: usize, before: Option<usize>) -> Result<usize, Refusal> {
        let place = self.at;
        let value = self.one_of(characters)?;
        if before.is_some_and(|before| value <= before) {
            return self.refuse(ORDER, place);
        }
        Ok(value)
    }

    /// Nothing may follow. What follows isn't read as a number.
    pub fn end(&self) -> Result<(), Refusal> {
        if self.at < self.bytes.len() {
            return self.refuse(AFTER, self.at);
        }
        Ok(())
    }
}
