//! Reads numbers and tables. The checks are those of `number` and `pack`, each made so that what is in order is quick.

use super::rules::Rules;
use super::table::Row;
use crate::refusal::{Refusal, ABSENT, AFTER, BLANK, ENDS, FORM, IN_CHART, LIMIT};

/// A fault was met; the reader has the refusal. So a number read fits a register.
pub struct Fault;

pub type Read<T> = Result<T, Fault>;

pub struct Reader<'a> {
    pub bytes: &'a [u8],
    pub at: usize,
    /// Where the number read last begins.
    pub place: usize,
    added: u8,
    pub refusal: Refusal,
}

impl<'a> Reader<'a> {
    pub fn new(bytes: &'a [u8], added: u8) -> Self {
        Reader { bytes, at: 0, place: 0, added, refusal: Refusal { number: 0, place: 0 } }
    }

    #[cold]
    pub fn refuse<T>(&mut self, number: u8, place: usize) -> Read<T> {
        self.refusal = Refusal { number: number + self.added, place };
        Err(Fault)
    }

    /// Nearly all numbers are one byte.
    #[inline(always)]
    pub fn number(&mut self) -> Read<usize> {
        self.place = self.at;
        match self.bytes.get(self.at) {
            Some(&byte) if byte < 0x80 => {
                self.at += 1;
                Ok(byte as usize)
            }
            _ => self.long_number(),
        }
    }

    #[cold]
    fn long_number(&mut self) -> Read<usize> {
        let rest = &self.bytes[self.at..];
        let length = rest.iter().take(3).take_while(|&&byte| byte >= 0x80).count();
        if length == 3 {
            return self.refuse(FORM, self.place);
        }
        let Some(&last) = rest.get(length) else { return self.refuse(ENDS, self.bytes.len()) };
        let low = rest[..length].iter().rev().fold(0, |sum, &byte| sum << 7 | (byte & 0x7F) as usize);
        let value = (last as usize) << (7 * length) | low;
        if last == 0 || value > 65_535 {
            return self.refuse(FORM, self.place);
        }
        self.at += length + 1;
        Ok(value)
    }

    #[inline(always)]
    pub fn within(&mut self, least: usize, most: usize) -> Read<usize> {
        let value = self.number()?;
        if value < least || value > most {
            self.refuse(LIMIT, self.place)
        } else {
            Ok(value)
        }
    }

    #[inline(always)]
    pub fn one_of(&mut self, count: usize) -> Read<usize> {
        let value = self.number()?;
        if value >= count {
            self.refuse(ABSENT, self.place)
        } else {
            Ok(value)
        }
    }

    pub fn end(&mut self) -> Read<()> {
        if self.at < self.bytes.len() {
            self.refuse(AFTER, self.at)
        } else {
            Ok(())
        }
    }

    /// The node part: rows as they stand.
    pub fn nodes(&mut self, rules: &Rules, rows: &mut Vec<Row>) -> Read<()> {
        let count = self.within(1, 32)?;
        rows.clear();
        for _ in 0..count {
            let mut row = Row::default();
            for fluent in 0..rules.fluents {
                row.set(fluent as u8, self.one_of(rules.domains[fluent] as usize)? as u8);
            }
            for character in 0..rules.characters {
                let number = self.number()?;
                if number == 0 {
                    return self.refuse(BLANK, self.place);
                }
                if number > count {
                    return self.refuse(ABSENT, self.place);
                }
                row.believe(character, number as u8 - 1);
            }
            rows.push(row);
        }
        Ok(())
    }
}

/// Reads a chart's table.
pub fn chart(rules: &Rules, bytes: &[u8], rows: &mut Vec<Row>) -> Result<(), Refusal> {
    let mut reader = Reader::new(bytes, IN_CHART);
    let read = reader.nodes(rules, rows).and_then(|()| reader.end());
    read.map_err(|Fault| reader.refusal)
}
