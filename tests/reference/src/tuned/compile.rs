//! Reads a pack into flat lists that are kept from call to call.

use super::reader::{Fault, Read, Reader};
use super::rules::{Action, Effects, Rule, Rules, Span, Test, Trigger, Write, NOT};
use crate::pack::LONGEST_PACK;
use crate::refusal::{Refusal, LIMIT, ORDER};

/// Reads a pack into lists that are emptied first.
pub fn pack(rules: &mut Rules, bytes: &[u8]) -> Result<(), Refusal> {
    if bytes.len() > LONGEST_PACK {
        return Err(Refusal { number: LIMIT, place: 0 });
    }
    let mut reader = Reader::new(bytes, 0);
    whole(rules, &mut reader).map_err(|Fault| reader.refusal)
}

fn whole(rules: &mut Rules, reader: &mut Reader) -> Read<()> {
    rules.clear();
    reader.within(1, 1)?;
    rules.characters = reader.within(1, 6)?;
    rules.fluents = reader.within(1, 24)?;
    for fluent in 0..rules.fluents {
        rules.domains[fluent] = reader.within(1, 128)? as u8;
    }
    let mut start = std::mem::take(&mut rules.start);
    let read = reader.nodes(rules, &mut start);
    rules.start = start;
    read?;
    for _ in 0..reader.within(0, 32)? {
        let action = rules.read_action(reader)?;
        rules.actions.push(action);
    }
    for _ in 0..reader.within(0, 16)? {
        let trigger = Trigger { condition: rules.read_condition(reader)?, effects: rules.read_effects(reader)? };
        for write in trigger.effects.writes[0].of(&rules.writes) {
            rules.moved |= 1 << write.fluent;
        }
        rules.triggers.push(trigger);
    }
    for who in 0..=rules.characters {
        let first = rules.rules.len() as u16;
        for _ in 0..reader.within(0, 8)? {
            let rule = Rule { condition: rules.read_condition(reader)?, worth: reader.number()? as u32 };
            rules.rules.push(rule);
        }
        rules.utilities[who] = Span { first, end: rules.rules.len() as u16 };
    }
    reader.end()
}

impl Rules {
    fn clear(&mut self) {
        self.tests.clear();
        self.alternatives.clear();
        self.writes.clear();
        self.actions.clear();
        self.triggers.clear();
        self.rules.clear();
        self.moved = 0;
    }

    fn read_action(&mut self, reader: &mut Reader) -> Read<Action> {
        let condition = self.read_condition(reader)?;
        let effects = self.read_effects(reader)?;
        let mut action = Action { condition, effects, ..Action::default() };
        let mut least = 0;
        for _ in 0..reader.within(0, 6)? {
            let consenter = reader.one_of(self.characters)?;
            if consenter < least {
                return reader.refuse(ORDER, reader.place);
            }
            least = consenter + 1;
            action.consenters |= 1 << consenter;
        }
        for character in 0..self.characters {
            action.observations[character] = self.read_condition(reader)?;
        }
        Ok(action)
    }

    fn read_condition(&mut self, reader: &mut Reader) -> Read<Span> {
        let first = self.alternatives.len() as u16;
        for _ in 0..reader.within(0, 8)? {
            let first = self.tests.len() as u16;
            for _ in 0..reader.within(0, 8)? {
                let test = self.read_test(reader)?;
                self.tests.push(test);
            }
            self.alternatives.push(Span { first, end: self.tests.len() as u16 });
        }
        Ok(Span { first, end: self.alternatives.len() as u16 })
    }

    /// A test. Where all its numbers are in range at once, they are one byte each; else it is read number by number to
    /// find the fault.
    #[inline]
    fn read_test(&mut self, reader: &mut Reader) -> Read<Test> {
        if let Some(test) = self.good_test(&reader.bytes[reader.at..]) {
            reader.at += 4 + (test.length & 7) as usize;
            return Ok(test);
        }
        let length = reader.within(0, 4)?;
        for _ in 0..length {
            reader.one_of(self.characters)?;
        }
        reader.one_of(3)?;
        let fluent = reader.one_of(self.fluents)?;
        reader.one_of(self.domains[fluent] as usize)?;
        unreachable!("a test without fault was read at once")
    }

    #[inline(always)]
    fn good_test(&self, bytes: &[u8]) -> Option<Test> {
        let length = *bytes.first()?;
        if length > 4 {
            return None;
        }
        let bytes = bytes.get(1..4 + length as usize)?;
        let (links, rest) = bytes.split_at(length as usize);
        let mut chain = [0; 4];
        for (link, &character) in chain.iter_mut().zip(links) {
            if character as usize >= self.characters {
                return None;
            }
            *link = character;
        }
        let (kind, fluent, low) = (rest[0], rest[1], rest[2]);
        if kind > 2 || fluent as usize >= self.fluents || low >= self.domains[fluent as usize] {
            return None;
        }
        let not = if kind == 1 { NOT } else { 0 };
        let width = if kind == 2 { 127 - low } else { 0 };
        Some(Test { chain, length: length | not, fluent, low, width })
    }

    /// Effects, sorted by whom; among those for one target the order stays.
    fn read_effects(&mut self, reader: &mut Reader) -> Read<Effects> {
        let count = reader.within(0, 16)?;
        let mut whom = [0; 16];
        let mut writes = [Write::default(); 16];
        for i in 0..count {
            whom[i] = reader.one_of(self.characters + 1)?;
            let fluent = reader.one_of(self.fluents)?;
            let value = reader.one_of(self.domains[fluent] as usize)?;
            writes[i] = Write { fluent: fluent as u8, value: value as u8 };
        }
        let mut effects = Effects::default();
        for target in 0..=self.characters {
            let first = self.writes.len() as u16;
            self.writes.extend((0..count).filter(|&i| whom[i] == target).map(|i| writes[i]));
            let span = Span { first, end: self.writes.len() as u16 };
            effects.writes[target] = span;
            if target > 0 && !span.is_empty() {
                effects.tells |= 1 << (target - 1);
            }
        }
        Ok(effects)
    }
}
