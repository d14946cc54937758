//! Packs and charts decoded from bytes, to be printed. The proved library is the judge of packs: here bytes that can't
//! be printed are told by the place of the first number at fault, and no more.

use std::fmt::{self, Display, Formatter};

use crate::pack::*;

/// Bytes that are no pack, or no chart under it: the place of the number at fault.
#[derive(Clone, Copy, PartialEq, Eq, Debug)]
pub struct Unreadable {
    pub place: usize,
}

impl Display for Unreadable {
    fn fmt(&self, f: &mut Formatter) -> fmt::Result {
        write!(f, "the bytes can't be read at {}", self.place)
    }
}

impl std::error::Error for Unreadable {}

type Read<T> = Result<T, Unreadable>;

/// A whole pack.
pub fn pack(bytes: &[u8]) -> Read<Pack> {
    if bytes.len() > LONGEST_PACK {
        return Err(Unreadable { place: 0 });
    }
    let mut from = Bytes { bytes, at: 0 };
    from.within(1, 1)?;
    let characters = from.within(1, MOST_CHARACTERS)?;
    let facts = from.within(1, MOST_FACTS)?;
    let domains = times(facts, || from.within(1, MOST_VALUES))?;
    let nodes = from.nodes(characters, &domains)?;
    let mut body = Body { from: &mut from, characters, domains: &domains };
    let actions = body.several(MOST_ACTIONS, Body::action)?;
    let triggers = body.several(MOST_TRIGGERS, Body::trigger)?;
    let utilities = times(1 + characters, || body.several(MOST_RULES, Body::rule))?;
    from.end()?;
    Ok(Pack { characters, domains, nodes, actions, triggers, utilities })
}

/// A chart under a pack: its views.
pub fn chart(pack: &Pack, bytes: &[u8]) -> Read<Vec<Node>> {
    let mut from = Bytes { bytes, at: 0 };
    let nodes = from.nodes(pack.characters, &pack.domains)?;
    from.end()?;
    Ok(nodes)
}

/// Hands out number after number.
struct Bytes<'b> {
    bytes: &'b [u8],
    at: usize,
}

impl Bytes<'_> {
    /// A number from `least` to `most`.
    fn within(&mut self, least: usize, most: usize) -> Read<usize> {
        let place = self.at;
        let number = self.number()?;
        if number < least || number > most {
            return Err(Unreadable { place });
        }
        Ok(number)
    }

    fn below(&mut self, count: usize) -> Read<usize> {
        self.within(0, count - 1)
    }

    /// The next number, in its shortest form of at most three bytes.
    fn number(&mut self) -> Read<usize> {
        let wrong = Unreadable { place: self.at };
        let mut number = 0;
        for i in 0..3 {
            let byte = *self.bytes.get(self.at + i).ok_or(Unreadable { place: self.bytes.len() })?;
            number += ((byte & 0x7F) as usize) << (7 * i);
            if byte < 0x80 {
                let shortest = i == 0 || byte != 0;
                self.at += i + 1;
                return if shortest && number <= MOST_WORTH { Ok(number) } else { Err(wrong) };
            }
        }
        Err(wrong)
    }

    fn nodes(&mut self, characters: usize, domains: &[usize]) -> Read<Vec<Node>> {
        let count = self.within(1, MOST_VIEWS)?;
        times(count, || {
            let values = domains.iter().map(|&size| self.below(size)).collect::<Read<_>>()?;
            let beliefs = times(characters, || Ok(self.within(1, count)? - 1))?;
            Ok(Node { values, beliefs })
        })
    }

    fn end(&self) -> Read<()> {
        if self.at < self.bytes.len() {
            return Err(Unreadable { place: self.at });
        }
        Ok(())
    }
}

fn times<T>(count: usize, mut read: impl FnMut() -> Read<T>) -> Read<Vec<T>> {
    (0..count).map(|_| read()).collect()
}

/// What follows the views, with what its numbers may be.
struct Body<'f, 'b> {
    from: &'f mut Bytes<'b>,
    characters: usize,
    domains: &'f [usize],
}

impl Body<'_, '_> {
    /// A count, then as many things.
    fn several<T>(&mut self, most: usize, read: fn(&mut Self) -> Read<T>) -> Read<Vec<T>> {
        let count = self.from.within(0, most)?;
        times(count, || read(self))
    }

    fn action(&mut self) -> Read<Action> {
        Ok(Action {
            condition: self.condition()?,
            effects: self.several(MOST_EFFECTS, Body::effect)?,
            consenters: self.consenters()?,
            observations: times(self.characters, || self.condition())?,
        })
    }

    fn trigger(&mut self) -> Read<Trigger> {
        Ok(Trigger { condition: self.condition()?, effects: self.several(MOST_EFFECTS, Body::effect)? })
    }

    fn rule(&mut self) -> Read<Rule> {
        Ok(Rule { condition: self.condition()?, worth: self.from.number()? })
    }

    fn condition(&mut self) -> Read<Condition> {
        let alternatives = self.several(MOST_ALTERNATIVES, |body| body.several(MOST_TESTS, Body::test))?;
        Ok(Condition { alternatives })
    }

    fn test(&mut self) -> Read<Test> {
        let length = self.from.within(0, LONGEST_CHAIN)?;
        let chain = times(length, || self.from.below(self.characters))?;
        let how = [How::Is, How::IsNot, How::AtLeast][self.from.below(3)?];
        let (fluent, value) = self.claim()?;
        Ok(Test { chain, how, fluent, value })
    }

    fn effect(&mut self) -> Read<Effect> {
        let whom = self.from.below(self.characters + 1)?.checked_sub(1);
        let (fluent, value) = self.claim()?;
        Ok(Effect { whom, fluent, value })
    }

    fn claim(&mut self) -> Read<(usize, usize)> {
        let fluent = self.from.below(self.domains.len())?;
        Ok((fluent, self.from.below(self.domains[fluent])?))
    }

    /// Rising.
    fn consenters(&mut self) -> Read<Vec<usize>> {
        let count = self.from.within(0, MOST_CHARACTERS)?;
        let mut least = 0;
        times(count, || {
            let consenter = self.from.within(least, self.characters - 1)?;
            least = consenter + 1;
            Ok(consenter)
        })
    }
}
