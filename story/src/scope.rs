//! What names mean in a story, and the reading of conditions and effects.

use crate::cursor::Cursor;
use crate::declare::{Facts, Known};
use crate::faults::too_many;
use crate::pack::{Condition, Effect, How, Test, LONGEST_CHAIN, MOST_ALTERNATIVES, MOST_TESTS};
use crate::problem::{Read, Span};
use crate::wanted::{IS, SUBJECT, VALUE};

/// The characters and facts that there are.
pub struct Scope {
    pub characters: Known,
    pub facts: Facts,
}

/// A condition, where it stands, and where its alternatives and their tests do.
#[derive(Clone)]
pub struct Placed {
    pub condition: Condition,
    pub at: Span,
    pub alternatives: Vec<(Span, Vec<Span>)>,
}

impl Placed {
    pub fn always(at: Span) -> Placed {
        Placed { condition: Condition::always(), at, alternatives: vec![(at, Vec::new())] }
    }

    pub fn never(at: Span) -> Placed {
        Placed { condition: Condition::never(), at, alternatives: Vec::new() }
    }
}

impl Scope {
    /// One of the fact's values.
    pub fn value(&self, fact: usize, cursor: &mut Cursor) -> Read<usize> {
        self.facts.values[fact].find(&cursor.phrase(VALUE)?)
    }

    /// Alternatives with `or` between them, or `never`.
    pub fn condition(&self, cursor: &mut Cursor) -> Read<Placed> {
        let begin = cursor.clone();
        let mut placed = Placed::never(cursor.here());
        if cursor.take("never") {
            return Ok(placed);
        }
        loop {
            room(placed.alternatives.len(), "alternatives of a condition", MOST_ALTERNATIVES, cursor)?;
            let at = cursor.here();
            let (tests, spans) = self.alternative(cursor)?;
            placed.condition.alternatives.push(tests);
            placed.alternatives.push((at, spans));
            placed.at = cursor.since(&begin);
            if !cursor.take_joint("or") {
                return Ok(placed);
            }
        }
    }

    /// Tests with `and` between them, or `always`.
    fn alternative(&self, cursor: &mut Cursor) -> Read<(Vec<Test>, Vec<Span>)> {
        let (mut tests, mut spans) = (Vec::new(), Vec::new());
        if cursor.take("always") {
            return Ok((tests, spans));
        }
        loop {
            room(tests.len(), "tests joined by 'and'", MOST_TESTS, cursor)?;
            let begin = cursor.clone();
            tests.push(self.test(cursor)?);
            spans.push(cursor.since(&begin));
            if !cursor.take_joint("and") {
                return Ok((tests, spans));
            }
        }
    }

    /// `Ada believes Ben believes the letter is not burnt`
    fn test(&self, cursor: &mut Cursor) -> Read<Test> {
        let (chain, fluent) = self.subject(cursor, LONGEST_CHAIN, "beliefs one in another")?;
        let how = if cursor.take("not") {
            How::IsNot
        } else if cursor.take("at least") {
            How::AtLeast
        } else {
            How::Is
        };
        let value = self.value(fluent, cursor)?;
        Ok(Test { chain, how, fluent, value })
    }

    /// `the letter is burnt` or `Ben believes the letter is burnt`
    pub fn effect(&self, cursor: &mut Cursor) -> Read<Effect> {
        let (chain, fluent) = self.subject(cursor, 1, "belief in an effect")?;
        let value = self.value(fluent, cursor)?;
        Ok(Effect { whom: chain.first().copied(), fluent, value })
    }

    /// Whose belief, as a chain, and which fact; up to the word `is`.
    fn subject(&self, cursor: &mut Cursor, most: usize, what: &'static str) -> Read<(Vec<usize>, usize)> {
        let mut chain = Vec::new();
        loop {
            let name = cursor.phrase(SUBJECT)?;
            if cursor.take_is() {
                return Ok((chain, self.facts.names.find(&name)?));
            }
            if !cursor.take("believes") {
                return cursor.expected(IS);
            }
            if chain.len() == most {
                return Err(too_many(name.span, what, most).into());
            }
            chain.push(self.characters.find(&name)?);
        }
    }
}

/// Refuses one more than there is room for.
pub fn room(count: usize, what: &'static str, most: usize, cursor: &Cursor) -> Read<()> {
    if count == most {
        return Err(too_many(cursor.here(), what, most).into());
    }
    Ok(())
}
