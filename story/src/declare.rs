//! The names that a story gives to its characters and facts, and the checks on all names.

use crate::cursor::{Cursor, Phrase};
use crate::faults::{again, misread, too_many, unknown};
use crate::found::Found;
use crate::pack::{MOST_CHARACTERS, MOST_FACTS, MOST_VALUES};
use crate::problem::{Mistake, Problem, Read, Span};
use crate::sections::Section;
use crate::wanted::{Wanted, CHARACTER_NAME, FACT, FACT_COLON, NEXT_NAME, VALUE_NAME};
use crate::words::Line;

/// No character's name begins with one of these, for headings, conditions and lists of people do.
const NO_CHARACTERS: [&str; 9] =
    ["author", "everyone", "nobody", "always", "never", "what", "view", "action", "trigger"];

/// No fact's name begins with one of these.
const NO_FACTS: [&str; 4] = ["always", "never", "nothing", "everything"];

/// Names of one kind, in order, none of them twice.
pub struct Known {
    what: &'static str,
    most: (&'static str, usize),
    pub names: Vec<String>,
    pub spans: Vec<Span>,
    /// Whether one can't be a name here, so that it may be read as something else where it is used.
    pub misread: bool,
    /// Whether all could be read; else one that isn't known may be among the others.
    pub whole: bool,
}

impl Known {
    /// `what` is one of them, `most` says how many of them there may be.
    pub fn new(what: &'static str, most: (&'static str, usize)) -> Self {
        Known { what, most, names: Vec::new(), spans: Vec::new(), misread: false, whole: true }
    }

    /// A name that is one too many is known all the same.
    pub fn add(&mut self, name: Phrase) -> Result<(), Problem> {
        if let Some(before) = self.names.iter().position(|known| *known == name.text) {
            return Err(again(&format!("the {} '{}'", self.what, name.text), name.span, self.spans[before]));
        }
        self.names.push(name.text);
        self.spans.push(name.span);
        let (what, most) = self.most;
        if self.names.len() == most + 1 {
            return Err(too_many(name.span, what, most));
        }
        Ok(())
    }

    /// Where a name stands among them.
    pub fn find(&self, name: &Phrase) -> Read<usize> {
        match self.names.iter().position(|known| *known == name.text) {
            Some(place) => Ok(place),
            None if self.whole => Err(unknown(self.what, name, &self.names).into()),
            None => Err(Mistake::Follows),
        }
    }
}

/// `characters: Ada, Ben and Carl`
pub fn characters(section: Option<&Section>, found: &mut Found) -> Known {
    let mut known = Known::new("character", ("characters", MOST_CHARACTERS));
    for line in body(section, &mut known, CHARACTER_NAME, found) {
        let read = list(&mut Cursor::new(line), CHARACTER_NAME, |name| {
            let fit =
                refuse_word(&name, &NO_CHARACTERS).and_then(|()| refuse(&name, "the author", "the author hasn't"));
            known.misread |= fit.is_err();
            let added = known.add(name);
            found.problems.extend(fit.err().into_iter().chain(added.err()));
        });
        known.whole &= found.kept(line, read).is_some();
    }
    known
}

/// Facts and, for each of them, its values.
pub struct Facts {
    pub names: Known,
    pub values: Vec<Known>,
}

/// `facts:` and a line for each: `the letter: in the desk, in the drawer, burnt`
pub fn facts(section: Option<&Section>, found: &mut Found) -> Facts {
    let mut names = Known::new("fact", ("facts", MOST_FACTS));
    let mut values = Vec::new();
    for line in body(section, &mut names, FACT, found) {
        let cursor = &mut Cursor::new(line);
        let name = cursor.phrase(FACT);
        let Some(name) = found.kept(line, name) else {
            names.whole = false;
            continue;
        };
        let fit = refuse_word(&name, &NO_FACTS).and_then(|()| refuse(&name, "the rest", "isn't 'the rest'"));
        let added = names.add(name);
        found.problems.extend(fit.err().into_iter().chain(added.err()));
        let read = fact_values(cursor, line, found);
        if names.names.len() > values.len() {
            values.push(read);
        }
    }
    Facts { names, values }
}

/// A section's lines. If there is no section, or no line, the names aren't known.
fn body<'s, 'a>(
    section: Option<&'s Section<'a>>,
    known: &mut Known,
    wanted: Wanted,
    found: &mut Found,
) -> &'s [Line<'a>] {
    let Some(section) = section else {
        known.whole = false;
        return &[];
    };
    known.whole &= !section.cut;
    if section.body.is_empty() && !section.cut {
        known.whole = false;
        let end = Line { tokens: Vec::new(), ..section.heading.clone() };
        found.kept::<()>(&section.heading, Cursor::new(&end).expected(wanted));
    }
    &section.body
}

fn fact_values(cursor: &mut Cursor, line: &Line, found: &mut Found) -> Known {
    let mut values = Known::new("value", ("values of a fact", MOST_VALUES));
    let mut wrong = Vec::new();
    let read = if cursor.take_colon() {
        list(cursor, VALUE_NAME, |name| wrong.extend(value(&mut values, name).err()))
    } else {
        cursor.expected(FACT_COLON)
    };
    values.whole = found.kept(line, read).is_some() && wrong.is_empty();
    found.problems.extend(wrong);
    values
}

/// A value, or those that `0 to 5` stands for.
fn value(values: &mut Known, name: Phrase) -> Result<(), Problem> {
    if let Some(numbers) = range(&name)? {
        return numbers.into_iter().try_for_each(|text| values.add(Phrase { text, span: name.span }));
    }
    refuse_word(&name, &["not"])?;
    if format!("{} ", name.text).starts_with("at least ") {
        return Err(misread(&name, "doesn't begin with 'at least'"));
    }
    values.add(name)
}

/// The names that `0 to 5` stands for, if a name is such a range.
fn range(name: &Phrase) -> Result<Option<Vec<String>>, Problem> {
    let words: Vec<&str> = name.text.split(' ').collect();
    let [first, "to", last] = words[..] else { return Ok(None) };
    let (Ok(first), Ok(last)) = (first.parse::<u32>(), last.parse::<u32>()) else { return Ok(None) };
    if last < first {
        return Err(misread(name, "is a range that rises, such as '0 to 5'"));
    }
    if (last - first) as usize >= MOST_VALUES {
        return Err(too_many(name.span, "values of a fact", MOST_VALUES));
    }
    Ok(Some((first..=last).map(|number| number.to_string()).collect()))
}

/// Names with commas, `and` or `or` between them, to the end of the line.
fn list(cursor: &mut Cursor, wanted: Wanted, mut each: impl FnMut(Phrase)) -> Read<()> {
    loop {
        each(cursor.phrase(wanted)?);
        if cursor.is_done() {
            return Ok(());
        }
        if !cursor.take_next(&["and", "or"]) {
            return cursor.expected(NEXT_NAME);
        }
    }
}

/// Refuses a name whose first word is one of these.
pub fn refuse_word(name: &Phrase, words: &[&str]) -> Result<(), Problem> {
    let first = name.text.split(' ').next().unwrap_or_default();
    if words.contains(&first) {
        return Err(misread(name, &format!("doesn't begin with '{first}'")));
    }
    Ok(())
}

/// Refuses a name that means something else.
pub fn refuse(name: &Phrase, taken: &str, why: &str) -> Result<(), Problem> {
    if name.text == taken {
        return Err(misread(name, why));
    }
    Ok(())
}
