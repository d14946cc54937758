//! Who sees an action, and when. Every character is spoken of: by name, or as one of everyone or nobody.

use crate::cursor::Cursor;
use crate::faults::{again, joined, none_left, not_all};
use crate::found::Found;
use crate::happenings::unsaid;
use crate::problem::{Problem, Read, Span};
use crate::scope::{Placed, Scope};
use crate::sections::Section;
use crate::wanted::CHARACTER;

pub struct Sight {
    /// By character, when it sees the action.
    named: Vec<Option<Placed>>,
    others: Option<Others>,
    /// A line couldn't be read, so that whoever seems to be left out may be named there.
    unread: bool,
}

/// `everyone`, `everyone else`, `nobody` or `nobody else`.
struct Others {
    at: Span,
    seen: Placed,
    word: &'static str,
    /// Whether it speaks of all, so that none may be named besides.
    of_all: bool,
}

impl Sight {
    pub fn new(scope: &Scope) -> Sight {
        Sight { named: vec![None; scope.characters.names.len()], others: None, unread: false }
    }

    /// Who, and `if` when.
    pub fn line(&mut self, scope: &Scope, cursor: &mut Cursor) -> Read<()> {
        let read = self.seen_by(scope, cursor);
        self.unread |= read.is_err();
        read
    }

    fn seen_by(&mut self, scope: &Scope, cursor: &mut Cursor) -> Read<()> {
        let begin = cursor.clone();
        for word in ["everyone", "nobody"] {
            if cursor.take(word) {
                let of_all = !cursor.take("else");
                let at = cursor.since(&begin);
                let seen = if word == "nobody" { Placed::never(at) } else { when(scope, cursor, at)? };
                return self.others(Others { at, seen, word, of_all });
            }
        }
        let people = characters(scope, cursor)?;
        let seen = when(scope, cursor, begin.here())?;
        for (character, at) in people {
            if let Some(before) = &self.named[character] {
                let what = format!("whether '{}' sees it", scope.characters.names[character]);
                return Err(again(&what, at, before.at).into());
            }
            self.named[character] = Some(Placed { at, ..seen.clone() });
        }
        Ok(())
    }

    fn others(&mut self, others: Others) -> Read<()> {
        if let Some(before) = &self.others {
            return Err(again("whether the others see it", others.at, before.at).into());
        }
        self.others = Some(others);
        Ok(())
    }

    /// Whoever is spoken of nowhere.
    pub fn blank(&self, scope: &Scope, section: &Section) -> Option<Problem> {
        let blank = (0..self.named.len()).filter(|&character| self.named[character].is_none());
        let names: Vec<&str> = blank.map(|character| scope.characters.names[character].as_str()).collect();
        let first = names.first().filter(|_| self.others.is_none() && !self.unread)?;
        let quoted: Vec<String> = names.iter().map(|name| format!("'{name}'")).collect();
        let rest = if names.len() == self.named.len() { "" } else { " else" };
        let verb = if names.len() > 1 { "see" } else { "sees" };
        let what = format!("whether {} {verb} it", joined(&quoted, "and"));
        let seen = format!("'seen by {first}', 'seen by {first} if …', 'seen by nobody{rest}'");
        let help = format!("write {seen} or 'seen by everyone{rest}'");
        Some(unsaid(section, &what, &help))
    }

    /// `everyone` or `nobody` although some are named, `else` although none are left.
    pub fn check(&self, scope: &Scope, found: &mut Found) {
        let Some(Others { at, word, of_all, .. }) = &self.others else { return };
        let named = self.named.iter().zip(&scope.characters.names);
        let first = named.into_iter().find_map(|(seen, name)| Some((name.as_str(), seen.as_ref()?.at)));
        match first {
            Some(first) if *of_all => found.problems.push(not_all(*at, first, &format!("seen by {word} else"))),
            _ if self.named.iter().all(Option::is_some) => found.warnings.push(none_left(*at)),
            _ => {}
        }
    }

    /// When each character sees it, unless one is left out.
    pub fn observations(&self) -> Option<Vec<Placed>> {
        let others = self.others.as_ref().map(|others| &others.seen);
        self.named.iter().map(|named| named.as_ref().or(others).cloned()).collect()
    }
}

/// `if …`, or always.
fn when(scope: &Scope, cursor: &mut Cursor, at: Span) -> Read<Placed> {
    if cursor.take("if") {
        return scope.condition(cursor);
    }
    Ok(Placed::always(at))
}

/// Characters with commas or `and` between them, none of them twice, each with its place.
pub fn characters(scope: &Scope, cursor: &mut Cursor) -> Read<Vec<(usize, Span)>> {
    let mut found: Vec<(usize, Span)> = Vec::new();
    loop {
        let name = cursor.phrase(CHARACTER)?;
        let character = scope.characters.find(&name)?;
        if let Some((_, before)) = found.iter().find(|&&(known, _)| known == character) {
            return Err(again(&format!("'{}'", name.text), name.span, *before).into());
        }
        found.push((character, name.span));
        if !cursor.take_next(&["and"]) {
            return Ok(found);
        }
    }
}
