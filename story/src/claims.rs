//! What a view's section says, claim by claim: of facts, of beliefs, and of all that it doesn't name.

use crate::cursor::{Cursor, Phrase};
use crate::faults::{again, unknown};
use crate::found::Found;
use crate::problem::{Mistake, Read};
use crate::views::{Sections, Told};
use crate::wanted::{IS, NEXT_CLAIM, OWN_SECTION, SUBJECT};
use crate::words::Line;

/// What a claim is about.
enum About {
    Fact(usize),
    Character(usize),
    Rest { of_all: bool },
    Others { of_all: bool },
}

impl Sections<'_> {
    /// Which view is meant; `this` is the one at hand.
    fn view(&self, this: usize, cursor: &mut Cursor) -> Read<usize> {
        if cursor.take("this") {
            return Ok(this);
        }
        let begin = cursor.clone();
        let label = self.named(cursor)?;
        if matches!(cursor.word(), Some("is" | "are")) {
            return cursor.expected(OWN_SECTION);
        }
        let place = self.said.iter().position(|said| said.label.as_ref() == Some(&label));
        place.ok_or_else(|| {
            if !self.whole {
                return Mistake::Follows;
            }
            let name = Phrase { text: label.text(&self.scope.characters.names), span: cursor.since(&begin) };
            let known: Vec<String> = (0..self.said.len()).map(|view| self.name(view)).collect();
            let mut problem = unknown("view", &name, &known);
            problem.help += &format!(", or a section '{}:'", label.heading(&self.scope.characters.names));
            problem.into()
        })
    }

    /// Claims with commas or `and` between them, to the end of the line. What is wrong with one is told, and the next
    /// is read if it is clear where it begins.
    pub fn claims(&mut self, view: usize, line: &Line, found: &mut Found) {
        let cursor = &mut Cursor::new(line);
        loop {
            let read = self.claim(view, cursor);
            let read = found.kept(line, read);
            if cursor.is_done() {
                return;
            }
            if !cursor.take_next(&["and"]) {
                if read.is_some() {
                    found.kept::<()>(line, cursor.expected(NEXT_CLAIM));
                }
                self.said[view].unread = true;
                return;
            }
        }
    }

    /// `the letter is burnt`, `Ada believes the truth`, or a short form for the others.
    fn claim(&mut self, view: usize, cursor: &mut Cursor) -> Read<()> {
        let begin = cursor.clone();
        let about = match self.about(view, cursor) {
            Ok(about) => about,
            Err(mistake) => {
                self.said[view].unread = true;
                return Err(mistake);
            }
        };
        let read = match about {
            About::Fact(fact) => self.scope.value(fact, cursor),
            _ => self.view(view, cursor),
        };
        let of_all = matches!(about, About::Rest { of_all: true } | About::Others { of_all: true });
        let told = Told { what: read.as_ref().ok().copied(), at: cursor.since(&begin), of_all };
        let said = &mut self.said[view];
        let place = match about {
            About::Fact(fact) => &mut said.values[fact],
            About::Character(character) => &mut said.beliefs[character],
            About::Rest { .. } => &mut said.rest,
            About::Others { .. } => &mut said.others,
        };
        if let Some(before) = *place {
            return Err(again(&self.words(about), told.at, before.at).into());
        }
        *place = Some(told);
        read.map(|_| ())
    }

    fn words(&self, about: About) -> String {
        match about {
            About::Fact(fact) => format!("what '{}' is", self.scope.facts.names.names[fact]),
            About::Character(character) => format!("what '{}' believes", self.scope.characters.names[character]),
            About::Rest { .. } => "what the rest is as in".to_string(),
            About::Others { .. } => "what everyone else believes".to_string(),
        }
    }

    /// What a claim is about, up to what it says of it.
    fn about(&mut self, view: usize, cursor: &mut Cursor) -> Read<About> {
        for (words, of_all) in [("the rest is as in", false), ("everything is as in", true)] {
            if cursor.take(words) {
                return Ok(About::Rest { of_all });
            }
        }
        for (words, of_all) in [("everyone else believes", false), ("everyone believes", true)] {
            if cursor.take(words) {
                return Ok(About::Others { of_all });
            }
        }
        let name = cursor.phrase(SUBJECT)?;
        let plural = cursor.word() == Some("are");
        if cursor.take_is() {
            let fact = self.scope.facts.names.find(&name)?;
            self.said[view].plural[fact] = plural;
            return Ok(About::Fact(fact));
        }
        if !cursor.take("believes") {
            return cursor.expected(IS);
        }
        Ok(About::Character(self.scope.characters.find(&name)?))
    }
}
