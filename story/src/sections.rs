//! A text cut into its sections: a heading with a colon, and the lines under it.

use crate::cursor::{Cursor, Phrase};
use crate::faults::again;
use crate::found::Found;
use crate::problem::{Problem, Read, Span};
use crate::wanted::{HEADING, TITLE};
use crate::words::{span, Line, Sign};

#[derive(Clone, Copy, PartialEq, Eq, Debug)]
pub enum Kind {
    Characters,
    Facts,
    Truth,
    /// `what A believes B believes`
    Believed,
    View,
    Action,
    Trigger,
    Wants,
}

pub struct Section<'a> {
    pub kind: Kind,
    /// Its heading, without the colon.
    pub span: Span,
    pub heading: Line<'a>,
    pub body: Vec<Line<'a>>,
    /// What follows can't be read, so that what seems to be blank may be said there.
    pub cut: bool,
}

pub struct Text<'a> {
    pub sections: Vec<Section<'a>>,
    /// The place after its last line.
    pub end: Span,
    /// A heading couldn't be read, so that what seems to be missing may stand under it.
    pub lost: bool,
}

/// Cuts lines into sections. What stands after a heading's colon is the first line under it. Lines behind a heading
/// that can't be read are left out up to the next one.
pub fn sections<'a>((lines, end): (Vec<Line<'a>>, Span), found: &mut Found) -> Text<'a> {
    let mut text = Text { sections: Vec::new(), end, lost: false };
    let mut skipping = false;
    for line in lines {
        if let Some((kind, colon)) = heading(&line) {
            text.sections.push(opened(kind, line, colon));
            skipping = false;
            continue;
        }
        match text.sections.last_mut() {
            Some(section) if !skipping && !seems_heading(&line, section.kind == Kind::Facts) => section.body.push(line),
            _ if skipping && !seems_heading(&line, false) => {}
            section => {
                section.into_iter().filter(|_| !skipping).for_each(Section::end_unclearly);
                found.kept::<()>(&line, Cursor::new(&line).expected(HEADING));
                text.lost = true;
                skipping = true;
            }
        }
    }
    text
}

fn opened(kind: Kind, mut line: Line<'_>, colon: usize) -> Section<'_> {
    let rest = Line { tokens: line.tokens.split_off(colon + 1), ..line };
    let end = line.tokens.pop().map_or(line.end, |token| token.at);
    let heading = Line { end, ..line };
    let span = span(&heading.tokens).unwrap_or(Span { at: end, width: 1 });
    let body = if rest.tokens.is_empty() { Vec::new() } else { vec![rest] };
    Section { kind, span, heading, body, cut: false }
}

/// Whether a line has a colon and stands where headings do, at the beginning of a line. Facts have something behind
/// their colon.
fn seems_heading(line: &Line, among_facts: bool) -> bool {
    let first = line.tokens.first().is_some_and(|token| token.at.column == 1);
    let colon = line.tokens.iter().position(|token| token.sign == Sign::Colon);
    first && colon.is_some_and(|colon| !among_facts || colon + 1 == line.tokens.len())
}

/// Which heading a line is, and where its colon stands.
fn heading(line: &Line) -> Option<(Kind, usize)> {
    let colon = line.tokens.iter().position(|token| token.sign == Sign::Colon)?;
    let words: Vec<&str> = line.tokens[..colon].iter().map(|token| token.sign.text()).collect();
    let kind = match words[..] {
        ["characters"] => Kind::Characters,
        ["facts"] => Kind::Facts,
        ["the", "truth"] => Kind::Truth,
        ["what", ..] => Kind::Believed,
        ["view", ..] => Kind::View,
        ["action", ..] => Kind::Action,
        ["trigger", ..] => Kind::Trigger,
        [.., "wants"] => Kind::Wants,
        _ => return None,
    };
    Some((kind, colon))
}

impl Section<'_> {
    /// Something at the beginning of a line follows that is no heading. It is no line of this section if these stand
    /// further to the right.
    fn end_unclearly(&mut self) {
        let last = self.body.last().and_then(|line| line.tokens.first());
        self.cut = last.is_none_or(|token| token.at.column == 1);
    }

    /// The heading as it stands, but for its spaces.
    pub fn words(&self) -> String {
        let words: Vec<&str> = self.heading.tokens.iter().map(|token| token.sign.text()).collect();
        words.join(" ").replace(" ,", ",")
    }

    /// The title after the heading's first word.
    pub fn title(&self) -> Read<Phrase> {
        let mut cursor = Cursor::new(&self.heading);
        cursor.any_word(TITLE)?;
        cursor.sentence(TITLE)
    }
}

impl<'a> Text<'a> {
    pub fn of(&self, kind: Kind) -> impl Iterator<Item = &Section<'a>> {
        self.sections.iter().filter(move |section| section.kind == kind)
    }

    /// The one section of a kind. That there is none, or a second one, is told.
    pub fn only(&self, kind: Kind, name: &str, found: &mut Found) -> Option<&Section<'a>> {
        let mut all = self.of(kind);
        let first = all.next();
        match first {
            Some(first) => {
                found.problems.extend(all.map(|second| again(&format!("'{name}:'"), second.span, first.span)))
            }
            None if !self.lost => found.problems.push(self.missing(name)),
            None => {}
        }
        first
    }

    fn missing(&self, name: &str) -> Problem {
        self.end.problem(format!("the story has no section '{name}:'"), format!("write a section '{name}:'"))
    }
}
