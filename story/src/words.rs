//! A text as lines of words, commas and colons, each with its place.

use crate::found::Found;
use crate::problem::{Place, Problem, Span};

#[derive(Clone, Copy, PartialEq, Eq, Debug)]
pub enum Sign<'a> {
    Word(&'a str),
    Comma,
    Colon,
}

impl<'a> Sign<'a> {
    pub fn text(self) -> &'a str {
        match self {
            Sign::Word(word) => word,
            Sign::Comma => ",",
            Sign::Colon => ":",
        }
    }
}

#[derive(Clone, Copy, Debug)]
pub struct Token<'a> {
    pub sign: Sign<'a>,
    pub at: Place,
}

impl Token<'_> {
    pub fn width(&self) -> usize {
        self.sign.text().chars().count()
    }
}

/// A line that says something. One that begins with `and` or `or` is part of the line before it.
#[derive(Clone, Debug)]
pub struct Line<'a> {
    pub tokens: Vec<Token<'a>>,
    /// The place after its last token.
    pub end: Place,
    /// It had a sign that belongs to nothing, which is told: what else seems wrong with it may come from that.
    pub broken: bool,
}

/// From the first to the last of some tokens, as far as they stand on one line.
pub fn span(tokens: &[Token]) -> Option<Span> {
    let at = tokens.first()?.at;
    let last = tokens.iter().take_while(|token| token.at.line == at.line).last()?;
    Some(Span { at, width: last.at.column + last.width() - at.column })
}

/// The lines of a text that have more than a remark. The last place is given too.
pub fn lines<'a>(text: &'a str, found: &mut Found) -> (Vec<Line<'a>>, Span) {
    let text = text.strip_prefix('\u{FEFF}').unwrap_or(text);
    let mut lines: Vec<Line> = Vec::new();
    let mut last = Place { line: 1, column: 1 };
    for (i, source) in text.lines().enumerate() {
        let line = line(source, i + 1, found);
        last = Place { line: i + 1, column: 1 + source.chars().count() };
        let goes_on = matches!(line.tokens.first(), Some(Token { sign: Sign::Word("and" | "or"), .. }));
        match lines.last_mut() {
            Some(before) if goes_on => {
                before.tokens.extend(line.tokens);
                before.end = line.end;
                before.broken |= line.broken;
            }
            _ if line.tokens.is_empty() => {}
            _ => lines.push(line),
        }
    }
    (lines, Span { at: last, width: 1 })
}

fn line<'a>(source: &'a str, number: usize, found: &mut Found) -> Line<'a> {
    let at = Place { line: number, column: 1 };
    let mut line = Line { tokens: Vec::new(), end: at, broken: false };
    let mut rest = source;
    let mut at = at;
    while let Some(first) = rest.chars().next().filter(|&first| first != '#') {
        let (length, sign) = match first {
            ',' => (1, Some(Sign::Comma)),
            ':' => (1, Some(Sign::Colon)),
            _ if in_name(first) => {
                let length = rest.find(|sign| !in_name(sign)).unwrap_or(rest.len());
                (length, Some(Sign::Word(&rest[..length])))
            }
            _ => (first.len_utf8(), None),
        };
        if sign.is_none() && !first.is_whitespace() && !line.broken {
            line.broken = true;
            found.problems.push(stray(first, at));
        }
        let begin = at;
        at.column += rest[..length].chars().count();
        rest = &rest[length..];
        if let Some(sign) = sign {
            line.tokens.push(Token { sign, at: begin });
            line.end = at;
        }
    }
    line
}

/// What words are made of.
fn in_name(sign: char) -> bool {
    sign.is_alphanumeric() || matches!(sign, '-' | '_' | '.' | '\'' | '’' | '!' | '?')
}

fn stray(sign: char, at: Place) -> Problem {
    let help =
        "write names with letters, digits and - _ . ' ! ?; a comma, a colon and '#' before a remark may stand besides";
    Span { at, width: 1 }.problem(format!("{sign:?} is no sign of this form"), help)
}

/// Bytes as text, or the place in each line that is none.
pub fn text(bytes: &[u8]) -> Result<&str, Vec<Problem>> {
    std::str::from_utf8(bytes).map_err(|_| {
        let lines = bytes.split(|&byte| byte == b'\n').enumerate();
        lines
            .filter_map(|(i, line)| Some(no_text(i + 1, line, std::str::from_utf8(line).err()?.valid_up_to())))
            .collect()
    })
}

fn no_text(line: usize, bytes: &[u8], valid: usize) -> Problem {
    let column = 1 + String::from_utf8_lossy(&bytes[..valid]).chars().count();
    Span { at: Place { line, column }, width: 1 }.problem("this is no text in UTF-8", "save the file as UTF-8")
}
