//! What is wrong with a text, or seldom meant: where, what, and what to write instead.

use std::fmt::{self, Display, Formatter};

/// A line and a column, both from 1; columns count characters.
#[derive(Clone, Copy, PartialEq, Eq, PartialOrd, Ord, Hash, Debug)]
pub struct Place {
    pub line: usize,
    pub column: usize,
}

impl Display for Place {
    fn fmt(&self, f: &mut Formatter) -> fmt::Result {
        write!(f, "{}:{}", self.line, self.column)
    }
}

/// Some characters of a line, at least one.
#[derive(Clone, Copy, PartialEq, Eq, Debug)]
pub struct Span {
    pub at: Place,
    pub width: usize,
}

impl Span {
    pub fn problem(self, message: impl Into<String>, help: impl Into<String>) -> Problem {
        Problem { at: self.at, width: self.width, message: message.into(), help: help.into() }
    }
}

/// An error or a warning.
#[derive(Clone, PartialEq, Eq, Debug)]
pub struct Problem {
    pub at: Place,
    /// How many characters are meant, at least one.
    pub width: usize,
    pub message: String,
    /// What to write.
    pub help: String,
}

impl Problem {
    /// The problem as it is told: `FILE:LINE:COL: error: ..`, the line, a caret under the place and a line of help.
    /// `kind` is `error` or `warning`, and `text` the file's text.
    pub fn show(&self, kind: &str, file: &str, text: &str) -> String {
        let Problem { at, width, message, help } = self;
        let text = text.strip_prefix('\u{FEFF}').unwrap_or(text);
        let line = text.lines().nth(at.line - 1).unwrap_or("");
        let tab = |sign: char| if sign == '\t' { '\t' } else { ' ' };
        let before: String = line.chars().chain(std::iter::repeat(' ')).take(at.column - 1).map(tab).collect();
        format!("{file}:{at}: {kind}: {message}\n{line}\n{before}{}\nhelp: {help}\n", "^".repeat(*width))
    }
}

/// Why something can't be read: a problem, or what only follows from one that is told already.
pub enum Mistake {
    Problem(Problem),
    Follows,
}

pub type Read<T> = Result<T, Mistake>;

impl From<Problem> for Mistake {
    fn from(problem: Problem) -> Mistake {
        Mistake::Problem(problem)
    }
}
