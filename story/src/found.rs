//! What the reading of a text has found so far.

use crate::problem::{Mistake, Problem, Read};
use crate::source::Source;
use crate::words::Line;

#[derive(Default)]
pub struct Found {
    pub problems: Vec<Problem>,
    pub warnings: Vec<Problem>,
    pub source: Source,
}

impl Found {
    /// What was read; else its mistake is kept, unless it only follows from another.
    pub fn kept<T>(&mut self, line: &Line, read: Read<T>) -> Option<T> {
        match read {
            Ok(read) => return Some(read),
            Err(Mistake::Problem(problem)) if !line.broken => self.problems.push(problem),
            Err(_) => {}
        }
        None
    }
}
