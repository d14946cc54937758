//! The program `ending`: a pack in, lines of text out.

use crate::calls::search_pack;
use crate::pack;
use crate::refusal::Refusal;

pub const STORY: usize = 4;
pub const FORESIGHT: usize = 3;
pub const NESTING: usize = 2;

/// What the program prints for a pack.
pub fn ending(bytes: &[u8]) -> String {
    let found = pack::read(bytes).and_then(|pack| search_pack(&pack, STORY, FORESIGHT, NESTING));
    lines(found.as_ref().map(|ending| (&ending.actions[..], ending.before, ending.after)).map_err(|refusal| *refusal))
}

/// A line for each action with its place from 1, then the author's utility before and after; or the refusal.
pub fn lines<A: std::fmt::Display>(found: Result<(&[A], usize, usize), Refusal>) -> String {
    let (actions, before, after) = match found {
        Ok(found) => found,
        Err(Refusal { number, place }) => return format!("refused {number} at {place}\n"),
    };
    let mut lines = String::new();
    for (i, action) in actions.iter().enumerate() {
        lines += &format!("{} {action}\n", i + 1);
    }
    lines + &format!("author {before} {after}\n")
}
