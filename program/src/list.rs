//! Lists of actions, by number or by title. Titles may have commas, so a list is cut at all of them and put together
//! again.

use std::cmp::Reverse;

use crate::said::Refused;

/// The actions of a list. Of titles that begin alike the longest is taken that leaves a list.
pub fn actions(titles: &[String], list: &str) -> Result<Vec<usize>, Refused> {
    if list.trim().is_empty() {
        return Ok(Vec::new());
    }
    let list = pieces(list);
    let titles: Vec<Vec<String>> = titles.iter().map(|title| pieces(title)).collect();
    // From the end: the action that comes next at each place from which a list goes on to the end.
    let mut next: Vec<Option<(usize, usize)>> = vec![None; list.len()];
    for at in (0..list.len()).rev() {
        let fits = candidates(&titles, &list[at..]);
        next[at] = fits.into_iter().find(|&(length, _)| at + length == list.len() || next[at + length].is_some());
    }
    let mut found = Vec::new();
    let mut at = 0;
    while at < list.len() {
        let (length, action) = next[at].ok_or_else(|| unknown(&titles, &list))?;
        found.push(action);
        at += length;
    }
    Ok(found)
}

/// What stands between commas, its words one space apart.
fn pieces(text: &str) -> Vec<String> {
    text.split(',').map(|piece| piece.split_whitespace().collect::<Vec<_>>().join(" ")).collect()
}

/// The actions that a list may begin with, each with its number of pieces, the longest first. Digits are a number.
fn candidates(titles: &[Vec<String>], list: &[String]) -> Vec<(usize, usize)> {
    if let Some(number) = number(&list[0]) {
        return (number < titles.len()).then_some((1, number)).into_iter().collect();
    }
    let fitting = titles.iter().enumerate().filter(|(_, title)| list.starts_with(title));
    let mut found: Vec<(usize, usize)> = fitting.map(|(action, title)| (title.len(), action)).collect();
    found.sort_by_key(|&(length, _)| Reverse(length));
    found
}

fn number(piece: &str) -> Option<usize> {
    piece.parse().ok().filter(|_| piece.bytes().all(|byte| byte.is_ascii_digit()))
}

/// The refusal of a list, with the first piece at which no action begins.
fn unknown(titles: &[Vec<String>], list: &[String]) -> Refused {
    let mut rest = list;
    while let Some(&(length, _)) = candidates(titles, rest).first().filter(|(length, _)| *length < rest.len()) {
        rest = &rest[length..];
    }
    let known = titles.iter().enumerate().map(|(i, title)| format!("\n  {i}  {}", title.join(", ")));
    Refused::new(format!("there is no action '{}'. The actions are{}", rest[0], known.collect::<String>()))
}
