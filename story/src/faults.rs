//! The problems that are met in more than one place, in words.

use crate::cursor::Phrase;
use crate::problem::{Problem, Span};

/// A name that nothing has.
pub fn unknown(what: &str, name: &Phrase, known: &[String]) -> Problem {
    let near = known.iter().min_by_key(|known| distance(known, &name.text));
    let near = near.filter(|near| 3 * distance(near, &name.text) <= name.text.chars().count());
    let help = match near {
        Some(near) => format!("write '{near}'"),
        None => format!("write {}", one_of(known)),
    };
    name.span.problem(format!("there is no {what} '{}'", name.text), help)
}

/// Said for a second time.
pub fn again(what: &str, span: Span, before: Span) -> Problem {
    span.problem(format!("said again: {what}"), format!("say it once; it is said in line {} too", before.at.line))
}

/// A name that would be misread where it is used. `why` says what a name must be like.
pub fn misread(name: &Phrase, why: &str) -> Problem {
    name.span.problem(format!("'{}' can't be a name here", name.text), format!("choose a name that {why}"))
}

/// More than a pack has room for.
pub fn too_many(span: Span, what: &str, most: usize) -> Problem {
    span.problem(format!("there may be at most {most} {what}, and this is one more"), "leave one out")
}

/// A statement about all, although one is named.
pub fn not_all(span: Span, (name, named): (&str, Span), instead: &str) -> Problem {
    let message = format!("this is said of all, and '{name}' is named in line {}", named.at.line);
    span.problem(message, format!("write '{instead}'"))
}

/// A statement about those who are left, although none are.
pub fn none_left(span: Span) -> Problem {
    span.problem("this is said of what is left, and nothing is left", "leave it out")
}

/// The names there are, or the first few of them.
pub fn one_of(known: &[String]) -> String {
    const SHOWN: usize = 8;
    let quoted: Vec<String> = known.iter().take(SHOWN).map(|name| format!("'{name}'")).collect();
    if known.len() > SHOWN {
        return quoted.join(", ") + " and so on";
    }
    joined(&quoted, "or")
}

/// `a, b and c`, with another word for `and`.
pub fn joined(all: &[String], joint: &str) -> String {
    match all.split_last() {
        Some((last, others)) if !others.is_empty() => format!("{} {joint} {last}", others.join(", ")),
        _ => all.concat(),
    }
}

/// How many letters are to be changed, taken out or put in to make one word the other.
fn distance(one: &str, other: &str) -> usize {
    let other: Vec<char> = other.chars().collect();
    let mut row: Vec<usize> = (0..=other.len()).collect();
    for (i, sign) in one.chars().enumerate() {
        let mut corner = std::mem::replace(&mut row[0], i + 1);
        for (j, &against) in other.iter().enumerate() {
            let changed = corner + (sign != against) as usize;
            corner = row[j + 1];
            row[j + 1] = changed.min(row[j] + 1).min(corner + 1);
        }
    }
    row[other.len()]
}
