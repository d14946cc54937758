//! Calls and answers as lines of text: bytes in hexadecimal (`-` for none), numbers in decimal.
//!
//! A line may end with `result=N` and `work=N`, the lengths of the lent buffers; without them just enough is lent.

use std::fmt::{self, Display, Formatter};

use crate::call::{lent, Answer, Ask, Call, Outcome, Work};
use crate::calls::WORK_ROOM;

/// Reads a call from a line, or says what is wrong with the line.
pub fn call(line: &str) -> Result<Call, String> {
    let mut words: Vec<&str> = line.split_whitespace().collect();
    let work = length(&mut words, "work=")?;
    let result = length(&mut words, "result=")?;
    let mut words = words.into_iter();
    let name = words.next().ok_or("empty line")?;
    let mut words = Words { words, name };
    let pack = words.bytes("the pack")?;
    let ask = words.ask()?;
    if let Some(word) = words.words.next() {
        return Err(format!("{name}: '{word}' is more than it takes"));
    }
    let result = result.unwrap_or(ask.room());
    Ok(Call { pack, ask, result, work: work.unwrap_or(WORK_ROOM) })
}

/// Takes a last word such as `work=10` off.
fn length(words: &mut Vec<&str>, name: &str) -> Result<Option<usize>, String> {
    let Some(digits) = words.last().and_then(|word| word.strip_prefix(name)) else { return Ok(None) };
    words.pop();
    digits.parse().map(Some).map_err(|_| format!("{name}{digits}: not a length"))
}

struct Words<'a> {
    words: std::vec::IntoIter<&'a str>,
    name: &'a str,
}

impl Words<'_> {
    fn ask(&mut self) -> Result<Ask, String> {
        Ok(match self.name {
            "start" => Ask::Start,
            "query" => Ask::Query {
                chart: self.bytes("the chart")?,
                chain: self.bytes("the chain")?,
                fluent: self.number("the fluent")?,
            },
            "compare" => {
                Ask::Compare { first: self.bytes("the first chart")?, second: self.bytes("the second chart")? }
            }
            "step" => Ask::Step { chart: self.bytes("the chart")?, action: self.number("the action")? },
            "explained" => Ask::Explained {
                chart: self.bytes("the chart")?,
                character: self.number("the character")?,
                action: self.number("the action")?,
                foresight: self.number("the foresight limit K")?,
                nesting: self.number("the nesting limit E")?,
            },
            "search" => Ask::Search {
                story: self.number("the story limit T")?,
                foresight: self.number("the foresight limit K")?,
                nesting: self.number("the nesting limit E")?,
            },
            "ending" => Ask::Ending,
            name => {
                return Err(format!("'{name}' is no call: start, query, compare, step, explained, search or ending"))
            }
        })
    }

    fn word(&mut self, what: &str) -> Result<&str, String> {
        self.words.next().ok_or(format!("{}: {what} is missing", self.name))
    }

    fn number(&mut self, what: &str) -> Result<u64, String> {
        let word = self.word(what)?;
        word.parse().map_err(|_| format!("{what} '{word}' is not a number of 64 bits"))
    }

    fn bytes(&mut self, what: &str) -> Result<Vec<u8>, String> {
        let word = self.word(what)?;
        bytes(word).ok_or(format!("{what} '{word}' is not bytes in hexadecimal"))
    }
}

/// Bytes from hexadecimal digits, two a byte.
pub fn bytes(digits: &str) -> Option<Vec<u8>> {
    if digits == "-" {
        return Some(Vec::new());
    }
    if !digits.len().is_multiple_of(2) || !digits.bytes().all(|digit| digit.is_ascii_hexdigit()) {
        return None;
    }
    (0..digits.len() / 2).map(|i| u8::from_str_radix(&digits[2 * i..2 * i + 2], 16).ok()).collect()
}

/// Bytes as hexadecimal digits.
pub fn hex(bytes: &[u8]) -> String {
    if bytes.is_empty() {
        return "-".to_string();
    }
    bytes.iter().map(|byte| format!("{byte:02x}")).collect()
}

impl Display for Call {
    fn fmt(&self, f: &mut Formatter) -> fmt::Result {
        let pack = hex(&self.pack);
        match &self.ask {
            Ask::Start => write!(f, "start {pack}"),
            Ask::Query { chart, chain, fluent } => write!(f, "query {pack} {} {} {fluent}", hex(chart), hex(chain)),
            Ask::Compare { first, second } => write!(f, "compare {pack} {} {}", hex(first), hex(second)),
            Ask::Step { chart, action } => write!(f, "step {pack} {} {action}", hex(chart)),
            Ask::Explained { chart, character, action, foresight, nesting } => {
                write!(f, "explained {pack} {} {character} {action} {foresight} {nesting}", hex(chart))
            }
            Ask::Search { story, foresight, nesting } => write!(f, "search {pack} {story} {foresight} {nesting}"),
            Ask::Ending => write!(f, "ending {pack}"),
        }?;
        if self.result != self.ask.room() {
            write!(f, " result={}", self.result)?;
        }
        if self.work != WORK_ROOM {
            write!(f, " work={}", self.work)?;
        }
        Ok(())
    }
}

impl Display for Answer {
    fn fmt(&self, f: &mut Formatter) -> fmt::Result {
        let filled = |length: usize| hex(&self.result[..length.min(self.result.len())]);
        let mut changed = 0;
        match &self.outcome {
            Outcome::Length(length) => {
                changed = *length;
                write!(f, "chart {} of {length} bytes", filled(*length))
            }
            Outcome::Value(value) => write!(f, "value {value}"),
            Outcome::Same => write!(f, "same"),
            Outcome::Differs(found) => {
                changed = found.length;
                write!(f, "differ by chain {} of {} at fluent {}", filled(changed), found.length, found.fluent)
            }
            Outcome::Verdict(yes) => write!(f, "{}", if *yes { "yes" } else { "no" }),
            Outcome::Found(found) => {
                changed = found.length;
                let list = filled(changed);
                write!(f, "list {list} of {}, author {} {}", found.length, found.before, found.after)
            }
            Outcome::Text(text) => write!(f, "{}", text.trim_end_matches('\n').replace('\n', " / ")),
            Outcome::Refused(refusal) => write!(f, "refused {} at {}", refusal.number, refusal.place),
        }?;
        if self.result.get(changed..) != lent(self.result.len()).get(changed..) {
            write!(f, ", result buffer spoiled")?;
        }
        match self.work {
            Work::Unchanged => Ok(()),
            Work::Zeroed => write!(f, ", work zeroed"),
            Work::Spoiled => write!(f, ", work spoiled"),
        }
    }
}
