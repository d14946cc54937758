//! The plain second way: the calls once more by the definitions alone, without merging, numbering or remembering. It
//! shares the readers of packs and charts with the first way and nothing else, and gives up where it takes too long.

mod lists;
mod places;
mod walks;

use crate::call::{lent, Answer, Ask, Call, Outcome, Work};
use crate::calls::{Differs, Found, WORK_ROOM};
use crate::chart;
use crate::ending;
use crate::graph::Node;
use crate::pack::{self, Pack};
use crate::refusal::{without_place, Refusal, NO_ENDING, RANGE, SHORT};
use lists::{Lists, TooLong};
use places::Places;

/// The answer to a call, or nothing where this way takes too long.
pub fn answer(call: &Call) -> Option<Answer> {
    let mut result = lent(call.result);
    let outcome = match checked(call) {
        Err(refusal) if call.ask == Ask::Ending => {
            Outcome::Text(format!("refused {} at {}\n", refusal.number, refusal.place))
        }
        Err(refusal) => Outcome::Refused(refusal),
        Ok((pack, tables)) => {
            let (outcome, filled) = outcome(&call.ask, &pack, &tables).ok()?;
            result[..filled.len()].copy_from_slice(&filled);
            outcome
        }
    };
    let early = matches!(&outcome, Outcome::Refused(refusal) if refusal.number < 10 || refusal.number > 20);
    let unchanged = early || call.ask == Ask::Ending;
    Some(Answer { outcome, result, work: if unchanged { Work::Unchanged } else { Work::Zeroed } })
}

/// The pack and the tables of the charts, or the first refusal in document 01's order.
fn checked(call: &Call) -> Result<(Pack, Vec<Vec<Node>>), Refusal> {
    let pack = pack::read(&call.pack)?;
    let mut tables = Vec::new();
    for chart in charts(&call.ask) {
        tables.push(chart::table(&pack, chart)?);
    }
    let ending = call.ask == Ask::Ending;
    if !ending && (call.result < call.ask.room() || call.work < WORK_ROOM) {
        return Err(without_place(SHORT));
    }
    if !in_range(&call.ask, &pack) {
        return Err(without_place(RANGE));
    }
    Ok((pack, tables))
}

fn charts(ask: &Ask) -> Vec<&[u8]> {
    match ask {
        Ask::Query { chart, .. } | Ask::Step { chart, .. } | Ask::Explained { chart, .. } => vec![chart],
        Ask::Compare { first, second } => vec![first, second],
        Ask::Start | Ask::Search { .. } | Ask::Ending => vec![],
    }
}

fn in_range(ask: &Ask, pack: &Pack) -> bool {
    let characters = pack.characters as u64;
    let (fluents, actions) = (pack.domains.len() as u64, pack.actions.len() as u64);
    match ask {
        Ask::Start | Ask::Compare { .. } | Ask::Ending => true,
        Ask::Query { chain, fluent, .. } => *fluent < fluents && chain.iter().all(|&c| (c as u64) < characters),
        Ask::Step { action, .. } => *action < actions,
        Ask::Explained { character, action, foresight, nesting, .. } => {
            *character < characters && *action < actions && (1..=6).contains(foresight) && *nesting <= 3
        }
        Ask::Search { story, foresight, nesting } => {
            (1..=8).contains(story) && (1..=6).contains(foresight) && *nesting <= 3
        }
    }
}

/// The outcome and the bytes it fills.
fn outcome(ask: &Ask, pack: &Pack, tables: &[Vec<Node>]) -> Result<(Outcome, Vec<u8>), TooLong> {
    let no_bytes = |outcome| Ok((outcome, Vec::new()));
    let table = tables.first().unwrap_or(&pack.nodes);
    match ask {
        Ask::Start => written(Lists::new(Places::new(pack, table), 0), 0),
        Ask::Query { chain, fluent, .. } => {
            let end = chain.iter().fold(0, |node, &c| table[node].beliefs[c as usize]);
            no_bytes(Outcome::Value(table[end].values[*fluent as usize]))
        }
        Ask::Compare { .. } => Ok(compared(table, &tables[1])),
        Ask::Step { action, .. } => {
            let mut lists = Lists::new(Places::new(pack, table), 0);
            match lists.step(0, *action as usize)? {
                Ok(next) => written(lists, next),
                Err(number) => no_bytes(Outcome::Refused(without_place(number))),
            }
        }
        Ask::Explained { character, action, foresight, nesting, .. } => {
            let mut lists = Lists::new(Places::new(pack, table), *foresight as usize);
            let yes = lists.explained(*character as usize, *action as usize, 0, *nesting as usize)?;
            no_bytes(Outcome::Verdict(yes))
        }
        Ask::Search { story, foresight, nesting } => {
            searched(pack, *story as usize, *foresight as usize, *nesting as usize)
        }
        Ask::Ending => {
            let (outcome, list) = searched(pack, ending::STORY, ending::FORESIGHT, ending::NESTING)?;
            let mut lines: Vec<String> = list.iter().enumerate().map(|(i, a)| format!("{} {a}\n", i + 1)).collect();
            match outcome {
                Outcome::Found(found) => lines.push(format!("author {} {}\n", found.before, found.after)),
                _ => lines.push("refused 13 at 0\n".to_string()),
            }
            no_bytes(Outcome::Text(lines.concat()))
        }
    }
}

fn searched(pack: &Pack, story: usize, foresight: usize, nesting: usize) -> Result<(Outcome, Vec<u8>), TooLong> {
    let mut lists = Lists::new(Places::new(pack, &pack.nodes), foresight);
    let before = lists.places.utility(0, 0);
    Ok(match lists.search(0, story, nesting)? {
        Some((list, after)) => {
            let bytes: Vec<u8> = list.iter().map(|&action| action as u8).collect();
            (Outcome::Found(Found { length: list.len(), before, after }), bytes)
        }
        None => (Outcome::Refused(without_place(NO_ENDING)), Vec::new()),
    })
}

/// The chart of a place: each different state once, in the order in which the chains lead to them.
fn written(mut lists: Lists, place: usize) -> Result<(Outcome, Vec<u8>), TooLong> {
    let states = lists.different(place)?;
    let mut bytes = vec![states.len() as u8];
    for &state in &states {
        bytes.extend(&lists.places.values(state)[..]);
        for character in 0..lists.places.pack.characters {
            let believed = lists.places.belief(state, character);
            let number = states.iter().position(|&other| lists.places.same(other, believed)).unwrap();
            bytes.push(number as u8 + 1);
        }
    }
    Ok((Outcome::Length(bytes.len()), bytes))
}

/// Compares two tables by the length of chains. `differ[n][i][j]`: some chain of exactly n characters leads from nodes i
/// and j to different values. The least n for both nodes 0 is the length; the chain then goes where n - 1 is left.
fn compared(first: &[Node], second: &[Node]) -> (Outcome, Vec<u8>) {
    let mut differ = vec![pairs(first, second, |l, r| l.values != r.values)];
    let mut n = 0;
    while !differ[n][0][0] {
        if n == first.len() + second.len() {
            return (Outcome::Same, Vec::new());
        }
        let next = pairs(first, second, |l, r| (0..l.beliefs.len()).any(|c| differ[n][l.beliefs[c]][r.beliefs[c]]));
        differ.push(next);
        n += 1;
    }
    let (mut i, mut j) = (0, 0);
    let mut chain = Vec::new();
    for left in (0..n).rev() {
        let (l, r) = (&first[i].beliefs, &second[j].beliefs);
        let character = (0..l.len()).find(|&c| differ[left][l[c]][r[c]]).unwrap();
        (i, j) = (l[character], r[character]);
        chain.push(character as u8);
    }
    let fluent = (0..).find(|&fluent| first[i].values[fluent] != second[j].values[fluent]).unwrap();
    (Outcome::Differs(Differs { length: n, fluent }), chain)
}

fn pairs(first: &[Node], second: &[Node], differ: impl Fn(&Node, &Node) -> bool) -> Vec<Vec<bool>> {
    first.iter().map(|l| second.iter().map(|r| differ(l, r)).collect()).collect()
}
