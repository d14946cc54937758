//! Who searches in the benchmark: the library, and the tuned engine without and with a limit of its memory. Each side
//! is run in a child of the benchmark's own program, which is killed if it takes too long.

use crate::cutoff::within;
use crate::library::Library;
use crate::seasons::{large, small, Case};
use reference::call::{lent, Ask, Call, Outcome};
use reference::implementation::{outcome, Implementation};
use reference::tuned::Engine;
use std::io::Result;
use std::process::Command;
use std::time::{Duration, Instant};

/// A case that takes a side longer is cut off.
pub const MOST_SECONDS: f64 = 5.0;
/// What the held engine may keep, in bytes.
pub const HELD: usize = 27 * 1_024;

pub const SIDES: [&str; 3] = ["library", "tuned", "held"];

/// What a child tells of a case.
pub struct Run {
    pub nanoseconds: f64,
    /// The library doesn't tell its steps.
    pub steps: u64,
    found: String,
}

/// What is asked of a child: the flag, the side, the table and the number of the case in it.
const FLAG: &str = "--one";

/// Answers where this program was started as a child, and says whether it was.
pub fn is_child(words: &[String]) -> bool {
    let [flag, side, table, case] = words else { return false };
    if flag == FLAG {
        one(side, &cases(table)[case.parse::<usize>().expect("a number")]);
    }
    flag == FLAG
}

fn cases(table: &str) -> Vec<Case> {
    match table {
        "small" => small(),
        _ => large(),
    }
}

/// Some sides' runs of a case of a table, each in a child, or nothing where it was cut off. Those that answer must find
/// the same.
pub fn children<const N: usize>(sides: [&str; N], table: &str, case: usize) -> Result<[Option<Run>; N]> {
    let mut runs = sides.map(|_| None);
    for (side, run) in sides.iter().zip(&mut runs) {
        let mut child = Command::new(std::env::current_exe()?);
        child.args([FLAG, side, table, &case.to_string()]);
        let said = within(&mut child, Duration::from_secs_f64(MOST_SECONDS))?;
        *run = said.map(|said| {
            let words: Vec<&str> = said.trim().splitn(3, ' ').collect();
            let number = |i: usize| words[i].parse::<u64>().expect("a number");
            Run { nanoseconds: number(0) as f64, steps: number(1), found: words[2].to_string() }
        });
    }
    let all: Vec<&String> = runs.iter().flatten().map(|run| &run.found).collect();
    assert!(all.iter().all(|found| *found == all[0]), "they differ: {all:?}");
    Ok(runs)
}

/// What was found, in a few words.
pub fn found(runs: &[Option<Run>]) -> String {
    let said = runs.iter().flatten().next().map_or("", |run| &run.found);
    said.split(':').next().unwrap_or("").to_string()
}

/// A side's run, told to the parent: nanoseconds, steps, what is found. Of up to five runs, as far as they fit into a
/// second, the middle one.
fn one(side: &str, case: &Case) {
    let calls = calls(case);
    let (mut library, mut engine) = (Library::new(), if side == "held" { Engine::held(HELD) } else { Engine::new() });
    let mut times = Vec::new();
    let begin = Instant::now();
    loop {
        let (before, mut steps) = (Instant::now(), 0);
        let search = |call| match side {
            "library" => answer(&mut library, call),
            _ => {
                let said = answer(&mut engine, call);
                steps += engine.steps();
                said
            }
        };
        let answers: Vec<Outcome> = calls.iter().map(search).collect();
        times.push(before.elapsed().as_nanos());
        if times.len() == 5 || begin.elapsed() > Duration::from_secs(1) {
            times.sort();
            return println!("{} {steps} {}", times[times.len() / 2], summary(&answers));
        }
    }
}

/// How many are found, or how long the one is; and all answers, to be held against the others'.
fn summary(answers: &[Outcome]) -> String {
    let short = match answers {
        [Outcome::Found(found)] => format!("{} actions", found.length),
        [_] => "none".to_string(),
        _ => format!("{} endings", answers.iter().filter(|said| matches!(said, Outcome::Found(_))).count()),
    };
    format!("{short}: {answers:?}")
}

/// The searches of a case.
pub fn calls(case: &Case) -> Vec<Call> {
    let (story, foresight, nesting) = case.limits;
    let ask = Ask::Search { story, foresight, nesting };
    case.packs.iter().map(|pack| Call::new(pack.clone(), ask.clone())).collect()
}

fn answer(by: &mut impl Implementation, call: &Call) -> Outcome {
    outcome(by, &call.ask, call.handed(), &mut lent(call.result), &mut lent(call.work))
}
