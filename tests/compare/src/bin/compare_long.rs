//! `compare_long N [SEED [apart]]`: the proved library and the tuned engine on the calls of N seeds from SEED (0) on. What was
//! met of each call is printed, and as the last line `N calls, D differences, V violations`; the exit status is 1 where one
//! of the last two isn't 0. With `apart` all that is lent lies apart and not between margins, for a run under valgrind.

use compare::library::Library;
use compare::long::{run, Lending, KINDS};
use std::process::ExitCode;
use std::time::Instant;

/// A line is printed after each so many calls.
const PROGRESS: u64 = 100_000;

fn main() -> ExitCode {
    let words: Vec<String> = std::env::args().skip(1).collect();
    let Some((seeds, first, lending)) = asked(&words) else {
        eprintln!("compare_long N [SEED [apart]]: N calls, drawn from SEED (0) on");
        return ExitCode::from(2);
    };
    // What breaks a rule is counted and told by the run.
    std::panic::set_hook(Box::new(|_| ()));
    let begun = Instant::now();
    let count = run(&mut Library::new(), lending, seeds, first, |count| {
        if count.calls.is_multiple_of(PROGRESS) {
            println!("{count}, {} seconds", begun.elapsed().as_secs());
        }
    });
    for (kind, met) in KINDS.iter().zip(&count.met) {
        println!("{kind}: {met}");
    }
    println!("{count}");
    ExitCode::from((count.differences + count.violations > 0) as u8)
}

fn asked(words: &[String]) -> Option<(u64, u64, Lending)> {
    let lending = match words.get(2).map(String::as_str) {
        None => Lending::Together,
        Some("apart") => Lending::Apart,
        Some(_) => return None,
    };
    let first = words.get(1).map_or(Some(0), |word| word.parse().ok())?;
    (words.len() <= 3).then_some((words.first()?.parse().ok()?, first, lending))
}
