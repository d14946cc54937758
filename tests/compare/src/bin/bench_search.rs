//! How long Search takes in the proved library and in the tuned engine, without and with a limit of its memory, and how
//! many steps each makes: on the stories of `examples/`, on families of drawn packs, and as the limits grow; on the
//! small ones in the readable reference too. Words given as arguments measure only the cases that have all of them in
//! their names.
//!
//! Each search is run by a child of this program first, which is killed if it takes too long.

use compare::effort;
use compare::library::Library;
use compare::seasons::{large, small, Case};
use compare::sides::{calls, children, found, is_child, Run, HELD, MOST_SECONDS, SIDES};
use compare::sources::{build, NOTHING_OFF};
use compare::steps::{steps_within, Counted, Room};
use compare::timing::{in_turn, Way};
use reference::call::{lent, Call};
use reference::calls::{LIST_ROOM, WORK_ROOM};
use reference::implementation::{outcome, Implementation, Reference};
use reference::tuned::Engine;
use std::cell::RefCell;
use std::hint::black_box;
use std::io::Result;
use std::path::Path;

/// Where a side takes longer, what the children measured is told.
const QUICK: f64 = 100e6;
/// The readable reference is asked where a search that remembers nothing takes at most so many steps.
const MOST_STEPS: usize = 100_000;

const HEAD: &str = "\
Searches one after the other on one thread, all sides in turn; medians of 301 measurements of a millisecond or of a
single run, or of as many as five seconds allow; where a side takes more than 0.1 s, the middle one of up to five runs
that fit into a second; where it takes more than 5 s it is cut off there. All are lent the same buffers and set the
first 49,152 bytes of the work buffer to 0 in every call; nothing is cleared between calls. The tuned engine keeps its
memory from call to call and nothing else; \"held\" is the same with at most 27 KB kept of a search; the readable
reference allocates. Steps without memory are those of a search that remembers nothing; the library's own are counted
by its sources, compiled as Rust.";

fn main() -> Result<()> {
    let words: Vec<String> = std::env::args().skip(1).collect();
    if is_child(&words) {
        return Ok(());
    }
    let chosen = |case: &Case| words.iter().all(|word| case.title().contains(word));
    println!("{HEAD}\n");
    small_table(chosen)?;
    large_table(chosen)
}

fn small_table(chosen: impl Fn(&Case) -> bool) -> Result<()> {
    let cases = small();
    if !cases.iter().any(&chosen) {
        return Ok(());
    }
    println!(
        "| Search | Found | Steps without memory | Library | Tuned | Held | Readable | Library / tuned | / held |"
    );
    println!("|---|---|---|---|---|---|---|---|---|");
    for (i, case) in cases.iter().enumerate().filter(|(_, case)| chosen(case)) {
        let calls = calls(case);
        let steps: Option<usize> = calls.iter().map(|call| effort::steps(call, MOST_STEPS)).sum();
        let runs = children(SIDES, "small", i)?;
        let (times, readable) = measured(&runs, &calls, steps.is_some());
        let steps = steps.map_or(format!("more than {MOST_STEPS} in one"), |steps| steps.to_string());
        let [library, tuned, held] = times.map(time);
        print!("| {} | {} | {steps} | {library} | {tuned} | {held} ", case.title(), found(&runs));
        println!(
            "| {} | {} | {} |",
            readable.map_or("not run".into(), |t| time(Some(t))),
            over(times, 1),
            over(times, 2)
        );
    }
    println!();
    Ok(())
}

fn large_table(chosen: impl Fn(&Case) -> bool) -> Result<()> {
    let cases = large();
    if !cases.iter().any(&chosen) {
        return Ok(());
    }
    let room = Room::new("bench-search")?;
    let repository = Path::new(env!("CARGO_MANIFEST_DIR")).join("../..");
    let program = build(&repository, &room.0.join("sources"), &NOTHING_OFF)?;
    print!("| Search | Found | Library | Tuned | Held | Library / tuned | / held ");
    println!("| Steps: library | tuned | held |\n|---|---|---|---|---|---|---|---|---|---|");
    for (i, case) in cases.iter().enumerate().filter(|(_, case)| chosen(case)) {
        let runs = children(SIDES, "large", i)?;
        let (times, _) = measured(&runs, &calls(case), false);
        let steps = steps_within(&program, &room, case, MOST_SECONDS)?;
        let [library, tuned, held] = times.map(time);
        print!("| {} | {} | {library} | {tuned} | {held} ", case.title(), found(&runs));
        print!("| {} | {} | {} ", over(times, 1), over(times, 2), counted(&steps));
        let [tuned, held] = [1, 2].map(|side| runs[side].as_ref().map_or("".into(), |run| run.steps.to_string()));
        println!("| {tuned} | {held} |");
    }
    Ok(())
}

fn counted(steps: &Counted) -> String {
    format!("{}{}", if steps.whole { "" } else { "more than " }, steps.steps)
}

/// The times of the sides, in turn where all are quick, else as the children told them; and of the readable reference.
fn measured(runs: &[Option<Run>; 3], calls: &[Call], readable: bool) -> ([Option<f64>; 3], Option<f64>) {
    let once = [0, 1, 2].map(|side| runs[side].as_ref().map(|run| run.nanoseconds));
    if once.iter().any(|time| time.is_none_or(|time| time > QUICK)) {
        return (once, None);
    }
    let (mut library, mut free, mut held) = (Library::new(), Engine::new(), Engine::held(HELD));
    let mut reference = Reference;
    // One pair of buffers for all, since how they lie in memory tells on the time.
    let buffers = RefCell::new((lent(LIST_ROOM), lent(WORK_ROOM)));
    let mut ways = vec![
        Way::new("library", searching(&mut library, calls, &buffers)),
        Way::new("tuned", searching(&mut free, calls, &buffers)),
        Way::new("held", searching(&mut held, calls, &buffers)),
    ];
    if readable {
        ways.push(Way::new("readable", searching(&mut reference, calls, &buffers)));
    }
    let times: Vec<f64> = in_turn(&mut ways).iter().map(|time| time.median).collect();
    ([0, 1, 2].map(|side| Some(times[side])), times.get(3).copied())
}

/// All searches, one after the other.
fn searching<'a>(
    by: &'a mut impl Implementation,
    calls: &'a [Call],
    buffers: &'a RefCell<(Vec<u8>, Vec<u8>)>,
) -> impl FnMut() + 'a {
    move || {
        let (result, work) = &mut *buffers.borrow_mut();
        for call in calls {
            drop(black_box(outcome(by, &call.ask, black_box(call.handed()), result, work)));
        }
    }
}

/// The library's time over another side's, or the least that it can be.
fn over(times: [Option<f64>; 3], side: usize) -> String {
    match (times[0], times[side]) {
        (Some(library), Some(other)) => format!("{:.2}", library / other),
        (None, Some(other)) => format!("more than {:.0}", MOST_SECONDS * 1e9 / other),
        _ => String::new(),
    }
}

fn time(nanoseconds: Option<f64>) -> String {
    match nanoseconds {
        None => format!("more than {MOST_SECONDS} s"),
        Some(n) if n < 100_000.0 => format!("{:.1} µs", n / 1e3),
        Some(n) if n < 100_000_000.0 => format!("{:.2} ms", n / 1e6),
        Some(n) => format!("{:.2} s", n / 1e9),
    }
}
