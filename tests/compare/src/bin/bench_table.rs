//! One table: each call at a small, a middle and the largest size, by the library, by the tuned engine and by the readable
//! reference. A word given as an argument measures only the rows that have it in their names.

use compare::cases::{medians, pair, query, start};
use compare::largest;
use compare::sought::doors;
use compare::tables::{early, parting, stepping, TRIGGERS};
use reference::call::{Ask, Call};
use reference::chart;
use reference::generate::draft;
use reference::pack;
use std::path::Path;

const HEAD: &str = "\
Calls one after the other on one thread, the three in turn; medians of 301 measurements of a millisecond each, or of as many
as five seconds allow. Built for release. All three are lent the same buffers and set the first 49,152 bytes of the work
buffer to 0 in every call; nothing is cleared between calls. The tuned engine keeps its memory from call to call and nothing
else; the readable reference allocates.

| Call | Library | Tuned | Readable | Library / tuned | Library / readable |
|---|---|---|---|---|---|";

/// A story, by its pack, with the limits that its calls are put under.
struct Told {
    name: &'static str,
    pack: Vec<u8>,
    limits: (u64, u64, u64),
}

fn main() {
    println!("{HEAD}");
    for count in [2, 8, 32] {
        let nodes = early(6, count);
        row(format!("Start, {count} nodes, 6 characters"), &start(6, nodes.clone()));
        row(format!("Query, {count} nodes, 6 characters, a chain of 62"), &query(6, nodes.clone()));
        row(format!("Compare, {count} nodes, 6 characters, that part late"), &pair(6, parting(6, count)));
        let ask = Ask::Step { chart: chart::bytes(&nodes), action: 0 };
        let step = Call::new(draft::bytes(&stepping(6, nodes, true)), ask);
        row(format!("Step, {count} states, 6 characters, {TRIGGERS} rounds of triggers"), &step);
    }
    for told in stories() {
        let (story, foresight, nesting) = told.limits;
        let limits = format!("{}, T {story} K {foresight} E {nesting}", told.name);
        row(format!("Explained, {limits}"), &explained(&told));
        let ask = Ask::Search { story, foresight, nesting };
        row(format!("Search, {limits}"), &Call::new(told.pack, ask));
    }
}

/// P under the least limits, the letter under those of the program, and under the widest doors with guards, where lists are
/// many, and the largest pack, of which little but the reading is left.
fn stories() -> [Told; 4] {
    let example = |name: &str| {
        let file = Path::new(env!("CARGO_MANIFEST_DIR")).join(format!("../../examples/{name}.pack"));
        std::fs::read(&file).unwrap_or_else(|error| panic!("{}: {error}", file.display()))
    };
    [
        Told { name: "P", pack: example("p"), limits: (1, 1, 1) },
        Told { name: "the letter", pack: example("letter"), limits: (4, 3, 2) },
        Told { name: "3 guarded doors", pack: doors(3, true), limits: (8, 6, 3) },
        Told { name: "the largest pack", pack: largest::wide(), limits: (8, 6, 3) },
    ]
}

/// Whether the first action is explained at the start to the first of its consenters.
fn explained(told: &Told) -> Call {
    let pack = pack::read(&told.pack).expect("the pack is accepted");
    let character = pack.actions[0].consenters[0] as u64;
    let (_, foresight, nesting) = told.limits;
    let ask = Ask::Explained { chart: chart::bytes(&pack.nodes), character, action: 0, foresight, nesting };
    Call::new(told.pack.clone(), ask)
}

fn row(name: String, call: &Call) {
    if !std::env::args().skip(1).all(|word| name.contains(&word)) {
        return;
    }
    let [library, tuned, readable] = medians(call);
    let (to_tuned, to_readable) = (library / tuned, library / readable);
    let time = |nanoseconds: f64| format!("{:.1} µs", nanoseconds / 1000.0);
    println!(
        "| {name} | {} | {} | {} | {to_tuned:.2} | {to_readable:.2} |",
        time(library),
        time(tuned),
        time(readable)
    );
}
