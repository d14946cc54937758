//! How long the calls take in the proved library, in the tuned engine and in the readable reference. A word given as an
//! argument measures only the cases that have it in their names.

use compare::cases::{answer, pair, query, refilled, repeated, start};
use compare::library::Library;
use compare::tables::{early, late, parting, stepping, TRIGGERS};
use compare::timing::{compare, Way, ROUNDS};
use reference::call::{lent, Ask, Call, Outcome};
use reference::chart;
use reference::generate::draft;
use reference::graph::Node;
use reference::implementation::Reference;
use reference::refusal::{without_place, CONDITION};
use reference::tuned::Engine;
use std::cell::RefCell;

fn main() {
    println!("Calls one after the other on one thread, the three in turn, {ROUNDS} times each.");
    println!(
        "All three are lent the same buffers and set the first 49,152 bytes of the work buffer to 0 in every call;"
    );
    println!(
        "nothing is cleared between calls, so each finds it as the one before has left it. The tuned engine keeps its"
    );
    println!(
        "memory; the readable reference allocates. Where it says so the work buffer is filled with other bytes before each"
    );
    println!("call, and the filling counts.\n");
    for characters in [2, 6] {
        for count in [2, 8, 32] {
            let size = format!("{count} nodes, {characters} characters");
            measure(&format!("Start, {size}, told apart early"), &start(characters, early(characters, count)));
            measure(&format!("Start, {size}, told apart late"), &start(characters, late(characters, count)));
            measure(&format!("Query, {size}, a chain of 62"), &query(characters, early(characters, count)));
            let same = (late(characters, count), late(characters, count));
            measure(&format!("Compare, {size}, the same"), &pair(characters, same));
            measure(&format!("Compare, {size}, that part late"), &pair(characters, parting(characters, count)));
            steps(&size, characters, &early(characters, count));
            unclean(&size, characters, &early(characters, count));
        }
    }
}

/// A step in a work buffer that is full of other bytes.
fn unclean(size: &str, characters: usize, nodes: &[Node]) {
    let name = format!("Step, {size}, work buffer filled before each call");
    let pack = draft::bytes(&stepping(characters, nodes.to_vec(), false));
    let call = Call::new(pack, Ask::Step { chart: chart::bytes(nodes), action: 0 });
    if !wanted(&name) {
        return;
    }
    println!("{name}: {} bytes handed in", call.handed().concat().len());
    let (mut library, mut engine) = (Library::new(), Engine::new());
    let buffers = RefCell::new((lent(call.result), lent(call.work)));
    compare(&mut [
        Way::new("library", refilled(&mut library, &call, &buffers)),
        Way::new("tuned", refilled(&mut engine, &call, &buffers)),
        Way::new("filling", || buffers.borrow_mut().1.fill(0xa5)),
    ]);
}

fn wanted(name: &str) -> bool {
    std::env::args().skip(1).all(|word| name.contains(&word))
}

/// A step with and without triggers, beside the same call with an action whose condition fails: the difference is what
/// playing the action and writing the chart take.
fn steps(size: &str, characters: usize, nodes: &[Node]) {
    for (with, triggers) in [("no triggers".to_string(), false), (format!("{TRIGGERS} rounds of triggers"), true)] {
        let pack = draft::bytes(&stepping(characters, nodes.to_vec(), triggers));
        let ask = |action| Call::new(pack.clone(), Ask::Step { chart: chart::bytes(nodes), action });
        let refused = ask(1);
        assert_eq!(answer(&mut Reference, &refused), Outcome::Refused(without_place(CONDITION)));
        measure_beside(&format!("Step, {size}, {with}"), &ask(0), Some(&refused));
    }
}

fn measure(name: &str, call: &Call) {
    measure_beside(name, call, None);
}

/// Measures a call, if it is wanted and the library has it; and in turn with it one that is refused as 10, if given.
fn measure_beside(name: &str, call: &Call, refused: Option<&Call>) {
    if !wanted(name) || !Library::has(&call.ask) {
        return;
    }
    let expected = answer(&mut Reference, call);
    assert!(!matches!(expected, Outcome::Refused(_)), "{name} is refused: {expected:?}");
    println!("{name}: {expected:?}, {} bytes handed in", call.handed().concat().len());
    let (mut library, mut engine, mut reference) = (Library::new(), Engine::new(), Reference);
    let (mut other_library, mut other_engine) = (Library::new(), Engine::new());
    assert!(answer(&mut library, call) == expected && answer(&mut engine, call) == expected);
    // One pair of buffers for all, since how they lie in memory tells on the time.
    let buffers = RefCell::new((lent(call.result), lent(call.work)));
    let mut ways = vec![
        Way::new("library", repeated(&mut library, call, &buffers)),
        Way::new("tuned", repeated(&mut engine, call, &buffers)),
        Way::new("readable", repeated(&mut reference, call, &buffers)),
    ];
    if let Some(refused) = refused {
        ways.push(Way::new("library, refused as 10", repeated(&mut other_library, refused, &buffers)));
        ways.push(Way::new("tuned, refused as 10", repeated(&mut other_engine, refused, &buffers)));
    }
    compare(&mut ways);
}
