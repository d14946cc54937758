//! The proved calls agree with the reference on generated ones: the answer or the refusal's number and place, and every
//! byte of what is lent. All of it lies between margins, and what is written begins as noise.

use compare::agreement::{alike, both, often, what};
use compare::asks;
use compare::effort;
use compare::inputs::P;
use compare::lending::{Lent, Noise};
use compare::library::{Library, ENTRIES};
use compare::long::any;
use compare::tally::{refused, Tally};
use reference::call::{Call, Outcome};
use reference::calls::{Differs, Found};
use reference::generate;
use reference::generate::random::Random;
use reference::implementation::{Implementation, Reference};
use reference::refusal::{without_place, Refusal, CONDITION, NO_ENDING, RANGE, SHORT};
use reference::tuned::Engine;

const IN_A_PACK: [u8; 7] = [1, 2, 3, 4, 5, 6, 7];
const IN_A_CHART: [u8; 6] = [21, 22, 23, 24, 25, 27];

#[test]
fn start() {
    let met = alike("start", 60_000, asks::start, &mut Library::new());
    often(&met, 300, &["chart of 1", "chart of 2 to 31", "chart of 32"], &[&IN_A_PACK[..], &[8]]);
}

#[test]
fn query() {
    let met = alike("query", 60_000, asks::query, &mut Library::new());
    often(&met, 200, &["value"], &[&IN_A_PACK[..], &IN_A_CHART, &[8, 9]]);
}

#[test]
fn compare() {
    let met = alike("compare", 60_000, asks::compare, &mut Library::new());
    let chains = [0, 1, 20, 40, 61, 62].map(|length| format!("differ after {length:2}"));
    let chains: Vec<&str> = chains.iter().map(String::as_str).collect();
    often(&met, 100, &[&["same"], &chains[..]].concat(), &[&IN_A_PACK[..5], &[7, 8], &IN_A_CHART]);
}

/// The calls of the generator, but for those of the program `ending` and those that would take too long.
#[test]
fn generated() {
    let (mut tally, mut library, noise) = (Tally::default(), Library::new(), Noise::new());
    for (seed, call) in (0..8_000).map(|seed| (seed, generate::call(seed))).filter(|(_, call)| Library::has(&call.ask))
    {
        if effort::quick(&call) {
            both(&mut tally, &mut library, &call, &noise, seed);
        }
    }
    println!("generated: {tally}");
    assert!(tally.all() >= 7_000);
}

/// A report of fewer than three entries is 8, at its place among the checks: the reply is that to a call which is lent
/// no work buffer. Longer reports change nothing.
#[test]
fn other_reports() {
    for entries in [0, 1, 2, 4, 5, 8] {
        let (mut tally, mut library, noise) = (Tally::default(), Library::with_report(entries), Noise::new());
        let mut engine = Engine::new();
        for seed in 0..3_000 {
            let r = &mut Random::new(6_000_000 + seed);
            let call = any(r, &mut engine);
            let short = Call { work: if entries < ENTRIES { 0 } else { call.work }, ..call.clone() };
            let found = Lent::new(&call, &noise, r).to(&mut library, &call);
            let expected = match Lent::new(&short, &noise, r).to(&mut Reference, &short).outcome {
                // Without an entry no place is told.
                Outcome::Refused(refusal) if entries == 0 => Outcome::Refused(without_place(refusal.number)),
                outcome => outcome,
            };
            assert_eq!(found.outcome, expected, "with a report of {entries} entries: {call}");
            tally.note(what(&found));
        }
        println!("a report of {entries}: {tally}");
        assert!(tally.met(&refused(SHORT)) >= if entries < ENTRIES { 500 } else { 20 });
        assert!([1, 2, 3, 4, 21, 23].iter().all(|&number| tally.met(&refused(number)) >= 5));
    }
}

/// The readings and rows of document 01 that are the calls'.
#[test]
fn examples() {
    let (mut library, mut result, mut work) = (Library::new(), [7; 961], vec![7; 49_152]);
    assert_eq!(library.start(&P, &mut result, &mut work), Ok(4));
    assert_eq!(result[..5], [1, 0, 1, 1, 7]);
    assert!(work.iter().all(|&byte| byte == 0));
    let short = Err(without_place(SHORT));
    assert_eq!(library.start(&P, &mut result[..960], &mut work), short);
    assert_eq!(library.start(&P, &mut result, &mut work[1..]), short);
    assert_eq!(library.start(&[0x81, 0], &mut [], &mut []), Err(Refusal { number: 2, place: 0 }));
    let chart = [2, 1, 1, 2, 0, 2, 2];
    assert_eq!(library.query(&P, &chart, &[], 0, &mut work), Ok(1));
    assert_eq!(library.query(&P, &chart, &[0, 0, 1], 0, &mut work), Ok(0));
    assert_eq!(library.query(&P, &chart, &[0, 2], 0, &mut work), Err(without_place(RANGE)));
    assert_eq!(library.query(&P, &chart, &[], 1 << 32, &mut work), Err(without_place(RANGE)));
    assert_eq!(library.query(&P, &[0], &[], 0, &mut work), Err(Refusal { number: 23, place: 0 }));
    let (differs, mut chain) = (Some(Differs { length: 1, fluent: 0 }), [7; 62]);
    assert_eq!(library.compare(&P, &chart, &[1, 1, 1, 1], &mut chain, &mut work), Ok(differs));
    assert_eq!(chain[..2], [1, 7]);
    assert_eq!(library.compare(&P, &chart, &[3, 1, 1, 2, 0, 3, 2, 0, 2, 3], &mut chain, &mut work), Ok(None));
    assert_eq!(library.compare(&P, &chart, &chart, &mut chain[1..], &mut work), Err(without_place(SHORT)));
    assert_eq!(library.step(&P, &[1, 0, 1, 1], 0, &mut result, &mut work), Ok(7));
    assert_eq!(result[..8], [2, 1, 1, 2, 0, 2, 2, 7]);
    assert_eq!(library.step(&P, &[1, 1, 1, 1], 0, &mut result, &mut work), Err(without_place(CONDITION)));
    assert_eq!(library.step(&P, &[1, 0, 1, 1], 1, &mut result, &mut work), Err(without_place(RANGE)));
    assert_eq!(library.step(&P, &[1, 0, 1, 1], 1 << 32, &mut result, &mut work), Err(without_place(RANGE)));
    assert_eq!(library.step(&P, &[1, 0, 1, 1], 0, &mut result[1..], &mut work), Err(without_place(SHORT)));
    let start = [1, 0, 1, 1];
    assert_eq!(library.explained(&P, &start, 0, 0, 1, 1, &mut work), Ok(true));
    assert_eq!(library.explained(&P, &start, 1, 0, 1, 1, &mut work), Ok(false));
    assert_eq!(library.explained(&P, &start, 0, 0, 1, 0, &mut work), Ok(false));
    for (character, action, foresight, nesting) in
        [(2, 0, 1, 1), (0, 1, 1, 1), (0, 0, 0, 1), (0, 0, 7, 1), (0, 0, 1, 4)]
    {
        let said = library.explained(&P, &start, character, action, foresight, nesting, &mut work);
        assert_eq!(said, Err(without_place(RANGE)));
    }
    let (found, mut list) = (Found { length: 1, before: 0, after: 5 }, [7; 8]);
    assert_eq!(library.search(&P, 1, 1, 1, &mut list, &mut work), Ok(found));
    assert_eq!(list, [0, 7, 7, 7, 7, 7, 7, 7]);
    assert_eq!(library.search(&P, 1, 1, 0, &mut list, &mut work), Err(without_place(NO_ENDING)));
    assert_eq!(library.search(&P, 1, 1, 1, &mut list[1..], &mut work), Err(without_place(SHORT)));
    for (story, foresight, nesting) in [(0, 1, 1), (9, 1, 1), (1, 0, 1), (1, 7, 1), (1, 1, 4)] {
        let said = library.search(&P, story, foresight, nesting, &mut list, &mut work);
        assert_eq!(said, Err(without_place(RANGE)));
    }
}
