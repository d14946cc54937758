//! The calls from Rust: every row and reading of document 01 that is theirs, the stories of `examples/`, and short buffers.

use pirwodd::refusal::{ABSENT, AFTER, BLANK, CONDITION, ENDS, FORM, IN_CHART, LIMIT};
use pirwodd::refusal::{NO_ENDING, ORDER, RANGE, ROUNDS, SHORT, STATES};
use pirwodd::{
    lent, Action, Character, Comparison, Ending, Fluent, Foresight, Limits, Nesting, Planner, Refusal, Story,
};
use std::fs::{read, read_dir, read_to_string};
use std::path::Path;

/// The pack P of document 01.
const P: [u8; 42] = [
    1, 2, 1, 3, 1, 0, 1, 1, 1, 1, 1, 0, 0, 0, 0, 1, 0, 0, 1, 1, 0, 1, 0, 0, 0, 1, 1, 1, 0, 0, 0, 1, 5, 1, 1, 1, 0, 0,
    0, 1, 5, 0,
];
const BEGUN: [u8; 4] = [1, 0, 1, 1];
const KNOWN: [u8; 4] = [1, 1, 1, 1];
const LIT: [u8; 7] = [2, 1, 1, 2, 0, 2, 2];
const LAMP: Fluent = Fluent(0);

fn refused<T>(number: u32, place: u64) -> Result<T, Refusal> {
    Err(Refusal { number, place })
}

/// P with one byte replaced by some.
fn changed(at: usize, bytes: &[u8]) -> Vec<u8> {
    [&P[..at], bytes, &P[at + 1..]].concat()
}

#[test]
fn start() {
    let mut planner = Planner::new();
    let mut start = |pack: &[u8]| planner.start(pack).map(|chart| chart.to_vec());
    assert_eq!(start(&P), Ok(BEGUN.to_vec()));
    assert_eq!(start(&[]), refused(ENDS, 0));
    assert_eq!(start(&P[..41]), refused(ENDS, 41));
    assert_eq!(start(&[0x81, 0]), refused(FORM, 0));
    assert_eq!(start(&[2]), refused(LIMIT, 0));
    assert_eq!(start(&[0; 8_193]), refused(LIMIT, 0));
    assert_eq!(start(&changed(6, &[2])), refused(ABSENT, 6));
    assert_eq!(start(&changed(6, &[0])), refused(BLANK, 6));
    assert_eq!(start(&changed(19, &[2, 0])), refused(ORDER, 21));
    assert_eq!(start(&changed(41, &[0, 0])), refused(AFTER, 42));
    assert!(start(&changed(32, &[0xff, 0xff, 3])).is_ok());
    assert_eq!(start(&changed(32, &[0xff, 0xff, 4])), refused(FORM, 32));
    assert_eq!(start(&changed(5, &[2])), Ok(vec![1, 2, 1, 1]));
    assert_eq!(start(&changed(5, &[3])), refused(ABSENT, 5));
}

#[test]
fn query() {
    let (mut planner, [ann, ben]) = (Planner::new(), [Character(0), Character(1)]);
    let mut query = |chart: &[u8], chain: &[Character], fluent| planner.query(&P, chart, chain, fluent);
    assert_eq!(query(&LIT, &[], LAMP), Ok(1));
    assert_eq!(query(&LIT, &[ann, ann, ben], LAMP), Ok(0));
    assert_eq!(query(&LIT, &[ann; 1_000], LAMP), Ok(1));
    assert_eq!(query(&LIT, &[ann], LAMP), Ok(1));
    assert_eq!(query(&LIT, &[ann, Character(2)], LAMP), refused(RANGE, 0));
    assert_eq!(query(&LIT, &[], Fluent(1)), refused(RANGE, 0));
    assert_eq!(query(&LIT[..3], &[], LAMP), refused(IN_CHART + ENDS, 3));
    assert_eq!(query(&[0x81, 0], &[], LAMP), refused(IN_CHART + FORM, 0));
    assert_eq!(query(&[0], &[], LAMP), refused(IN_CHART + LIMIT, 0));
    assert_eq!(query(&[1, 3, 1, 1], &[], LAMP), refused(IN_CHART + ABSENT, 1));
    assert_eq!(query(&[1, 0, 0, 1], &[], LAMP), refused(IN_CHART + BLANK, 2));
    assert_eq!(query(&[1, 0, 1, 1, 0], &[], LAMP), refused(IN_CHART + AFTER, 4));
}

#[test]
fn compare() {
    let mut planner = Planner::new();
    let mut compare = |first: &[u8], second: &[u8]| planner.compare(&P, first, second);
    assert_eq!(compare(&LIT, &KNOWN), Ok(Comparison::Differ { chain: vec![Character(1)], fluent: LAMP }));
    assert_eq!(compare(&BEGUN, &KNOWN), Ok(Comparison::Differ { chain: vec![], fluent: LAMP }));
    assert_eq!(compare(&BEGUN, &[2, 0, 2, 2, 0, 1, 1]), Ok(Comparison::Same));
    assert_eq!(compare(&LIT[..6], &KNOWN[..3]), refused(IN_CHART + ENDS, 6));
    assert_eq!(compare(&LIT, &KNOWN[..3]), refused(IN_CHART + ENDS, 3));
}

/// Thirty-two states in a ring, and an action that nobody sees and that gives the first a new value.
fn crowd() -> Vec<u8> {
    let nodes = (0..32).flat_map(|i| [i, (i + 1) % 32 + 1]);
    [1, 1, 1, 33, 32].into_iter().chain(nodes).chain([1, 1, 0, 1, 0, 0, 32, 0, 0, 0, 0, 0]).collect()
}

#[test]
fn step() {
    let mut planner = Planner::new();
    let mut step =
        |pack: &[u8], chart: &[u8], action| planner.step(pack, chart, Action(action)).map(|chart| chart.to_vec());
    assert_eq!(step(&P, &BEGUN, 0), Ok(LIT.to_vec()));
    assert_eq!(step(&P, &KNOWN, 0), refused(CONDITION, 0));
    assert_eq!(step(&P, &BEGUN, 1), refused(RANGE, 0));
    assert_eq!(step(&P, &BEGUN[..3], 1), refused(IN_CHART + ENDS, 3));
    assert_eq!(step(&changed(24, &[1, 1, 0, 0]), &BEGUN, 0), refused(ROUNDS, 0));
    assert_eq!(step(&crowd(), &crowd()[4..69], 0), refused(STATES, 0));
}

/// Equal charts, of the same state, whatever led to it.
#[test]
fn written_charts_are_equal_where_states_are() {
    let mut planner = Planner::new();
    let twice = changed(4, &[2, 0, 2, 2]); // two nodes that mean the same
    assert_eq!(planner.start(&twice).unwrap(), planner.start(&P).unwrap());
    assert_ne!(planner.step(&P, &BEGUN, Action(0)).unwrap(), planner.start(&P).unwrap());
}

#[test]
fn explained() {
    let mut planner = Planner::new();
    let mut explained = |character, action, foresight, nesting| {
        let (character, action) = (Character(character), Action(action));
        planner.explained(&P, &BEGUN, character, action, Foresight(foresight), Nesting(nesting))
    };
    assert_eq!(explained(0, 0, 1, 1), Ok(true));
    assert_eq!(explained(1, 0, 1, 1), Ok(false));
    assert_eq!(explained(0, 0, 1, 0), Ok(false));
    for (character, action, foresight, nesting) in
        [(2, 0, 1, 1), (0, 1, 1, 1), (0, 0, 0, 1), (0, 0, 7, 1), (0, 0, 1, 4)]
    {
        assert_eq!(explained(character, action, foresight, nesting), refused(RANGE, 0));
    }
}

#[test]
fn search() {
    let mut planner = Planner::new();
    let mut search = |story, foresight, nesting| {
        planner.search(&P, Limits { story: Story(story), foresight: Foresight(foresight), nesting: Nesting(nesting) })
    };
    assert_eq!(search(1, 1, 1), Ok(Ending { actions: vec![Action(0)], before: 0, after: 5 }));
    assert_eq!(search(1, 1, 0), refused(NO_ENDING, 0));
    for (story, foresight, nesting) in [(0, 1, 1), (9, 1, 1), (1, 0, 1), (1, 7, 1), (1, 1, 4)] {
        assert_eq!(search(story, foresight, nesting), refused(RANGE, 0));
    }
    assert_eq!(planner.search(&P[..41], Limits::default()), refused(ENDS, 41));
}

/// The stories: what is found under the limits of the program `ending` is what their `.out` say.
#[test]
fn stories() {
    let folder = Path::new(env!("CARGO_MANIFEST_DIR")).join("../../examples");
    let (mut planner, mut stories) = (Planner::new(), 0);
    for file in read_dir(folder).unwrap().map(|file| file.unwrap().path()) {
        if file.extension().is_some_and(|extension| extension == "pack") {
            let printed = match planner.search(&read(&file).unwrap(), Limits::default()) {
                Ok(Ending { actions, before, after }) => {
                    let lines = actions.iter().enumerate().map(|(i, action)| format!("{} {}\n", i + 1, action.0));
                    lines.collect::<String>() + &format!("author {before} {after}\n")
                }
                Err(Refusal { number, place }) => format!("refused {number} at {place}\n"),
            };
            assert_eq!(printed, read_to_string(file.with_extension("out")).unwrap(), "{}", file.display());
            stories += 1;
        }
    }
    assert!(stories >= 7);
}

/// The calls of `lent`. An answer fills the first bytes and numbers and clears the work buffer; where a buffer is too short, 8
/// is handed back and nothing but the report's first number is written.
#[test]
fn lent_buffers() {
    let whole = [lent::CHART, lent::CHAIN, lent::LIST, lent::WORK, lent::REPORT];
    // Which of them each call is lent to write to, and what it answers.
    let calls: [([usize; 3], &[u8], [u64; 3]); 6] = [
        ([0, 3, 4], &BEGUN, [4, 9, 9]),
        ([3, 3, 4], &[], [0, 9, 9]),
        ([1, 3, 4], &[1], [1, 1, 0]),
        ([0, 3, 4], &LIT, [7, 9, 9]),
        ([3, 3, 4], &[], [1, 9, 9]),
        ([2, 3, 4], &[0], [1, 0, 5]),
    ];
    for (call, (used, filled, told)) in calls.into_iter().enumerate() {
        let lent = || (vec![9; lent::CHART], vec![9; lent::WORK], [9; lent::REPORT]);
        let mut buffers = lent();
        assert_eq!(put(call, whole, &mut buffers), 0, "call {call}");
        let mut result = vec![9; lent::CHART];
        result[..filled.len()].copy_from_slice(filled);
        assert!(buffers == (result, vec![0; lent::WORK], told), "call {call}");
        for short in used {
            for length in [0, whole[short] - 1] {
                let mut lengths = whole;
                lengths[short] = length;
                let mut buffers = lent();
                assert_eq!(put(call, lengths, &mut buffers), SHORT, "call {call}, buffer {short} of {length}");
                let place = if short == 4 && length == 0 { 9 } else { 0 };
                assert!(buffers == (lent().0, lent().1, [place, 9, 9]), "call {call}, buffer {short} of {length}");
            }
        }
    }
}

type Buffers = (Vec<u8>, Vec<u8>, [u64; lent::REPORT]);

/// A call that is answered if it is lent enough.
fn put(call: usize, lengths: [usize; 5], (result, work, report): &mut Buffers) -> u32 {
    let [chart, chain, list, work_length, report_length] = lengths;
    let (work, report) = (&mut work[..work_length], &mut report[..report_length]);
    match call {
        0 => lent::start(&P, &mut result[..chart], work, report),
        1 => lent::query(&P, &LIT, &[1], 0, work, report),
        2 => lent::compare(&P, &LIT, &KNOWN, &mut result[..chain], work, report),
        3 => lent::step(&P, &BEGUN, 0, &mut result[..chart], work, report),
        4 => lent::explained(&P, &BEGUN, 0, 0, 1, 1, work, report),
        _ => lent::search(&P, 1, 1, 1, &mut result[..list], work, report),
    }
}

/// Numbers of any size are handed in as they are.
#[test]
fn large_numbers() {
    let (mut chart, mut work, mut report) = ([7; lent::CHART], [7; lent::WORK], [7; lent::REPORT]);
    for large in [1 << 8, 1 << 32, u64::MAX] {
        assert_eq!(lent::step(&P, &BEGUN, large, &mut chart, &mut work, &mut report), RANGE);
        assert_eq!(lent::query(&P, &LIT, &[], large, &mut work, &mut report), RANGE);
        assert_eq!(lent::explained(&P, &BEGUN, large, 0, 1, 1, &mut work, &mut report), RANGE);
        assert_eq!(lent::search(&P, 1, 1, large, &mut chart, &mut work, &mut report), RANGE);
    }
}

#[test]
fn refusals_in_words() {
    let said = |number, place| Refusal { number, place }.to_string();
    assert_eq!(
        said(3, 0),
        "refused 3 at 0: in the pack, a version, count, domain size, chain length or length outside its limits"
    );
    assert_eq!(said(25, 2), "refused 25 at 2: in a chart, a blank belief");
    assert_eq!(said(13, 0), "refused 13: no ending");
    let words: std::collections::BTreeSet<String> =
        (1..=13).chain([21, 22, 23, 24, 25, 27]).map(|n| said(n, 0)).collect();
    assert_eq!(words.len(), 19);
    assert!(words.iter().all(|words| !words.contains("no call hands back")));
}
