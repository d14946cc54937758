//! `docs/PACK.md` says what is so: its worked example is the pack of the examples, its table of refusals the library's.

use pirwodd::{lent, Action, Fluent, Limits, Nesting, Planner, Refusal};

const PAGE: &str = include_str!("../../../docs/PACK.md");
const P: &[u8] = include_bytes!("../../../examples/p.pack");
const START: [u8; 4] = [1, 0, 1, 1];

/// The cells of the rows of a table, from the line behind its heading on.
fn rows(heading: &str) -> Vec<Vec<&str>> {
    let table = PAGE.split_once(heading).expect("the table").1;
    let lines = table.lines().skip(2).take_while(|line| line.starts_with('|'));
    lines.map(|line| line.trim_matches('|').split('|').map(str::trim).collect()).collect()
}

/// The bytes between backquotes, in hexadecimal.
fn bytes(cell: &str) -> Vec<u8> {
    let words = cell.split('`').nth(1).expect("bytes between backquotes").split(' ');
    words.map(|word| u8::from_str_radix(word, 16).expect("hexadecimal")).collect()
}

#[test]
fn the_worked_example_is_the_pack() {
    let mut pack = Vec::new();
    for row in rows("| At | Bytes | What they say | In the story |") {
        assert_eq!(row[0], pack.len().to_string(), "{row:?}");
        pack.extend(bytes(row[1]));
    }
    assert_eq!(pack, P);
    assert!(PAGE.contains(&format!("It has {} bytes.", P.len())));
}

#[test]
fn the_charts_are_those_of_the_calls() {
    let mut planner = Planner::new();
    let start = planner.start(P).unwrap();
    let after = planner.step(P, &start, Action(0)).unwrap();
    for (words, chart) in [("Its start is the chart ", start), ("After action 0 it is ", after)] {
        let shown: Vec<String> = chart.iter().map(|byte| format!("{byte:02X}")).collect();
        let said = format!("{words}`{}`", shown.join(" "));
        assert!(PAGE.contains(&said), "{said}");
    }
}

#[test]
fn the_numbers_are_written_so() {
    for (number, written) in [(5, vec![5]), (127, vec![0x7F]), (128, vec![0x80, 1]), (300, vec![0xAC, 2])] {
        let shown: Vec<String> = written.iter().map(|byte| format!("{byte:02X}")).collect();
        assert!(PAGE.contains(&format!("{number} is `{}`", shown.join(" "))), "{number}");
        let pack = [&P[..32], &written, &P[33..]].concat();
        assert_eq!(Planner::new().search(&pack, Limits::default()).unwrap().after, number, "as a rule's worth");
    }
}

/// P with the byte at a place replaced by some, as an example of the page says it: `P, 6: bytes`.
fn changed(example: &str) -> Vec<u8> {
    let place = example.split_once("P, ").and_then(|(_, rest)| rest.split_once(':')).expect("a place").0;
    let at: usize = place.parse().expect("a number");
    [&P[..at], &bytes(example), &P[at + 1..]].concat()
}

/// A ring of 32 states, each believing the next.
fn ring() -> (Vec<u8>, Vec<u8>) {
    let chart: Vec<u8> = std::iter::once(32).chain((0..32).flat_map(|i| [i, (i + 1) % 32 + 1])).collect();
    let pack = [&[1, 1, 1, 33][..], &chart, &[1, 1, 0, 1, 0, 0, 32, 0, 0, 0, 0, 0]].concat();
    (pack, chart)
}

fn too_short() -> Option<Refusal> {
    let (mut chart, mut work, mut report) = ([0; lent::CHART - 1], [0; lent::WORK], [0; lent::REPORT]);
    let number = lent::start(P, &mut chart, &mut work, &mut report);
    Some(Refusal { number, place: report[0] })
}

/// What the library says to an example of the page.
fn met(example: &str) -> Option<Refusal> {
    let planner = &mut Planner::new();
    let unexplained = Limits { nesting: Nesting(0), ..Limits::default() };
    match example {
        "an empty pack" => planner.start(&[]).err(),
        "Start of P with 960 bytes for the chart" => too_short(),
        "Step of action 1 of P" => planner.step(P, &START, Action(1)).err(),
        "Search of P with nesting 0" => planner.search(P, unexplained).err(),
        _ if example.starts_with("Query in the chart") => planner.query(P, &bytes(example), &[], Fluent(0)).err(),
        _ if example.starts_with("Step of action 0 of P on") => planner.step(P, &bytes(example), Action(0)).err(),
        _ if example.starts_with("Step of action 0 of P, ") => planner.step(&changed(example), &START, Action(0)).err(),
        _ if example.starts_with("P, ") => planner.start(&changed(example)).err(),
        _ if example.starts_with("the pack") => planner.start(&bytes(example)).err(),
        _ if example.starts_with("a ring of 32 states") => planner.step(&ring().0, &ring().1, Action(0)).err(),
        _ => panic!("the test knows no such example: {example}"),
    }
}

#[test]
fn the_refusals_are_those_of_the_library() {
    let rows = rows("| No. | What it says | Example | Place |");
    let numbers: Vec<&str> = rows.iter().map(|row| row[0]).collect();
    let all: Vec<String> = (1..=13).chain(21..=25).chain([27]).map(|number: u32| number.to_string()).collect();
    assert_eq!(numbers, all);
    for row in rows {
        let refused = met(row[2]).unwrap_or_else(|| panic!("not refused: {row:?}"));
        let said = [refused.number.to_string(), refused.reason().into(), row[2].into(), refused.place.to_string()];
        assert_eq!(row, said);
    }
}

#[test]
fn the_lengths_are_those_that_are_wanted() {
    let said = format!(
        "{} bytes for a chart, {} for Compare's chain, {} for Search's list and 49,152 for work",
        lent::CHART,
        lent::CHAIN,
        lent::LIST
    );
    assert!(PAGE.contains(&said) && lent::WORK == 49_152, "{said}");
}
