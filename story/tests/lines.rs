//! Where a text says what: the line of each byte of its pack, and the beliefs that it states.

use story::{read, Place, Story};

const P: &str = include_str!("../../examples/p.story");
const ALICE: &str = include_str!("../../examples/alice.story");

fn story(text: &str) -> Story {
    read(text.as_bytes()).unwrap_or_else(|problems| panic!("{problems:?}\n{text}")).story
}

/// The text from a place on, to the end of its line.
fn at(text: &str, place: Place) -> String {
    text.lines().nth(place.line - 1).unwrap().chars().skip(place.column - 1).collect()
}

/// Every byte of P, by the text that it comes from. Only the count of its triggers, of which there are none, comes from
/// nowhere.
#[test]
fn bytes_of_p() {
    let story = story(P);
    let places = (0..story.bytes().len()).map(|byte| story.line_of(byte).map(|place| at(P, place)));
    let mut found: Vec<(String, usize)> = Vec::new();
    for text in places.map(|text| text.unwrap_or_default()) {
        match found.last_mut() {
            Some((last, count)) if *last == text => *count += 1,
            _ => found.push((text, 1)),
        }
    }
    let found: Vec<(&str, usize)> = found.iter().map(|(text, count)| (text.as_str(), *count)).collect();
    let expected = [
        ("characters: Ann, Ben", 2),
        ("facts:", 1),
        ("the lamp: out, lit, broken", 1),
        ("the truth:", 1),
        ("the lamp is out", 1),
        ("everyone believes this", 2),
        ("action Ann lights the lamp:", 1),
        ("the lamp is out", 6),
        ("then the lamp is lit", 1),
        ("the lamp is lit", 3),
        ("by Ann", 2),
        ("Ann", 2),
        ("nobody else", 1),
        ("", 1),
        ("author wants:", 1),
        ("the lamp is lit", 6),
        ("5 if the lamp is lit", 1),
        ("Ann wants:", 1),
        ("the lamp is lit", 6),
        ("5 if the lamp is lit", 1),
        ("Ben wants: nothing", 1),
    ];
    assert_eq!(found, expected);
}

/// Tests that stand on lines of their own, and what stands behind them; a place behind the end; a pack without a text.
#[test]
fn other_bytes() {
    let text = include_str!("everything.story");
    let story = story(text);
    let bytes = story.bytes();
    let lines: Vec<usize> = (0..bytes.len()).filter_map(|byte| Some(story.line_of(byte)?.line)).collect();
    assert_eq!(lines.len(), bytes.len());
    for line in [4, 5, 6, 14, 15, 16, 51, 56, 57] {
        assert!(lines.contains(&line), "line {line}: {lines:?}");
    }
    assert_eq!(story.line_of(bytes.len()), story.line_of(bytes.len() - 1));
    let pack = Story::of_pack(&bytes).unwrap();
    assert_eq!((pack.line_of(0), pack.stated()), (None, Vec::new()));
}

/// What a text states, as lines of words with the number of the line that says it.
fn stated(text: &str) -> Vec<String> {
    let story = story(text);
    let told = |stated: story::Stated| {
        let words = story::print::belief(&story.names, &stated.chain, stated.fluent, stated.value);
        assert!(!at(text, stated.at).is_empty());
        format!("{}: {words}", stated.at.line)
    };
    story.stated().into_iter().map(told).collect()
}

/// Every fact of a view by every chain that leads there, each cycle once.
#[test]
fn beliefs_of_p() {
    assert_eq!(stated(P), ["9: the lamp is out", "9: Ann believes the lamp is out", "9: Ben believes the lamp is out"]);
}

/// What a claim and what a short form says, at every depth that is written.
#[test]
fn beliefs_of_alice() {
    let stated = stated(ALICE);
    for said in [
        "12: Bob is at the office",
        "17: Alice believes Bob is at the store",
        "19: Alice believes Alice is at home",
        "12: Charlie believes Bob is at the office",
        "17: Alice believes Charlie believes Bob is at the store",
    ] {
        assert!(stated.iter().any(|stated| stated == said), "{said}: {stated:#?}");
    }
    assert_eq!(stated.len(), 3 * (1 + 3 + 3));
}

/// Views that are reached by very many chains: every belief of every view is there all the same, and not too much.
#[test]
fn many_chains() {
    let mut text = "characters: A, B, C\nfacts: x: 0 to 31\nauthor wants: nothing\n".to_string();
    ["A", "B", "C"].iter().for_each(|who| text += &format!("{who} wants: nothing\n"));
    let name = |view: usize| match view % 32 {
        0 => "the truth".to_string(),
        view => format!("v{view}"),
    };
    for view in 0..32 {
        let heading = if view == 0 { name(0) } else { format!("view {}", name(view)) };
        let (a, b, c) = (name(view + 1), name(view + 2), name(view * 7 + 3));
        text += &format!("{heading}:\n x is {view}\n A believes {a}\n B believes {b}\n C believes {c}\n");
    }
    let stated = story(&text).stated();
    let values = |chain: &[usize]| stated.iter().filter(|told| told.chain == chain).map(|told| told.value).next();
    for view in 0..32 {
        let found = stated.iter().find(|told| told.value == view).unwrap();
        for (character, next) in [(0, view + 1), (1, view + 2), (2, view * 7 + 3)] {
            let chain = [&found.chain[..], &[character]].concat();
            assert_eq!(values(&chain), Some(next % 32), "{chain:?}");
        }
    }
    assert!(stated.iter().all(|told| told.chain.len() <= 62) && stated.len() < 32 * 64 * 3 + 2, "{}", stated.len());
}
