//! `pack`, `text` and `dot`: a story, or a state under it, as bytes, text and picture.

mod common;

use common::{examples, fed, pirwodd, program, refuses, says, P};
use std::fs::{read, read_to_string};

#[test]
fn packs_are_those_of_the_examples() {
    for name in ["p", "letter", "market"] {
        let output = program(&["pack", &format!("{name}.story")]).output().expect("the program is run");
        assert_eq!(output.stdout, read(examples().join(format!("{name}.pack"))).expect(name));
        let again = program(&["pack", &format!("{name}.pack")]).output().expect("the program is run");
        assert_eq!(again.stdout, output.stdout, "a pack's pack");
    }
}

#[test]
fn text_is_read_again() {
    let (status, text, _) = pirwodd(&["text", "p.pack"]);
    assert!(status == 0 && text.starts_with("characters: A, B\n"), "{text}");
    let (status, pack, _) = fed(&["pack", "-"], text.as_bytes());
    assert_eq!((status, pack.as_bytes()), (0, P));
}

#[test]
fn pictures_are_those_of_the_examples() {
    let picture = read_to_string(examples().join("letter.dot")).expect("a picture");
    says(pirwodd(&["dot", "letter.story"]), 0, &picture);
}

#[test]
fn states() {
    let (status, text, _) = pirwodd(&["text", "p.story", "--after", "0"]);
    assert!(status == 0 && text.starts_with("the truth:\n    the lamp is lit\n"), "{text}");
    assert!(text.contains("\nwhat Ben believes:\n    the lamp is out\n"), "{text}");
    assert_eq!(pirwodd(&["text", "p.story", "--chart", "02010102000202"]), (0, text.clone(), String::new()));
    assert_eq!(pirwodd(&["text", "p.story", "--chart", "02 01 01 02 00 02 02"]), (0, text, String::new()));
    let (status, picture, _) = pirwodd(&["dot", "p.story", "--after", "Ann lights the lamp"]);
    assert!(status == 0 && picture.starts_with("digraph") && picture.contains("the lamp is lit"), "{picture}");
}

#[test]
fn charts_are_refused_by_the_planner() {
    let why = "pirwodd: refused 25 at 2: in a chart, a blank belief";
    refuses(pirwodd(&["text", "p.story", "--chart", "01 00 00 01"]), why);
    let expected = "pirwodd: expected a chart's bytes in hexadecimal, two digits each, found";
    refuses(pirwodd(&["dot", "p.story", "--chart", "010"]), &format!("{expected} '010'"));
    refuses(pirwodd(&["dot", "p.story", "--chart", "0x"]), &format!("{expected} '0x'"));
}
