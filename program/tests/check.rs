//! `check`: errors and warnings, and the text's beliefs asked back, so that a mistake of the reader can't pass.

mod common;

use common::{examples, fed, pirwodd, refuses, says};
use program::check::asked_back;
use program::open::laid;
use program::{Refused, Status};
use std::fs::read;
use story::{Reading, Story};

fn letter() -> Story {
    let Reading { story, .. } = story::read(&read(examples().join("letter.story")).expect("a file")).expect("a story");
    story
}

#[test]
fn stories_in_order() {
    for name in ["p", "letter", "alice", "shoes", "market", "lie", "safe", "necklace", "will", "thornby"] {
        let file = format!("{name}.story");
        let Ok(Reading { story, .. }) = story::read(&read(examples().join(&file)).expect(name)) else {
            panic!("{name}")
        };
        let stated = story.stated().len();
        assert!(stated >= story.names.facts.len(), "the truth at least is stated: {name}");
        let (status, out, _) = pirwodd(&["check", &file]);
        assert_eq!((status, out), (0, format!("{file}: in order; beliefs asked back: {stated}\n")));
    }
    says(pirwodd(&["check", "p.pack"]), 0, "p.pack: in order; beliefs asked back: 0\n");
}

/// The seam: the text's beliefs, and a pack that says otherwise.
#[test]
fn a_mistake_of_the_reader_is_noticed() {
    let story = letter();
    let (pack, stated) = (story.bytes(), story.stated());
    let said = asked_back("letter.story", &story.names, &pack, &stated).expect("in order");
    assert_eq!(said.status, Status::Answered);
    for (place, value) in [(7, 1), (8, 1), (9, 1)] {
        let mut other = pack.clone();
        other[place] = value;
        let Err(Refused(told)) = asked_back("letter.story", &story.names, &other, &stated) else { panic!("{place}") };
        let fact = place - 7;
        let of_the_fact = stated.iter().filter(|stated| stated.fluent == fact).count();
        assert_eq!(told.lines().count(), of_the_fact + 1, "each chain that leads to it: {told}");
        assert!(told.ends_with("\nThat is a mistake of this program, and not of the story.\n"), "{told}");
    }
}

#[test]
fn where_it_is_noticed() {
    let story = letter();
    let mut other = story.bytes();
    other[7] = 2;
    let Err(Refused(told)) = asked_back("letter.story", &story.names, &other, &story.stated()) else { panic!() };
    let at = story.stated()[0].at;
    let sides = "the text says 'the letter is in the desk', and its pack says 'the letter is with the cousin'";
    let first = format!("letter.story:{at}: error: {sides}");
    assert_eq!(told.lines().next(), Some(&first[..]));
}

#[test]
fn errors_of_a_text() {
    let text = String::from_utf8(read(examples().join("letter.story")).expect("a file")).expect("text");
    let wrong = text.replacen("the letter is in the desk", "the letter is in the dessk", 1);
    let Err(problems) = story::read(wrong.as_bytes()) else { panic!("a value that is not there") };
    let shown: String = problems.iter().map(|problem| problem.show("error", "standard input", &wrong)).collect();
    assert!(shown.contains(": error: "), "{shown}");
    assert_eq!(fed(&["check", "-"], wrong.as_bytes()), (2, String::new(), shown.clone()));
    assert_eq!(fed(&["play", "-"], wrong.as_bytes()), (2, String::new(), shown));
}

/// A refusal of a story's pack, which only a mistake of the reader could bring about, is told with the text's line.
#[test]
fn a_refused_pack_of_a_story() {
    let story = letter();
    let mut pack = story.bytes();
    pack[7] = 3; // the letter is nowhere
    let line = story.line_of(7).expect("a line");
    let Err(Refused(told)) = laid("letter.story", story, pack) else { panic!("it is refused") };
    let why = "refused 4 at 7: in the pack, a character, fluent, value, node, whom or kind that isn't there";
    assert_eq!(told, format!("pirwodd: letter.story:{line}: {why}"));
    assert_eq!((line.line, line.column), (11, 5));
}

/// Warnings go to standard error and change no status; only `check` tells them.
#[test]
fn warnings_of_a_text() {
    let text = String::from_utf8(read(examples().join("alice.story")).expect("a file")).expect("text");
    let Ok(Reading { warnings, .. }) = story::read(text.as_bytes()) else { panic!("a story") };
    let shown: String = warnings.iter().map(|problem| problem.show("warning", "alice.story", &text)).collect();
    assert!(shown.starts_with("alice.story:6:5: warning: "), "{shown}");
    let (status, out, err) = pirwodd(&["check", "alice.story"]);
    assert_eq!((status, err), (0, shown));
    assert!(out.starts_with("alice.story: in order; "), "{out}");
    assert_eq!(pirwodd(&["play", "alice.story"]).2, "");
}

#[test]
fn packs_are_refused_by_the_planner() {
    refuses(
        fed(&["check", "-"], &[1, 2, 1]),
        "pirwodd: standard input: refused 1 at 3: in the pack, bytes that end in a number",
    );
    let folder = common::folder("refused");
    let file = folder.join("two.pack");
    std::fs::write(&file, [2]).expect("a file");
    let file = file.to_str().expect("a name");
    let why = "refused 3 at 0: in the pack, a version, count, domain size, chain length or length outside its limits";
    refuses(pirwodd(&["check", file]), &format!("pirwodd: {file}: {why}"));
    std::fs::remove_dir_all(folder).expect("a folder");
}
