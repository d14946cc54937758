//! The beliefs of a text, read a second time by their words alone: as the reader of stories has them, and without it.

mod common;

use common::examples;
use program::again::stated;
use program::check::{self, asked_back};
use program::Refused;
use std::collections::HashSet;
use std::fs::read_to_string;
use story::names::Fact;
use story::{Names, Reading, Stated, Story};

type Belief = (Vec<usize>, usize, usize);

fn belief(Stated { chain, fluent, value, .. }: Stated) -> Belief {
    (chain, fluent, value)
}

fn read(text: &str) -> Story {
    let Ok(Reading { story, .. }) = story::read(text.as_bytes()) else { panic!("{text}") };
    story
}

/// Names without a reader.
fn names(characters: &[&str], facts: &[(&str, &[&str])]) -> Names {
    let texts = |all: &[&str]| all.iter().map(|text| text.to_string()).collect::<Vec<_>>();
    let fact =
        |&(name, values): &(&str, &[&str])| Fact { name: name.to_string(), values: texts(values), plural: false };
    let facts = facts.iter().map(fact).collect();
    Names { characters: texts(characters), facts, views: Vec::new(), actions: Vec::new(), triggers: Vec::new() }
}

/// Every way for a view to say a fact and a belief.
#[test]
fn by_words_alone() {
    let text = "\u{FEFF}characters: Ada, Ben
the truth: the key is lost, the doors are shut  # a remark: the key is found
    everyone else believes this
what Ada believes:
    the key is found and
    the rest is as in the truth
    Ada believes this
action what a key is:
    when the key is lost
what Ada believes Ben believes:
    everything is as in the old tale
    everyone believes the old tale
view the old tale:
    the key is sold
    and the doors are open
    Ada believes the truth, Ben believes what Ada believes
";
    let names = names(&["Ada", "Ben"], &[("the key", &["lost", "found", "sold"]), ("the doors", &["shut", "open"])]);
    let found: Vec<Belief> = stated(text, &names).into_iter().map(belief).collect();
    let mut expected = Vec::new();
    for (chain, key, doors) in [
        (vec![], 0, 0),
        (vec![0], 1, 0),
        (vec![1], 0, 0),
        (vec![0, 0], 1, 0),
        (vec![0, 1], 2, 1),
        (vec![0, 1, 0], 2, 1),
        (vec![0, 1, 1], 2, 1),
        (vec![0, 1, 0, 0], 0, 0),
        (vec![0, 1, 0, 1], 1, 0),
    ] {
        expected.extend([(chain.clone(), 0, key), (chain, 1, doors)]);
    }
    assert_eq!(found, expected);
    let lines: Vec<usize> = stated(text, &names).iter().take(4).map(|stated| stated.at.line).collect();
    assert_eq!(lines, [2, 2, 5, 2], "where it is said");
}

/// What is said in a circle, or of what isn't there, is not said.
#[test]
fn what_is_not_said() {
    let names = names(&["Ada"], &[("the key", &["lost"])]);
    for text in [
        "",
        "the truth:\n the rest is as in this\n",
        "the truth:\n the key is sold\n",
        "the truths:\n the key is lost\n",
    ] {
        assert!(stated(text, &names).is_empty(), "{text}");
    }
}

/// On the examples both readings say the same, and the second one leaves out no fact of any view that is reached.
#[test]
fn both_readings_agree() {
    let everything = "../story/tests/everything"; // every form that the text has
    for name in ["p", "letter", "alice", "shoes", "market", "lie", "safe", "necklace", "will", "thornby", everything] {
        let text = read_to_string(examples().join(format!("{name}.story"))).expect(name);
        let story = read(&text);
        let first: HashSet<Belief> = story.stated().into_iter().map(belief).collect();
        let second: Vec<Belief> = stated(&text, &story.names).into_iter().map(belief).collect();
        assert!(second.iter().all(|belief| first.contains(belief)), "{name}");
        let (facts, characters) = (story.names.facts.len(), story.names.characters.len());
        assert!(second.len() >= facts * (1 + characters), "the truth, and what each one believes: {name}");
    }
}

/// `check` takes both readings: where the reader erred, what the words say is asked for too.
#[test]
fn both_readings_are_asked_for() {
    let text = read_to_string(examples().join("letter.story")).expect("a story");
    let story = read(&text);
    let right = check::stated(&story, &text);
    assert_eq!(right.len(), story.stated().len(), "each once");
    let other = text.replacen("the letter is in the desk", "the letter is in the drawer", 1);
    let both = check::stated(&story, &other);
    assert!(both.len() > right.len());
    let Err(Refused(told)) = asked_back("letter.story", &story.names, &story.bytes(), &both) else { panic!() };
    let sides = "the text says 'the letter is in the drawer', and its pack says 'the letter is in the desk'";
    assert_eq!(told.lines().next(), Some(&format!("letter.story:11:5: error: {sides}")[..]));
}

/// A pack that says something else than the words of a text, as if the reader had erred: in the truth, or in a belief.
#[test]
fn a_mistake_of_the_reader_is_noticed() {
    let text = read_to_string(examples().join("shoes.story")).expect("a story");
    let story = read(&text);
    let stated = stated(&text, &story.names);
    assert!(asked_back("shoes.story", &story.names, &story.bytes(), &stated).is_ok());
    for (right, wrong) in
        [("the mom is at the party", "the mom is at home"), ("the mom is at work", "the mom is at the mall")]
    {
        let other = read(&text.replacen(&format!("    {right}\n"), &format!("    {wrong}\n"), 1)).bytes();
        assert_ne!(other, story.bytes());
        let Err(Refused(told)) = asked_back("shoes.story", &story.names, &other, &stated) else { panic!("{wrong}") };
        let line = 1 + text.lines().position(|line| line.trim() == right).expect("a line");
        let first = told.lines().next().unwrap_or("");
        assert!(first.starts_with(&format!("shoes.story:{line}:5: error: the text says '")), "{told}");
        assert!(
            first.contains(&format!("{right}', and its pack says '")) && first.ends_with(&format!("{wrong}'")),
            "{told}"
        );
    }
}
