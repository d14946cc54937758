//! The text as it is laid out: every fact of every view, and a mark at what a short form fills. Pictures have it too.

use story::{dot, print, read, Story};

fn everything() -> Story {
    read(include_bytes!("everything.story")).unwrap().story
}

#[test]
fn printed_as_expected() {
    assert_eq!(print::story(&everything()), include_str!("everything.printed"));
}

/// Each fact that a line of the text doesn't say itself is marked with the line of the short form that does.
#[test]
fn short_forms_are_marked() {
    let story = everything();
    let text = include_str!("everything.story");
    let picture = dot::story(&story);
    let mut marks = 0;
    for line in print::story(&story).lines() {
        let Some((said, mark)) = line.split_once("  # by line ") else { continue };
        let (number, words) = mark.split_once(": ").unwrap();
        let source = text.lines().nth(number.parse::<usize>().unwrap() - 1).unwrap();
        assert!(source.contains(words), "{line}: {source}");
        if said.contains(" is ") || said.contains(" are ") {
            assert!(picture.contains(&format!("{} (by line {number})", said.trim())), "{line}");
        }
        marks += 1;
    }
    assert_eq!(marks, 19);
    assert!(picture.contains("n0 -> n0 [label=\"Eve and the old Dr. O'Neil-Çelik\\n(by line 20)\"];"), "{picture}");
    assert!(picture.contains("n1 -> n1 [label=\"the old Dr. O'Neil-Çelik\"];"), "{picture}");
}

/// A story without short forms has no marks, nor has a pack, nor a chart; and every fact of every view is told.
#[test]
fn every_fact_is_told() {
    let story = Story::of_pack(&everything().bytes()).unwrap();
    let text = print::story(&story);
    assert!(!text.contains('#') && !dot::story(&story).contains("by line"));
    let views = text.split("\n\n").filter(|section| section.starts_with("what") || section.starts_with("view"));
    assert!(views.clone().all(|view| (0..5).all(|fact| view.contains(&format!("\n    fact {fact} is ")))), "{text}");
    assert_eq!(views.count(), 4);
}

/// A chart under a story: its views by the chains that lead to them.
#[test]
fn charts() {
    let story = read(include_bytes!("../../examples/p.story")).unwrap().story;
    let chart = [2, 1, 1, 2, 0, 2, 2];
    let expected = "the truth:\n    the lamp is lit\n    Ann believes this\n\n\
                    what Ben believes:\n    the lamp is out\n    everyone believes this\n";
    assert_eq!(print::chart(&story, &chart).unwrap(), expected);
    let picture = dot::chart(&story, &chart).unwrap();
    assert!(picture.contains("n0 -> n1 [label=\"Ben\"];") && picture.contains("what Ben believes\\nthe lamp is out"));
    let unreadable = print::chart(&story, &[1, 0, 1, 3]).unwrap_err();
    assert_eq!((unreadable.place, unreadable.to_string().as_str()), (3, "the bytes can't be read at 3"));
    assert_eq!(dot::chart(&story, &[0]).unwrap_err().place, 0);
}

/// Tests, conditions, effects and beliefs in words.
#[test]
fn in_words() {
    let Story { pack, names, .. } = everything();
    let action = &pack.actions[0];
    let when = "the lamp is out and Al believes the lamp is not lit";
    assert_eq!(print::condition(&names, &action.condition), when);
    assert_eq!(print::condition(&names, &pack.utilities[0][1].condition), "never");
    assert_eq!(print::condition(&names, &action.observations[0]), "Al is here or always");
    assert_eq!(print::test(&names, &action.condition.alternatives[0][1]), "Al believes the lamp is not lit");
    assert_eq!(print::effect(&names, &action.effects[1]), "Eve believes the lamp is lit");
    assert_eq!(print::belief(&names, &[0, 1], 4, 0), "Al believes Eve believes doors are none");
    assert_eq!(print::people(&names, &[0, 1, 2]), "Al, Eve and the old Dr. O'Neil-Çelik");
}
