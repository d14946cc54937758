//! The page of stories shows P as it is, with names and without; the repository's page shows the letter.

use story::{print, Story};

const PAGE: &str = include_str!("../../docs/STORIES.md");

/// A text as the page quotes it.
fn quoted(text: &str) -> String {
    let line = |line: &str| if line.is_empty() { "\n".to_string() } else { format!("    {line}\n") };
    text.lines().map(line).collect()
}

#[test]
fn p_with_its_names() {
    assert!(PAGE.contains(&quoted(include_str!("../../examples/p.story"))));
}

#[test]
fn p_without_names() {
    let story = Story::of_pack(include_bytes!("../../examples/p.pack")).unwrap();
    assert!(PAGE.contains(&quoted(&print::story(&story))));
}

/// What is told of a story with a text put in place of another.
fn told(file: &str, story: &str, before: &str, after: &str) -> String {
    let story = story.replacen(before, after, 1);
    let problems = story::read(story.as_bytes()).unwrap_err();
    problems.iter().map(|problem| problem.show("error", file, &story)).collect()
}

/// The errors that the page quotes: a mistake, and a blank.
#[test]
fn errors() {
    let letter = include_str!("../../examples/letter.story");
    let mistake = told("letter.story", letter, "is in the desk", "is in the dessk");
    assert!(PAGE.contains(&quoted(&mistake)), "{mistake}");
    let blank = told("p.story", include_str!("../../examples/p.story"), "    everyone believes this\n", "");
    assert!(PAGE.contains(&quoted(&blank)), "{blank}");
}

/// The view that the page quotes, with the marks of a short form.
#[test]
fn a_short_form() {
    let story = story::read(include_bytes!("../../examples/shoes.story")).unwrap().story;
    let text = print::story(&story);
    let view = text.split("\n\n").find(|section| section.starts_with("what the teen believes:")).unwrap();
    assert!(view.contains("# by line 17") && PAGE.contains(&quoted(view)), "{view}");
}

/// The repository's page shows the ending of the letter as the program prints it and as the examples tell it.
#[test]
fn the_first_story() {
    const FIRST: &str = include_str!("../../README.md");
    assert!(FIRST.contains(&quoted(include_str!("../../examples/letter.out"))));
    assert!(FIRST.contains(&quoted(include_str!("../../examples/c/letter.txt"))));
}
