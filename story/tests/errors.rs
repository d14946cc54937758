//! Every error and every warning, word for word. `errors.txt` and `warnings.txt` have texts and what is told of each;
//! here are those that are too long to be read.

use story::read;

/// A whole story. In the files three dots at the beginning of a text stand for it, and what follows goes on with its
/// last section.
const BEGINNING: &str = "\
characters: Ada, Ben
facts:
    letter: here, there
author wants: 5 if letter is there
Ada wants: nothing
Ben wants: nothing
the truth:
    letter is here
    everyone believes this
";

fn with(rest: &str) -> String {
    format!("{BEGINNING}{rest}")
}

/// All that is told of a text.
fn told(text: &str) -> String {
    let (kind, problems) = match read(text.as_bytes()) {
        Ok(reading) => ("warning", reading.warnings),
        Err(problems) => ("error", problems),
    };
    problems.iter().map(|problem| problem.show(kind, "x.story", text)).collect()
}

/// The texts of a file, with a line of dashes between them, and a line `=>` before what is told.
fn check(file: &str) {
    for case in file.split("-----\n") {
        let (text, expected) = case.split_once("=>\n").unwrap();
        let text = text.strip_prefix("...\n").map_or(text.to_string(), with);
        assert_eq!(told(&text), expected, "\n{text}");
    }
}

#[test]
fn errors() {
    let file = include_str!("errors.txt");
    check(file);
    assert!(file.matches(": error: ").count() > 120);
}

#[test]
fn warnings() {
    let file = include_str!("warnings.txt");
    check(file);
    assert_eq!(file.matches(": warning: ").count(), 12);
}

/// The beginning itself has nothing wrong with it.
#[test]
fn nothing_is_wrong() {
    assert_eq!(told(BEGINNING), "");
}

/// Each line that is no text is told.
#[test]
fn encoding() {
    let bytes = b"characters: Ada\n# \xC3\xA9\xC3\xA9 \xFF\nfacts: \xFF\xFF\n";
    let text = String::from_utf8_lossy(bytes);
    let told: Vec<String> = read(bytes).unwrap_err().iter().map(|told| told.show("error", "x.story", &text)).collect();
    let second = "x.story:2:6: error: this is no text in UTF-8\n# éé \u{FFFD}\n     ^\nhelp: save the file as UTF-8\n";
    assert_eq!(told[0], second);
    assert_eq!(told.len(), 2);
    assert!(told[1].starts_with("x.story:3:8: error:"), "{}", told[1]);
}

/// What is told of a text is one error, at a place, about too many of something.
fn too_many(text: &str, place: &str, what: &str) {
    let told = told(text);
    let message = format!("x.story:{place}: error: there may be at most {what}, and this is one more\n");
    assert!(told.starts_with(&message) && told.matches(": error: ").count() == 1, "{told}");
}

const REST: &str = " everything is as in the truth\n everyone believes this\n";
const NOTHING: &str = " then nothing\n by nobody\n seen by nobody\n";

/// Counts of facts, views and rules.
#[test]
fn counts() {
    let facts: String = (0..25).map(|i| format!(" f{i}: a\n")).collect();
    let truth: String = (0..25).map(|i| format!(" f{i} is a\n")).collect();
    let wants = "author wants: nothing\nA wants: nothing\n";
    let text = format!("characters: A\nfacts:\n{facts}{wants}the truth:\n{truth} everyone believes this\n");
    too_many(&text, "27:2", "24 facts");
    let views: String = (0..40).map(|i| format!("view v{i}:\n{REST}")).collect();
    too_many(&with(&views), "103:1", "32 views, the truth among them");
    let text = BEGINNING.replace(": 5 if letter is there", &format!(":\n{}", " 1 otherwise\n".repeat(9)));
    too_many(&text, "13:2", "8 lines of what one wants");
}

/// Counts within actions and triggers, and of them.
#[test]
fn limits() {
    let action = |when: &str| with(&format!("action go:\n when {when}\n{NOTHING}"));
    too_many(&action(&["letter is here"; 9].join(" and ")), "11:159", "8 tests joined by 'and'");
    too_many(&action(&["letter is here"; 9].join("\n or ")), "19:5", "8 alternatives of a condition");
    let chain = "Ada believes ".repeat(5);
    too_many(&action(&format!("{chain}letter is here")), "11:59", "4 beliefs one in another");
    let effects = " then letter is here\n".repeat(17);
    let text = with(&format!("action go:\n when always\n{effects} by nobody\n seen by nobody\n"));
    too_many(&text, "28:7", "16 effects");
    let actions: String = (0..40).map(|i| format!("action {i}:\n when always\n{NOTHING}")).collect();
    too_many(&with(&actions), "170:8", "32 actions");
    let triggers: String = (0..20).map(|i| format!("trigger {i}:\n when never\n then nothing\n")).collect();
    too_many(&with(&triggers), "58:9", "16 triggers");
}

#[test]
fn too_long() {
    let test = "Ada believes Ada believes Ada believes Ada believes letter is here";
    let alternative = [test; 8].join(" and ");
    let condition = [&alternative[..]; 8].join(" or ");
    let actions: String = (0..16).map(|i| format!("action {i}:\n when {condition}\n{NOTHING}")).collect();
    let expected =
        "x.story:89:16: error: the story's pack has 8420 bytes, and a pack has at most 8192\n seen by nobody\n";
    let told = told(&with(&actions));
    assert!(told.starts_with(expected), "{told}");
}

/// The place is under its sign also where tabs, or signs of more than one byte, stand before it.
#[test]
fn carets() {
    let text = with("view é:\n\tletter is hier\n\teveryone believes this\n");
    let expected = "x.story:11:12: error: there is no value 'hier'\n\tletter is hier\n\t          ^^^^\n\
                    help: write 'here' or 'there'\n";
    assert_eq!(told(&text), expected);
}
