//! The first fear of whoever writes a story: that something left blank is filled without a word. Every fact of every
//! view, every belief, every line of actions, and all wishes of the examples are taken out, one by one, and refused.

use std::fs::read_dir;
use std::ops::Range;
use std::path::PathBuf;

use story::pack::{Condition, Effect};
use story::print::{belief, condition, effect, people};
use story::{read, Names, Problem, Story};

/// The examples, as they are written.
fn examples() -> Vec<(String, String)> {
    let folder: PathBuf = [env!("CARGO_MANIFEST_DIR"), "..", "examples"].iter().collect();
    let files = read_dir(folder).unwrap().map(|file| file.unwrap().path());
    let stories = files.filter(|path| path.extension().is_some_and(|end| end == "story"));
    let mut all: Vec<(String, String)> =
        stories.map(|path| (path.display().to_string(), std::fs::read_to_string(path).unwrap())).collect();
    all.sort();
    assert!(all.len() >= 10);
    all
}

fn story(text: &str) -> Story {
    read(text.as_bytes()).unwrap_or_else(|problems| panic!("{problems:?}\n{text}")).story
}

/// The one problem that a text has.
fn problem(text: &str) -> Problem {
    let problems = read(text.as_bytes()).err().unwrap_or_else(|| panic!("read without an error:\n{text}"));
    assert_eq!(problems.len(), 1, "{problems:?}\n{text}");
    problems[0].clone()
}

/// A heading, and the lines under it, each with what is blank without it.
type Section = (String, Vec<(String, String)>);

/// A story without a short form: every view has a name of its own, and whatever there is stands on a line of its own.
fn in_full(story: &Story) -> Vec<Section> {
    let (pack, names) = (&story.pack, &story.names);
    let mut sections: Vec<Section> = (0..pack.nodes.len()).map(|view| view_in_full(story, view)).collect();
    for (action, title) in pack.actions.iter().zip(&names.actions) {
        let mut lines = when_and_then(names, &action.condition, &action.effects);
        lines.push((format!("by {}", people(names, &action.consenters)), "who has to have a reason".to_string()));
        for (who, seen) in names.characters.iter().zip(&action.observations) {
            lines.push((format!("seen by {who} if {}", condition(names, seen)), format!("whether '{who}' sees it")));
        }
        sections.push((format!("action {title}"), lines));
    }
    for (trigger, title) in pack.triggers.iter().zip(&names.triggers) {
        sections.push((format!("trigger {title}"), when_and_then(names, &trigger.condition, &trigger.effects)));
    }
    sections
}

fn view_in_full(story: &Story, view: usize) -> Section {
    let (node, names) = (&story.pack.nodes[view], &story.names);
    let name = |view: usize| if view == 0 { "the truth".to_string() } else { format!("number {view}") };
    let heading = if view == 0 { name(0) } else { format!("view {}", name(view)) };
    let facts = node.values.iter().enumerate();
    let facts = facts.map(|(fact, &value)| (belief(names, &[], fact, value), names.facts[fact].name.clone()));
    let beliefs = names.characters.iter().zip(&node.beliefs);
    let beliefs = beliefs.map(|(who, &next)| (format!("{who} believes {}", name(next)), format!("'{who}' believes")));
    (heading, facts.chain(beliefs).collect())
}

fn when_and_then(names: &Names, when: &Condition, then: &[Effect]) -> Vec<(String, String)> {
    let then: Vec<String> = then.iter().map(|told| effect(names, told)).collect();
    vec![
        (format!("when {}", condition(names, when)), "when it happens".to_string()),
        (format!("then {}", then.join(" and ")), "what it changes".to_string()),
    ]
}

/// What is declared and what is wanted, in which nothing is taken out here.
fn frame(text: &str) -> (String, String) {
    let begin = text.find("the truth:").unwrap();
    (text[..begin].to_string(), text[text.find("author wants:").unwrap()..].to_string())
}

/// The text of sections, without one line of one of them. The heading's line is given too.
fn without(sections: &[Section], out: Option<(usize, usize)>, (before, after): &(String, String)) -> (String, usize) {
    let mut text = before.clone();
    let mut line = 0;
    for (i, (heading, lines)) in sections.iter().enumerate() {
        if out.is_some_and(|(section, _)| section == i) {
            line = text.lines().count() + 1;
        }
        text += &format!("{heading}:\n");
        let kept = lines.iter().enumerate().filter(|&(j, _)| out != Some((i, j)));
        kept.for_each(|(_, (said, _))| text += &format!("    {said}\n"));
    }
    (text + after, line)
}

/// Every fact of every view, every belief, every `when`, `then`, `by` and `seen by`.
#[test]
fn each_is_refused_at_its_line() {
    let mut blanks = 0;
    for (name, text) in examples() {
        let sections = in_full(&story(&text));
        let frame = frame(&text);
        let (whole, _) = without(&sections, None, &frame);
        assert_eq!(story(&whole).bytes(), story(&text).bytes(), "{name}");
        for (i, (heading, lines)) in sections.iter().enumerate() {
            for (j, (said, blank)) in lines.iter().enumerate() {
                let (text, line) = without(&sections, Some((i, j)), &frame);
                let problem = problem(&text);
                assert_eq!((problem.at.line, problem.at.column), (line, 1), "{name}: {said}");
                assert!(problem.message.starts_with(&format!("'{heading}' doesn't say ")), "{}", problem.message);
                assert!(problem.message.contains(blank), "{said}: {}", problem.message);
                assert!(problem.help.starts_with("write "), "{}", problem.help);
                blanks += 1;
            }
        }
    }
    assert!(blanks > 150, "{blanks}");
}

/// The statements of the views, actions and triggers of a text: each the numbers of its lines, with those that go on
/// with it, and of its heading.
fn statements(text: &str) -> Vec<(Range<usize>, usize)> {
    let lines: Vec<&str> = text.lines().collect();
    let goes_on = |line: &str| line.starts_with("     and") || line.starts_with("      or");
    let mut all: Vec<(Range<usize>, usize)> = Vec::new();
    let mut heading = None;
    for (i, line) in lines.iter().enumerate() {
        if !line.starts_with(' ') {
            let kinds = ["the truth:", "what ", "view ", "action ", "trigger "];
            heading = kinds.iter().any(|kind| line.starts_with(kind)).then_some(i);
        } else if let (true, Some((lines, _))) = (goes_on(line), all.last_mut()) {
            lines.end = i + 1;
        } else if let Some(heading) = heading {
            all.push((i..i + 1, heading));
        }
    }
    all
}

/// Whether a short form of the same section says what a statement says.
fn is_covered(section: &[&str], statement: &str) -> bool {
    let has = |short: &str| section.iter().any(|line| line.contains(short) && *line != statement);
    let words: Vec<&str> = statement.split_whitespace().collect();
    match words[0] {
        "when" | "then" | "by" | "everyone" => false,
        "seen" => has("seen by nobody else"),
        _ if words.contains(&"believes") => has("everyone else believes"),
        _ => has("the rest is as in"),
    }
}

/// The examples as they are written: what is taken out is refused at its heading, unless a short form says it.
#[test]
fn as_written() {
    let (mut refused, mut covered) = (0, 0);
    for (name, text) in examples() {
        let lines: Vec<&str> = text.lines().collect();
        for (statement, heading) in statements(&text) {
            let without: String =
                (0..lines.len()).filter(|i| !statement.contains(i)).map(|i| format!("{}\n", lines[i])).collect();
            let section: Vec<&str> = lines[heading..].iter().copied().take_while(|line| !line.is_empty()).collect();
            if is_covered(&section, lines[statement.start]) {
                story(&without);
                covered += 1;
            } else {
                assert_eq!(problem(&without).at.line, heading + 1, "{name}: {}", lines[statement.start]);
                refused += 1;
            }
        }
    }
    assert!(refused > 120 && covered > 5, "{refused} {covered}");
}

/// Where no section says what the author or a character wants, that is refused: at the end of the text, or where the
/// character is named. One that is empty is refused at its heading.
#[test]
fn wishes() {
    let mut refused = 0;
    for (name, text) in examples() {
        let whole = story(&text);
        let names = std::iter::once("author").chain(whole.names.characters.iter().map(String::as_str));
        for (who, wanting) in names.enumerate() {
            let begin = text.find(&format!("\n{wanting} wants:")).unwrap() + 1;
            let end = text[begin..].find("\n\n").map_or(text.len(), |length| begin + length + 1);
            let without = format!("{}{}", &text[..begin], &text[end..]);
            let heading = format!("{}{wanting} wants:\n{}", &text[..begin], &text[end..]);
            let named = if who == 0 { without.lines().count() } else { 3 };
            assert_eq!(problem(&without).at.line, named, "{name}: {wanting}");
            assert!(problem(&without).help.contains(&format!("'{wanting} wants: nothing'")));
            assert_eq!(problem(&heading).at.line, text[..begin].lines().count() + 1, "{name}: {wanting}");
            refused += 2;
        }
    }
    assert!(refused > 40, "{refused}");
}
