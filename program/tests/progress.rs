//! A search that takes long says so while it runs, and its answer is the one that is had by asking once.

mod common;

use std::io::{BufRead, BufReader};
use std::process::Stdio;
use std::sync::mpsc::channel;
use std::thread;
use std::time::{Duration, Instant};

use common::{examples, pirwodd, program, says};
use pirwodd::{refusal, Ending, Limits, Planner, Story};

const STORIES: [&str; 10] = ["p", "letter", "alice", "shoes", "market", "lie", "safe", "necklace", "will", "thornby"];

/// Six people and 24 actions: the search takes many seconds.
const LONG: [&str; 8] = ["play", "thornby.story", "-T", "8", "-K", "4", "-E", "2"];

/// No ending of 8 actions: the search takes some seconds.
const ENDS: [&str; 8] = ["play", "will.story", "-T", "8", "-K", "6", "-E", "3"];

/// What one call for the whole limit says: the first line, and the actions of a pack by their numbers.
fn at_once(story: &str, limits: Limits) -> (i32, Vec<String>) {
    let pack = std::fs::read(examples().join(format!("{story}.pack"))).expect(story);
    let actions = if limits.story.0 == 1 { "1 action".to_string() } else { format!("{} actions", limits.story.0) };
    match Planner::new().search(&pack, limits) {
        Ok(Ending { actions: list, before, after }) => {
            let length = if list.len() == 1 { "1 action".to_string() } else { format!("{} actions", list.len()) };
            let first = format!(
                "The shortest ending has {length}: the author goes from {before} to {after} \
                 (at most {actions}, foresight 3, nesting 2)."
            );
            let rest = list.iter().enumerate().map(|(i, action)| format!("{}. {}", i + 1, action.0));
            (0, [first].into_iter().chain(rest).collect())
        }
        Err(refused) => {
            assert_eq!(refused.number, refusal::NO_ENDING, "{story}");
            (1, vec![format!("There is no ending of at most {actions} with foresight 3 and nesting 2.")])
        }
    }
}

/// Every example, at every limit up to 5: the same ending or the same sentence, and nothing on standard error.
#[test]
fn the_answer_is_that_of_one_call() {
    for story in STORIES {
        for most in 1..=5 {
            let (status, out, err) = pirwodd(&["play", &format!("{story}.pack"), "-T", &most.to_string()]);
            let told = out.lines().filter(|line| !line.is_empty() && !line.starts_with(' ')).map(str::to_string);
            let limits = Limits { story: Story(most), ..Limits::default() };
            assert_eq!((status, told.collect()), at_once(story, limits), "{story} -T {most}");
            assert_eq!(err, "", "{story} -T {most}");
        }
    }
}

/// The largest limits don't make a search long that finds its ending soon.
#[test]
fn a_quick_search_is_silent() {
    for story in ["letter.story", "safe.story", "market.story"] {
        let (status, _, err) = pirwodd(&["play", story, "-T", "8", "-K", "6", "-E", "3"]);
        assert_eq!((status, &err[..]), (0, ""), "{story}");
    }
}

/// `still searching: no ending of up to 4 actions; trying 5 (at most 8, foresight 4, nesting 2)`: the length.
fn trying(line: &str, limits: &str) -> Option<u8> {
    let said = line.strip_prefix("still searching: ")?.strip_suffix(limits)?;
    let (none, trying) = said.split_at(said.find("trying ")?);
    let length = trying.strip_prefix("trying ")?.parse().ok()?;
    let expected = match length {
        1 => String::new(),
        2 => "no ending of up to 1 action; ".to_string(),
        _ => format!("no ending of up to {} actions; ", length - 1),
    };
    (none == expected && length <= 8).then_some(length)
}

/// The line comes while the search runs, and not within the first second. The program is then killed, and has
/// written no answer.
#[test]
fn a_long_search_says_how_far_it_is() {
    let began = Instant::now();
    let mut program = program(&LONG);
    let program = program.stdin(Stdio::null()).stdout(Stdio::piped()).stderr(Stdio::piped());
    let mut child = program.spawn().expect("the program is run");
    let (send, lines) = channel();
    let err = BufReader::new(child.stderr.take().expect("a pipe"));
    let reader = thread::spawn(move || err.lines().map_while(Result::ok).try_for_each(|line| send.send(line)));
    let line = lines.recv_timeout(Duration::from_secs(10));
    let (after, running) = (began.elapsed(), child.try_wait().expect("a child").is_none());
    child.kill().expect("it can be ended");
    let output = child.wait_with_output().expect("it ends");
    let _ = reader.join();
    let line = line.expect("a line within ten seconds");
    assert!(trying(&line, " (at most 8, foresight 4, nesting 2)").is_some(), "{line}");
    assert!(running && after >= Duration::from_secs(1), "after {after:?}: {line}");
    assert_eq!(output.stdout, b"");
}

/// Whatever was said meanwhile, the answer and the exit status are as they are; the lengths rise, at most one a second.
#[test]
fn a_long_search_is_answered_as_a_short_one() {
    let began = Instant::now();
    let (status, out, err) = pirwodd(&ENDS);
    let seconds = began.elapsed().as_secs();
    let lengths: Option<Vec<u8>> =
        err.lines().map(|line| trying(line, " (at most 8, foresight 6, nesting 3)")).collect();
    let lengths = lengths.unwrap_or_else(|| panic!("{err}"));
    assert!(lengths.windows(2).all(|pair| pair[0] < pair[1]) && lengths.len() as u64 <= seconds, "{seconds} s: {err}");
    let none = "There is no ending of at most 8 actions with foresight 6 and nesting 3.\n";
    says((status, out, String::new()), 1, none);
}
