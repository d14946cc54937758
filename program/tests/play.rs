//! `play`: the ending in words, or the limits under which there is none.

mod common;

use common::{examples, fed, p_with, pirwodd, refuses, says, P};
use std::fs::read_to_string;

/// Whose reasons, who saw it, who missed it, who is wrong: what comes from several calls, side by side.
#[test]
fn each_act_is_told() {
    says(
        pirwodd(&["play", "lie.story"]),
        0,
        "The shortest ending has 3 actions: the author goes from 0 to 5 (at most 4 actions, foresight 3, nesting 2).

1. the heir says that the will lies in the garden
     the heir needs a reason and has one
     seen by the heir and the butler
     wrong afterwards:
       the butler believes the will is in the garden (the will is in the safe)
2. the butler goes into the garden
     the butler needs a reason and has one
     seen by the heir and the butler
     wrong afterwards:
       the butler believes the will is in the garden (the will is in the safe)
3. the heir takes the silver
     the heir needs a reason and has one
     seen by the heir; missed by the butler
     wrong afterwards:
       the butler believes the will is in the garden (the will is in the safe)
       the butler believes the silver is in the house (the silver is with the heir)
",
    );
}

/// Two whose reasons are needed, nobody who is wrong, beliefs about beliefs and more of them than are told.
#[test]
fn beliefs_about_beliefs() {
    let (_, alice, _) = pirwodd(&["play", "alice.story"]);
    assert!(alice.ends_with("     seen by Alice, Bob and Charlie\n     nobody is wrong afterwards\n"), "{alice}");
    let (_, market, _) = pirwodd(&["play", "market.story"]);
    let second = market.split_once("2. Tom buys the potion\n").expect("the second action").1;
    let lines: Vec<&str> = second.lines().map(str::trim_start).collect();
    assert_eq!(lines[0], "Tom and the merchant need reasons and have them");
    let nested =
        "the merchant believes Tom believes the merchant's wealth is 3 (Tom believes the merchant's wealth is 2)";
    assert!(lines.contains(&nested), "{second}");
    assert_eq!((lines.len(), lines.last()), (12, Some(&"and 8 more")), "{second}");
}

/// What is told as wrong is asked back: the belief is held after these actions, and what stands behind it is so.
#[test]
fn wrong_beliefs_are_held_and_wrong() {
    let mut asked = 0;
    for file in ["letter.story", "alice.story", "shoes.story", "market.story", "lie.story"] {
        let (_, told, _) = pirwodd(&["play", file]);
        let mut after: Vec<&str> = Vec::new();
        for line in told.lines().skip(2) {
            if let Some((_, title)) = line.split_once(". ").filter(|_| !line.starts_with(' ')) {
                after.push(title);
            }
            let Some((held, so)) = line.trim().strip_suffix(')').and_then(|line| line.split_once(" (")) else {
                continue;
            };
            for side in [held, so] {
                says(pirwodd(&["ask", file, side, "--after", &after.join(",")]), 0, &format!("yes: {side}\n"));
                asked += 1;
            }
        }
    }
    assert!(asked > 40, "{asked}");
}

/// A takes B to know what is so, and B doesn't: that is a mistake of A's too, about a belief that leads back to the truth.
#[test]
fn who_is_taken_to_know() {
    let nodes = [3, 0, 2, 3, 0, 2, 1, 1, 3, 3];
    let pack = [&P[..4], &nodes, &P[8..15], &[0, 0, 0, 0], &P[24..]].concat();
    let (_, told, _) = fed(&["try", "-", "0"], &pack);
    let wrong = "     wrong afterwards:\n       B believes fact 0 is 1 (fact 0 is 0)\n       \
                 A believes B believes fact 0 is 0 (B believes fact 0 is 1)\n\n";
    assert!(told.contains(wrong), "{told}");
}

/// Every story of the examples: the actions and worths that its `.out` has.
#[test]
fn the_endings_are_those_of_the_examples() {
    let stories = ["p", "letter", "alice", "shoes", "market", "lie"];
    for name in stories {
        let out = read_to_string(examples().join(format!("{name}.out"))).expect(name);
        let (status, told, _) = pirwodd(&["play", &format!("{name}.pack")]);
        let titles: Vec<String> = told.lines().filter(|line| !line.starts_with(' ')).skip(2).map(dotless).collect();
        let worths = told.split_once("from ").and_then(|(_, rest)| rest.split_once(" (")).expect("worths").0;
        let same = titles.join("\n") + "\nauthor " + &worths.replace(" to", "") + "\n";
        assert_eq!((status, same), (0, out), "{name}");
    }
}

/// `1. 0`, an action by its number, as `ending` prints it.
fn dotless(line: &str) -> String {
    line.replace(". ", " ")
}

#[test]
fn none_under_these_limits() {
    let none = "There is no ending of at most 4 actions with foresight 3 and nesting 2.\n";
    says(pirwodd(&["play", "safe.story"]), 1, none);
    let other = "There is no ending of at most 1 action with foresight 2 and nesting 1.\n";
    says(pirwodd(&["play", "letter.story", "-T", "1", "-K", "2", "-E", "1"]), 1, other);
    let (status, told, _) = pirwodd(&["play", "safe.story", "-T", "5"]);
    assert_eq!(status, 0);
    assert!(told.starts_with("The shortest ending has 5 actions: the author goes from 0 to 5 (at most 5 "), "{told}");
}

#[test]
fn limits_are_refused_by_the_planner() {
    let refused = "pirwodd: refused 9: an action, character, fluent or limit is out of range \
                   (-T is 1 to 8, -K 1 to 6, -E 0 to 3)";
    for limit in [["-T", "0"], ["-T", "9"], ["-K", "0"], ["-K", "7"], ["-E", "4"]] {
        refuses(pirwodd(&["play", "p.story", limit[0], limit[1]]), refused);
    }
}

/// An action that needs nobody and that nobody sees.
#[test]
fn nobody() {
    let pack = p_with(19, 24, &[0, 0, 0]);
    says(
        fed(&["play", "-", "-T", "1"], &pack),
        0,
        "The shortest ending has 1 action: the author goes from 0 to 5 (at most 1 action, foresight 3, nesting 2).

1. 0
     nobody needs a reason
     seen by nobody
     wrong afterwards:
       A believes fact 0 is 0 (fact 0 is 1)
       B believes fact 0 is 0 (fact 0 is 1)
",
    );
}

/// Who saw an action is judged in the state before it, by tests of each kind; the action makes the fact 1.
#[test]
fn seen_is_judged_before() {
    let [is, is_not, at_least] = [0, 1, 2];
    let both = "seen by A and B\n";
    let one = "seen by A; missed by B\n";
    for (kind, value, seen) in
        [(is, 0, both), (is, 1, one), (is_not, 0, one), (is_not, 1, both), (at_least, 0, both), (at_least, 1, one)]
    {
        let pack = p_with(23, 24, &[1, 1, 0, kind, 0, value]);
        let (_, told, _) = fed(&["play", "-"], &pack);
        assert!(told.contains(&format!("     {seen}")), "{kind} {value}: {told}");
    }
}
