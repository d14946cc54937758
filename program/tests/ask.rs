//! `ask` and `compare`: Query and Compare in names.

mod common;

use common::{fed, pirwodd, refuses, says, P};

#[test]
fn what_is_so_and_what_is_believed() {
    says(pirwodd(&["ask", "letter.story", "the letter"]), 0, "the letter is in the desk\n");
    says(pirwodd(&["ask", "letter.story", "the letter", "--after", "0"]), 0, "the letter is in the drawer\n");
    let nested = "Ada believes the cousin believes the letter";
    says(pirwodd(&["ask", "letter.story", nested, "--after", "0"]), 0, &format!("{nested} is in the desk\n"));
    says(pirwodd(&["ask", "letter.story", nested, "--after", "1,0"]), 0, &format!("{nested} is in the drawer\n"));
    let title = "the cousin comes home,Ada moves the letter to the drawer";
    says(pirwodd(&["ask", "letter.story", nested, "--after", title]), 0, &format!("{nested} is in the drawer\n"));
    let seen = "the shoes are in the shop\n";
    says(pirwodd(&["ask", "shoes.story", "  the   shoes "]), 0, seen);
}

/// A chain longer than any that a condition may have.
#[test]
fn any_depth() {
    let chain = "Ben believes Ann believes ".repeat(40);
    let ran = pirwodd(&["ask", "p.story", &format!("{chain}the lamp"), "--after", "0"]);
    says(ran, 0, &format!("{chain}the lamp is out\n"));
}

#[test]
fn yes_or_no() {
    let question = "the cousin believes the letter is in the drawer";
    says(pirwodd(&["ask", "letter.story", question, "--after", "1,0"]), 0, &format!("yes: {question}\n"));
    let no = "no: the cousin believes the letter is in the desk\n";
    says(pirwodd(&["ask", "letter.story", question, "--after", "0"]), 1, no);
}

#[test]
fn names_that_are_not_there() {
    refuses(
        pirwodd(&["ask", "letter.story", "Eve believes the letter"]),
        "pirwodd: there is no character 'Eve', expected one of 'Ada', 'the cousin'",
    );
    refuses(
        pirwodd(&["ask", "letter.story", "Ada believes the will"]),
        "pirwodd: there is no fact 'the will', expected one of 'the letter', 'the desk', 'the cousin'",
    );
    refuses(
        pirwodd(&["ask", "letter.story", "the desk is burnt"]),
        "pirwodd: there is no value 'burnt', expected one of 'locked', 'broken open'",
    );
}

#[test]
fn after_what_cannot_be_played() {
    let ran = pirwodd(&["ask", "letter.story", "the letter", "--after", "0,0"]);
    let why = "pirwodd: action 2 of the list, 'Ada moves the letter to the drawer'\n     \
               can't be played: its condition fails\n       the letter is in the desk (the letter is in the drawer)\n";
    assert_eq!(ran, (2, String::new(), why.to_string()));
}

#[test]
fn the_same() {
    let same = "The same: no belief about beliefs of any depth tells them apart.\n";
    says(pirwodd(&["compare", "alice.story", "--after", "0,1", "--after", "1,0"]), 0, same);
    says(pirwodd(&["compare", "alice.story", "--after", "", "--after", ""]), 0, same);
}

#[test]
fn they_differ() {
    let told = "They differ:\n  after the first, the cousin believes the letter is in the desk\n  \
                after the second, the cousin believes the letter is in the drawer\n";
    says(pirwodd(&["compare", "letter.story", "--after", "0,1", "--after", "1,0"]), 1, told);
    let told =
        "They differ:\n  after the first, the shoes are in the shop\n  after the second, the shoes are with the teen\n";
    says(pirwodd(&["compare", "shoes.story", "--after", "0", "--after", "0,1"]), 1, told);
}

/// The truth is the same, and so is what each believes of it: a belief about a belief differs.
#[test]
fn they_differ_at_depth() {
    // P's action twice: once Ben sees it too, once he only comes to believe what it did.
    let (seen, told) = ([&P[9..23], &[1, 0]].concat(), [&P[9..15], &[2, 0, 0, 1, 2, 0, 1], &P[19..24]].concat());
    let pack = [&P[..8], &[2], &seen, &told, &P[24..]].concat();
    let differ = "They differ:\n  after the first, B believes A believes fact 0 is 1\n  \
                  after the second, B believes A believes fact 0 is 0\n";
    says(fed(&["compare", "-", "--after", "0", "--after", "1"], &pack), 1, differ);
}
