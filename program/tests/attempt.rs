//! `try`: a list of the writer's own, up to the first action that fails, and why.

mod common;

use common::{examples, fed, p_with, pirwodd, refuses, says, P};
use std::fs::read_to_string;

const FIRST: &str = "\
1. Ada moves the letter to the drawer
     Ada has a reason
     seen by Ada; missed by the cousin
     wrong afterwards:
       the cousin believes the letter is in the desk (the letter is in the drawer)
";

#[test]
fn an_ending() {
    let (status, told, _) = pirwodd(&["try", "letter.story", "0,1,2"]);
    assert_eq!(status, 0);
    assert!(told.starts_with(FIRST), "{told}");
    assert!(told.contains("\n3. the cousin breaks the desk open\n     the cousin has a reason\n"), "{told}");
    assert!(told.ends_with("\n\nThe author goes from 0 to 5: this is an ending.\n"), "{told}");
}

#[test]
fn played_and_no_ending() {
    says(
        pirwodd(&["try", "letter.story", "0"]),
        0,
        &format!("{FIRST}\nThe author goes from 0 to 0: this is no ending.\n"),
    );
    says(pirwodd(&["try", "letter.story", ""]), 0, "\nThe author goes from 0 to 0: this is no ending.\n");
}

/// A list by which the author gains, of 8 actions and of 9: no T allows these.
#[test]
fn longer_than_endings_are() {
    let always = [&P[..9], &[1, 0], &P[15..19], &[0], &P[21..]].concat();
    let (status, told, _) = fed(&["try", "-", &["0"; 8].join(",")], &always);
    assert!(status == 0 && told.ends_with("from 0 to 5: this is an ending.\n"), "{told}");
    let (status, told, _) = fed(&["try", "-", &["0"; 9].join(",")], &always);
    assert!(status == 0 && told.ends_with("this is no ending, which has at most 8 actions.\n"), "{told}");
}

#[test]
fn the_tests_of_a_condition_that_fail() {
    let failing = "\
2. the cousin takes the letter from the desk
     can't be played: its condition fails
       the cousin is in the house (the cousin is out)
       the desk is broken open (the desk is locked)
       the letter is in the desk (the letter is in the drawer)
";
    says(pirwodd(&["try", "letter.story", "0,3"]), 1, &format!("{FIRST}{failing}"));
    let (status, told, _) = pirwodd(&["try", "letter.story", "0,1,2,3"]);
    let fourth = "4. the cousin takes the letter from the desk\n     can't be played: its condition fails\n       \
                  the letter is in the desk (the letter is in the drawer)\n";
    assert!(status == 1 && told.ends_with(fourth), "only the test that fails: {told}");
}

#[test]
fn alternatives_that_fail() {
    let either = p_with(9, 15, &[2, 1, 0, 0, 0, 1, 2, 1, 1, 2, 0, 2, 0, 1, 0, 0]);
    says(
        fed(&["try", "-", "0"], &either),
        1,
        "1. 0
     can't be played: its condition fails
       fact 0 is 1 (fact 0 is 0)
       or, in its next alternative:
       B believes fact 0 is at least 2 (B believes fact 0 is 0)
       fact 0 is not 0 (fact 0 is 0)
",
    );
    let never = p_with(9, 15, &[0]);
    says(fed(&["try", "-", "0"], &never), 1, "1. 0\n     can't be played: its condition never holds\n");
}

#[test]
fn nobody_has_to_have_a_reason_or_somebody_has_none() {
    says(
        pirwodd(&["try", "letter.story", "1", "-K", "2"]),
        1,
        "1. the cousin comes home\n     fails: the cousin has no reason for it (foresight 2, nesting 2)\n",
    );
    says(
        pirwodd(&["try", "market.story", "0,2", "-E", "0"]),
        1,
        "1. Tom walks to the market\n     fails: Tom has no reason for it (foresight 3, nesting 0)\n",
    );
    let both = p_with(19, 21, &[2, 0, 1]);
    says(
        fed(&["try", "-", "0"], &both),
        1,
        "1. 0\n     A has a reason\n     fails: B has no reason for it (foresight 3, nesting 2)\n",
    );
    let free = p_with(19, 21, &[0]);
    let (status, told, _) = fed(&["try", "-", "0", "-E", "0"], &free);
    assert!(status == 0 && told.starts_with("1. 0\n     nobody needs a reason\n"), "{told}");
}

/// 11 and 12, in words.
#[test]
fn triggers_without_rest_and_too_many_states() {
    let restless = p_with(24, 25, &[1, 1, 0, 0]);
    says(
        fed(&["try", "-", "0"], &restless),
        1,
        "1. 0\n     can't be played: the triggers don't come to rest: one still holds after 16 rounds of them\n",
    );
    let ring = (0..32).flat_map(|i| [i, (i + 1) % 32 + 1]);
    let crowd: Vec<u8> =
        [1, 1, 1, 33, 32].into_iter().chain(ring).chain([1, 1, 0, 1, 0, 0, 32, 0, 0, 0, 0, 0]).collect();
    says(
        fed(&["try", "-", "0"], &crowd),
        1,
        "1. 0\n     can't be played: what everyone would believe of everyone then has more than 32 different states\n",
    );
}

#[test]
fn by_titles() {
    let by_numbers = pirwodd(&["try", "letter.story", "0,1"]);
    assert_eq!(by_numbers.0, 0);
    let (first, second) = ("Ada moves the letter to the drawer", "the cousin comes home");
    assert_eq!(pirwodd(&["try", "letter.story", first, second]), by_numbers);
    assert_eq!(pirwodd(&["try", "letter.story", "0", second]), by_numbers);
    assert_eq!(pirwodd(&["try", "letter.story", &format!("{first}, {second}")]), by_numbers);
    let (status, out, err) = pirwodd(&["try", "letter.story", "0,4"]);
    let known = "pirwodd: there is no action '4'. The actions are\n  0  Ada moves the letter to the drawer\n  \
                 1  the cousin comes home\n  2  the cousin breaks the desk open\n  \
                 3  the cousin takes the letter from the desk\n";
    assert_eq!((status, &out[..], &err[..]), (2, "", known));
}

/// Titles with commas and `!`, one by one and in a list.
#[test]
fn by_titles_with_commas() {
    let text = read_to_string(examples().join("letter.story")).expect("a story");
    let text = text.replace("action Ada moves the letter to the drawer:", "action Quick, Ada, the drawer!:");
    let by_numbers = fed(&["try", "-", "0,1"], text.as_bytes());
    assert!(by_numbers.0 == 0 && by_numbers.1.starts_with("1. Quick, Ada, the drawer!\n"), "{by_numbers:?}");
    let (quick, home) = ("Quick, Ada, the drawer!", "the cousin comes home");
    assert_eq!(fed(&["try", "-", quick, home], text.as_bytes()), by_numbers);
    assert_eq!(fed(&["try", "-", &format!("{quick},{home}")], text.as_bytes()), by_numbers);
    let moved = "the letter is in the drawer\n";
    says(fed(&["ask", "-", "the letter", "--after", &format!("1, {quick}")], text.as_bytes()), 0, moved);
}

#[test]
fn limits() {
    refuses(
        pirwodd(&["try", "letter.story", "0", "-K", "7"]),
        "pirwodd: refused 9: an action, character, fluent or limit is out of range \
         (-T is 1 to 8, -K 1 to 6, -E 0 to 3)",
    );
    refuses(pirwodd(&["try", "letter.story", "0", "-T", "4"]), "pirwodd: try: -T is not one of its options");
}
