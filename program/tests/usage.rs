//! The exit statuses, standard input, what is wrong with arguments, and reads and writes that fail.

mod common;

use common::{examples, fed, pirwodd, program, refuses, says, P};
use std::fs::{read, File};
use std::io::Write;
use std::process::Stdio;

#[test]
fn the_three_statuses() {
    assert_eq!(pirwodd(&["play", "letter.story"]).0, 0);
    assert_eq!(pirwodd(&["play", "safe.story"]).0, 1);
    assert_eq!(pirwodd(&["play", "no.story"]).0, 2);
}

#[test]
fn versions() {
    let said = format!(
        "pirwodd {0}, over the proved library of the crate pirwodd {0}\npacks of version 1\n",
        pirwodd::VERSION
    );
    says(pirwodd(&["--version"]), 0, &said);
    assert_eq!(P[0], 1, "the version that packs have");
}

/// The help names every command, and each of those that it names is one.
#[test]
fn help() {
    let (status, help, err) = pirwodd(&["--help"]);
    assert_eq!((status, &err[..]), (0, ""));
    let commands: Vec<&str> =
        help.lines().filter_map(|line| line.strip_prefix("pirwodd ")?.split(' ').next()).collect();
    let all = ["new", "check", "play", "try", "ask", "compare", "pack", "text", "dot", "--version", "--help"];
    assert_eq!(commands, all);
    assert_eq!(pirwodd(&["play", "--help"]), (0, help, String::new()));
}

#[test]
fn wrong_usage() {
    let cases: [(&[&str], &str); 13] = [
        (&[], "expected a command"),
        (&["sing"], "there is no command 'sing'"),
        (&["play"], "play: expected a file"),
        (&["play", "p.story", "letter.story"], "play: 'letter.story' is more than it takes"),
        (&["try", "p.story"], "try: expected more than a file"),
        (&["ask", "p.story", "the", "lamp"], "ask: 'lamp' is more than it takes"),
        (&["play", "p.story", "-T"], "-T: expected something behind it"),
        (&["play", "p.story", "-T", "four"], "-T: expected a small number, found 'four'"),
        (&["play", "p.story", "-T", "4", "-T", "5"], "-T: expected it once"),
        (&["play", "p.story", "--loud"], "there is no option --loud"),
        (&["check", "p.story", "--after", "0"], "check: --after is not one of its options"),
        (&["compare", "p.story", "--after", "0"], "compare: expected --after LIST twice"),
        (
            &["text", "p.story", "--after", "0", "--chart", "00"],
            "expected --after LIST or --chart HEX, and one of them",
        ),
    ];
    for (words, problem) in cases {
        let help = "pirwodd --help lists the commands and what they take";
        assert_eq!(pirwodd(words), (2, String::new(), format!("pirwodd: {problem}\n{help}\n")), "{words:?}");
    }
}

/// Behind `--` words are no options.
#[test]
fn words_that_look_like_options() {
    refuses(pirwodd(&["play", "--", "-T"]), "pirwodd: -T: No such file or directory (os error 2)");
}

#[test]
fn standard_input() {
    let letter = read(examples().join("letter.story")).expect("a file");
    assert_eq!(fed(&["play", "-"], &letter), pirwodd(&["play", "letter.story"]));
    assert_eq!(fed(&["play", "-"], P), pirwodd(&["play", "p.pack"]));
    says(fed(&["ask", "-", "the letter"], &letter), 0, "the letter is in the desk\n");
}

#[test]
fn reads_that_fail() {
    refuses(pirwodd(&["play", "no.story"]), "pirwodd: no.story: No such file or directory (os error 2)");
    refuses(pirwodd(&["check", "."]), "pirwodd: .: Is a directory (os error 21)");
    let folder = File::open(examples()).expect("a folder");
    let output = program(&["play", "-"]).stdin(folder).output().expect("the program is run");
    refuses(common::told(output), "pirwodd: standard input: Is a directory (os error 21)");
}

/// A full disk, under every command that answers.
#[test]
fn writes_that_fail() {
    let commands: [&[&str]; 9] = [
        &["play", "letter.story"],
        &["check", "letter.story"],
        &["try", "letter.story", "0"],
        &["ask", "letter.story", "the letter"],
        &["compare", "letter.story", "--after", "0", "--after", "1"],
        &["pack", "letter.story"],
        &["text", "letter.story"],
        &["dot", "letter.story"],
        &["new", "-"],
    ];
    for words in commands {
        let full = File::options().write(true).open("/dev/full").expect("a full disk");
        let output = program(words).stdout(full).output().expect("the program is run");
        let why = "pirwodd: the answer can't be written: No space left on device (os error 28)";
        refuses(common::told(output), why);
    }
}

/// Nobody reads the answer any more.
#[test]
fn a_closed_pipe() {
    let mut program = program(&["pack", "-"]);
    let mut child = program.stdin(Stdio::piped()).stdout(Stdio::piped()).stderr(Stdio::piped()).spawn().expect("run");
    drop(child.stdout.take());
    child.stdin.take().expect("a pipe").write_all(P).expect("it reads all");
    let ran = common::told(child.wait_with_output().expect("it ends"));
    refuses(ran, "pirwodd: the answer can't be written: Broken pipe (os error 32)");
}

/// What can't be told to standard error is told by the exit status still, be it an error or a warning.
#[test]
fn errors_that_cannot_be_written() {
    for words in [["play", "no.story"], ["check", "alice.story"]] {
        let full = File::options().write(true).open("/dev/full").expect("a full disk");
        let output = program(&words).stderr(full).output().expect("the program is run");
        assert_eq!((output.status.code(), &output.stdout[..]), (Some(2), &b""[..]), "{words:?}");
    }
}
