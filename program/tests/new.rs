//! `new`: a story to begin with, which never takes the place of a file.

mod common;

use common::{folder, pirwodd, refuses, says};
use std::fs::{read_to_string, remove_dir_all, write};
use std::process::Command;

#[test]
fn a_story_that_is_in_order_and_has_an_ending() {
    let folder = folder("new");
    let file = folder.join("mine.story");
    let file = file.to_str().expect("a name");
    let next = format!("{file} is written. Next: pirwodd check {file}, then pirwodd play {file}\n");
    says(pirwodd(&["new", file]), 0, &next);
    let (status, checked, warnings) = pirwodd(&["check", file]);
    assert!(status == 0 && checked.starts_with(&format!("{file}: in order; ")), "{checked}{warnings}");
    assert_eq!(warnings, "");
    assert_eq!(pirwodd(&["play", file]).0, 0);
    let text = read_to_string(file).expect("a file");
    for heading in ["characters:", "facts:", "the truth:", "action ", "author wants:", "Ada wants:"] {
        let before = text.lines().take_while(|line| !line.starts_with(heading)).last();
        assert!(before.is_some_and(|line| line.starts_with("# ")), "a remark says what this is for: {heading}");
    }
    assert_eq!(pirwodd(&["new", "-"]), (0, text, String::new()));
    remove_dir_all(folder).expect("a folder");
}

#[test]
fn it_never_overwrites() {
    let folder = folder("keep");
    let file = folder.join("mine.story");
    write(&file, "my own words").expect("a file");
    let name = file.to_str().expect("a name");
    refuses(pirwodd(&["new", name]), &format!("pirwodd: {name}: File exists (os error 17)"));
    assert_eq!(read_to_string(&file).expect("a file"), "my own words");
    remove_dir_all(folder).expect("a folder");
}

/// Where nothing can be written that is told, and no half of a file is left. The limit on files stands for a full disk.
#[test]
fn a_write_that_fails() {
    let folder = folder("full");
    let file = folder.join("mine.story");
    let program = env!("CARGO_BIN_EXE_pirwodd");
    let script = "trap '' XFSZ; ulimit -f 0; exec \"$0\" new \"$1\"";
    let output = Command::new("sh").args(["-c", script, program]).arg(&file).output().expect("sh");
    let name = file.to_str().expect("a name");
    refuses(common::told(output), &format!("pirwodd: {name}: File too large (os error 27)"));
    assert!(!file.exists());
    let nowhere = format!("{name}/there/mine.story");
    refuses(pirwodd(&["new", &nowhere]), &format!("pirwodd: {nowhere}: No such file or directory (os error 2)"));
    remove_dir_all(folder).expect("a folder");
}
