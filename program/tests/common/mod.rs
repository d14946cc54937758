//! The program run as a writer runs it, in the folder of the examples.

#![allow(dead_code)] // no test file uses all of it

use std::io::Write;
use std::path::PathBuf;
use std::process::{Command, Output, Stdio};

pub const P: &[u8] = include_bytes!("../../../examples/p.pack");

/// The exit status, standard output and standard error.
pub type Ran = (i32, String, String);

pub fn examples() -> PathBuf {
    [env!("CARGO_MANIFEST_DIR"), "..", "examples"].iter().collect()
}

pub fn program(words: &[&str]) -> Command {
    let mut program = Command::new(env!("CARGO_BIN_EXE_pirwodd"));
    program.args(words).current_dir(examples());
    program
}

pub fn told(output: Output) -> Ran {
    let text = |bytes| String::from_utf8(bytes).expect("text");
    (output.status.code().expect("an exit status"), text(output.stdout), text(output.stderr))
}

pub fn pirwodd(words: &[&str]) -> Ran {
    told(program(words).stdin(Stdio::null()).output().expect("the program is run"))
}

/// The same with bytes at standard input.
pub fn fed(words: &[&str], input: &[u8]) -> Ran {
    let mut program = program(words);
    program.stdin(Stdio::piped()).stdout(Stdio::piped()).stderr(Stdio::piped());
    let mut child = program.spawn().expect("the program is run");
    child.stdin.take().expect("a pipe").write_all(input).expect("it reads all");
    told(child.wait_with_output().expect("it ends"))
}

/// It answers with this, and has nothing else to say.
#[track_caller]
pub fn says(ran: Ran, status: i32, out: &str) {
    assert_eq!(ran, (status, out.to_string(), String::new()));
}

/// It is refused, with no answer and a first line of this.
#[track_caller]
pub fn refuses(ran: Ran, first: &str) {
    let (status, out, err) = ran;
    assert_eq!((status, &out[..], err.lines().next()), (2, "", Some(first)), "{err}");
}

/// P with the bytes from `from` to `to` replaced by others.
pub fn p_with(from: usize, to: usize, bytes: &[u8]) -> Vec<u8> {
    [&P[..from], bytes, &P[to..]].concat()
}

/// An empty folder of a test's own.
pub fn folder(name: &str) -> PathBuf {
    let folder = std::env::temp_dir().join(format!("pirwodd-{}-{name}", std::process::id()));
    std::fs::create_dir_all(&folder).expect("a folder");
    folder
}
