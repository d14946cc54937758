//! The calls from C: `c/calls.c` is compiled against the header, linked with the archive and run. So is the
//! example, and the one in Rust prints the same.

use std::env;
use std::fs::{create_dir_all, read_to_string};
use std::path::{Path, PathBuf};
use std::process::{Command, Output};

fn repository() -> PathBuf {
    Path::new(env!("CARGO_MANIFEST_DIR")).join("../..")
}

/// A program compiled with all warnings and linked with the archive and nothing else.
fn compiled(source: &str, name: &str) -> PathBuf {
    let folder = Path::new(env!("CARGO_TARGET_TMPDIR"));
    create_dir_all(folder).unwrap();
    let program = folder.join(name);
    let compiled = Command::new(env::var_os("CC").unwrap_or("cc".into()))
        .args(["-std=c99", "-O1", "-Wall", "-Wextra", "-Wpedantic", "-Werror", "-Iinclude", source])
        .args(["target/staticlib/libpirwodd.a", "-o"])
        .arg(&program)
        .current_dir(repository())
        .output()
        .expect("a C compiler is run");
    assert!(compiled.status.success(), "{source}: {}", String::from_utf8_lossy(&compiled.stderr));
    program
}

fn run(source: &str, name: &str, argument: &str) -> Output {
    let program = compiled(source, name);
    Command::new(program).arg(argument).current_dir(repository()).output().expect("the program is run")
}

/// The least number of checks that must have been made.
const CHECKS: u32 = 100;

#[test]
fn calls() {
    let ran = run("bindings/rust/tests/c/calls.c", "calls", "examples");
    let said = String::from_utf8(ran.stdout).unwrap();
    println!("{said}");
    let checks = said.lines().last().and_then(|line| line.strip_suffix(" checks, 0 failed")).expect("nothing failed");
    assert!(checks.parse::<u32>().unwrap() >= CHECKS, "{checks}");
    assert!(ran.status.success());
}

#[test]
fn letter() {
    let ran = run("examples/c/letter.c", "letter", "examples/letter.pack");
    let expected = read_to_string(repository().join("examples/c/letter.txt")).unwrap();
    assert_eq!(String::from_utf8(ran.stdout).unwrap(), expected);
    assert!(ran.status.success());
}

/// Nothing that is lent is read before it is written: `c/fresh.c` lends memory that nobody has written to, and valgrind,
/// where it is installed, would say so. The number that it prints is of what the calls have written, so it is the same
/// without valgrind.
#[test]
fn fresh() {
    let program = compiled("bindings/rust/tests/c/fresh.c", "fresh");
    for pack in ["examples/p.pack", "examples/letter.pack", "examples/shoes.pack"] {
        let alone = Command::new(&program).arg(pack).current_dir(repository()).output().expect("the program is run");
        assert!(alone.status.success(), "{pack}: {}", String::from_utf8_lossy(&alone.stdout));
        let mut watched = Command::new("valgrind");
        watched.args(["-q", "--error-exitcode=9"]).arg(&program).arg(pack).current_dir(repository());
        let Ok(ran) = watched.output() else {
            println!("valgrind is not installed: not tried whether lent memory is read before it is written");
            return;
        };
        assert!(ran.status.success(), "{pack}: {}", String::from_utf8_lossy(&ran.stderr));
        assert_eq!(ran.stdout, alone.stdout, "{pack}");
    }
}

/// The same by the example in Rust, run as its page says.
#[test]
fn letter_in_rust() {
    let words =
        ["run", "-q", "--release", "--offline", "-p", "pirwodd", "--example", "letter", "../examples/letter.pack"];
    let ran = Command::new(env!("CARGO")).args(words).current_dir(repository().join("tests")).output().unwrap();
    let expected = read_to_string(repository().join("examples/c/letter.txt")).unwrap();
    assert_eq!(String::from_utf8(ran.stdout).unwrap(), expected, "{}", String::from_utf8_lossy(&ran.stderr));
    assert!(ran.status.success());
}
