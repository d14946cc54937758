//! The gate's script, run in a folder of its own with stand-ins for `rt`, `cargo` and `cc`: it passes where all is well,
//! and says what is amiss where something is. The stand-ins say what lies in the folder `said`.

mod folder;

use audit::{layers, repository};
use folder::Folder;

const RT: &str = r#"#!/bin/sh
crate=${PWD##*/}
case $* in
    ci) cat said/ci && exit "$(cat said/status)" ;;
    lib) mkdir -p out && : >"out/lib$crate.a" && cat "../../said/lib$crate" ;;
    "check --list-axioms") cat "../../said/check$crate" ;;
    *) exit 2 ;;
esac
"#;

const CARGO: &str = r#"#!/bin/sh
case $* in
    *"-p audit"*) exit "$(cat ../said/audit)" ;;
    *"-p compare"*) cat ../said/later ;;
    *) cat ../said/apart ;;
esac
"#;

/// What the script runs besides; the folder with these and the stand-ins is all that it finds commands in.
const TOOLS: [&str; 14] =
    ["awk", "bash", "cat", "cp", "dirname", "env", "grep", "mkdir", "mktemp", "rm", "sed", "sh", "tail", "tee"];

/// What is said of an archive, behind what is said of a library that is proved for it.
const ARCHIVE: &str =
    "fn chart::start: proved\nlibrary chart: modules loaded=1 checked=0\nlogic=proved functions=1 sum=0\n\
    library pack: modules loaded=1 checked=0\nlibrary chart: modules loaded=1 checked=0\n\
    library transition: modules loaded=1 checked=0\nlibrary planner: modules loaded=1 checked=0\n\
    library pirwodd: modules loaded=1 checked=0\nlibrary probe: modules loaded=1 checked=0\n\
    axioms libc: none reached of the 128 declared\naxioms os: none reached of the 22 declared\n\
    logic=proved functions=1 target=x86_64-unknown-linux-gnu sum=0\n";

const ENDING: &str = "axioms libc: 2 reached of the 128 declared\n  libc::close\n  libc::read   reached\n\
    \x20 libc::write   reached\naxioms os: 1 reached of the 22 declared\n  os::c::rattle_errno   reached\n\
    logic=proved functions=1 axioms=3 target=x86_64-unknown-linux-gnu sum=0\n";

const OK: &str = "rt: ok; handles allowed: none; must-fail edits: 2 refused; every proof was done in this run\n";

/// What rt says where all is well: the first crate is proved, and the others are kept.
fn ci() -> String {
    let crates = layers::crates(&repository()).expect("crates.txt");
    let said = crates.iter().enumerate().map(|(i, of)| match i {
        0 => format!("fn {of}::f: proved\nlogic=proved functions=1 sum=0\nrt: {of} proved\n"),
        _ => format!("rt: {of} is kept: an earlier run proved it\n"),
    });
    said.collect::<String>() + OK + "7 passed, 0 failed\n"
}

/// A folder in which all is well.
fn well(name: &str) -> Folder {
    let gate = Folder::new(&format!("gate-{name}"), ".ci/run", &TOOLS);
    gate.copy("crates.txt").copy("archives");
    gate.stand_in("rt", RT).stand_in("cargo", CARGO).stand_in("cc", "#!/bin/sh\n");
    for of in ["probe_c", "pirwodd_c", "ending"] {
        gate.say(&format!("crates/{of}/src/lib.rt"), "");
    }
    gate.say("said/checkending", ENDING).say("said/libprobe_c", ARCHIVE).say("said/libpirwodd_c", ARCHIVE);
    gate.say("said/ci", &ci()).say("said/status", "0").say("said/audit", "0");
    gate.say("said/apart", "test result: ok. 2 passed; 0 failed\ntest result: ok. 3 passed; 0 failed\n");
    gate.say("said/later", "test result: ok. 4 passed; 0 failed\n");
    gate.say("tests/COUNTS.txt", "# of each crate\nstory 5 0\npirwodd 3 1\n");
    gate
}

trait Gate {
    /// Runs the script: whether it passed, and what it said.
    fn ran(&self) -> (bool, String);
    /// The script fails, and its last line says so and has this in it.
    fn fails(&self, with: &str);
}

impl Gate for Folder {
    fn ran(&self) -> (bool, String) {
        let output = self.run(".ci/run", &[]);
        (output.status.success(), String::from_utf8(output.stdout).expect("text"))
    }

    #[track_caller]
    fn fails(&self, with: &str) {
        let (passed, said) = self.ran();
        let last = said.lines().last().unwrap_or("");
        assert!(!passed && last.starts_with("gate: failed: ") && last.contains(with), "{said}");
    }
}

#[test]
fn it_passes_where_all_is_well() {
    let (passed, said) = well("well").ran();
    assert!(passed, "{said}");
    assert!(said.contains("rt: pack proved\n"), "a crate's line is shown: {said}");
    assert_eq!(said.lines().last(), Some("7 passed, 0 failed"), "the last line is rt's own");
}

#[test]
fn an_archive_with_an_axiom() {
    for archive in ["probe", "pirwodd"] {
        let counted = ARCHIVE.replace("functions=1 target", "functions=1 axioms=1 target");
        let named = ARCHIVE.replace("libc: none reached of", "libc: libc::close (1 of");
        for said in [counted, named] {
            let gate = well(&format!("axiom-{archive}"));
            gate.say(&format!("said/lib{archive}_c"), &said).fails(&format!("the archive of {archive} has an axiom"));
        }
    }
}

#[test]
fn an_archive_that_tells_nothing() {
    let library = "logic=proved functions=1 sum=0\n";
    well("untold").say("said/libpirwodd_c", library).fails("pirwodd: no word that its archive is proved");
    let other = format!("{ARCHIVE}{library}");
    well("other").say("said/libpirwodd_c", &other).fails("pirwodd: no word that its archive is proved");
    for (of, next) in [("chart", "library transition"), ("pirwodd", "library probe"), ("probe", "axioms libc")] {
        let without = ARCHIVE.replace(&format!("library {of}: modules loaded=1 checked=0\n{next}"), next);
        let gate = well(&format!("unreached-{of}"));
        gate.say("said/libpirwodd_c", &without).say("said/libprobe_c", &without);
        gate.fails(&format!("{of} is in no archive"));
    }
}

#[test]
fn the_program_has_three_axioms() {
    let close = ENDING.replace("libc::close\n", "libc::close   reached\n").replace("=3", "=4");
    well("fourth").say("said/checkending", &close).fails("libc::close");
    let another = ENDING.replace("rattle_errno", "rattle_arg");
    well("another").say("said/checkending", &another).fails("ending has other axioms than read, write");
    let two = ENDING.replace("  libc::read   reached\n", "").replace("=3", "=2");
    well("two").say("said/checkending", &two).fails("the number of an error: libc::write os::c::rattle_errno");
    well("none").say("said/checkending", "logic=proved functions=1 target=x\n").fails("none");
    let counted = ENDING.replace("=3", "=4");
    well("counted").say("said/checkending", &counted).fails("does not count three axioms");
}

#[test]
fn a_crate_that_is_not_proved() {
    let crates = layers::crates(&repository()).expect("crates.txt");
    assert!(crates.len() >= 9, "{crates:?}");
    for of in crates {
        let gate = well(&format!("unproved-{of}"));
        let said =
            ci().replace(&format!("rt: {of} proved\n"), "").replace(&format!("rt: {of} is kept"), "rt: it is kept");
        gate.say("said/ci", &said).fails(&format!("{of}: no word that it is proved"));
    }
    let gate = well("more");
    let crates = "# One more.\npack:\nmore: pack # over pack\nprobe_c staticlib: pack\n";
    gate.say("crates.txt", crates).fails("more: no word that it is proved");
    well("no-crate").say("crates.txt", "# None.\n").fails("crates.txt lists no crate");
    well("no-archive").say("crates.txt", "pack:\n").fails("crates.txt lists no static library");
}

#[test]
fn what_rt_says_last() {
    well("one-failed").say("said/ci", "6 passed, 1 failed\n").fails("rt ci said: 6 passed, 1 failed");
    well("ten-failed").say("said/ci", "6 passed, 10 failed\n").fails("rt ci said: 6 passed, 10 failed");
    well("no-number").say("said/ci", " passed, 0 failed\n").fails("rt ci said:");
    well("silent").say("said/ci", "7 passed, 0 failed\nrt: ok\n").fails("rt ci said: rt: ok");
    well("some")
        .say("said/ci", "7 passed, 0 failed (pack and the crates below alone: not the gate)\n")
        .fails("rt ci said:");
    well("status").say("said/status", "1").fails("rt ci: 7 passed, 0 failed");
}

/// An edit that cannot be tried does not fail rt ci, and fails the gate.
#[test]
fn edits_that_cannot_be_tried() {
    for bad in ["1 bad", "12 bad"] {
        let said = ci().replace("2 refused", &format!("2 refused, {bad}"));
        well("bad").say("said/ci", &said).fails(&format!("2 refused, {bad}"));
    }
    well("no-ok").say("said/ci", &ci().replace(OK, "")).fails("rt ci has no line 'rt: ok'");
}

#[test]
fn the_rust_tests() {
    well("fewer").say("said/later", "test result: ok. 3 passed; 0 failed\n").fails("8 Rust tests passed, and tests");
    well("more-tests").say("said/apart", "test result: ok. 6 passed; 0 failed\n").fails("10 Rust tests passed");
    let gate = well("later");
    gate.stand_in("cargo", "#!/bin/sh\n[ \"$*\" != \"${*#*compare -p}\" ] && exit 1\ncat ../said/apart\n");
    gate.fails("a Rust test of the library");
    let gate = well("audit");
    gate.say("said/audit", "1").fails("the sources (tests/audit)");
    assert!(!gate.ran().1.contains("pack proved"), "nothing is proved where the sources are at fault");
    let gate = well("apart");
    gate.stand_in("cargo", &CARGO.replace("*) cat ../said/apart", "*) exit 1"))
        .fails("that needs nothing of the library");
    for archive in ["probe", "pirwodd"] {
        let gate = well(&format!("archive-{archive}"));
        let fails = RT.replace("lib) ", &format!("lib) [ $crate != {archive}_c ] || exit 1; "));
        gate.stand_in("rt", &fails).fails(&format!("the archive of {archive} (rt lib)"));
    }
    let gate = well("axioms");
    gate.stand_in("rt", &RT.replace("cat \"../../said/check", "exit 1; cat \"../../said/check"))
        .fails("the axioms of ending");
}

#[test]
fn its_tools_are_looked_for_first() {
    for tool in ["rt", "cargo", "cc"] {
        well(&format!("without-{tool}")).without(tool).fails(&format!("not found: {tool}"));
    }
}

/// The crates that need the library are left out of the tests beside the proofs, and just these run later.
#[test]
fn every_crate_is_tested_once() {
    let script = std::fs::read_to_string(repository().join(".ci/run")).expect("the script");
    let named = |option: &str| -> Vec<String> {
        let lines = script.lines().filter(|line| line.contains("cargo test "));
        let words: Vec<&str> = lines.flat_map(str::split_whitespace).collect();
        words.windows(2).filter(|pair| pair[0] == option).map(|pair| pair[1].to_string()).collect()
    };
    assert_eq!(named("--exclude"), ["compare", "pirwodd", "program"]);
    assert_eq!(named("-p"), named("--exclude"));
}
