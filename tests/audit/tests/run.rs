//! The script `run`, in a folder of its own with stand-ins for `rt`, `cargo`, `rustc` and `cc`: it looks for its tools,
//! builds what is not built or older than its sources, and hands the story to the program that it leaves.

mod folder;

use folder::Folder;
use std::fs::File;
use std::time::{Duration, SystemTime};

const RT: &str = "#!/bin/sh\n[ \"$*\" = lib ] || exit 1\necho 'fn f: proved'\necho 'fn g: proved' >&2\n\
    echo 'rt: chose --jobs 2 for pack'\n\
    mkdir -p out && : >\"out/lib${PWD##*/}.a\"\n";

/// A program that says what it was handed, and ends with 1.
const CARGO: &str = "#!/bin/sh\n[ \"$*\" = 'build --release --offline --target-dir target -p program' ] || exit 1\n\
    echo 'Compiling program' >&2\nmkdir -p target/release && cp ../built target/release/pirwodd\n";
const BUILT: &str = "#!/bin/sh\necho \"told $*\"\nexit 1\n";

const TOOLS: [&str; 16] = [
    "awk", "bash", "cat", "chmod", "cp", "dirname", "env", "find", "grep", "head", "mkdir", "mktemp", "mv", "rm",
    "sed", "tee",
];

/// A folder as a fresh clone has it.
fn clone(name: &str) -> Folder {
    let clone = Folder::new(&format!("run-{name}"), "run", &[&TOOLS[..], &["sh"]].concat());
    clone.copy("tests/Cargo.toml").say("tests/Cargo.lock", "").say("crates.txt", "").say("a.story", "");
    for source in ["src/lib.rt", "specs/Number.antt", "proofs/Shared.antt"] {
        clone.say(&format!("crates/pack/{source}"), "");
    }
    clone.say("crates/pirwodd_c/src/lib.rt", "").copy("archives");
    for source in ["program/src/main.rs", "story/src/lib.rs", "bindings/rust/src/lib.rs"] {
        clone.say(source, "");
    }
    clone.stand_in("rt", RT).stand_in("cargo", CARGO).stand_in("cc", "#!/bin/sh\n");
    clone.stand_in("rustc", "#!/bin/sh\necho 'rustc 2.0.0 (of a stand-in)'\n").stand_in("built", BUILT);
    std::fs::rename(clone.0.join("bin/built"), clone.0.join("built")).expect("a program");
    clone
}

/// The exit status, and what was said to standard output and to standard error.
fn ran(clone: &Folder, words: &[&str]) -> (Option<i32>, String, String) {
    let output = clone.run("run", words);
    let text = |bytes| String::from_utf8(bytes).expect("text");
    (output.status.code(), text(output.stdout), text(output.stderr))
}

/// Makes a file later than all that was built.
fn touch(clone: &Folder, file: &str) {
    let file = File::options().append(true).open(clone.0.join(file)).expect(file);
    file.set_modified(SystemTime::now() + Duration::from_secs(60)).expect("a time");
}

const PROVING: &str = "run: proving and building the library";
const BUILDING: &str = "run: building the program";

#[test]
fn a_fresh_clone() {
    let clone = clone("fresh");
    let (status, out, err) = ran(&clone, &["a.story", "-E", "1"]);
    assert_eq!((status, &out[..]), (Some(1), "told play a.story -E 1\n"), "{err}");
    let lines: Vec<&str> = err.lines().collect();
    let [proving, "rt: chose --jobs 2 for pack", building, "Compiling program"] = lines[..] else { panic!("{err}") };
    assert!(proving.starts_with(PROVING) && proving.contains("about 6 minutes"), "{err}");
    assert!(building.starts_with(BUILDING), "{err}");
    assert!(clone.0.join("target/bin/pirwodd").is_file());
}

#[test]
fn only_what_is_not_built() {
    let clone = clone("again");
    ran(&clone, &["a.story"]);
    for (source, said) in [
        ("crates/pack/src/lib.rt", PROVING),
        ("crates/pack/specs/Number.antt", PROVING),
        ("crates/pack/proofs/Shared.antt", PROVING),
        ("crates.txt", PROVING),
        ("program/src/main.rs", BUILDING),
        ("story/src/lib.rs", BUILDING),
        ("bindings/rust/src/lib.rs", BUILDING),
        ("tests/Cargo.toml", BUILDING),
        ("tests/Cargo.lock", BUILDING),
    ] {
        let silent = (Some(1), "told play a.story\n".to_string(), String::new());
        assert_eq!(ran(&clone, &["a.story"]), silent, "all is built: {source}");
        touch(&clone, source);
        let err = ran(&clone, &["a.story"]).2;
        assert!(err.starts_with(said), "{source}: {err}");
        clone.say(source, "rust-version = \"1.0\"\n");
        ran(&clone, &["a.story"]);
    }
}

#[test]
fn its_tools_are_looked_for_first() {
    for tool in ["rt", "cargo", "rustc", "cc"] {
        let clone = clone(&format!("without-{tool}"));
        let (status, out, err) = ran(clone.without(tool), &["a.story"]);
        assert_eq!((status, &out[..]), (Some(2), ""));
        assert!(err.starts_with(&format!("run: not found: {tool} (")) && err.lines().count() == 1, "{err}");
    }
}

#[test]
fn the_rust_that_is_needed() {
    let toml = "[workspace.package]\nrust-version = \"1.82\"\n";
    for (rust, fits) in [("1.81.9", false), ("0.99.0", false), ("1.82.0", true), ("1.100.0", true), ("2.0.0", true)] {
        let clone = clone(&format!("rust-{rust}"));
        clone.say("tests/Cargo.toml", toml).stand_in("rustc", &format!("#!/bin/sh\necho 'rustc {rust} (x)'\n"));
        let (status, _, err) = ran(&clone, &["a.story"]);
        let said = format!("run: rustc is {rust}, and 1.82 or later is needed\n");
        assert_eq!((status == Some(1), err == said), (fits, !fits), "{rust}: {err}");
    }
}

/// A story that isn't there is told before anything is built.
#[test]
fn the_story_is_looked_for_first() {
    let clone = clone("no-story");
    for (words, said) in [(&["b.story"][..], "there is no story b.story that can be read"), (&[], "expected a story")] {
        let (status, out, err) = ran(&clone, words);
        assert_eq!((status, &out[..]), (Some(2), ""));
        assert!(err.starts_with(&format!("run: {said}")) && err.lines().count() == 1, "{err}");
    }
    assert_eq!(ran(&clone, &["-"]).1, "told play -\n", "standard input");
}

#[test]
fn what_fails_is_told() {
    let clone = clone("fails");
    clone.stand_in("rt", "#!/bin/sh\necho 'pack: a hole'\necho 'rt: pack NOT PROVED' >&2\nexit 1\n");
    let (status, out, err) = ran(&clone, &["a.story"]);
    assert_eq!((status, &out[..]), (Some(2), ""));
    assert!(err.contains("pack: a hole\n") && err.ends_with("run: not built, see above\n"), "{err}");
    clone.stand_in("rt", RT).stand_in("cargo", "#!/bin/sh\nexit 101\n");
    assert_eq!(ran(&clone, &["a.story"]).0, Some(2));
}
