//! The proved program `ending` prints what document 01 says: for the stories of `examples/`, for packs that are refused, and
//! for drawn packs what the independent implementation prints; also where its input comes in pieces.

use compare::effort;
use compare::inputs::P;
use compare::plans;
use compare::tally::Tally;
use reference::call::{Ask, Call};
use reference::ending::{self, FORESIGHT, NESTING, STORY};
use reference::generate::random::Random;
use reference::implementation::Implementation;
use reference::tuned::Engine;
use std::fs::{read, read_dir};
use std::io::Write;
use std::path::{Path, PathBuf};
use std::process::{Command, Stdio};
use std::thread::sleep;
use std::time::Duration;

const PACKS: u64 = 2_000;

fn repository() -> PathBuf {
    Path::new(env!("CARGO_MANIFEST_DIR")).join("../..")
}

/// What the program prints when these are written to it one after the other, with a pause after each.
fn printed<'a>(pieces: impl IntoIterator<Item = &'a [u8]>, pause: Duration) -> String {
    let program = repository().join("crates/ending/out/ending");
    assert!(program.is_file(), "the program is not built: run `rt run` in the folder crates/ending first");
    let mut child =
        Command::new(program).stdin(Stdio::piped()).stdout(Stdio::piped()).spawn().expect("the program is run");
    let mut input = child.stdin.take().expect("its input is a pipe");
    for piece in pieces {
        input.write_all(piece).expect("the program reads all of its input");
        sleep(pause);
    }
    drop(input);
    let output = child.wait_with_output().expect("the program ends");
    assert!(output.status.success(), "{:?}", output.status);
    String::from_utf8(output.stdout).expect("it prints text")
}

fn at_once(pack: &[u8]) -> String {
    printed([pack], Duration::ZERO)
}

#[test]
fn stories() {
    let folder = repository().join("examples");
    let mut stories = 0;
    for file in read_dir(&folder).unwrap().map(|file| file.unwrap().path()) {
        if file.extension().is_some_and(|extension| extension == "pack") {
            let text = String::from_utf8(read(file.with_extension("out")).unwrap()).unwrap();
            assert_eq!(at_once(&read(&file).unwrap()), text, "{}", file.display());
            stories += 1;
        }
    }
    assert!(stories >= 10);
}

#[test]
fn refused() {
    assert_eq!(at_once(&[]), "refused 1 at 0\n");
    assert_eq!(at_once(&P[..41]), "refused 1 at 41\n");
    assert_eq!(at_once(&[&P[..], &[0]].concat()), "refused 7 at 42\n");
    assert_eq!(at_once(&[&P[..6], &[0], &P[7..]].concat()), "refused 5 at 6\n");
    // Too long, whatever stands there: P and zeros, and more than a pipe holds.
    for length in [8_193, 12_000, 65_536, 65_537, 300_000] {
        let mut pack = P.to_vec();
        pack.resize(length, 0);
        assert_eq!(at_once(&pack), "refused 3 at 0\n", "{length} bytes");
    }
    let mut pack = P.to_vec();
    pack.resize(8_192, 0);
    assert_eq!(at_once(&pack), "refused 7 at 42\n");
}

/// The input is read to its end, in whatever pieces it comes.
#[test]
fn pieces() {
    let (text, pause) = ("1 0\nauthor 0 5\n", Duration::from_millis(5));
    assert_eq!(printed(P.chunks(1), Duration::from_millis(1)), text);
    assert_eq!(printed(P.chunks(20), Duration::from_millis(100)), text);
    assert_eq!(printed([&P[..], &[]], pause), text);
    let lie = read(repository().join("examples/lie.pack")).unwrap();
    assert_eq!(printed(lie.chunks(7), pause), at_once(&lie));
    let mut long = P.to_vec();
    long.resize(8_193, 0);
    assert_eq!(printed(long.chunks(4_096), pause), "refused 3 at 0\n");
    assert_eq!(printed(long[..8_192].chunks(1_000), pause), "refused 7 at 42\n");
}

#[test]
fn drawn() {
    let (mut engine, mut tally) = (Engine::new(), Tally::default());
    let ask = Ask::Search { story: STORY as u64, foresight: FORESIGHT as u64, nesting: NESTING as u64 };
    for seed in 0..PACKS {
        let pack = plans::search(&mut Random::new(11_000_000 + seed)).pack;
        if !effort::quick(&Call::new(pack.clone(), ask.clone())) {
            continue;
        }
        let text = at_once(&pack);
        assert_eq!(text, engine.ending(&pack), "seed {seed}");
        if seed.is_multiple_of(10) {
            assert_eq!(text, ending::ending(&pack), "seed {seed}");
        }
        let lines = text.lines().count();
        let refused = text.split(" at").next().unwrap_or_default().to_string();
        tally.note(if lines == 1 { refused } else { format!("{} steps", lines - 1) });
    }
    println!("drawn: {tally}");
    let met = ["1 steps", "2 steps", "3 steps", "4 steps", "refused 13", "refused 2", "refused 3", "refused 4"];
    met.iter().for_each(|what| assert!(tally.met(what) >= 50, "{} packs met: {what}", tally.met(what)));
}
