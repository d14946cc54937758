//! The steps that searches make, as the library's own code makes them: on the stories of `examples/` and on drawn
//! packs.

use crate::seasons::{Case, SMALL};
use crate::sought::{doors, family, KINDS};
use std::fs;
use std::io::{Result, Write};
use std::path::{Path, PathBuf};
use std::process::{Command, Stdio};

const FAMILY: u64 = 8;

/// A name, the limits T, K and E, and the packs that are searched one after the other.
pub struct Row {
    name: String,
    limits: (u64, u64, u64),
    packs: Vec<PathBuf>,
}

impl Row {
    /// What is searched, and under which limits.
    pub fn title(&self) -> String {
        let (story, foresight, nesting) = self.limits;
        format!("{}, T {story} K {foresight} E {nesting}", self.name)
    }
}

/// A folder for programs and packs, gone when it is dropped.
pub struct Room(pub PathBuf);

impl Room {
    pub fn new(name: &str) -> Result<Room> {
        let folder = std::env::temp_dir().join(format!("{name}-{}", std::process::id()));
        fs::create_dir_all(&folder)?;
        Ok(Room(folder))
    }
}

impl Drop for Room {
    fn drop(&mut self) {
        let _ = fs::remove_dir_all(&self.0);
    }
}

/// The stories, each under the limits of the program `ending` and under the largest.
pub fn stories(repository: &Path) -> Result<Vec<Row>> {
    let mut rows = Vec::new();
    for limits in [(4, 3, 2), (8, 6, 3)] {
        for name in SMALL {
            let pack = fs::canonicalize(repository.join(format!("examples/{name}.pack")))?;
            rows.push(Row { name: name.into(), limits, packs: vec![pack] });
        }
    }
    Ok(rows)
}

/// Packs of three kinds that are drawn.
pub fn families(room: &Room) -> Result<Vec<Row>> {
    let mut rows = Vec::new();
    for (kind, (name, draw)) in KINDS.iter().take(3).enumerate() {
        let packs = written(room, kind, family(*draw, FAMILY))?;
        rows.push(Row { name: format!("{name}, {FAMILY} packs"), limits: (4, 3, 2), packs });
    }
    Ok(rows)
}

/// Doors under these story limits: lists lead to few states there.
pub fn all_doors(room: &Room, limits: &[u64]) -> Result<Vec<Row>> {
    let mut rows = Vec::new();
    for (kind, (name, guarded)) in [("3 doors", false), ("3 guarded doors", true)].into_iter().enumerate() {
        for story in limits {
            let packs = written(room, 10 + kind, vec![doors(3, guarded)])?;
            rows.push(Row { name: name.into(), limits: (*story, 3, 2), packs });
        }
    }
    Ok(rows)
}

fn written(room: &Room, kind: usize, packs: Vec<Vec<u8>>) -> Result<Vec<PathBuf>> {
    let file = |(i, pack): (usize, Vec<u8>)| {
        let path = room.0.join(format!("{kind}-{i}.pack"));
        fs::write(&path, pack).map(|()| path)
    };
    packs.into_iter().enumerate().map(file).collect()
}

/// The steps of each row, by a program that `sources` has built.
pub fn steps(program: &Path, rows: &[Row]) -> Result<Vec<u64>> {
    let mut lines = String::new();
    for Row { limits: (story, foresight, nesting), packs, .. } in rows {
        packs.iter().for_each(|pack| lines += &format!("{story} {foresight} {nesting} {}\n", pack.display()));
    }
    let output = said(&mut Command::new(program), lines)?;
    let mut each = output.lines().map(|line| line.parse::<u64>().expect("a number"));
    Ok(rows.iter().map(|row| each.by_ref().take(row.packs.len()).sum()).collect())
}

/// What a program prints that is handed these lines.
fn said(program: &mut Command, lines: String) -> Result<String> {
    let mut child = program.stdin(Stdio::piped()).stdout(Stdio::piped()).spawn()?;
    let mut input = child.stdin.take().expect("a pipe");
    let writer = std::thread::spawn(move || input.write_all(lines.as_bytes()));
    let output = String::from_utf8(child.wait_with_output()?.stdout).expect("numbers");
    // A program that ends early reads no more.
    let _ = writer.join().expect("no panic");
    Ok(output)
}

/// How many steps were counted, and whether that is all.
pub struct Counted {
    pub steps: u64,
    pub whole: bool,
}

/// The steps of a case, by such a program, as far as it comes in so many seconds.
pub fn steps_within(program: &Path, room: &Room, case: &Case, seconds: f64) -> Result<Counted> {
    let (story, foresight, nesting) = case.limits;
    let packs = written(room, 20, case.packs.clone())?;
    let lines = packs.iter().map(|pack| format!("{story} {foresight} {nesting} {}\n", pack.display())).collect();
    let output = said(Command::new(program).arg(seconds.to_string()), lines)?;
    let number = |line: &str| line.trim_start_matches("more ").parse::<u64>().expect("a number");
    Ok(Counted { steps: output.lines().map(number).sum(), whole: !output.contains("more") })
}
