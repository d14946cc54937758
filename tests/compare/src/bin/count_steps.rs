//! How many steps Search makes on the stories of `examples/` and on drawn packs, as the library's own code makes them:
//! on the small ones with one part of it turned off too, on those of a season's size beside the tuned engine's, without
//! and with a limit of its memory. Words given as arguments count only the rows that have all of them in their names.

use compare::seasons::{large, Case};
use compare::sides::{children, is_child, Run, MOST_SECONDS};
use compare::sources::{build, NOTHING_OFF, OFF};
use compare::steps::{all_doors, families, steps, steps_within, stories, Room, Row};
use std::io::Result;
use std::path::Path;

fn main() -> Result<()> {
    if is_child(&std::env::args().skip(1).collect::<Vec<String>>()) {
        return Ok(());
    }
    let repository = Path::new(env!("CARGO_MANIFEST_DIR")).join("../..");
    let room = Room::new("count-steps")?;
    let mut rows = stories(&repository)?;
    rows.extend(families(&room)?);
    rows.extend(all_doors(&room, &[1, 2, 3, 4, 5, 6, 7, 8])?);
    rows.retain(|row| chosen(&row.title()));
    if !rows.is_empty() {
        parts(&repository, &room, &rows)?;
    }
    let cases = large();
    match cases.iter().any(|case| chosen(&case.title())) {
        true => seasons(&repository, &room, &cases),
        false => Ok(()),
    }
}

fn chosen(title: &str) -> bool {
    std::env::args().skip(1).all(|word| title.contains(&word))
}

/// A column for each part that is turned off.
fn parts(repository: &Path, room: &Room, rows: &[Row]) -> Result<()> {
    let mut columns = Vec::new();
    for (i, off) in [NOTHING_OFF].iter().chain(&OFF).enumerate() {
        let program = build(repository, &room.0.join(format!("off-{i}")), off)?;
        columns.push((off.name, steps(&program, rows)?));
    }
    let heads: Vec<&str> = columns.iter().map(|(name, _)| *name).collect();
    println!("| Steps with this off | {} |\n|---|{}", heads.join(" | "), "---|".repeat(heads.len()));
    for (i, row) in rows.iter().enumerate() {
        let cells: Vec<String> = columns.iter().map(|(_, steps)| steps[i].to_string()).collect();
        println!("| {} | {} |", row.title(), cells.join(" | "));
    }
    println!();
    Ok(())
}

/// The library, as far as it comes, beside the tuned engine.
fn seasons(repository: &Path, room: &Room, cases: &[Case]) -> Result<()> {
    let program = build(repository, &room.0.join("whole"), &NOTHING_OFF)?;
    println!("| Steps | Library | Tuned | Held to 27 KB |\n|---|---|---|---|");
    for (i, case) in cases.iter().enumerate().filter(|(_, case)| chosen(&case.title())) {
        let library = steps_within(&program, room, case, MOST_SECONDS)?;
        let cut = if library.whole { "" } else { "more than " };
        let told = |run: Option<Run>| run.map_or(format!("more than {MOST_SECONDS} s"), |run| run.steps.to_string());
        let [free, held] = children(["tuned", "held"], "large", i)?.map(told);
        println!("| {} | {cut}{} | {free} | {held} |", case.title(), library.steps);
    }
    Ok(())
}
