//! Stories and packs read from files, and laid before the proved planner.

use std::io::Read;

use pirwodd::Planner;
use story::{Reading, Story};

use crate::said::Refused;
use crate::stage::Stage;

/// A story that the planner accepts, what is seldom meant in it, and its text; a pack has none.
pub struct Opened {
    pub stage: Stage,
    pub warnings: String,
    pub text: String,
}

/// Opens a story, or a pack; `-` is standard input.
pub fn open(file: &str) -> Result<Opened, Refused> {
    let bytes = bytes(file).map_err(|error| Refused::new(format!("{}: {error}", name(file))))?;
    if is_pack(file, &bytes) {
        return pack(file, bytes);
    }
    let text = String::from_utf8_lossy(&bytes);
    let shown = |kind, problems: &[story::Problem]| -> String {
        problems.iter().map(|problem| problem.show(kind, name(file), &text)).collect()
    };
    let Reading { story, warnings } = story::read(&bytes).map_err(|problems| Refused(shown("error", &problems)))?;
    let warnings = shown("warning", &warnings);
    let pack = story.bytes();
    Ok(Opened { stage: laid(file, story, pack)?, warnings, text: text.into_owned() })
}

/// A story laid before the planner by its pack. If that is refused, the line of the text is told that it is about.
pub fn laid(file: &str, story: Story, pack: Vec<u8>) -> Result<Stage, Refused> {
    let mut planner = Planner::new();
    let start = planner.start(&pack).map_err(|refusal| {
        let place = usize::try_from(refusal.place).ok().and_then(|place| story.line_of(place));
        let place = place.map_or(String::new(), |place| format!(":{place}"));
        Refused::new(format!("{}{place}: {refusal}", name(file)))
    })?;
    Ok(Stage { planner, story, pack, start })
}

/// What a file is called in messages.
pub fn name(file: &str) -> &str {
    if file == "-" {
        return "standard input";
    }
    file
}

fn bytes(file: &str) -> std::io::Result<Vec<u8>> {
    if file != "-" {
        return std::fs::read(file);
    }
    let mut bytes = Vec::new();
    std::io::stdin().read_to_end(&mut bytes)?;
    Ok(bytes)
}

/// Standard input has no name, but a pack begins with its version, 1, and no text does.
fn is_pack(file: &str, bytes: &[u8]) -> bool {
    file.ends_with(".pack") || file == "-" && bytes.first() == Some(&1)
}

/// The planner is the judge of packs; only what it accepts is decoded.
fn pack(file: &str, pack: Vec<u8>) -> Result<Opened, Refused> {
    let refused = |reason: String| Refused::new(format!("{}: {reason}", name(file)));
    let mut planner = Planner::new();
    let start = planner.start(&pack).map_err(|refusal| refused(refusal.to_string()))?;
    let story = Story::of_pack(&pack).map_err(|unreadable| refused(unreadable.to_string()))?;
    Ok(Opened { stage: Stage { planner, story, pack, start }, warnings: String::new(), text: String::new() })
}
