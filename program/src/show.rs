//! `pack`, `text` and `dot`: a story, or a state under it, as bytes, text and picture.

use story::{dot, print, Story, Unreadable};

use crate::arguments::Shown;
use crate::open::open;
use crate::said::{Refused, Said};
use crate::stage::Stage;

pub fn pack(file: &str) -> Result<Said, Refused> {
    let stage = open(file)?.stage;
    Ok(Said::answer(stage.pack))
}

pub fn text(file: &str, of: Shown) -> Result<Said, Refused> {
    shown(file, of, print::story, print::chart)
}

pub fn dot(file: &str, of: Shown) -> Result<Said, Refused> {
    shown(file, of, dot::story, dot::chart)
}

type OfStory = fn(&Story) -> String;
type OfChart = fn(&Story, &[u8]) -> Result<String, Unreadable>;

fn shown(file: &str, of: Shown, story: OfStory, chart: OfChart) -> Result<Said, Refused> {
    let mut stage = open(file)?.stage;
    let text = match state(&mut stage, of)? {
        None => story(&stage.story),
        Some(bytes) => chart(&stage.story, &bytes).map_err(|unreadable| Refused::new(unreadable.to_string()))?,
    };
    Ok(Said::answer(text))
}

/// The chart that is to be shown, if it is not the story; whether bytes are a chart is the planner's to say.
fn state(stage: &mut Stage, of: Shown) -> Result<Option<Vec<u8>>, Refused> {
    match of {
        Shown::Story => Ok(None),
        Shown::After(list) => Ok(Some(stage.after(list)?.to_vec())),
        Shown::Chart(text) => {
            let bytes = hexadecimal(text).ok_or_else(|| {
                Refused::new(format!("expected a chart's bytes in hexadecimal, two digits each, found '{text}'"))
            })?;
            stage.compare(&bytes, &bytes)?;
            Ok(Some(bytes))
        }
    }
}

/// Bytes of two digits each, with or without spaces between them.
fn hexadecimal(text: &str) -> Option<Vec<u8>> {
    let digits = text.chars().filter(|sign| *sign != ' ').map(|sign| sign.to_digit(16));
    let digits: Vec<u8> = digits.map(|digit| digit.map(|digit| digit as u8)).collect::<Option<_>>()?;
    digits.chunks(2).map(|pair| Some(pair[0] * 16 + pair.get(1)?)).collect()
}
