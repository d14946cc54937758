//! `new`: a story to begin with.

use std::fs::{remove_file, OpenOptions};
use std::io::Write;

use crate::said::{Refused, Said};

/// A story that says in remarks what each of its sections is for.
const TEMPLATE: &str = include_str!("template.story");

/// Writes the template to a file that is not there yet; `-` is standard output.
pub fn new(file: &str) -> Result<Said, Refused> {
    if file == "-" {
        return Ok(Said::answer(TEMPLATE));
    }
    let refused = |error| Refused::new(format!("{file}: {error}"));
    let mut made = OpenOptions::new().write(true).create_new(true).open(file).map_err(refused)?;
    if let Err(error) = made.write_all(TEMPLATE.as_bytes()).and_then(|()| made.sync_all()) {
        // Half a file is of no use, and would be in the way of the next try.
        let _ = remove_file(file);
        return Err(refused(error));
    }
    Ok(Said::answer(format!("{file} is written. Next: pirwodd check {file}, then pirwodd play {file}\n")))
}
