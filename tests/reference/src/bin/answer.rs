//! Answers calls given as lines on standard input, one line each. Empty lines and those that begin with `#` are passed
//! over.

use std::io::{stdin, stdout, BufWriter, Write};

use reference::implementation::answer;
use reference::text;

fn main() -> std::io::Result<()> {
    let mut out = BufWriter::new(stdout().lock());
    for line in stdin().lines() {
        let line = line?;
        if line.trim().is_empty() || line.starts_with('#') {
            continue;
        }
        match text::call(&line) {
            Ok(call) => writeln!(out, "{}", answer(&call))?,
            Err(wrong) => writeln!(out, "not a call: {wrong}")?,
        }
        out.flush()?;
    }
    Ok(())
}
