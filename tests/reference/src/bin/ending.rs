//! The program `ending`: a pack on standard input, its shortest ending on standard output.

use std::io::{stdin, stdout, Read, Write};

fn main() -> std::io::Result<()> {
    let mut pack = Vec::new();
    stdin().read_to_end(&mut pack)?;
    stdout().write_all(reference::ending::ending(&pack).as_bytes())
}
