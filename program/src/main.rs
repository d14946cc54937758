//! The program `pirwodd`. A write that fails is told by the exit status, as all that went wrong is.

use std::io::{self, Write};
use std::process::ExitCode;

use program::{run, Said, Status};

fn main() -> ExitCode {
    let words: Vec<String> = std::env::args_os().skip(1).map(|word| word.to_string_lossy().into_owned()).collect();
    let Said { out, err, status } = run(&words);
    let told = written(&mut io::stderr(), err.as_bytes()).and_then(|()| written(&mut io::stdout(), &out));
    match told {
        Ok(()) => ExitCode::from(status as u8),
        Err(error) => {
            // Where this can't be told either, the exit status still tells it.
            let _ = writeln!(io::stderr(), "pirwodd: the answer can't be written: {error}");
            ExitCode::from(Status::Refused as u8)
        }
    }
}

fn written(to: &mut impl Write, bytes: &[u8]) -> io::Result<()> {
    to.write_all(bytes)?;
    to.flush()
}
