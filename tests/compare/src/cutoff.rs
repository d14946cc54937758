//! Programs that are run for at most so long, since a call of the library can't be interrupted.

use std::io::{Read, Result};
use std::process::{Command, Stdio};
use std::thread::sleep;
use std::time::{Duration, Instant};

/// What a program prints, or nothing where it was killed because it took longer. It must print little.
pub fn within(command: &mut Command, limit: Duration) -> Result<Option<String>> {
    let mut child = command.stdin(Stdio::null()).stdout(Stdio::piped()).spawn()?;
    let end = Instant::now() + limit;
    while child.try_wait()?.is_none() {
        if Instant::now() > end {
            child.kill()?;
            child.wait()?;
            return Ok(None);
        }
        sleep(Duration::from_millis(1));
    }
    let mut text = String::new();
    child.stdout.take().expect("a pipe").read_to_string(&mut text)?;
    Ok(Some(text))
}

#[cfg(test)]
mod tests {
    use super::*;

    #[test]
    fn a_program_that_takes_too_long_is_killed() {
        let said = |word: &str, limit: u64| within(Command::new("sh").args(["-c", word]), Duration::from_millis(limit));
        assert_eq!(said("echo so", 60_000).expect("sh"), Some("so\n".to_string()));
        assert_eq!(said("exec sleep 60", 100).expect("sh"), None);
    }
}
