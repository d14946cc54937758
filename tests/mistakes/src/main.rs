//! Plants each mistake into a copy of the reference below `target`, builds its command `answer`, lets it answer
//! generated calls, and prints how many of them it answers otherwise than the original. `mistakes COUNT [NAME]`: the
//! first COUNT seeds, all mistakes or those whose name contains NAME. Ends with an error if some mistake isn't shown by
//! any call.

use std::fs;
use std::io::{BufRead, BufReader, Write};
use std::path::{Path, PathBuf};
use std::process::{Command, Stdio};
use std::sync::mpsc::{channel, Receiver, RecvTimeoutError};
use std::time::Duration;

use mistakes::{all, workspace, Mistake};
use reference::generate::{answer, call};

/// A copy that doesn't answer a call for so long has shown its mistake, and is stopped.
const PATIENCE: Duration = Duration::from_secs(20);

fn main() {
    let words: Vec<String> = std::env::args().skip(1).collect();
    let Some(count) = words.first().and_then(|word| word.parse::<u64>().ok()) else {
        eprintln!("usage: mistakes COUNT [NAME]");
        std::process::exit(2);
    };
    let wanted = words.get(1).cloned().unwrap_or_default();
    let calls: Vec<_> = (0..count).map(call).collect();
    let answers: Vec<String> = calls.iter().map(|call| answer(call).to_string()).collect();
    let lines: Vec<String> = calls.iter().map(|call| call.to_string()).collect();
    let mut unseen = 0;
    println!("| Mistake | Calls of {count} that show it | What is wrong |\n|---|---|---|");
    for mistake in all().iter().filter(|mistake| mistake.name.contains(&wanted)) {
        let seen = match build(mistake) {
            Ok(program) => shown(&program, &lines, &answers),
            Err(wrong) => panic!("{}: {wrong}", mistake.name),
        };
        unseen += (seen == 0) as usize;
        println!("| {} | {seen} | {} |", mistake.name, mistake.wrong);
    }
    if unseen > 0 {
        eprintln!("{unseen} mistakes were not shown by any call");
        std::process::exit(1);
    }
}

/// Copies the sources that `answer` needs, plants the mistake and builds.
fn build(mistake: &Mistake) -> Result<PathBuf, String> {
    let from = workspace().join("reference/src");
    let to = workspace().join("target/mistakes");
    fs::create_dir_all(&to).map_err(|error| error.to_string())?;
    for entry in fs::read_dir(&from).unwrap() {
        let path = entry.unwrap().path();
        if path.is_file() {
            fs::copy(&path, to.join(path.file_name().unwrap())).unwrap();
        }
    }
    let source = fs::read_to_string(from.join(&mistake.source)).map_err(|error| error.to_string())?;
    fs::write(to.join(&mistake.source), mistake.planted(&source)?).unwrap();
    // The generator, the plain way and the tuned form are not part of the copy.
    let modules = fs::read_to_string(from.join("lib.rs")).unwrap();
    let left_out = ["pub mod generate;", "pub mod plain;", "pub mod tuned;"];
    let kept: Vec<&str> = modules.lines().filter(|line| !left_out.contains(line)).collect();
    fs::write(to.join("lib.rs"), kept.join("\n")).unwrap();
    compile(&to, &["--crate-type", "rlib", "--crate-name", "reference", "lib.rs"])?;
    let answer = from.join("bin/answer.rs");
    compile(&to, &["--extern", "reference=libreference.rlib", answer.to_str().unwrap()])?;
    Ok(to.join("answer"))
}

fn compile(within: &Path, words: &[&str]) -> Result<(), String> {
    let rustc = std::env::var("RUSTC").unwrap_or("rustc".to_string());
    let output = Command::new(rustc)
        .current_dir(within)
        .args(["--edition", "2021", "--cap-lints", "allow", "-C", "opt-level=1", "-C", "debuginfo=0"])
        .args(words)
        .output()
        .map_err(|error| error.to_string())?;
    if output.status.success() {
        Ok(())
    } else {
        Err(String::from_utf8_lossy(&output.stderr).to_string())
    }
}

/// How many calls a program answers otherwise. One that stops or hangs has shown its mistake by that call, and goes on
/// with the next.
fn shown(program: &Path, lines: &[String], answers: &[String]) -> usize {
    let (mut seen, mut next) = (0, 0);
    while next < lines.len() {
        let (mut child, answered) = run(program, &lines[next..]);
        while next < lines.len() {
            match answered.recv_timeout(PATIENCE) {
                Ok(line) => {
                    seen += (line != answers[next]) as usize;
                    next += 1;
                }
                Err(RecvTimeoutError::Timeout | RecvTimeoutError::Disconnected) => {
                    seen += 1;
                    next += 1;
                    break;
                }
            }
        }
        let _ = child.kill();
        let _ = child.wait();
    }
    seen
}

/// Starts the program on the lines and hands on what it answers, line by line.
fn run(program: &Path, lines: &[String]) -> (std::process::Child, Receiver<String>) {
    let mut child = Command::new(program)
        .stdin(Stdio::piped())
        .stdout(Stdio::piped())
        .stderr(Stdio::null())
        .spawn()
        .expect("the copy was built");
    let mut input = child.stdin.take().unwrap();
    let text = lines.join("\n") + "\n";
    std::thread::spawn(move || input.write_all(text.as_bytes()));
    let output = BufReader::new(child.stdout.take().unwrap());
    let (send, receive) = channel();
    std::thread::spawn(move || {
        for line in output.lines().map_while(Result::ok) {
            if send.send(line).is_err() {
                break;
            }
        }
    });
    (child, receive)
}
