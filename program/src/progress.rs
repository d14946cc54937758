//! A search that takes longer than a second says which length it is trying, on standard error and while it runs.
//!
//! The proved call says nothing before its answer. So it is asked for an ending of at most 1 action, of at most 2, and
//! so on up to the writer's limit. The first that it finds is the answer for every larger limit too, since the shortest
//! comes first. A search tries the shorter lengths anyway, and they are quick beside the last: this costs little. A
//! thread beside the search hears of each length as it is begun, and tells it once a second of silence is over.

use std::io::{self, Write};
use std::sync::mpsc::{channel, Receiver, RecvTimeoutError, Sender};
use std::thread;
use std::time::{Duration, Instant};

use pirwodd::refusal::NO_ENDING;
use pirwodd::{Ending, Limits, Refusal, Story};

use crate::attempt::LONGEST_ENDING;
use crate::play::counted;
use crate::stage::Stage;

/// From the beginning to the first line, and from a line to the next, at least.
const SILENCE: Duration = Duration::from_secs(1);

/// Search's answer, with a thread beside it that tells how far it is and has ended when this hands it back. Where no
/// thread can be had, the search is silent.
pub fn search(stage: &mut Stage, limits: Limits) -> Result<Ending, Refusal> {
    let (begin, begun) = channel();
    thread::scope(|scope| {
        let _ = thread::Builder::new().spawn_scoped(scope, move || watch(&begun, |length| tell(length, limits)));
        in_turn(stage, limits, begin)
    })
}

/// Asks for one length more each time, up to the limit. A limit that is out of range is asked for as it is: the planner
/// refuses it.
fn in_turn(stage: &mut Stage, limits: Limits, begin: Sender<u8>) -> Result<Ending, Refusal> {
    let most = limits.story.0;
    let mut length = if (1..=LONGEST_ENDING).contains(&most.into()) { 1 } else { most };
    loop {
        let _ = begin.send(length); // nobody hears it where there is no thread
        match stage.search(Limits { story: Story(length), ..limits }) {
            Err(Refusal { number: NO_ENDING, .. }) if length < most => length += 1,
            answer => return answer,
        }
    }
}

/// Tells each length that is begun, but after a silence only, and of those begun in it the last. It ends with the
/// search, which then begins no more.
fn watch(begun: &Receiver<u8>, tell: impl Fn(u8)) {
    let mut silent_until = Instant::now() + SILENCE;
    while let Ok(length) = begun.recv() {
        let Some(length) = last_begun(begun, length, silent_until) else { return };
        tell(length);
        silent_until = Instant::now() + SILENCE;
    }
}

/// The length that is being tried at a time, or none if the search has ended by then.
fn last_begun(begun: &Receiver<u8>, mut length: u8, time: Instant) -> Option<u8> {
    loop {
        match begun.recv_timeout(time.saturating_duration_since(Instant::now())) {
            Ok(next) => length = next,
            Err(RecvTimeoutError::Timeout) => return Some(length),
            Err(RecvTimeoutError::Disconnected) => return None,
        }
    }
}

/// A line that can't be written is no reason to end the search.
fn tell(length: u8, limits: Limits) {
    let _ = io::stderr().write_all(line(length, limits).as_bytes());
}

/// `still searching: no ending of up to 4 actions; trying 5 (at most 8, foresight 6, nesting 3)`
fn line(length: u8, limits: Limits) -> String {
    let Limits { story, foresight, nesting } = limits;
    let none = match length {
        1 => String::new(),
        _ => format!("no ending of up to {}; ", counted(usize::from(length) - 1)),
    };
    let under = format!("at most {}, foresight {}, nesting {}", story.0, foresight.0, nesting.0);
    format!("still searching: {none}trying {length} ({under})\n")
}
