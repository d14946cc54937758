//! The long comparison finds nothing on some thousand calls of all six kinds, and counts what is wrong with a library that
//! errs or writes where it mustn't.

use compare::library::Library;
use compare::long::{run, Lending, KINDS};
use reference::calls::{Differs, Found};
use reference::implementation::Implementation;
use reference::refusal::Refusal;
use reference::tuned::Engine;

const CALLS: u64 = 6_000;

#[test]
fn nothing_is_found() {
    let count = run(&mut Library::new(), Lending::Together, CALLS, 3_000_000_000, |_| ());
    assert_eq!(count.to_string(), "6000 calls, 0 differences, 0 violations");
    assert_eq!(count.met.iter().map(|met| met.all()).sum::<usize>(), CALLS as usize);
    for (kind, met) in KINDS.iter().zip(&count.met) {
        println!("{kind}: {met}");
        assert!(met.all() >= CALLS as usize / 10, "{kind}");
    }
}

/// The tuned engine with mistakes: one more as a value, and a byte behind the ending.
struct Mistaken(Engine);

#[rustfmt::skip]
impl Implementation for Mistaken {
    fn start(&mut self, pack: &[u8], result: &mut [u8], work: &mut [u8]) -> Result<usize, Refusal> {
        self.0.start(pack, result, work)
    }
    fn query(&mut self, pack: &[u8], chart: &[u8], chain: &[u8], fluent: u64, work: &mut [u8]) -> Result<u8, Refusal> {
        self.0.query(pack, chart, chain, fluent, work).map(|value| value.wrapping_add(1))
    }
    fn compare(
        &mut self, pack: &[u8], first: &[u8], second: &[u8], result: &mut [u8], work: &mut [u8],
    ) -> Result<Option<Differs>, Refusal> {
        self.0.compare(pack, first, second, result, work)
    }
    fn step(
        &mut self, pack: &[u8], chart: &[u8], action: u64, result: &mut [u8], work: &mut [u8],
    ) -> Result<usize, Refusal> {
        self.0.step(pack, chart, action, result, work)
    }
    fn explained(
        &mut self, pack: &[u8], chart: &[u8], character: u64, action: u64, foresight: u64, nesting: u64, work: &mut [u8],
    ) -> Result<bool, Refusal> {
        self.0.explained(pack, chart, character, action, foresight, nesting, work)
    }
    fn search(
        &mut self, pack: &[u8], story: u64, foresight: u64, nesting: u64, result: &mut [u8], work: &mut [u8],
    ) -> Result<Found, Refusal> {
        let found = self.0.search(pack, story, foresight, nesting, result, work)?;
        if let Some(byte) = result.get_mut(found.length) {
            *byte = !*byte;
        }
        Ok(found)
    }
    fn ending(&mut self, pack: &[u8]) -> String {
        self.0.ending(pack)
    }
}

#[test]
fn mistakes_are_counted() {
    for lending in [Lending::Together, Lending::Apart] {
        let count = run(&mut Mistaken(Engine::new()), lending, 600, 0, |_| ());
        println!("{count}");
        assert!(count.differences >= 20 && count.violations >= 10, "{count}");
        let right: usize = count.met.iter().map(|met| met.all()).sum();
        assert_eq!(right as u64 + count.differences + count.violations, 600);
    }
}
