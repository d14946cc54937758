//! The report of numbers that the proved library's functions are lent, between entries that must stay as they are.

use reference::generate::random::Random;
use reference::refusal::Refusal;

/// Entries before and behind a report, and the longest report.
const MARGIN: usize = 3;
const LONGEST: usize = 8;
const ROOM: usize = LONGEST + 2 * MARGIN;

/// A report that is filled with noise, as are its margins.
pub struct Report {
    before: [u64; ROOM],
    entries: [u64; ROOM],
    length: usize,
}

impl Report {
    pub fn new(noise: &mut Random, length: usize) -> Report {
        assert!(length <= LONGEST);
        let before = std::array::from_fn(|_| noise.word());
        Report { before, entries: before, length }
    }

    pub fn lent(&mut self) -> &mut [u64] {
        &mut self.entries[MARGIN..MARGIN + self.length]
    }

    /// The first entry, for answers that tell by it how many more are written.
    pub fn first(&self) -> u64 {
        self.entries[MARGIN]
    }

    /// What was told with the number handed back: N entries of an answer, or a refusal and its place, which is 0 where
    /// the report has no entry for it. All other entries must be as they were.
    pub fn told<const N: usize>(&self, number: u32) -> Result<[u64; N], Refusal> {
        if number == 0 {
            return Ok(self.written(N).try_into().expect("N entries"));
        }
        let place = self.written(self.length.min(1)).first().copied().unwrap_or(0);
        Err(Refusal { number: u8::try_from(number).expect("a refusal's number"), place: place as usize })
    }

    fn written(&self, count: usize) -> &[u64] {
        assert!(count <= self.length, "more is told than there is room for");
        let told = MARGIN..MARGIN + count;
        let kept = |range: std::ops::Range<usize>| self.entries[range.clone()] == self.before[range];
        assert!(kept(0..told.start) && kept(told.end..ROOM), "an entry was written that should not be");
        &self.entries[told]
    }
}
