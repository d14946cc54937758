//! A call put to an implementation with all that it is lent in one piece of memory, between margins. Result and work
//! buffer are filled with noise; bytes to be read and margins must stay as they are.

use reference::call::{Call, Outcome};
use reference::calls::WORK_ROOM;
use reference::generate::random::Random;
use reference::implementation::{outcome, Implementation};
use std::hint::black_box;
use std::ops::Range;

const MARGIN: usize = 24;

/// All that is lent to a call: the pack, charts or chart and chain, then the result and the work buffer.
pub struct Lent {
    bytes: Vec<u8>,
    parts: [Range<usize>; 5],
}

/// What can be seen of a call afterwards.
#[derive(PartialEq, Eq, Debug)]
pub struct Seen {
    pub outcome: Outcome,
    pub result: Vec<u8>,
    pub work: Vec<u8>,
}

impl Lent {
    pub fn new(call: &Call, noise: &Noise, r: &mut Random) -> Lent {
        let [pack, first, second] = call.handed();
        let parts = [pack, first, second, noise.bytes(r, call.result), noise.bytes(r, call.work)];
        let mut bytes = Vec::with_capacity(parts.iter().map(|part| part.len() + MARGIN).sum::<usize>() + MARGIN);
        // Small numbers, which would be in order if they were read.
        let margin =
            |bytes: &mut Vec<u8>, r: &mut Random| bytes.extend(noise.bytes(r, MARGIN).iter().map(|byte| byte & 3));
        let parts = parts.map(|part| {
            margin(&mut bytes, r);
            let start = bytes.len();
            bytes.extend_from_slice(part);
            start..bytes.len()
        });
        margin(&mut bytes, r);
        Lent { bytes, parts }
    }

    /// Puts the call. Panics where anything is changed but the result and the work buffer, or where these are not as
    /// document 01 says.
    pub fn to(&self, by: &mut impl Implementation, call: &Call) -> Seen {
        let mut bytes = self.bytes.clone();
        let [pack, first, second, result, work] =
            bytes.get_disjoint_mut(self.parts.clone()).expect("the parts lie one after the other");
        let outcome = outcome(by, &call.ask, [pack, first, second], result, work);
        let seen = Seen { outcome, result: result.to_vec(), work: work.to_vec() };
        let [.., result, work] = &self.parts;
        for kept in [0..result.start, result.end..work.start, work.end..bytes.len()] {
            assert!(
                black_box(&bytes)[kept.clone()] == self.bytes[kept],
                "bytes were changed that should not be: {call}"
            );
        }
        self.keeps_the_rules(&seen, call);
        seen
    }

    /// The same with each part in a piece of memory of its own, of just its length, so that a tool that watches memory
    /// sees a byte read or written outside.
    pub fn apart(&self, by: &mut impl Implementation, call: &Call) -> Seen {
        let [pack, first, second, mut result, mut work] =
            self.parts.clone().map(|part| self.bytes[part].to_vec().into_boxed_slice());
        let outcome = outcome(by, &call.ask, [&pack, &first, &second], &mut result, &mut work);
        for (read, part) in [&pack, &first, &second].into_iter().zip(self.parts.clone()) {
            assert!(**black_box(read) == self.bytes[part], "bytes were changed that should not be: {call}");
        }
        let seen = Seen { outcome, result: result.into_vec(), work: work.into_vec() };
        self.keeps_the_rules(&seen, call);
        seen
    }

    /// "A refusal keeps result buffers unchanged; an answer changes only the bytes it fills. After 1 to 9 and 21 to 27
    /// the work buffer is unchanged, after all else its first 49,152 bytes are 0."
    fn keeps_the_rules(&self, seen: &Seen, call: &Call) {
        let filled = match seen.outcome {
            Outcome::Length(length) => length,
            Outcome::Differs(found) => found.length,
            Outcome::Found(found) => found.length,
            _ => 0,
        };
        let by_checks = matches!(seen.outcome, Outcome::Refused(refusal) if refusal.number < 10 || refusal.number > 20);
        let cleared = if by_checks { 0 } else { WORK_ROOM };
        let [.., result, work] = self.parts.clone().map(|part| &self.bytes[part]);
        assert!(seen.result[filled..] == result[filled..], "the result buffer was changed: {call}");
        let zeros = seen.work[..cleared].iter().all(|&byte| byte == 0);
        assert!(zeros && seen.work[cleared..] == work[cleared..], "the work buffer is not as it should be: {call}");
    }
}

/// Random bytes, drawn once; each buffer is filled from another place of them.
pub struct Noise {
    bytes: Vec<u8>,
}

impl Noise {
    #[allow(clippy::new_without_default)]
    pub fn new() -> Noise {
        let mut r = Random::new(77);
        Noise { bytes: (0..1 << 18).map(|_| r.word() as u8).collect() }
    }

    fn bytes(&self, r: &mut Random, length: usize) -> &[u8] {
        let start = r.below(self.bytes.len() - length);
        &self.bytes[start..start + length]
    }
}
