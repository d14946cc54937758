//! A call with all that is handed in, and its answer with all that can be seen of it, so that two implementations are
//! compared by one `==`.

use crate::calls::{Differs, Found, CHAIN_ROOM, CHART_ROOM, LIST_ROOM, WORK_ROOM};
use crate::refusal::Refusal;

/// What is asked of a pack. Numbers handed in may be of any size.
#[derive(Clone, PartialEq, Eq, Debug)]
pub enum Ask {
    Start,
    Query {
        chart: Vec<u8>,
        chain: Vec<u8>,
        fluent: u64,
    },
    Compare {
        first: Vec<u8>,
        second: Vec<u8>,
    },
    Step {
        chart: Vec<u8>,
        action: u64,
    },
    Explained {
        chart: Vec<u8>,
        character: u64,
        action: u64,
        foresight: u64,
        nesting: u64,
    },
    Search {
        story: u64,
        foresight: u64,
        nesting: u64,
    },
    /// The program `ending`.
    Ending,
}

impl Ask {
    /// The length of the result buffer that is needed.
    pub fn room(&self) -> usize {
        match self {
            Ask::Start | Ask::Step { .. } => CHART_ROOM,
            Ask::Compare { .. } => CHAIN_ROOM,
            Ask::Search { .. } => LIST_ROOM,
            Ask::Query { .. } | Ask::Explained { .. } | Ask::Ending => 0,
        }
    }
}

/// A whole call: `result` and `work` are the lengths of the lent buffers.
#[derive(Clone, PartialEq, Eq, Debug)]
pub struct Call {
    pub pack: Vec<u8>,
    pub ask: Ask,
    pub result: usize,
    pub work: usize,
}

impl Call {
    /// A call that is lent exactly what it needs.
    pub fn new(pack: Vec<u8>, ask: Ask) -> Call {
        let result = ask.room();
        Call { pack, ask, result, work: WORK_ROOM }
    }

    /// All bytes to be read: the pack, then the charts, or the chart and the chain. What isn't there is empty.
    pub fn handed(&self) -> [&[u8]; 3] {
        let (first, second): (&[u8], &[u8]) = match &self.ask {
            Ask::Query { chart, chain, .. } => (chart, chain),
            Ask::Compare { first, second } => (first, second),
            Ask::Step { chart, .. } | Ask::Explained { chart, .. } => (chart, &[]),
            Ask::Start | Ask::Search { .. } | Ask::Ending => (&[], &[]),
        };
        [&self.pack, first, second]
    }
}

#[derive(Clone, PartialEq, Eq, Debug)]
pub enum Outcome {
    /// Start and Step: the chart's length.
    Length(usize),
    /// Query.
    Value(u8),
    /// Compare.
    Same,
    Differs(Differs),
    /// Explained.
    Verdict(bool),
    /// Search.
    Found(Found),
    /// What `ending` prints.
    Text(String),
    Refused(Refusal),
}

/// What became of the lent work buffer.
#[derive(Clone, Copy, PartialEq, Eq, Debug)]
pub enum Work {
    Unchanged,
    /// The first 49,152 bytes are 0 and the rest is as it was.
    Zeroed,
    Spoiled,
}

impl Work {
    /// Judges a work buffer that was lent as `lent` fills it.
    pub fn after(work: &[u8]) -> Work {
        let before = lent(work.len());
        let zeroed = || {
            let (first, rest) = work.split_at(WORK_ROOM);
            first.iter().all(|&byte| byte == 0) && rest == &before[WORK_ROOM..]
        };
        if work == before {
            Work::Unchanged
        } else if work.len() >= WORK_ROOM && zeroed() {
            Work::Zeroed
        } else {
            Work::Spoiled
        }
    }
}

/// The answer, the whole result buffer afterwards, and what became of the work buffer.
#[derive(Clone, PartialEq, Eq, Debug)]
pub struct Answer {
    pub outcome: Outcome,
    pub result: Vec<u8>,
    pub work: Work,
}

/// A buffer as it is lent: bytes that differ from their neighbours and are never 0, so that changes show.
pub fn lent(length: usize) -> Vec<u8> {
    (0..length).map(|i| (i as u8).wrapping_mul(14) | 1).collect()
}
