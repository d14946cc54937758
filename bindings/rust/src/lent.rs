//! The calls as the library exports them, on slices that the caller lends: the only unsafe code here. They ask nothing of
//! their caller but what slices are, so any will do; `include/pirwodd.h` says what is written to them when.
//!
//! Each hands back 0 or a refusal's number, and writes what it answers, or the refusal's place, into the report.
//!
//! ```
//! use pirwodd::lent;
//!
//! let pack = include_bytes!("../../../examples/p.pack");
//! let (mut chart, mut work, mut report) = ([7; lent::CHART], [7; lent::WORK], [7; lent::REPORT]);
//! assert_eq!(lent::start(pack, &mut chart, &mut work, &mut report), 0);
//! assert_eq!((report, &chart[..5]), ([4, 7, 7], &[1, 0, 1, 1, 7][..]));
//! assert_eq!(lent::start(pack, &mut chart[1..], &mut work, &mut report), pirwodd::refusal::SHORT);
//! ```

/// How many bytes of a work buffer are needed.
pub const WORK: usize = 49_152;
/// How many bytes are needed for a chart.
pub const CHART: usize = 961;
/// How many bytes are needed for Compare's chain.
pub const CHAIN: usize = 62;
/// How many bytes are needed for Search's list.
pub const LIST: usize = 8;
/// How many numbers of a report are needed.
pub const REPORT: usize = 3;

// `tests/declarations.rs` holds these against the library's source.
#[rustfmt::skip]
extern "C" {
    fn pirwodd_start(
        pack: *const u8, pack_length: usize, chart: *mut u8, chart_length: usize,
        work: *mut u8, work_length: usize, report: *mut u64, report_length: usize,
    ) -> u32;
    fn pirwodd_query(
        pack: *const u8, pack_length: usize, chart: *const u8, chart_length: usize, chain: *const u8, chain_length: usize,
        fluent: u64, work: *mut u8, work_length: usize, report: *mut u64, report_length: usize,
    ) -> u32;
    fn pirwodd_compare(
        pack: *const u8, pack_length: usize, first: *const u8, first_length: usize, second: *const u8, second_length: usize,
        chain: *mut u8, chain_length: usize, work: *mut u8, work_length: usize, report: *mut u64, report_length: usize,
    ) -> u32;
    fn pirwodd_step(
        pack: *const u8, pack_length: usize, chart: *const u8, chart_length: usize, action: u64,
        result: *mut u8, result_length: usize, work: *mut u8, work_length: usize, report: *mut u64, report_length: usize,
    ) -> u32;
    fn pirwodd_explained(
        pack: *const u8, pack_length: usize, chart: *const u8, chart_length: usize,
        character: u64, action: u64, foresight: u64, nesting: u64,
        work: *mut u8, work_length: usize, report: *mut u64, report_length: usize,
    ) -> u32;
    fn pirwodd_search(
        pack: *const u8, pack_length: usize, story: u64, foresight: u64, nesting: u64,
        list: *mut u8, list_length: usize, work: *mut u8, work_length: usize, report: *mut u64, report_length: usize,
    ) -> u32;
}

// SAFETY, of all six: pointers and lengths are those of slices that live through the call, and slices that are written are
// borrowed alone. The calls read and write within these only, whatever they hold.

/// Start: writes the chart of the pack's start; told is its length.
///
/// ```
/// # use pirwodd::lent;
/// # let pack = include_bytes!("../../../examples/p.pack");
/// # let mut chart = [0; lent::CHART];
/// # let (mut work, mut report) = ([0; lent::WORK], [0; lent::REPORT]);
/// assert_eq!(lent::start(pack, &mut chart, &mut work, &mut report), 0);
/// assert_eq!(chart[..report[0] as usize], [1, 0, 1, 1]);
/// ```
#[rustfmt::skip]
pub fn start(pack: &[u8], chart: &mut [u8], work: &mut [u8], report: &mut [u64]) -> u32 {
    // SAFETY: see above.
    unsafe {
        pirwodd_start(
            pack.as_ptr(), pack.len(), chart.as_mut_ptr(), chart.len(),
            work.as_mut_ptr(), work.len(), report.as_mut_ptr(), report.len(),
        )
    }
}

/// Query: told is the fluent's value where the chain leads, which is one byte a character.
///
/// ```
/// # use pirwodd::lent;
/// # let pack = include_bytes!("../../../examples/p.pack");
/// # let (mut work, mut report) = ([0; lent::WORK], [0; lent::REPORT]);
/// let (lit, ben) = ([2, 1, 1, 2, 0, 2, 2], [1]);
/// assert_eq!(lent::query(pack, &lit, &ben, 0, &mut work, &mut report), 0);
/// assert_eq!(report[0], 0);
/// ```
#[rustfmt::skip]
pub fn query(pack: &[u8], chart: &[u8], chain: &[u8], fluent: u64, work: &mut [u8], report: &mut [u64]) -> u32 {
    // SAFETY: see above.
    unsafe {
        pirwodd_query(
            pack.as_ptr(), pack.len(), chart.as_ptr(), chart.len(), chain.as_ptr(), chain.len(),
            fluent, work.as_mut_ptr(), work.len(), report.as_mut_ptr(), report.len(),
        )
    }
}

/// Compare: told is 0 for the same, or 1, the length of the chain that is written, and the fluent.
///
/// ```
/// # use pirwodd::lent;
/// # let pack = include_bytes!("../../../examples/p.pack");
/// # let mut chain = [0; lent::CHAIN];
/// # let (mut work, mut report) = ([0; lent::WORK], [0; lent::REPORT]);
/// let (lit, known) = ([2, 1, 1, 2, 0, 2, 2], [1, 1, 1, 1]);
/// assert_eq!(lent::compare(pack, &lit, &known, &mut chain, &mut work, &mut report), 0);
/// assert_eq!((report, chain[0]), ([1, 1, 0], 1));
/// ```
#[rustfmt::skip]
pub fn compare(pack: &[u8], first: &[u8], second: &[u8], chain: &mut [u8], work: &mut [u8], report: &mut [u64]) -> u32 {
    // SAFETY: see above.
    unsafe {
        pirwodd_compare(
            pack.as_ptr(), pack.len(), first.as_ptr(), first.len(), second.as_ptr(), second.len(),
            chain.as_mut_ptr(), chain.len(), work.as_mut_ptr(), work.len(), report.as_mut_ptr(), report.len(),
        )
    }
}

/// Step: writes the chart of what the action and the triggers after it leave; told is its length.
///
/// ```
/// # use pirwodd::lent;
/// # let pack = include_bytes!("../../../examples/p.pack");
/// # let mut result = [0; lent::CHART];
/// # let (mut work, mut report) = ([0; lent::WORK], [0; lent::REPORT]);
/// assert_eq!(lent::step(pack, &[1, 0, 1, 1], 0, &mut result, &mut work, &mut report), 0);
/// assert_eq!(result[..report[0] as usize], [2, 1, 1, 2, 0, 2, 2]);
/// ```
#[rustfmt::skip]
pub fn step(pack: &[u8], chart: &[u8], action: u64, result: &mut [u8], work: &mut [u8], report: &mut [u64]) -> u32 {
    // SAFETY: see above.
    unsafe {
        pirwodd_step(
            pack.as_ptr(), pack.len(), chart.as_ptr(), chart.len(), action,
            result.as_mut_ptr(), result.len(), work.as_mut_ptr(), work.len(), report.as_mut_ptr(), report.len(),
        )
    }
}

/// Explained: told is 1 for yes, 0 for no.
///
/// ```
/// # use pirwodd::lent;
/// # let pack = include_bytes!("../../../examples/p.pack");
/// # let (mut work, mut report) = ([0; lent::WORK], [0; lent::REPORT]);
/// assert_eq!(lent::explained(pack, &[1, 0, 1, 1], 0, 0, 1, 1, &mut work, &mut report), 0);
/// assert_eq!(report[0], 1);
/// ```
#[allow(clippy::too_many_arguments)]
#[rustfmt::skip]
pub fn explained(
    pack: &[u8],
    chart: &[u8],
    character: u64,
    action: u64,
    foresight: u64,
    nesting: u64,
    work: &mut [u8],
    report: &mut [u64],
) -> u32 {
    // SAFETY: see above.
    unsafe {
        pirwodd_explained(
            pack.as_ptr(), pack.len(), chart.as_ptr(), chart.len(), character, action, foresight, nesting,
            work.as_mut_ptr(), work.len(), report.as_mut_ptr(), report.len(),
        )
    }
}

/// Search: writes the ending's actions; told are its length and the author's worth at the start and at its end.
///
/// ```
/// # use pirwodd::lent;
/// # let pack = include_bytes!("../../../examples/p.pack");
/// # let mut list = [0; lent::LIST];
/// # let (mut work, mut report) = ([0; lent::WORK], [0; lent::REPORT]);
/// assert_eq!(lent::search(pack, 1, 1, 1, &mut list, &mut work, &mut report), 0);
/// assert_eq!((report, list[0]), ([1, 0, 5], 0));
/// ```
#[rustfmt::skip]
pub fn search(
    pack: &[u8],
    story: u64,
    foresight: u64,
    nesting: u64,
    list: &mut [u8],
    work: &mut [u8],
    report: &mut [u64],
) -> u32 {
    // SAFETY: see above.
    unsafe {
        pirwodd_search(
            pack.as_ptr(), pack.len(), story, foresight, nesting,
            list.as_mut_ptr(), list.len(), work.as_mut_ptr(), work.len(), report.as_mut_ptr(), report.len(),
        )
    }
}
