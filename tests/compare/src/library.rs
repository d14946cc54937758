//! The proved library's calls as an `Implementation`, each behind a safe function. They ask nothing of their caller, so
//! any slices will do. A slice passes as its pointer and its length; `bindings/rust/tests/declarations.rs` holds these
//! declarations against the library's source.

use crate::report::Report;
use reference::call::Ask;
use reference::calls::{Differs, Found};
use reference::generate::random::Random;
use reference::implementation::Implementation;
use reference::refusal::Refusal;

#[rustfmt::skip]
extern "C" {
    fn pirwodd_start(
        pack: *const u8, pack_length: usize, chart: *mut u8, chart_length: usize,
        work: *mut u8, work_length: usize, report: *mut u64, report_length: usize,
    ) -> u32;
    fn pirwodd_query(
        pack: *const u8, pack_length: usize, chart: *const u8, chart_length: usize, chain: *const u8, chain_length: usize,
        fluent: u64, work: *mut u8, work_length: usize, report: *mut u64, report_length: usize,
    ) -> u32;
    fn pirwodd_compare(
        pack: *const u8, pack_length: usize, first: *const u8, first_length: usize, second: *const u8, second_length: usize,
        chain: *mut u8, chain_length: usize, work: *mut u8, work_length: usize, report: *mut u64, report_length: usize,
    ) -> u32;
    fn pirwodd_step(
        pack: *const u8, pack_length: usize, chart: *const u8, chart_length: usize, action: u64,
        result: *mut u8, result_length: usize, work: *mut u8, work_length: usize, report: *mut u64, report_length: usize,
    ) -> u32;
    fn pirwodd_explained(
        pack: *const u8, pack_length: usize, chart: *const u8, chart_length: usize,
        character: u64, action: u64, foresight: u64, nesting: u64,
        work: *mut u8, work_length: usize, report: *mut u64, report_length: usize,
    ) -> u32;
    fn pirwodd_search(
        pack: *const u8, pack_length: usize, story: u64, foresight: u64, nesting: u64,
        list: *mut u8, list_length: usize, work: *mut u8, work_length: usize, report: *mut u64, report_length: usize,
    ) -> u32;
}

/// How many entries a report must have.
pub const ENTRIES: usize = 3;

/// The library, lent a report of so many entries, filled with noise before each call.
pub struct Library {
    entries: usize,
    noise: Random,
}

impl Library {
    #[allow(clippy::new_without_default)]
    pub fn new() -> Library {
        Library::with_report(ENTRIES)
    }

    pub fn with_report(entries: usize) -> Library {
        Library { entries, noise: Random::new(entries as u64) }
    }

    /// Whether it is a call of the library; `ending` is a program.
    pub fn has(ask: &Ask) -> bool {
        *ask != Ask::Ending
    }

    fn report(&mut self) -> Report {
        Report::new(&mut self.noise, self.entries)
    }
}

impl Implementation for Library {
    fn start(&mut self, pack: &[u8], result: &mut [u8], work: &mut [u8]) -> Result<usize, Refusal> {
        let mut report = self.report();
        let lent = report.lent();
        // SAFETY: pointers and lengths are those of slices that live through the call; those written are borrowed alone.
        #[rustfmt::skip]
        let number = unsafe {
            pirwodd_start(
                pack.as_ptr(), pack.len(), result.as_mut_ptr(), result.len(),
                work.as_mut_ptr(), work.len(), lent.as_mut_ptr(), lent.len(),
            )
        };
        report.told(number).map(|[length]| length as usize)
    }

    fn query(&mut self, pack: &[u8], chart: &[u8], chain: &[u8], fluent: u64, work: &mut [u8]) -> Result<u8, Refusal> {
        let mut report = self.report();
        let lent = report.lent();
        // SAFETY: as above.
        #[rustfmt::skip]
        let number = unsafe {
            pirwodd_query(
                pack.as_ptr(), pack.len(), chart.as_ptr(), chart.len(), chain.as_ptr(), chain.len(),
                fluent, work.as_mut_ptr(), work.len(), lent.as_mut_ptr(), lent.len(),
            )
        };
        report.told(number).map(|[value]| u8::try_from(value).expect("a value is a byte"))
    }

    fn compare(
        &mut self,
        pack: &[u8],
        first: &[u8],
        second: &[u8],
        result: &mut [u8],
        work: &mut [u8],
    ) -> Result<Option<Differs>, Refusal> {
        let mut report = self.report();
        let lent = report.lent();
        // SAFETY: as above.
        #[rustfmt::skip]
        let number = unsafe {
            pirwodd_compare(
                pack.as_ptr(), pack.len(), first.as_ptr(), first.len(), second.as_ptr(), second.len(),
                result.as_mut_ptr(), result.len(), work.as_mut_ptr(), work.len(), lent.as_mut_ptr(), lent.len(),
            )
        };
        if number == 0 && report.first() == 0 {
            return report.told(number).map(|[_]| None);
        }
        report.told(number).map(|[differs, length, fluent]| {
            assert_eq!(differs, 1, "neither same nor different");
            Some(Differs { length: length as usize, fluent: fluent as usize })
        })
    }

    fn step(
        &mut self,
        pack: &[u8],
        chart: &[u8],
        action: u64,
        result: &mut [u8],
        work: &mut [u8],
    ) -> Result<usize, Refusal> {
        let mut report = self.report();
        let lent = report.lent();
        // SAFETY: as above.
        #[rustfmt::skip]
        let number = unsafe {
            pirwodd_step(
                pack.as_ptr(), pack.len(), chart.as_ptr(), chart.len(), action,
                result.as_mut_ptr(), result.len(), work.as_mut_ptr(), work.len(), lent.as_mut_ptr(), lent.len(),
            )
        };
        report.told(number).map(|[length]| length as usize)
    }

    fn explained(
        &mut self,
        pack: &[u8],
        chart: &[u8],
        character: u64,
        action: u64,
        foresight: u64,
        nesting: u64,
        work: &mut [u8],
    ) -> Result<bool, Refusal> {
        let mut report = self.report();
        let lent = report.lent();
        // SAFETY: as above.
        #[rustfmt::skip]
        let number = unsafe {
            pirwodd_explained(
                pack.as_ptr(), pack.len(), chart.as_ptr(), chart.len(), character, action, foresight, nesting,
                work.as_mut_ptr(), work.len(), lent.as_mut_ptr(), lent.len(),
            )
        };
        report.told(number).map(|[verdict]| match verdict {
            0 | 1 => verdict == 1,
            _ => panic!("neither yes nor no: {verdict}"),
        })
    }

    fn search(
        &mut self,
        pack: &[u8],
        story: u64,
        foresight: u64,
        nesting: u64,
        result: &mut [u8],
        work: &mut [u8],
    ) -> Result<Found, Refusal> {
        let mut report = self.report();
        let lent = report.lent();
        // SAFETY: as above.
        #[rustfmt::skip]
        let number = unsafe {
            pirwodd_search(
                pack.as_ptr(), pack.len(), story, foresight, nesting,
                result.as_mut_ptr(), result.len(), work.as_mut_ptr(), work.len(), lent.as_mut_ptr(), lent.len(),
            )
        };
        report.told(number).map(|[length, before, after]| Found {
            length: length as usize,
            before: before as usize,
            after: after as usize,
        })
    }

    fn ending(&mut self, _: &[u8]) -> String {
        unimplemented!("the program `ending` is not part of the library")
    }
}
