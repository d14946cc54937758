//! The proved reader of packs and charts, each function behind a safe one. Slices pass as in `library`; nothing
//! checks these declarations against the source of `crates/probe_c`.

use crate::report::Report;
use reference::generate::random::Random;
use reference::refusal::Refusal;

extern "C" {
    fn pirwodd_probe_pack(pack: *const u8, pack_length: usize, report: *mut u64, report_length: usize) -> u32;
    fn pirwodd_probe_chart(
        pack: *const u8,
        pack_length: usize,
        chart: *const u8,
        chart_length: usize,
        report: *mut u64,
        report_length: usize,
    ) -> u32;
}

/// How many entries of a report are needed.
pub const PACK_ENTRIES: usize = 5;
pub const CHART_ENTRIES: usize = 1;

/// What is told of an accepted pack.
#[derive(Clone, Copy, PartialEq, Eq, Debug)]
pub struct Counts {
    pub characters: usize,
    pub fluents: usize,
    pub nodes: usize,
    pub actions: usize,
    pub triggers: usize,
}

/// Reads a pack into a report: 0, or a refusal's number.
pub fn pack_into(pack: &[u8], report: &mut [u64]) -> u32 {
    // SAFETY: the pointers and lengths are those of slices that live through the call, and only `report` is written.
    unsafe { pirwodd_probe_pack(pack.as_ptr(), pack.len(), report.as_mut_ptr(), report.len()) }
}

/// Reads a chart under a pack into a report: 0, or a refusal's number.
pub fn chart_into(pack: &[u8], chart: &[u8], report: &mut [u64]) -> u32 {
    // SAFETY: as above.
    unsafe {
        pirwodd_probe_chart(pack.as_ptr(), pack.len(), chart.as_ptr(), chart.len(), report.as_mut_ptr(), report.len())
    }
}

/// What the proved library makes of a pack. Panics where it writes anything but what it should.
pub fn pack(pack: &[u8]) -> Result<Counts, Refusal> {
    let mut report = Report::new(&mut noise(), PACK_ENTRIES);
    let number = pack_into(pack, report.lent());
    report.told(number).map(|entries: [u64; PACK_ENTRIES]| {
        let [characters, fluents, nodes, actions, triggers] = entries.map(|entry| entry as usize);
        Counts { characters, fluents, nodes, actions, triggers }
    })
}

/// How many nodes the proved library finds in a chart under a pack. Panics where it writes anything but what it should.
pub fn chart(pack: &[u8], chart: &[u8]) -> Result<usize, Refusal> {
    let mut report = Report::new(&mut noise(), CHART_ENTRIES);
    let number = chart_into(pack, chart, report.lent());
    report.told(number).map(|[nodes]| nodes as usize)
}

fn noise() -> Random {
    Random::new(0)
}
