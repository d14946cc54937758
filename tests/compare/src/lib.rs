//! The proved library run against the reference: what each makes of the same bytes.
//!
//! `library` calls the proved library and `probe` its reader of packs and charts, with the numbers they tell in a
//! `report`; `lending` puts a call with all that it is lent between margins. `expected` asks the reference's readers,
//! `numbers` finds and damages the numbers of a pack or chart, `inputs` draws packs and charts, `asks` calls and
//! `plans` searches and explanations, of which `effort` counts the steps; `agreement` compares calls and `tally` what
//! is read, and counts, `long` compares any number of them, `course` tells what a step met, `largest`, `tables`,
//! `sought` and `seasons` build what the benchmarks are run on, `timing` measures, `sides` are who searches in them,
//! and `cutoff` ends what takes too long. `sources` builds the library's own code as Rust, and `steps` counts the steps
//! that its searches make.

pub mod agreement;
pub mod asks;
pub mod cases;
pub mod course;
pub mod cutoff;
pub mod effort;
pub mod expected;
pub mod inputs;
pub mod largest;
pub mod lending;
pub mod library;
pub mod long;
pub mod numbers;
pub mod plans;
pub mod probe;
pub mod report;
pub mod seasons;
pub mod sides;
pub mod sought;
pub mod sources;
pub mod steps;
pub mod tables;
pub mod tally;
pub mod timing;
