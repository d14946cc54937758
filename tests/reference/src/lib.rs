//! The planner of document 01 a second time, written from that document alone, to be read by people and to be run
//! against the proved one.
//!
//! In the order of reading: `number`, `pack`, `graph`, `state`, `chart`, `condition`, `happening`, `compare`, `planner`,
//! `calls`, `ending`.

pub mod call;
pub mod calls;
pub mod chart;
pub mod compare;
pub mod condition;
pub mod ending;
pub mod generate;
pub mod graph;
pub mod happening;
pub mod implementation;
pub mod number;
pub mod pack;
pub mod plain;
pub mod planner;
pub mod refusal;
pub mod state;
pub mod text;
pub mod tuned;
