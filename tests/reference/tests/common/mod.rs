//! What the tests share: the pack P of document 01, and calls and answers as lines of text.

#![allow(dead_code)]

use reference::generate::draft;
use reference::implementation::answer;
use reference::pack::Pack;
use reference::text;

pub const P: &str = "010201030100010101010100000000010000010100010000000101010000000105010101000000010500";

/// Answers a line in which `P` stands for the pack P.
pub fn says(line: &str) -> String {
    let line = line.replace('P', P);
    answer(&text::call(&line).unwrap()).to_string()
}

/// P with the bytes from `at` to `end` replaced.
pub fn p_with(at: usize, end: usize, by: &str) -> String {
    format!("{}{by}{}", &P[..2 * at], &P[2 * end..])
}

pub fn hex(pack: &Pack) -> String {
    text::hex(&draft::bytes(pack))
}

/// The chart of a table, in hexadecimal.
pub fn chart(nodes: &[reference::graph::Node]) -> String {
    text::hex(&reference::chart::bytes(nodes))
}

/// A node of a table.
pub fn node(values: &[u8], beliefs: &[usize]) -> reference::graph::Node {
    reference::graph::Node { values: values.to_vec(), beliefs: beliefs.to_vec() }
}
