//! Every row of "Numbers handed back", by its example and by its neighbours.

mod common;

use common::{chart, hex, node, p_with, says, P};
use reference::generate::draft::*;
use reference::generate::tables;

fn refused(line: &str, number: u8, place: usize) {
    let work = if (10..20).contains(&number) { ", work zeroed" } else { "" };
    assert_eq!(says(line), format!("refused {number} at {place}{work}"), "{line}");
}

#[test]
fn row_1_bytes_end_in_a_number() {
    refused("start -", 1, 0);
    refused("start 01", 1, 1);
    refused("start 80", 1, 1);
    refused("start 8080", 1, 2);
    refused("start 0182", 1, 2);
    refused(&format!("start {}", &P[..82]), 1, 41);
}

#[test]
fn row_2_form_of_a_number() {
    refused("start 8100", 2, 0);
    refused("start 8000", 2, 0);
    refused("start 808000", 2, 0);
    refused("start ffffff", 2, 0);
    refused("start ffffff00", 2, 0);
    refused("start 01ffffff", 2, 1);
    refused("start ffff04", 2, 0);
    assert_eq!(says(&format!("start {}", p_with(40, 41, "ffff03"))), "chart 01000101 of 4 bytes, work zeroed");
    refused(&format!("start {}", p_with(40, 41, "ffff04")), 2, 40);
    refused(&format!("start {}", p_with(40, 41, "8500")), 2, 40);
    // In its form a number may be too large for its place: then it is 3 or 4.
    refused("start ffff03", 3, 0);
}

#[test]
fn row_3_limits() {
    refused("start 02", 3, 0);
    refused("start 00", 3, 0);
    refused("start 0100", 3, 1);
    refused("start 0107", 3, 1);
    refused("start 010200", 3, 2);
    refused("start 010219", 3, 2);
    refused("start 01020100", 3, 3);
    refused("start 0102018101", 3, 3);
    refused("start 0102010300", 3, 4);
    refused("start 0102010321", 3, 4);
    for (at, most) in [(8, 32), (9, 8), (10, 8), (11, 4), (15, 16), (19, 6), (24, 16), (25, 8)] {
        refused(&format!("start {}", p_with(at, at + 1, &format!("{:02x}", most + 1))), 3, at);
        assert!(!says(&format!("start {}", p_with(at, at + 1, &format!("{most:02x}")))).starts_with("refused 3"));
    }
}

#[test]
fn row_3_length_of_a_pack_is_tested_first() {
    let long = "ff".repeat(8_193);
    for rest in [
        "start L",
        "step L 00 9",
        "query L - 09 9",
        "search L 0 0 0 work=0",
        "compare L 00 00",
        "explained L 00 9 9 9 9",
    ] {
        refused(&rest.replace('L', &long), 3, 0);
    }
    assert_eq!(says(&format!("ending {long}")), "refused 3 at 0");
    refused(&format!("start {}", "ff".repeat(8_192)), 2, 0);
}

#[test]
fn row_4_what_is_not_there() {
    refused(&format!("start {}", p_with(6, 7, "02")), 4, 6);
    refused(&format!("start {}", p_with(5, 6, "03")), 4, 5);
    assert_eq!(says(&format!("start {}", p_with(5, 6, "02"))), "chart 01020101 of 4 bytes, work zeroed");
    refused(&format!("start {}", p_with(11, 12, "0102")), 4, 12);
    refused(&format!("start {}", p_with(12, 13, "03")), 4, 12);
    refused(&format!("start {}", p_with(13, 14, "01")), 4, 13);
    refused(&format!("start {}", p_with(14, 15, "03")), 4, 14);
    refused(&format!("start {}", p_with(16, 17, "03")), 4, 16);
    refused(&format!("start {}", p_with(17, 18, "01")), 4, 17);
    refused(&format!("start {}", p_with(18, 19, "03")), 4, 18);
    refused(&format!("start {}", p_with(20, 21, "02")), 4, 20);
    // The value of "at least" too; and 4 comes before 6.
    refused(&format!("start {}", p_with(12, 15, "020003")), 4, 14);
    refused(&format!("start {}", p_with(19, 21, "020102")), 4, 21);
}

#[test]
fn rows_5_to_7() {
    refused(&format!("start {}", p_with(6, 7, "00")), 5, 6);
    refused(&format!("start {}", p_with(19, 21, "020000")), 6, 21);
    refused(&format!("start {}", p_with(19, 21, "020100")), 6, 21);
    refused("start P00", 7, 42);
    refused("start Pff", 7, 42);
    refused("start P8000", 7, 42);
}

#[test]
fn six_consenters_whatever_the_number_of_characters() {
    refused(&format!("start {}", p_with(19, 21, "06000102030405")), 4, 22);
    refused(&format!("start {}", p_with(19, 21, "07")), 3, 19);
}

#[test]
fn rows_21_to_27() {
    for (bytes, number, place) in [
        ("-", 21, 0),
        ("0100", 21, 2),
        ("0180", 21, 2),
        ("010001", 21, 3),
        ("8100", 22, 0),
        ("01ffffff", 22, 1),
        ("00", 23, 0),
        ("21", 23, 0),
        ("01030101", 24, 1),
        ("01000102", 24, 3),
        ("01000001", 25, 2),
        ("0100010100", 27, 4),
        ("01000101ff", 27, 4),
        ("02000101000001", 25, 5),
        ("02000101030101", 24, 4),
    ] {
        refused(&format!("step P {bytes} 0"), number, place);
        refused(&format!("query P {bytes} - 0"), number, place);
        refused(&format!("explained P {bytes} 0 0 1 1"), number, place);
        refused(&format!("compare P {bytes} 01000101"), number, place);
        refused(&format!("compare P 01000101 {bytes}"), number, place);
    }
    refused("compare P 0100010100 00", 27, 4);
}

#[test]
fn row_8_lent_buffers() {
    refused("start P result=960", 8, 0);
    refused("step P 01000101 0 result=960", 8, 0);
    refused("search P 1 1 1 result=7", 8, 0);
    refused("compare P 01000101 01000101 result=61", 8, 0);
    for line in [
        "start P",
        "step P 01000101 0",
        "query P 01000101 - 0",
        "compare P 01000101 01000101",
        "explained P 01000101 0 0 1 1",
        "search P 1 1 1",
    ] {
        refused(&format!("{line} work=49151"), 8, 0);
        assert!(!says(&format!("{line} work=49153")).starts_with("refused"), "{line}");
    }
    assert_eq!(says("start P result=2000 work=60000"), "chart 01000101 of 4 bytes, work zeroed");
}

#[test]
fn row_9_numbers_handed_in() {
    for action in ["1", "256", "65536", "4294967296", "18446744073709551615"] {
        refused(&format!("step P 01000101 {action}"), 9, 0);
        refused(&format!("explained P 01000101 0 {action} 1 1"), 9, 0);
        refused(&format!("query P 01000101 - {action}"), 9, 0);
    }
    refused("query P 01000101 02 0", 9, 0);
    refused("query P 01000101 000100ff 0", 9, 0);
    refused("explained P 01000101 2 0 1 1", 9, 0);
    refused("explained P 01000101 0 0 0 0", 9, 0);
    refused("explained P 01000101 0 0 7 1", 9, 0);
    refused("explained P 01000101 0 0 1 4", 9, 0);
    for limits in ["0 1 1", "9 1 1", "1 0 1", "1 7 1", "1 1 4", "257 1 1", "1 257 1", "1 1 256"] {
        refused(&format!("search P {limits}"), 9, 0);
    }
    assert_eq!(says("search P 8 6 3"), "list 00 of 1, author 0 5, work zeroed");
}

#[test]
fn rows_10_and_13() {
    refused("step P 01010101 0", 10, 0);
    refused("search P 1 1 0", 13, 0);
    assert_eq!(says(&format!("ending {}", p_with(32, 33, "00"))), "refused 13 at 0");
}

#[test]
fn row_11_a_trigger_that_holds_for_ever() {
    let mut pack = empty(1, &[2]);
    pack.actions.push(action(&pack, always(), vec![], &[]));
    pack.triggers.push(trigger(always(), vec![]));
    refused(&format!("step {} 010001 0", hex(&pack)), 11, 0);
}

#[test]
fn row_12_over_32_states() {
    let mut pack = empty(1, &[2, 32]);
    let r = &mut reference::generate::random::Random::new(1);
    let mut secret = action(&pack, always(), vec![effect(0, 0, 1)], &[]);
    secret.observations[0] = never();
    pack.actions.push(secret);
    let table = |r: &mut _, count| chart(&tables::ring(r, 1, 2, 1, count));
    refused(&format!("step {} {} 0", hex(&pack), table(r, 32)), 12, 0);
    assert!(says(&format!("step {} {} 0", hex(&pack), table(r, 31))).starts_with("chart 20"));
}

#[test]
fn the_order_of_checks() {
    refused("step 02 00 9 result=0", 3, 0);
    refused("step P 00 9 result=0", 23, 0);
    refused("compare P 00 - result=0", 23, 0);
    refused("compare P 01000101 - result=0", 21, 0);
    refused("step P 01010101 9 result=0", 8, 0);
    refused("step P 01010101 9", 9, 0);
    refused("search P 0 0 9 work=0", 8, 0);
    let mut pack = empty(1, &[2]);
    pack.actions.push(action(&pack, never(), vec![], &[]));
    pack.triggers.push(trigger(always(), vec![]));
    refused(&format!("step {} 010001 0", hex(&pack)), 10, 0);
}

#[test]
fn domains_nodes_and_worths_at_their_limits() {
    let mut pack = empty(6, &[128; 24]);
    pack.nodes = (0..32).map(|i| node(&[127 - i as u8; 24], &[(i + 1) % 32; 6])).collect();
    let answer = says(&format!("start {}", hex(&pack)));
    assert!(answer.ends_with("of 961 bytes, work zeroed"), "{answer}");
    pack.nodes.push(node(&[0; 24], &[0; 6]));
    refused(&format!("start {}", hex(&pack)), 3, 3 + 48);
}
