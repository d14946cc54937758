//! Calls as lines of text: what is written is read again, and lines that are no calls say what is wrong.

use reference::generate::call;
use reference::text;

#[test]
fn lines_are_read_as_they_are_written() {
    for seed in 0..1_000 {
        let call = call(seed);
        assert_eq!(text::call(&call.to_string()), Ok(call));
    }
}

#[test]
fn lines_that_are_no_calls() {
    for (line, wrong) in [
        ("", "empty line"),
        ("jump 01", "'jump' is no call: start, query, compare, step, explained, search or ending"),
        ("start", "start: the pack is missing"),
        ("start 0", "the pack '0' is not bytes in hexadecimal"),
        ("start 0g", "the pack '0g' is not bytes in hexadecimal"),
        ("start 01 02", "start: '02' is more than it takes"),
        ("step 01 - x", "the action 'x' is not a number of 64 bits"),
        ("step 01 - 18446744073709551616", "the action '18446744073709551616' is not a number of 64 bits"),
        ("step 01 -", "step: the action is missing"),
        ("start 01 work=x", "work=x: not a length"),
    ] {
        assert_eq!(text::call(line), Err(wrong.to_string()), "{line}");
    }
}
