//! Refusals: their numbers, and what `docs/PACK.md` says of each.

use std::error::Error;
use std::fmt;

/// A call's refusal.
///
/// ```
/// use pirwodd::{refusal, Planner, Refusal};
///
/// let mut pack = include_bytes!("../../../examples/p.pack").to_vec();
/// pack[6] = 2; // character 0 believes in node 1 of one
/// let refused = Planner::new().start(&pack).unwrap_err();
/// assert_eq!(refused, Refusal { number: refusal::ABSENT, place: 6 });
/// assert_eq!(
///     refused.to_string(),
///     "refused 4 at 6: in the pack, a character, fluent, value, node, whom or kind that isn't there"
/// );
/// ```
#[derive(Clone, Copy, PartialEq, Eq, Hash, Debug)]
pub struct Refusal {
    /// 1 to 13, or 21 to 27 where the fault is in a chart.
    pub number: u32,
    /// Where the number at fault begins, in the pack or in the chart; for 1 and 21 its length, for 8 to 13 it is 0.
    pub place: u64,
}

/// The pack's bytes end in a number.
pub const ENDS: u32 = 1;
/// A number that is not in its shortest form, above 65,535, or longer than three bytes.
pub const FORM: u32 = 2;
/// A version, count, domain size or chain length outside its limits; a pack above 8,192 bytes.
pub const LIMIT: u32 = 3;
/// A character, fluent, value, node, whom or kind that isn't there.
pub const ABSENT: u32 = 4;
/// A blank belief.
pub const BLANK: u32 = 5;
/// Consenters that don't rise.
pub const ORDER: u32 = 6;
/// Bytes after the end.
pub const AFTER: u32 = 7;
/// A lent buffer is too short. No [`Planner`](crate::Planner) meets it.
pub const SHORT: u32 = 8;
/// An action, character, fluent or limit is out of range.
pub const RANGE: u32 = 9;
/// The action's condition fails.
pub const CONDITION: u32 = 10;
/// A trigger holds after round 16.
pub const ROUNDS: u32 = 11;
/// Over 32 different states.
pub const STATES: u32 = 12;
/// No list of actions is an ending.
pub const NO_ENDING: u32 = 13;
/// What is added to 1 to 7 where the fault is in a chart.
pub const IN_CHART: u32 = 20;

impl Refusal {
    /// Whether the fault is in a chart.
    pub fn in_chart(self) -> bool {
        self.number > IN_CHART
    }

    /// What the number says, without where it is.
    pub fn reason(self) -> &'static str {
        match if self.in_chart() { self.number - IN_CHART } else { self.number } {
            ENDS => "bytes that end in a number",
            FORM => "a number that is not in its shortest form, above 65,535, or longer than three bytes",
            LIMIT => "a version, count, domain size, chain length or length outside its limits",
            ABSENT => "a character, fluent, value, node, whom or kind that isn't there",
            BLANK => "a blank belief",
            ORDER => "consenters that don't rise",
            AFTER => "bytes after the end",
            SHORT => "a lent buffer is too short",
            RANGE => "an action, character, fluent or limit is out of range",
            CONDITION => "the action's condition fails",
            ROUNDS => "a trigger holds after round 16",
            STATES => "over 32 different states",
            NO_ENDING => "no ending",
            _ => "a number that no call hands back",
        }
    }
}

impl fmt::Display for Refusal {
    fn fmt(&self, f: &mut fmt::Formatter) -> fmt::Result {
        let Refusal { number, place } = self;
        match number {
            ENDS..=AFTER => write!(f, "refused {number} at {place}: in the pack, {}", self.reason()),
            _ if self.in_chart() => write!(f, "refused {number} at {place}: in a chart, {}", self.reason()),
            _ => write!(f, "refused {number}: {}", self.reason()),
        }
    }
}

impl Error for Refusal {}
