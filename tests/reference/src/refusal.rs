//! The numbers handed back where a call gives no answer, each written here and nowhere else.

/// A refusal: its number and, for what was read, the place of the byte at fault.
#[derive(Clone, Copy, PartialEq, Eq, Debug, Hash)]
pub struct Refusal {
    pub number: u8,
    pub place: usize,
}

/// The bytes end within a number.
pub const ENDS: u8 = 1;
/// Not the shortest form, above 65,535, or longer than three bytes.
pub const FORM: u8 = 2;
/// A version, count, domain size or chain length outside its limits; a pack that is too long.
pub const LIMIT: u8 = 3;
/// A character, fluent, value, node, whom or kind that isn't there.
pub const ABSENT: u8 = 4;
/// A blank belief.
pub const BLANK: u8 = 5;
/// Consenters that don't rise.
pub const ORDER: u8 = 6;
/// Bytes after the end.
pub const AFTER: u8 = 7;
/// A lent buffer is too short.
pub const SHORT: u8 = 8;
/// An action, character, fluent or limit handed in is out of range.
pub const RANGE: u8 = 9;
/// The action's condition fails.
pub const CONDITION: u8 = 10;
/// A trigger holds after the last round.
pub const ROUNDS: u8 = 11;
/// Too many different states.
pub const STATES: u8 = 12;
/// There is no ending.
pub const NO_ENDING: u8 = 13;
/// What is added to 1 to 7 where the fault is in a chart.
pub const IN_CHART: u8 = 20;

/// A refusal that has no place: 8 to 13.
pub fn without_place(number: u8) -> Refusal {
    Refusal { number, place: 0 }
}
