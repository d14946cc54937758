//! What is handed to calls and what they answer. Characters, fluents and actions count from 0, as in the pack.

use std::ops::Deref;

/// A character's number.
///
/// ```
/// # use pirwodd::{Character, Fluent, Planner};
/// # let (pack, chart) = (include_bytes!("../../../examples/p.pack"), [1, 0, 1, 1]);
/// // What character 0 believes that character 1 believes of fluent 0.
/// assert_eq!(Planner::new().query(pack, &chart, &[Character(0), Character(1)], Fluent(0)), Ok(0));
/// ```
#[derive(Clone, Copy, PartialEq, Eq, PartialOrd, Ord, Hash, Debug)]
pub struct Character(pub u8);

/// A fluent's number: what the pack calls a fact that has values.
///
/// ```
/// # use pirwodd::{refusal, Fluent, Planner};
/// # let pack = include_bytes!("../../../examples/p.pack");
/// # let mut planner = Planner::new();
/// let start = planner.start(pack)?;
/// assert_eq!(planner.query(pack, &start, &[], Fluent(0)), Ok(0));
/// assert_eq!(planner.query(pack, &start, &[], Fluent(1)).unwrap_err().number, refusal::RANGE); // there is only 0
/// # Ok::<(), pirwodd::Refusal>(())
/// ```
#[derive(Clone, Copy, PartialEq, Eq, PartialOrd, Ord, Hash, Debug)]
pub struct Fluent(pub u8);

/// An action's number.
///
/// ```
/// # use pirwodd::{refusal, Action, Planner};
/// # let pack = include_bytes!("../../../examples/p.pack");
/// # let mut planner = Planner::new();
/// let start = planner.start(pack)?;
/// assert!(planner.step(pack, &start, Action(0)).is_ok());
/// assert_eq!(planner.step(pack, &start, Action(1)).unwrap_err().number, refusal::RANGE); // there is only 0
/// # Ok::<(), pirwodd::Refusal>(())
/// ```
#[derive(Clone, Copy, PartialEq, Eq, PartialOrd, Ord, Hash, Debug)]
pub struct Action(pub u8);

/// The story limit T: an ending has at most so many actions, 1 to 8.
///
/// ```
/// # use pirwodd::{refusal, Limits, Planner, Story};
/// # let pack = include_bytes!("../../../examples/p.pack");
/// # let mut planner = Planner::new();
/// let nine = Limits { story: Story(9), ..Limits::default() };
/// assert_eq!(planner.search(pack, nine).unwrap_err().number, refusal::RANGE);
/// ```
#[derive(Clone, Copy, PartialEq, Eq, PartialOrd, Ord, Hash, Debug)]
pub struct Story(pub u8);

/// The foresight limit K: a character has at most so many actions in mind, 1 to 6.
///
/// ```
/// # use pirwodd::{refusal, Foresight, Limits, Planner};
/// # let mut planner = Planner::new();
/// let pack = include_bytes!("../../../examples/letter.pack"); // the cousin needs a plan of three actions
/// assert_eq!(planner.search(pack, Limits::default())?.actions.len(), 3);
/// let two = Limits { foresight: Foresight(2), ..Limits::default() };
/// assert_eq!(planner.search(pack, two).unwrap_err().number, refusal::NO_ENDING);
/// # Ok::<(), pirwodd::Refusal>(())
/// ```
#[derive(Clone, Copy, PartialEq, Eq, PartialOrd, Ord, Hash, Debug)]
pub struct Foresight(pub u8);

/// The nesting limit E: explanations within explanations, 0 to 3. At 0 nothing is explained to anyone.
///
/// ```
/// # use pirwodd::{refusal, Limits, Nesting, Planner};
/// # let mut planner = Planner::new();
/// let pack = include_bytes!("../../../examples/lie.pack"); // a lie that works only at nesting 2
/// assert!(planner.search(pack, Limits::default()).is_ok());
/// let one = Limits { nesting: Nesting(1), ..Limits::default() };
/// assert_eq!(planner.search(pack, one).unwrap_err().number, refusal::NO_ENDING);
/// ```
#[derive(Clone, Copy, PartialEq, Eq, PartialOrd, Ord, Hash, Debug)]
pub struct Nesting(pub u8);

/// The limits of a search. Those of the program `ending` are the default.
///
/// ```
/// use pirwodd::{Foresight, Limits, Nesting, Story};
/// let limits = Limits { story: Story(8), ..Limits::default() };
/// assert_eq!((limits.foresight, limits.nesting), (Foresight(3), Nesting(2)));
/// ```
#[derive(Clone, Copy, PartialEq, Eq, Hash, Debug)]
pub struct Limits {
    /// How long an ending may be.
    pub story: Story,
    /// How far characters look ahead.
    pub foresight: Foresight,
    /// How deep explanations are nested.
    pub nesting: Nesting,
}

impl Default for Limits {
    fn default() -> Limits {
        Limits { story: Story(4), foresight: Foresight(3), nesting: Nesting(2) }
    }
}

/// A chart that a call has written: a state, as bytes. Under one pack two states are the same exactly when their written charts
/// are equal.
///
/// Calls that read charts take any bytes, which a chart lends by `&chart`.
///
/// ```
/// # use pirwodd::Planner;
/// let chart = Planner::new().start(include_bytes!("../../../examples/p.pack"))?;
/// assert_eq!(chart[..], [1, 0, 1, 1]);
/// # Ok::<(), pirwodd::Refusal>(())
/// ```
#[derive(Clone, PartialEq, Eq, Hash, Debug)]
pub struct Chart {
    bytes: Vec<u8>,
}

impl Chart {
    pub(crate) fn new(bytes: &[u8]) -> Chart {
        Chart { bytes: bytes.to_vec() }
    }
}

impl Deref for Chart {
    type Target = [u8];

    fn deref(&self) -> &[u8] {
        &self.bytes
    }
}

/// What Compare says of two charts.
///
/// ```
/// # use pirwodd::{Action, Comparison, Planner};
/// # let pack = include_bytes!("../../../examples/p.pack");
/// # let mut planner = Planner::new();
/// let start = planner.start(pack)?;
/// let lit = planner.step(pack, &start, Action(0))?;
/// match planner.compare(pack, &start, &lit)? {
///     Comparison::Same => unreachable!("the lamp is lit"),
///     Comparison::Differ { chain, fluent } => assert_eq!((chain.len(), fluent.0), (0, 0)),
/// }
/// # Ok::<(), pirwodd::Refusal>(())
/// ```
#[derive(Clone, PartialEq, Eq, Debug)]
pub enum Comparison {
    /// They mean the same state.
    Same,
    /// The shortest chain of beliefs to a difference, of those the earliest, and the lowest fluent that differs there.
    Differ {
        /// Whose belief, and in it whose, and so on; nobody's where the states themselves differ.
        chain: Vec<Character>,
        /// What differs there.
        fluent: Fluent,
    },
}

/// The shortest ending, of those the earliest.
///
/// ```
/// # use pirwodd::{Ending, Limits, Planner};
/// let pack = include_bytes!("../../../examples/letter.pack");
/// let Ending { actions, before, after } = Planner::new().search(pack, Limits::default())?;
/// assert_eq!(actions.iter().map(|action| action.0).collect::<Vec<_>>(), [0, 1, 2]);
/// assert!(before < after);
/// # Ok::<(), pirwodd::Refusal>(())
/// ```
#[derive(Clone, PartialEq, Eq, Debug)]
pub struct Ending {
    /// What happens, 1 to 8 actions.
    pub actions: Vec<Action>,
    /// The author's worth at the start.
    pub before: u64,
    /// The author's worth at the end.
    pub after: u64,
}
