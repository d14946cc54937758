//! The six calls of Pirwodd, a narrative planner that is proved.
//!
//! A [`Planner`] keeps the buffers that calls are lent and has a method for each of them. A story pack and charts are bytes:
//!
//! ```
//! use pirwodd::{Action, Character, Fluent, Foresight, Limits, Nesting, Planner, Story};
//!
//! let pack = include_bytes!("../../../examples/p.pack"); // Ann lights the lamp where Ben doesn't see it
//! let (ann, ben, lamp) = (Character(0), Character(1), Fluent(0));
//! let mut planner = Planner::new();
//!
//! let start = planner.start(pack)?;
//! assert!(planner.explained(pack, &start, ann, Action(0), Foresight(1), Nesting(1))?);
//! let lit = planner.step(pack, &start, Action(0))?;
//! assert_eq!(planner.query(pack, &lit, &[ann], lamp)?, 1);
//! assert_eq!(planner.query(pack, &lit, &[ann, ben], lamp)?, 0); // Ann knows that Ben believes it out
//!
//! let limits = Limits { story: Story(1), foresight: Foresight(1), nesting: Nesting(1) };
//! let ending = planner.search(pack, limits)?;
//! assert_eq!((ending.actions, ending.before, ending.after), (vec![Action(0)], 0, 5));
//! # Ok::<(), pirwodd::Refusal>(())
//! ```
//!
//! A call that gives no answer gives a [`Refusal`], with its number and place. [`lent`] has the calls as they are, on buffers
//! of the caller's own.

#![deny(unsafe_code)]
#![warn(missing_docs)]

#[allow(unsafe_code)]
pub mod lent;
mod planner;
pub mod refusal;
mod terms;

pub use planner::Planner;
pub use refusal::Refusal;
pub use terms::{Action, Character, Chart, Comparison, Ending, Fluent, Foresight, Limits, Nesting, Story};

/// The version of this crate, and so of the library that it is linked with.
pub const VERSION: &str = env!("CARGO_PKG_VERSION");
