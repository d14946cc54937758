//! The calls with buffers that are kept from one to the next.

use crate::lent::{self, CHAIN, CHART, LIST, REPORT, WORK};
use crate::{Action, Character, Chart, Comparison, Ending, Fluent, Foresight, Limits, Nesting, Refusal};

/// The buffers that calls are lent, and the calls. Nothing of one call is used in another, so one planner does for any packs.
///
/// ```
/// use pirwodd::Planner;
///
/// let mut planner = Planner::new();
/// for pack in [&include_bytes!("../../../examples/p.pack")[..], include_bytes!("../../../examples/letter.pack")] {
///     assert!(planner.start(pack).is_ok());
/// }
/// ```
pub struct Planner {
    work: Box<[u8; WORK]>,
    chart: [u8; CHART],
    chain: [u8; CHAIN],
    /// Query's chain, which may be of any length.
    asked: Vec<u8>,
    list: [u8; LIST],
    report: [u64; REPORT],
}

impl Default for Planner {
    fn default() -> Planner {
        Planner::new()
    }
}

impl Planner {
    /// Buffers as long as the calls need them.
    pub fn new() -> Planner {
        Planner {
            work: Box::new([0; WORK]),
            chart: [0; CHART],
            chain: [0; CHAIN],
            asked: Vec::new(),
            list: [0; LIST],
            report: [0; REPORT],
        }
    }

    /// Start: the state in which the pack's story begins.
    ///
    /// ```
    /// # let mut planner = pirwodd::Planner::new();
    /// let pack = include_bytes!("../../../examples/p.pack");
    /// assert_eq!(planner.start(pack)?[..], [1, 0, 1, 1]);
    /// assert_eq!(planner.start(&[]).unwrap_err().to_string(), "refused 1 at 0: in the pack, bytes that end in a number");
    /// # Ok::<(), pirwodd::Refusal>(())
    /// ```
    pub fn start(&mut self, pack: &[u8]) -> Result<Chart, Refusal> {
        let number = lent::start(pack, &mut self.chart, &mut self.work[..], &mut self.report);
        self.charted(number)
    }

    /// Query: the value of a fluent where a chain of beliefs leads.
    ///
    /// ```
    /// # use pirwodd::{Character, Fluent};
    /// # let mut planner = pirwodd::Planner::new();
    /// # let pack = include_bytes!("../../../examples/p.pack");
    /// let chart = [2, 1, 1, 2, 0, 2, 2]; // lit, and Ben doesn't know
    /// let (ben, lamp) = (Character(1), Fluent(0));
    /// assert_eq!(planner.query(pack, &chart, &[], lamp)?, 1);
    /// assert_eq!(planner.query(pack, &chart, &[ben], lamp)?, 0);
    /// # Ok::<(), pirwodd::Refusal>(())
    /// ```
    pub fn query(&mut self, pack: &[u8], chart: &[u8], chain: &[Character], fluent: Fluent) -> Result<u8, Refusal> {
        self.asked.clear();
        self.asked.extend(chain.iter().map(|character| character.0));
        let fluent = fluent.0.into();
        let number = lent::query(pack, chart, &self.asked, fluent, &mut self.work[..], &mut self.report);
        let [value, ..] = self.told(number)?;
        Ok(value as u8)
    }

    /// Compare: whether two charts mean the same state, or where they differ.
    ///
    /// ```
    /// # use pirwodd::{Character, Comparison, Fluent};
    /// # let mut planner = pirwodd::Planner::new();
    /// # let pack = include_bytes!("../../../examples/p.pack");
    /// let (lit, known) = ([2, 1, 1, 2, 0, 2, 2], [1, 1, 1, 1]);
    /// let parted = Comparison::Differ { chain: vec![Character(1)], fluent: Fluent(0) };
    /// assert_eq!(planner.compare(pack, &lit, &known)?, parted);
    /// assert_eq!(planner.compare(pack, &[1, 0, 1, 1], &[2, 0, 2, 2, 0, 1, 1])?, Comparison::Same);
    /// # Ok::<(), pirwodd::Refusal>(())
    /// ```
    pub fn compare(&mut self, pack: &[u8], first: &[u8], second: &[u8]) -> Result<Comparison, Refusal> {
        let number = lent::compare(pack, first, second, &mut self.chain, &mut self.work[..], &mut self.report);
        let [differ, length, fluent] = self.told(number)?;
        if differ == 0 {
            return Ok(Comparison::Same);
        }
        let chain = self.chain[..length as usize].iter().map(|&character| Character(character)).collect();
        Ok(Comparison::Differ { chain, fluent: Fluent(fluent as u8) })
    }

    /// Step: the state that an action leaves, with the triggers after it.
    ///
    /// ```
    /// # use pirwodd::{refusal, Action};
    /// # let mut planner = pirwodd::Planner::new();
    /// # let pack = include_bytes!("../../../examples/p.pack");
    /// let lit = planner.step(pack, &[1, 0, 1, 1], Action(0))?;
    /// assert_eq!(lit[..], [2, 1, 1, 2, 0, 2, 2]);
    /// let again = planner.step(pack, &lit, Action(0)).unwrap_err();
    /// assert_eq!(again.number, refusal::CONDITION); // it is lit already
    /// # Ok::<(), pirwodd::Refusal>(())
    /// ```
    pub fn step(&mut self, pack: &[u8], chart: &[u8], action: Action) -> Result<Chart, Refusal> {
        let action = action.0.into();
        let number = lent::step(pack, chart, action, &mut self.chart, &mut self.work[..], &mut self.report);
        self.charted(number)
    }

    /// Explained: whether a character has a reason for an action in the state that a chart means.
    ///
    /// ```
    /// # use pirwodd::{Action, Character, Foresight, Nesting};
    /// # let mut planner = pirwodd::Planner::new();
    /// # let pack = include_bytes!("../../../examples/p.pack");
    /// let (start, lights) = ([1, 0, 1, 1], Action(0));
    /// assert!(planner.explained(pack, &start, Character(0), lights, Foresight(1), Nesting(1))?);
    /// assert!(!planner.explained(pack, &start, Character(1), lights, Foresight(1), Nesting(1))?);
    /// # Ok::<(), pirwodd::Refusal>(())
    /// ```
    pub fn explained(
        &mut self,
        pack: &[u8],
        chart: &[u8],
        character: Character,
        action: Action,
        foresight: Foresight,
        nesting: Nesting,
    ) -> Result<bool, Refusal> {
        let (character, action) = (character.0.into(), action.0.into());
        let (foresight, nesting) = (foresight.0.into(), nesting.0.into());
        let (work, report) = (&mut self.work[..], &mut self.report);
        let number = lent::explained(pack, chart, character, action, foresight, nesting, work, report);
        let [verdict, ..] = self.told(number)?;
        Ok(verdict == 1)
    }

    /// Search: the shortest ending, of those the earliest. Where no list of actions is an ending, the refusal's number is
    /// [`NO_ENDING`](crate::refusal::NO_ENDING).
    ///
    /// ```
    /// # use pirwodd::{refusal, Action, Limits, Nesting};
    /// # let mut planner = pirwodd::Planner::new();
    /// # let pack = include_bytes!("../../../examples/p.pack");
    /// let ending = planner.search(pack, Limits::default())?;
    /// assert_eq!((ending.actions, ending.before, ending.after), (vec![Action(0)], 0, 5));
    /// let unexplained = Limits { nesting: Nesting(0), ..Limits::default() };
    /// assert_eq!(planner.search(pack, unexplained).unwrap_err().number, refusal::NO_ENDING);
    /// # Ok::<(), pirwodd::Refusal>(())
    /// ```
    pub fn search(&mut self, pack: &[u8], limits: Limits) -> Result<Ending, Refusal> {
        let (story, foresight) = (limits.story.0.into(), limits.foresight.0.into());
        let nesting = limits.nesting.0.into();
        let (work, report) = (&mut self.work[..], &mut self.report);
        let number = lent::search(pack, story, foresight, nesting, &mut self.list, work, report);
        let [length, before, after] = self.told(number)?;
        let actions = self.list[..length as usize].iter().map(|&action| Action(action)).collect();
        Ok(Ending { actions, before, after })
    }

    /// What was told with the number handed back.
    fn told(&self, number: u32) -> Result<[u64; REPORT], Refusal> {
        match number {
            0 => Ok(self.report),
            _ => Err(Refusal { number, place: self.report[0] }),
        }
    }

    /// The chart that was written.
    fn charted(&self, number: u32) -> Result<Chart, Refusal> {
        let [length, ..] = self.told(number)?;
        Ok(Chart::new(&self.chart[..length as usize]))
    }
}
