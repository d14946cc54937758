//! Stories as text: packs made from it, and packs and charts printed as it and as pictures.
//!
//! `docs/STORIES.md` describes the text. In the order of reading: `pack`, `write`, `decode` and `names`; the way in,
//! `problem`, `found`, `words`, `cursor`, `sections`, `declare`, `scope`, `views`, `claims`, `fill`, `happenings`,
//! `sight`, `wishes`, `read`, `source`, `warnings`, `rest`; the ways out, `print`, `shown` and `dot`. `wanted` and
//! `faults` have the words for what is wrong.

mod claims;
mod cursor;
mod declare;
mod faults;
mod fill;
mod found;
mod happenings;
mod rest;
mod scope;
mod sections;
mod shown;
mod sight;
mod views;
mod wanted;
mod warnings;
mod wishes;
mod words;

pub mod decode;
pub mod dot;
pub mod names;
pub mod pack;
pub mod print;
pub mod problem;
pub mod read;
pub mod source;
pub mod write;

pub use decode::Unreadable;
pub use names::Names;
pub use pack::Pack;
pub use problem::{Place, Problem};
pub use read::{read, Reading};
pub use source::{Source, Stated};

/// A pack, the names of what it numbers and, if it was read from a text, where the text says what.
#[derive(Clone, Debug)]
pub struct Story {
    pub pack: Pack,
    pub names: Names,
    pub source: Option<Source>,
}

impl Story {
    /// The story of a pack, with names made up.
    pub fn of_pack(bytes: &[u8]) -> Result<Story, Unreadable> {
        let pack = decode::pack(bytes)?;
        let names = Names::made_up(&pack);
        Ok(Story { pack, names, source: None })
    }

    /// The pack's bytes.
    pub fn bytes(&self) -> Vec<u8> {
        write::pack(&self.pack).bytes
    }

    /// Where the text says what the byte at a place of the pack is about.
    pub fn line_of(&self, place: usize) -> Option<Place> {
        let part = write::pack(&self.pack).part_at(place)?;
        Some(self.source.as_ref()?.span(part)?.at)
    }

    /// Every belief that the text states, by a claim or by a short form.
    pub fn stated(&self) -> Vec<Stated> {
        self.source.as_ref().map_or(Vec::new(), |source| source::stated(&self.pack.nodes, source))
    }
}
