//! What the reference makes of a pack and of a chart, as `probe` tells it.

use crate::probe::Counts;
use reference::refusal::Refusal;
use reference::{chart, pack};

pub fn pack(bytes: &[u8]) -> Result<Counts, Refusal> {
    let pack = pack::read(bytes)?;
    Ok(Counts {
        characters: pack.characters,
        fluents: pack.domains.len(),
        nodes: pack.nodes.len(),
        actions: pack.actions.len(),
        triggers: pack.triggers.len(),
    })
}

/// The pack is read first, and its refusal is the answer.
pub fn chart(pack: &[u8], chart: &[u8]) -> Result<usize, Refusal> {
    let pack = pack::read(pack)?;
    Ok(chart::table(&pack, chart)?.len())
}
