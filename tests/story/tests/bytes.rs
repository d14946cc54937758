//! Packs and charts as bytes: read, refused and written as the reference does.

use reference::call::Ask;
use reference::{chart, generate, pack};
use story::{decode, Story};

/// Generated packs, most of them in order and some damaged.
#[test]
fn packs() {
    let (mut accepted, mut refused) = (0, 0);
    for seed in 0..20_000 {
        let bytes = generate::call(seed).pack;
        match (Story::of_pack(&bytes), pack::read(&bytes)) {
            (Ok(story), Ok(_)) => {
                assert_eq!(story.bytes(), bytes, "seed {seed}");
                accepted += 1;
            }
            (Err(unreadable), Err(refusal)) => {
                assert_eq!(unreadable.place, refusal.place, "seed {seed}");
                refused += 1;
            }
            (ours, theirs) => panic!("seed {seed}: {ours:?}, {:?}", theirs.err()),
        }
    }
    assert!(accepted > 10_000 && refused > 500, "{accepted} {refused}");
}

/// P with each byte changed to every other, and cut off at each.
#[test]
fn around_p() {
    let p = include_bytes!("../../../examples/p.pack");
    let mut changed: Vec<Vec<u8>> = (0..p.len()).map(|length| p[..length].to_vec()).collect();
    changed.push([&p[..], &[0]].concat());
    changed.push(vec![1; 8_193]);
    for place in 0..p.len() {
        for byte in 0..=255 {
            let mut bytes = p.to_vec();
            bytes[place] = byte;
            changed.push(bytes);
        }
    }
    for bytes in changed {
        let ours = Story::of_pack(&bytes).err().map(|unreadable| unreadable.place);
        assert_eq!(ours, pack::read(&bytes).err().map(|refusal| refusal.place), "{bytes:?}");
    }
}

/// The charts of generated calls.
#[test]
fn charts() {
    let (mut accepted, mut refused) = (0, 0);
    for seed in 0..20_000 {
        let call = generate::call(seed);
        let (Ok(story), Ok(pack)) = (Story::of_pack(&call.pack), pack::read(&call.pack)) else { continue };
        let (Ask::Step { chart: bytes, .. } | Ask::Query { chart: bytes, .. }) = call.ask else { continue };
        match (decode::chart(&story.pack, &bytes), chart::table(&pack, &bytes)) {
            (Ok(ours), Ok(theirs)) => {
                let rows = ours.iter().zip(&theirs);
                let values = |row: &[u8]| row.iter().map(|&value| value as usize).collect::<Vec<_>>();
                assert!(rows.clone().all(|(our, their)| our.values == values(&their.values)), "seed {seed}");
                assert!(rows.clone().all(|(our, their)| our.beliefs == their.beliefs), "seed {seed}");
                accepted += 1;
            }
            (Err(unreadable), Err(refusal)) => {
                assert_eq!(unreadable.place, refusal.place, "seed {seed}");
                refused += 1;
            }
            (ours, theirs) => panic!("seed {seed}: {ours:?}, {:?}", theirs.err()),
        }
    }
    assert!(accepted > 1_000 && refused > 100, "{accepted} {refused}");
}
