//! Compare without merging and without allocation.

use super::rules::Rules;
use super::table::Row;
use crate::calls::Differs;

/// The first difference of two tables, breadth first over pairs of rows; its chain is read back along the way.
pub fn difference(first: &[Row], second: &[Row], rules: &Rules, result: &mut [u8]) -> Option<Differs> {
    let mut met = [0u32; 32];
    let mut pairs = [(0u8, 0u8); 1_024];
    let mut way = [(0u16, 0u8); 1_024];
    let (mut count, mut done) = (1, 0);
    met[0] = 1;
    while done < count {
        let (left, right) = (&first[pairs[done].0 as usize], &second[pairs[done].1 as usize]);
        if left.words()[..3] != right.words()[..3] {
            let fluent = (0..rules.fluents).find(|&f| left.0[f] != right.0[f])?;
            return Some(Differs { length: trace(&way, done, result), fluent });
        }
        for character in 0..rules.characters {
            let (l, r) = (left.belief(character), right.belief(character));
            if met[l] >> r & 1 == 0 {
                met[l] |= 1 << r;
                (pairs[count], way[count]) = ((l as u8, r as u8), (done as u16, character as u8));
                count += 1;
            }
        }
        done += 1;
    }
    None
}

/// Writes the chain that leads to a pair and gives its length.
fn trace(way: &[(u16, u8)], pair: usize, result: &mut [u8]) -> usize {
    let mut length = 0;
    let mut at = pair;
    while at > 0 {
        result[length] = way[at].1;
        length += 1;
        at = way[at].0 as usize;
    }
    result[..length].reverse();
    length
}
