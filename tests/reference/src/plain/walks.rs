//! Following all chains from a place, and from two places side by side.

use std::collections::HashSet;

use super::places::{Place, Places};

impl Places<'_> {
    /// All places that chains lead to, shorter chains first and then by character numbers; none if they are too many
    /// to go on with.
    pub fn reached(&mut self, from: Place, most: usize) -> Option<Vec<Place>> {
        let mut places = vec![from];
        let mut met = HashSet::from([from]);
        let mut i = 0;
        while i < places.len() {
            for character in 0..self.pack.characters {
                let next = self.belief(places[i], character);
                if met.insert(next) {
                    places.push(next);
                }
            }
            if places.len() > most {
                return None;
            }
            i += 1;
        }
        Some(places)
    }

    /// Whether all chains find the same from both places: follows both by the same chains until no new pair comes.
    pub fn same(&mut self, left: Place, right: Place) -> bool {
        let mut pairs = vec![(left, right)];
        let mut met = HashSet::new();
        let mut i = 0;
        while i < pairs.len() {
            self.looks += 1;
            let (left, right) = pairs[i];
            if self.values(left) != self.values(right) {
                return false;
            }
            for character in 0..self.pack.characters {
                let next = (self.belief(left, character), self.belief(right, character));
                if next.0 != next.1 && met.insert(next) {
                    pairs.push(next);
                }
            }
            i += 1;
        }
        true
    }
}
