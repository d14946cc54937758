//! Tables of fixed size, and merging without allocation.
//!
//! A row is 32 bytes: 24 for values and 6 for beliefs, the rest 0, so that rows are compared as words. Rows that are
//! being built are numbered breadth first; there are at most 225 of them (see `step`), so a number fits a byte.

pub const MOST: usize = 32;
pub const MOST_FRESH: usize = 256;
const BELIEFS: usize = 24;

#[derive(Clone, Copy, PartialEq, Eq, Default)]
#[repr(C, align(32))]
pub struct Row(pub [u8; 32]);

impl Row {
    #[inline(always)]
    pub fn value(&self, fluent: u8) -> u8 {
        self.0[(fluent & 31) as usize]
    }

    #[inline(always)]
    pub fn set(&mut self, fluent: u8, value: u8) {
        self.0[(fluent & 31) as usize] = value;
    }

    #[inline(always)]
    pub fn belief(&self, character: usize) -> usize {
        self.0[(BELIEFS + character) & 31] as usize
    }

    #[inline(always)]
    pub fn believe(&mut self, character: usize, number: u8) {
        self.0[(BELIEFS + character) & 31] = number;
    }

    /// The 32 bytes as four words; the last holds the beliefs.
    #[inline(always)]
    pub fn words(&self) -> [u64; 4] {
        std::array::from_fn(|i| u64::from_le_bytes(std::array::from_fn(|j| self.0[8 * i + j])))
    }
}

/// A merged table, numbered breadth first: a state.
#[derive(Clone)]
pub struct Table {
    pub count: usize,
    pub rows: [Row; MOST],
}

impl Table {
    pub fn new() -> Table {
        Table { count: 0, rows: [Row::default(); MOST] }
    }

    pub fn rows(&self) -> &[Row] {
        &self.rows[..self.count]
    }

    pub fn copy(&mut self, rows: &[Row]) {
        self.count = rows.len();
        self.rows[..rows.len()].copy_from_slice(rows);
    }
}

/// Rows being built, their beliefs being numbers among themselves.
pub struct Fresh {
    pub count: usize,
    pub rows: [Row; MOST_FRESH],
    class: [u8; MOST_FRESH],
    finer: [u8; MOST_FRESH],
    /// For each class the first row in it.
    leader: [u8; MOST_FRESH],
    slots: [u8; SLOTS],
}

const SLOTS: usize = 512;
const EMPTY: u8 = 255;

impl Fresh {
    pub fn new() -> Fresh {
        let rows = [Row::default(); MOST_FRESH];
        let bytes = [0; MOST_FRESH];
        Fresh { count: 0, rows, class: bytes, finer: bytes, leader: bytes, slots: [EMPTY; SLOTS] }
    }

    /// Merges the rows into a state. Since they are numbered breadth first, and classes by their first rows, the classes
    /// are numbered breadth first too. Says no where there are more than 32 different ones.
    pub fn merge(&mut self, characters: usize, table: &mut Table) -> bool {
        let mut classes = self.by_values();
        while classes <= MOST && classes < self.count {
            let more = self.by_beliefs(characters);
            if more == classes {
                break;
            }
            std::mem::swap(&mut self.class, &mut self.finer);
            classes = more;
        }
        if classes > MOST {
            return false;
        }
        table.count = classes;
        for i in 0..classes {
            let mut row = self.rows[self.leader[i] as usize];
            for character in 0..characters {
                row.believe(character, self.class[row.belief(character)]);
            }
            table.rows[i] = row;
        }
        true
    }

    /// Classes by equal values, numbered by first rows. Stops once there are more than 32.
    fn by_values(&mut self) -> usize {
        if self.count == 1 {
            (self.class[0], self.leader[0]) = (0, 0);
            return 1;
        }
        self.slots.fill(EMPTY);
        let mut classes = 0;
        for i in 0..self.count {
            let [a, b, c, _] = self.rows[i].words();
            let mut slot = place(a ^ b.rotate_left(21) ^ c.rotate_left(42));
            loop {
                let found = self.slots[slot];
                if found == EMPTY {
                    if classes == MOST {
                        return MOST + 1;
                    }
                    self.slots[slot] = classes as u8;
                    self.leader[classes] = i as u8;
                    self.class[i] = classes as u8;
                    classes += 1;
                    break;
                }
                let other = &self.rows[self.leader[found as usize] as usize];
                if other.words()[..3] == [a, b, c] {
                    self.class[i] = found;
                    break;
                }
                slot = (slot + 1) % SLOTS;
            }
        }
        classes
    }

    /// Finer classes: by the class and the classes of the beliefs, which are one word together.
    fn by_beliefs(&mut self, characters: usize) -> usize {
        self.slots.fill(EMPTY);
        let mut keys = [0u64; MOST];
        let mut classes = 0;
        for i in 0..self.count {
            let mut key = self.class[i] as u64 + 1;
            for character in 0..characters {
                key = key << 8 | self.class[self.rows[i].belief(character)] as u64;
            }
            let mut slot = place(key);
            loop {
                let found = self.slots[slot];
                if found == EMPTY {
                    if classes == MOST {
                        return MOST + 1;
                    }
                    self.slots[slot] = classes as u8;
                    (self.leader[classes], keys[classes]) = (i as u8, key);
                    self.finer[i] = classes as u8;
                    classes += 1;
                    break;
                }
                if keys[found as usize] == key {
                    self.finer[i] = found;
                    break;
                }
                slot = (slot + 1) % SLOTS;
            }
        }
        classes
    }

    /// Takes the rows of a table that node 0 reaches, numbered breadth first.
    pub fn reach(&mut self, rows: &[Row], root: usize, characters: usize) {
        let mut number = [EMPTY; MOST];
        let mut met = [0u8; MOST];
        (number[root], met[0], self.count) = (0, root as u8, 1);
        let mut done = 0;
        while done < self.count {
            let mut row = rows[met[done] as usize];
            for character in 0..characters {
                let next = row.belief(character);
                if number[next] == EMPTY {
                    number[next] = self.count as u8;
                    met[self.count] = next as u8;
                    self.count += 1;
                }
                row.believe(character, number[next]);
            }
            self.rows[done] = row;
            done += 1;
        }
    }
}

/// Where a word is looked for first.
#[inline(always)]
fn place(word: u64) -> usize {
    (word.wrapping_mul(0x9E37_79B9_7F4A_7C15) >> 55) as usize
}
