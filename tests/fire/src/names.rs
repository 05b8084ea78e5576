//! Other numbers for the names, datatypes and predicates of made scripts.
//!
//! The maker takes small ones. On those a checker would not show that looks at one byte of them, or that takes 65,535
//! for none.

use crate::random::Random;

const SPECIAL: [u16; 8] = [0, 1, 255, 256, 257, 512, 65_534, 65_535];

/// A renaming without clashes, made up while it is used. An old table and its filling share one.
#[derive(Default)]
pub struct Names {
    renames: bool,
    /// Bits that most numbers have in common.
    shared: u16,
    /// Numbers of the maker, and what stands for them.
    pairs: Vec<(u16, u16)>,
}

impl Names {
    /// A new renaming for one input in three; the others keep the maker's numbers.
    pub fn begin(&mut self, random: &mut Random) {
        self.pairs.clear();
        self.renames = random.one_in(3);
        self.shared = random.pick(&[0x00FF, 0xFF00, 0, 0]);
    }

    pub fn of(&mut self, random: &mut Random, number: u16) -> u16 {
        if !self.renames {
            return number;
        }
        if let Some(pair) = self.pairs.iter().find(|pair| pair.0 == number) {
            return pair.1;
        }
        let mut new = self.likely(random);
        while self.pairs.iter().any(|pair| pair.1 == new) {
            new = self.likely(random);
        }
        self.pairs.push((number, new));
        new
    }

    /// A special number, one that shares a byte with another of the script or all bits but one, or any.
    fn likely(&self, random: &mut Random) -> u16 {
        let any = random.word();
        let other = match self.pairs.len() {
            0 => random.pick(&SPECIAL),
            many => self.pairs[random.below(many)].1,
        };
        if self.shared != 0 && !random.one_in(4) {
            return (any & !self.shared) | (other & self.shared);
        }
        match random.below(6) {
            0 | 1 => random.pick(&SPECIAL),
            2 => (any & 0xFF00) | (other & 0x00FF),
            3 => (any & 0x00FF) | (other & 0xFF00),
            4 => other ^ (1 << random.below(16)),
            _ => any,
        }
    }
}
