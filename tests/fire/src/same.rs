//! Whether two propositions rooms say the same.
//!
//! The numbers of made propositions are free. So each record of either room gets a number for what it stands for, in one
//! table of both rooms: its own fields, with such numbers in place of its links. Two records stand for the same
//! proposition, mark by mark, exactly if these numbers are equal. Each record is looked at once, however often it is shared.

use std::collections::HashMap;
use std::hash::{BuildHasherDefault, Hasher};

/// A fast hash for keys of two numbers.
#[derive(Default)]
pub struct Mix(u64);

impl Hasher for Mix {
    fn finish(&self) -> u64 {
        self.0
    }

    fn write(&mut self, bytes: &[u8]) {
        for &byte in bytes {
            self.write_u64(byte.into());
        }
    }

    fn write_u64(&mut self, number: u64) {
        let mixed = (self.0.rotate_left(29) ^ number).wrapping_mul(0x9E37_79B9_7F4A_7C15);
        self.0 = mixed ^ (mixed >> 32);
    }
}

/// A record whose links are replaced by what they stand for.
type Key = (u64, u64, u64);

const UNSEEN: u32 = u32::MAX;
const OPEN: u32 = u32::MAX - 1;

#[derive(Default)]
pub struct Meanings {
    known: HashMap<Key, u32, BuildHasherDefault<Mix>>,
    of: [Vec<u32>; 2],
}

impl Meanings {
    /// Forgets what it knew, for two rooms with so many records each.
    pub fn begin(&mut self, records: usize) {
        self.known.clear();
        for of in &mut self.of {
            of.clear();
            of.resize(records, UNSEEN);
        }
    }

    /// What record `n` of a room stands for. `side` is 0 for the library's room and 1 for the judge's.
    pub fn meaning(&mut self, side: usize, room: &[u8], n: u16) -> Result<u32, String> {
        let n = n as usize;
        match self.of[side].get(n) {
            None => {
                return Err(format!(
                    "a link goes to proposition {n}, which is not there"
                ))
            }
            Some(&OPEN) => return Err(format!("proposition {n} is a part of itself")),
            Some(&UNSEEN) => {}
            Some(&known) => return Ok(known),
        }
        self.of[side][n] = OPEN;
        let record = &room[16 * n..16 * n + 16];
        let word = |at: usize| u16::from_le_bytes([record[at], record[at + 1]]);
        let (first, second) = match record[0] {
            0 | 1 | 7 => (number(&record[..8]), 0),
            2..=4 => {
                let left = self.meaning(side, room, word(2))?;
                let right = self.meaning(side, room, word(4))?;
                (
                    number(&record[..2]) | u64::from(word(6)) << 48,
                    both(left, right),
                )
            }
            5 | 6 => {
                let body = self.meaning(side, room, word(6))?;
                (number(&record[..6]), u64::from(body))
            }
            kind => return Err(format!("proposition {n} is of kind {kind}")),
        };
        let fresh = self.known.len() as u32;
        let meaning = *self
            .known
            .entry((first, second, number(&record[8..])))
            .or_insert(fresh);
        self.of[side][n] = meaning;
        Ok(meaning)
    }
}

/// Up to eight bytes as a number.
fn number(bytes: &[u8]) -> u64 {
    let mut eight = [0; 8];
    eight[..bytes.len()].copy_from_slice(bytes);
    u64::from_le_bytes(eight)
}

fn both(left: u32, right: u32) -> u64 {
    u64::from(left) << 32 | u64::from(right)
}

/// The library's made propositions link to smaller numbers only.
pub fn links_fall(room: &[u8], table: usize, all: usize) -> Result<(), String> {
    for (n, record) in room.chunks(16).enumerate().take(all).skip(table) {
        let word = |at: usize| usize::from(u16::from_le_bytes([record[at], record[at + 1]]));
        let falls = match record[0] {
            2..=4 => word(2) < n && word(4) < n,
            5 | 6 => word(6) < n,
            _ => true,
        };
        if !falls {
            return Err(format!(
                "made proposition {n} has a link that does not go down"
            ));
        }
    }
    Ok(())
}

/// Compares the made propositions of two rooms as bags: each is there equally often in both. This is more than the
/// statements of the library promise, which leave open what no conclusion or goal leads to.
pub fn same_made(
    meanings: &mut Meanings,
    rooms: [&[u8]; 2],
    table: usize,
    all: usize,
) -> Result<(), String> {
    let mut bags = [Vec::new(), Vec::new()];
    for side in 0..2 {
        for n in table..all {
            bags[side].push(meanings.meaning(side, rooms[side], n as u16)?);
        }
        bags[side].sort_unstable();
    }
    if bags[0] != bags[1] {
        return Err("the made propositions are not the same ones".to_string());
    }
    Ok(())
}
