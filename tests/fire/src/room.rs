//! Memory that is lent to the library, with bytes on both sides that it must not touch.

use crate::random::Random;

/// Bytes on each side of a room.
const GUARD: usize = 64;
/// A room may be lent longer than listed by so much.
pub const LONGER: usize = 64;
/// Noise that rooms are made dirty with.
const NOISE: usize = 1 << 17;

pub struct Noise(Vec<u8>);

impl Noise {
    pub fn new(seed: u64) -> Noise {
        let mut random = Random::of(seed, u64::MAX);
        // No zeros: a byte that was cleared by mistake has to show.
        Noise((0..NOISE).map(|_| random.byte().max(1)).collect())
    }

    fn part(&self, random: &mut Random, length: usize) -> &[u8] {
        let start = random.below(NOISE - length + 1);
        &self.0[start..start + length]
    }
}

pub struct Room {
    bytes: Vec<u8>,
    /// The size that the library lists for it.
    size: usize,
    lent: usize,
    /// Whether the call may write to it.
    open: bool,
    /// What must stay, as it was before the call: the guard in front, and all bytes from `until` on.
    before: Vec<u8>,
    behind: Vec<u8>,
}

impl Room {
    pub fn new(size: usize) -> Room {
        let bytes = vec![0; GUARD + size + LONGER + GUARD];
        Room {
            bytes,
            size,
            lent: size,
            open: true,
            before: Vec::new(),
            behind: Vec::new(),
        }
    }

    /// Fills all bytes with noise, the guards too.
    pub fn refresh(&mut self, random: &mut Random, noise: &Noise) {
        let length = self.bytes.len();
        self.bytes.copy_from_slice(noise.part(random, length));
    }

    /// Makes the room ready for a call that may write to its first `lent` bytes, or to none if it is not `open`.
    pub fn prepare(&mut self, random: &mut Random, noise: &Noise, lent: usize, open: bool) {
        self.lent = lent;
        self.open = open;
        self.soil(random, noise);
        let until = self.until();
        if lent < self.size || !open {
            // Here everything has to stay, so nothing may be zero: clearing it has to show.
            let length = self.bytes.len() - until;
            self.bytes[until..].copy_from_slice(noise.part(random, length));
        }
        self.before.clear();
        self.before.extend_from_slice(&self.bytes[..GUARD]);
        self.behind.clear();
        self.behind.extend_from_slice(&self.bytes[until..]);
    }

    /// Dirt. Often what the last call left stays; rarely the whole room is filled, since that takes long.
    fn soil(&mut self, random: &mut Random, noise: &Noise) {
        let size = self.size;
        let room = &mut self.bytes[GUARD..GUARD + size];
        match random.below(64) {
            0 => room.copy_from_slice(noise.part(random, size)),
            1 => room.fill(0xFF),
            2 => room.fill(0),
            3..=40 => {
                let front = random.below(size.min(1024));
                room[..front].copy_from_slice(noise.part(random, front));
                let start = random.below(size);
                let end = size.min(start + random.below(512));
                room[start..end].fill(random.pick(&[0xFF, 0x01, 0x80]));
                room[size - 1] = 0xA5;
            }
            _ => {}
        }
    }

    /// Where bytes begin that must stay.
    fn until(&self) -> usize {
        if self.open {
            GUARD + self.lent.min(self.size)
        } else {
            GUARD
        }
    }

    pub fn lend(&mut self) -> &mut [u8] {
        &mut self.bytes[GUARD..GUARD + self.lent]
    }

    /// The bytes that a call may write.
    pub fn written(&self) -> &[u8] {
        &self.bytes[GUARD..self.until()]
    }

    /// The first byte outside that was changed, counted from the room's beginning.
    pub fn touched(&self) -> Option<isize> {
        let until = self.until();
        if self.bytes[..GUARD] == self.before[..] && self.bytes[until..] == self.behind[..] {
            return None;
        }
        let changed = |(at, (new, old)): (usize, (&u8, &u8))| (new != old).then_some(at);
        let front = self
            .bytes
            .iter()
            .zip(&self.before)
            .enumerate()
            .find_map(changed);
        let back = self.bytes[until..]
            .iter()
            .zip(&self.behind)
            .enumerate()
            .find_map(changed);
        let at = front.or(back.map(|at| at + until))?;
        Some(at as isize - GUARD as isize)
    }

    #[cfg(test)]
    pub fn byte(&mut self, at: isize) -> &mut u8 {
        &mut self.bytes[(at + GUARD as isize) as usize]
    }
}

/// A table that is lent to be read, between bytes that do not belong to it.
#[derive(Default)]
pub struct TableRoom {
    bytes: Vec<u8>,
    length: usize,
    /// All bytes as they were before the call.
    kept: Vec<u8>,
}

impl TableRoom {
    pub fn hold(&mut self, table: &[u8], random: &mut Random, noise: &Noise) {
        self.kept.clear();
        self.kept.extend_from_slice(noise.part(random, GUARD));
        self.kept.extend_from_slice(table);
        self.kept.extend_from_slice(noise.part(random, GUARD));
        self.bytes.clone_from(&self.kept);
        self.length = table.len();
    }

    pub fn lend(&mut self) -> &mut [u8] {
        &mut self.bytes[GUARD..GUARD + self.length]
    }

    /// Whether the table and the bytes around it are as they were.
    pub fn stayed(&self) -> bool {
        self.bytes == self.kept
    }

    #[cfg(test)]
    pub fn byte(&mut self, at: isize) -> &mut u8 {
        &mut self.bytes[(at + GUARD as isize) as usize]
    }
}

/// Whether all bytes are zero.
pub fn zeros(bytes: &[u8]) -> bool {
    static ZEROS: [u8; 4096] = [0; 4096];
    bytes
        .chunks(4096)
        .all(|chunk| chunk == &ZEROS[..chunk.len()])
}
