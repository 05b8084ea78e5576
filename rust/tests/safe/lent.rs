//! Rooms full of dirt, and a look at them after a call.

use sporekettle::{Accepted, Filled, Rooms, EDITED, GOALS, PROPOSITIONS, TREE, WORK};

const DIRT: u8 = 0xa5;
/// Bytes behind a room's listed size, lent with it.
const SPARE: usize = 40;

pub struct Room {
    bytes: Vec<u8>,
    listed: usize,
    /// How many bytes a call gets.
    pub length: usize,
}

impl Room {
    pub fn new(listed: usize) -> Room {
        let length = listed + SPARE;
        Room {
            bytes: vec![DIRT; length],
            listed,
            length,
        }
    }

    pub fn lend(&mut self) -> &mut [u8] {
        &mut self.bytes[..self.length]
    }

    /// Zeros behind the used bytes, up to the listed size or the room's end. Behind that nothing
    /// was written.
    pub fn look(&self, used: usize) {
        let end = self.length.min(self.listed);
        let all = |bytes: &[u8], value| bytes.iter().all(|&byte| byte == value);
        assert!(all(&self.bytes[used..end], 0), "a room's rest is not zeros");
        assert!(
            all(&self.bytes[end..], DIRT),
            "bytes behind a room were written"
        );
    }
}

/// The five rooms: tree, goals, propositions, work, edited table.
pub struct Lent(pub [Room; 5]);

impl Lent {
    pub fn new() -> Lent {
        Lent([TREE, GOALS, PROPOSITIONS, WORK, EDITED].map(Room::new))
    }

    pub fn rooms(&mut self) -> (Rooms<'_>, &mut [u8]) {
        let [tree, goals, propositions, work, edited] = &mut self.0;
        let rooms = Rooms {
            tree: tree.lend(),
            goals: goals.lend(),
            propositions: propositions.lend(),
            work: work.lend(),
        };
        (rooms, edited.lend())
    }

    /// The first four rooms after a check.
    pub fn look(&self, used: [usize; 4]) {
        for (room, used) in self.0.iter().zip(used) {
            room.look(used);
        }
    }
}

pub const NOTHING: [usize; 4] = [0; 4];

/// The bytes of tree, goals and propositions that an acceptance uses; of the work room it uses none.
pub fn used(accepted: &Accepted<'_>) -> [usize; 4] {
    let counts = accepted.counts();
    assert_eq!(accepted.tree().len(), usize::from(counts.records));
    assert_eq!(accepted.goals().len(), usize::from(counts.goals));
    let propositions = accepted.propositions();
    assert_eq!(
        propositions.len(),
        propositions.own() + usize::from(counts.made)
    );
    [
        16 * accepted.tree().len(),
        8 * accepted.goals().len(),
        16 * propositions.len(),
        0,
    ]
}

/// The same of a filling, and the bytes of its edited table.
pub fn used_by_filling(filled: &Filled<'_>) -> ([usize; 4], usize) {
    (used(&filled.accepted), filled.edited.len())
}
