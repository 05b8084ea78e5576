//! What an acceptance hands back: views that borrow the rooms and copy nothing.
//!
//! They are made here only, from rooms that a call has filled and that nobody can write to while a
//! view lives. So the indexes below are in range by what is proved of the call: each count goes
//! with its room, a tree has its root and each premise that it counts, and every proposition's
//! number is below the count of propositions. (Were that not so, an index would panic, and no byte
//! outside the rooms be read.)

use std::fmt;

use crate::call::Answer;
use crate::goals::Goals;
use crate::proposition::Propositions;
use crate::record::{word, GOAL, RECORD};
use crate::tree::Tree;
use crate::Rooms;

/// How many propositions a table has that passes its tests, by its header.
pub(crate) fn propositions_of(table: &[u8]) -> usize {
    word(table, 6).into()
}

/// How many terms it has.
pub(crate) fn terms_of(table: &[u8]) -> usize {
    word(table, 8).into()
}

/// The four counts of an acceptance.
#[derive(Clone, Copy, Debug, PartialEq, Eq, Hash)]
pub struct Counts {
    /// Tree records.
    pub records: u16,
    /// Open goals.
    pub goals: u16,
    /// Serials made. For a filling: by the filling.
    pub serials: u16,
    /// Propositions made. For a filling: by the old script up to the hole, and by the filling.
    pub made: u16,
}

/// An accepted script: its tree, its open goals and their propositions, read where they stand in
/// the rooms.
///
/// ```
/// use sporekettle::{check, Counts, Space};
#[doc = include_str!("sample.txt")]
///
/// // fun x. fun h. (x, h) : all x:D. (P(x) -> ex y:D. P(y))
/// let table = witness();
/// let mut space = Space::new();
/// let accepted = check(&table, space.rooms())?;
/// assert_eq!(accepted.counts(), Counts { records: 5, goals: 0, serials: 2, made: 5 });
/// assert_eq!(accepted.tree().len(), 5);
/// assert_eq!(accepted.goals().len(), 0);
/// // 5 of the table and 5 made: the ForAll's body and the Exists's, with x's identifier put in
/// assert_eq!(accepted.propositions().len(), 10);
/// # Ok::<(), sporekettle::Refusal>(())
/// ```
#[derive(Clone, Copy)]
pub struct Accepted<'a> {
    counts: Counts,
    tree: &'a [u8],
    goals: &'a [u8],
    propositions: &'a [u8],
    /// How many of the propositions are the table's.
    own: usize,
}

impl<'a> Accepted<'a> {
    /// `table` is the one whose propositions are loaded: of a filling, the edited table.
    pub(crate) fn new(answer: &Answer, rooms: Rooms<'a>, table: &[u8]) -> Accepted<'a> {
        let counts = Counts {
            records: answer.word(8),
            goals: answer.word(10),
            serials: answer.word(12),
            made: answer.word(14),
        };
        let own = propositions_of(table);
        Accepted {
            counts,
            tree: &rooms.tree[..RECORD * usize::from(counts.records)],
            goals: &rooms.goals[..GOAL * usize::from(counts.goals)],
            propositions: &rooms.propositions[..RECORD * (own + usize::from(counts.made))],
            own,
        }
    }

    /// The counts, as the library answers them.
    pub fn counts(&self) -> Counts {
        self.counts
    }

    /// The natural-deduction tree; of a filling, the filling's own.
    pub fn tree(&self) -> Tree<'a> {
        Tree::new(self.tree, self.propositions)
    }

    /// The goals that were left open, from left to right; of a filling, the filling's own.
    pub fn goals(&self) -> Goals<'a> {
        Goals::new(self.goals, self.propositions)
    }

    /// All propositions of the run: the table's, then the made ones.
    pub fn propositions(&self) -> Propositions<'a> {
        Propositions::new(self.propositions, self.own)
    }
}

impl fmt::Debug for Accepted<'_> {
    fn fmt(&self, f: &mut fmt::Formatter<'_>) -> fmt::Result {
        let mut out = f.debug_struct("Accepted");
        out.field("counts", &self.counts).finish_non_exhaustive()
    }
}

/// An accepted filling. [`fill`](crate::fill) has an example.
#[derive(Clone, Copy, Debug)]
pub struct Filled<'a> {
    /// The filling's own tree and goals. Their terms are numbered as in the edited table.
    pub accepted: Accepted<'a>,
    /// The edited table: the old one with the filling in the goal's place, a table of its own.
    pub edited: &'a [u8],
}
