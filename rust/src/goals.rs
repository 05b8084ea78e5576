//! Open goals.

use std::fmt;

use crate::number::{PropositionNumber, Term};
use crate::proposition::Proposition;
use crate::record::{word, GOAL};

/// One open goal: a Sorry that the rules reached.
#[derive(Clone, Copy, Debug)]
pub struct Goal<'a> {
    /// The Sorry's term.
    pub term: Term,
    /// What is to be proved there.
    pub proposition: Proposition<'a>,
    /// How many entries are known there, hidden ones counted too.
    pub context_length: u16,
}

/// The open goals from left to right: an iterator. Goal k, from 0, is what
/// [`fill`](crate::fill) calls goal k.
///
/// ```
/// use sporekettle::{check, Space, Term};
#[doc = include_str!("sample.txt")]
///
/// // fun x. fun h. sorry : all x:D. (P(x) -> ex y:D. P(y))
/// let mut table = witness();
/// table.truncate(16 + 5 * 16 + 3 * 16);
/// table[8] = 3; // terms
/// table[128..].fill(0);
/// table[128] = 13; // term 2: sorry
///
/// let mut space = Space::new();
/// let mut goals = check(&table, space.rooms())?.goals();
/// assert_eq!(goals.len(), 1);
/// let goal = goals.next().expect("a goal");
/// assert_eq!((goal.term, goal.context_length), (Term(2), 2)); // x and h are known
/// assert_eq!(goal.proposition.to_string(), "ex #14:#12. #13(^0)");
/// # Ok::<(), sporekettle::Refusal>(())
/// ```
#[derive(Clone)]
pub struct Goals<'a> {
    records: &'a [u8],
    propositions: &'a [u8],
}

impl<'a> Goals<'a> {
    pub(crate) fn new(records: &'a [u8], propositions: &'a [u8]) -> Goals<'a> {
        Goals {
            records,
            propositions,
        }
    }
}

impl<'a> Iterator for Goals<'a> {
    type Item = Goal<'a>;

    fn next(&mut self) -> Option<Goal<'a>> {
        if self.records.is_empty() {
            return None;
        }
        let (record, rest) = self.records.split_at(GOAL);
        self.records = rest;
        let wanted = PropositionNumber(word(record, 2));
        Some(Goal {
            term: Term(word(record, 0)),
            proposition: Proposition::new(self.propositions, wanted),
            context_length: word(record, 4),
        })
    }

    fn size_hint(&self) -> (usize, Option<usize>) {
        let left = self.records.len() / GOAL;
        (left, Some(left))
    }
}

impl ExactSizeIterator for Goals<'_> {}

impl fmt::Debug for Goals<'_> {
    fn fmt(&self, f: &mut fmt::Formatter<'_>) -> fmt::Result {
        f.debug_list().entries(self.clone()).finish()
    }
}
