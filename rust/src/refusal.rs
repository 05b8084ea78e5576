//! Why something is refused, and where.

use std::fmt;

use crate::call::Answer;
use crate::number::Term;
use crate::raw;

/// A refusal: a number that says why, and a place.
///
/// `Display` says it in words:
///
/// ```
/// let mut work = [0; sporekettle::TEST_WORK];
/// let refusal = sporekettle::test_table(b"NDT", &mut work).unwrap_err();
/// assert_eq!(
///     refusal.to_string(),
///     "refused 2: the file does not begin as a table does: it has fewer than 16 bytes, or its mark, \
///      its version or one of the header's zero bytes is wrong"
/// );
/// ```
#[derive(Clone, Copy, Debug, PartialEq, Eq, Hash)]
pub struct Refusal {
    /// Why: one of [`Refusal::NUMBERS`].
    pub number: u8,
    /// Where. [`Refusal::at`] says what it counts.
    pub place: u16,
    /// The table that the place is in.
    pub table: Which,
}

/// Which table a place is in. Only [`fill`](crate::fill) has more than one.
#[derive(Clone, Copy, Debug, PartialEq, Eq, Hash)]
pub enum Which {
    /// The old table of a filling; for every other call the one table that it was given.
    Old,
    /// The filling.
    Filling,
    /// The old table with the filling in it.
    Edited,
}

/// What a place counts.
#[derive(Clone, Copy, Debug, PartialEq, Eq, Hash)]
pub enum Place {
    /// No place: the refusal is about the whole call or file.
    None,
    /// A record of the file. Propositions are counted before terms, so where there are P of them,
    /// term t is record P + t. A header that expects the wrong proposition is record 0, number 5.
    Record(u16),
    /// A term, by its own number.
    Term(Term),
}

impl Refusal {
    pub(crate) fn of(answer: &Answer) -> Refusal {
        Refusal {
            number: answer.byte(1),
            place: answer.word(2),
            table: match answer.word(4) {
                raw::FILLING => Which::Filling,
                raw::EDIT => Which::Edited,
                _ => Which::Old,
            },
        }
    }

    /// All numbers that a call can answer.
    ///
    /// ```
    /// use sporekettle::Refusal;
    ///
    /// assert!(Refusal::NUMBERS.contains(&14));
    /// assert!(!Refusal::NUMBERS.contains(&16)); // it has a meaning, and is never given
    /// ```
    pub const NUMBERS: &'static [u8] = include!(concat!(env!("OUT_DIR"), "/numbers.rs"));

    /// The place, with what it counts.
    ///
    /// ```
    /// use sporekettle::{Place, Refusal, Term, Which};
    ///
    /// let at = |number| Refusal { number, place: 2, table: Which::Old }.at();
    /// assert_eq!(at(5), Place::Record(2));
    /// assert_eq!(at(14), Place::Term(Term(2)));
    /// assert_eq!(at(31), Place::None);
    /// ```
    pub fn at(&self) -> Place {
        match self.row().map(|row| row.counts) {
            Some(Counts::Records) => Place::Record(self.place),
            Some(Counts::Terms) => Place::Term(Term(self.place)),
            Some(Counts::Nothing) | None => Place::None,
        }
    }

    /// Why, in words, without the place.
    ///
    /// ```
    /// use sporekettle::{Refusal, Which};
    ///
    /// let refusal = Refusal { number: 26, place: 4, table: Which::Old };
    /// assert_eq!(refusal.reason(), "the two arms of the case prove different propositions");
    /// ```
    pub fn reason(&self) -> &'static str {
        self.row().map_or(UNKNOWN, |row| row.words)
    }

    fn row(&self) -> Option<&'static Row> {
        ROWS.iter().find(|row| row.number == self.number)
    }
}

const UNKNOWN: &str = "this number is not in the list of refusals";

/// What is known of a number.
struct Row {
    number: u8,
    counts: Counts,
    words: &'static str,
}

/// What a place counts.
#[derive(Clone, Copy)]
enum Counts {
    Nothing,
    Records,
    Terms,
}

/// The rows of docs/refusals.txt, by build/words.rs.
const ROWS: &[Row] = include!(concat!(env!("OUT_DIR"), "/refusals.rs"));

impl fmt::Display for Refusal {
    fn fmt(&self, f: &mut fmt::Formatter<'_>) -> fmt::Result {
        write!(f, "refused {}", self.number)?;
        match self.at() {
            Place::None => {}
            Place::Record(n) => write!(f, " at record {n}")?,
            Place::Term(term) => write!(f, " at term {term}")?,
        }
        match self.table {
            Which::Old => {}
            Which::Filling => f.write_str(" of the filling")?,
            Which::Edited => f.write_str(" of the edited table")?,
        }
        write!(f, ": {}", self.reason())
    }
}

impl std::error::Error for Refusal {}
