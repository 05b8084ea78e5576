//! Sporekettle marks proofs that students of logic write as terms. This crate calls its proved
//! library, which is linked in, and needs nothing else.
//!
//! A submission is a *table*: bytes that hold a proof term and the proposition that it is to prove.
//! [`check`] accepts or refuses it. An acceptance has the proof as a natural-deduction [`Tree`] and
//! the [`Goals`] that were left open; [`fill`] fills one of them with a second table. A [`Refusal`]
//! says why and where. Any bytes may be given to any function: none of them panics.
//!
//! The library asks for no memory but its stack ([`STACK`]), and keeps nothing between calls. It works in [`Rooms`] that the
//! caller lends; [`Space`] is a set of them. Answers borrow the rooms and are read in place.
//!
//! There are four kinds of number, each a type of its own: [`Name`], [`Serial`],
//! [`PropositionNumber`] and [`Term`]. A plain `u16` is a count or the number of a goal or a record,
//! but for [`Refusal::place`], whose kind [`Refusal::at`] tells.
//!
//! In the repository, `docs/FORMAT.md` has the bytes of a table and `docs/RULES.md` the rules.
//!
//! # Example
//!
//! `fun h. h : A -> A`, where `h` is name 10 and `A` is name 11. A table is a row of records of
//! eight 16-bit numbers each, low byte first.
//!
//! ```
//! use sporekettle::{check, Rule, Space};
//!
//! fn bytes(records: &[[u16; 8]]) -> Vec<u8> {
//!     records.iter().flatten().flat_map(|number| number.to_le_bytes()).collect()
//! }
//!
//! let table = bytes(&[
//!     // "NDT", version 1; 3 propositions, 2 terms; proposition 2 is to be proved
//!     [0x444e, 0x0054, 1, 3, 2, 2, 0, 0],
//!     [7, 11, 0, 0, 0, 0, 0, 0], // proposition 0: A
//!     [7, 11, 0, 0, 0, 0, 0, 0], // proposition 1: A
//!     [4, 0, 1, 0, 0, 0, 0, 0],  // proposition 2: 0 -> 1
//!     [4, 0, 10, 0, 1, 0, 0, 0], // term 0: fun h. term 1
//!     [0, 0, 10, 0, 0, 0, 0, 0], // term 1: h
//! ]);
//!
//! let mut space = Space::new();
//! let accepted = check(&table, space.rooms())?;
//! assert_eq!(accepted.goals().len(), 0);
//! let root = accepted.tree().root();
//! assert_eq!(root.rule(), Rule::ImplIntro);
//! let rules: Vec<Rule> = root.premises().map(|premise| premise.rule()).collect();
//! assert_eq!(rules, [Rule::Ident]);
//! # Ok::<(), sporekettle::Refusal>(())
//! ```

#![deny(missing_docs)]
#![deny(unsafe_code)]
#![deny(unsafe_op_in_unsafe_fn)]

pub mod raw;

mod accepted;
#[allow(unsafe_code)]
mod call;
mod goals;
mod number;
mod proposition;
mod record;
mod refusal;
mod rooms;
mod tree;

pub use accepted::{Accepted, Counts, Filled};
pub use goals::{Goal, Goals};
pub use number::{Name, PropositionNumber, Serial, Term};
pub use proposition::{Kind, Parameter, Parameters, Proposition, Propositions};
pub use refusal::{Place, Refusal, Which};
pub use rooms::{Rooms, Space, EDITED, GOALS, PROPOSITIONS, STACK, TEST_WORK, TREE, WORK};
pub use tree::{Conclusion, Node, Premises, Rule, Serials, Tree};

use accepted::{propositions_of, terms_of};
use call::Answer;
use record::RECORD;

/// The mark of a table: whether its term proves its expected proposition.
///
/// ```
/// use sporekettle::{check, Place, Space, Term};
#[doc = include_str!("sample.txt")]
///
/// // fun h. unit : A -> A
/// let table = bytes(&[
///     [0x444e, 0x0054, 1, 3, 2, 2, 0, 0], // 3 propositions, 2 terms, proposition 2 to prove
///     [7, 11, 0, 0, 0, 0, 0, 0],          // proposition 0: A
///     [7, 11, 0, 0, 0, 0, 0, 0],          // proposition 1: A
///     [4, 0, 1, 0, 0, 0, 0, 0],           // proposition 2: 0 -> 1
///     [4, 0, 10, 0, 1, 0, 0, 0],          // term 0: fun h. term 1
///     [11, 0, 0, 0, 0, 0, 0, 0],          // term 1: unit
/// ]);
/// let refusal = check(&table, Space::new().rooms()).unwrap_err();
/// assert_eq!((refusal.number, refusal.at()), (11, Place::Term(Term(1))));
/// assert_eq!(
///     refusal.to_string(),
///     "refused 11 at term 1: a term of this kind cannot prove what is wanted here"
/// );
/// ```
///
/// # Errors
///
/// The first refusal of its tests and, where it passes them, of the rules.
pub fn check<'a>(table: &[u8], mut rooms: Rooms<'a>) -> Result<Accepted<'a>, Refusal> {
    let answer = call::check(table, &mut rooms);
    passed(&answer)?;
    Ok(Accepted::new(&answer, rooms, table))
}

/// Fills goal number `goal`, from 0, of the table `old`. `edited` is the room for the edited table:
/// [`EDITED`] bytes.
///
/// ```
/// use sporekettle::{check, fill, Space, Term};
#[doc = include_str!("sample.txt")]
///
/// // fun h. sorry : A -> A
/// let old = bytes(&[
///     [0x444e, 0x0054, 1, 3, 2, 2, 0, 0], // 3 propositions, 2 terms, proposition 2 to prove
///     [7, 11, 0, 0, 0, 0, 0, 0],          // proposition 0: A
///     [7, 11, 0, 0, 0, 0, 0, 0],          // proposition 1: A
///     [4, 0, 1, 0, 0, 0, 0, 0],           // proposition 2: 0 -> 1
///     [4, 0, 10, 0, 1, 0, 0, 0],          // term 0: fun h. term 1
///     [13, 0, 0, 0, 0, 0, 0, 0],          // term 1: sorry
/// ]);
/// let mut space = Space::new();
/// let goal = check(&old, space.rooms())?.goals().next().expect("an open goal");
/// assert_eq!((goal.term, goal.context_length), (Term(1), 1));
/// assert_eq!(goal.proposition.to_string(), "#11");
///
/// // The filling: h
/// let filling = bytes(&[
///     [0x444e, 0x0054, 1, 0, 1, 65535, 0, 0], // no propositions, 1 term, nothing expected
///     [0, 0, 10, 0, 0, 0, 0, 0],              // term 0: h
/// ]);
/// let (rooms, edited) = space.rooms_and_edited();
/// let filled = fill(&old, 0, &filling, rooms, edited)?;
/// assert_eq!(filled.accepted.goals().len(), 0);
///
/// // The edited table is a whole one: fun h. h : A -> A
/// assert_eq!(check(filled.edited, Space::new().rooms())?.tree().len(), 2);
/// # Ok::<(), sporekettle::Refusal>(())
/// ```
///
/// # Errors
///
/// The first refusal, in this order: the rooms; the old table and its check; the filling's tests;
/// the goal's number; the edited table's tests; the filling's run. [`Refusal::table`] says which
/// table the place is in. Of refusals 1 and 31 it is the old one.
pub fn fill<'a>(
    old: &[u8],
    goal: u16,
    filling: &[u8],
    mut rooms: Rooms<'a>,
    edited: &'a mut [u8],
) -> Result<Filled<'a>, Refusal> {
    let answer = call::fill(old, goal, filling, &mut rooms, edited);
    passed(&answer)?;
    let length = RECORD * (1 + propositions_of(edited) + terms_of(edited));
    let edited = &edited[..length];
    Ok(Filled {
        accepted: Accepted::new(&answer, rooms, edited),
        edited,
    })
}

/// Only tests the bytes of a table to check: refusals 1 to 7. `work` is a room of [`TEST_WORK`]
/// bytes, which are zeros afterwards.
///
/// ```
/// use sporekettle::{test_table, Place, TEST_WORK};
#[doc = include_str!("sample.txt")]
///
/// let mut work = [0; TEST_WORK];
/// // unit : True
/// let mut table = bytes(&[
///     [0x444e, 0x0054, 1, 1, 1, 0, 0, 0], // 1 proposition, 1 term, proposition 0 to prove
///     [0; 8],                             // proposition 0: True
///     [11, 0, 0, 0, 0, 0, 0, 0],          // term 0: unit
/// ]);
/// assert_eq!(test_table(&table, &mut work), Ok(()));
/// table[32] = 14; // there is no such kind of term
/// let refusal = test_table(&table, &mut work).unwrap_err();
/// assert_eq!((refusal.number, refusal.at()), (4, Place::Record(1)));
/// ```
///
/// # Errors
///
/// The first test that fails.
pub fn test_table(table: &[u8], work: &mut [u8]) -> Result<(), Refusal> {
    passed(&call::test_table(table, work))
}

/// Only tests the bytes of a filling: refusals 1 to 6. `work` is a room of [`TEST_WORK`] bytes,
/// which are zeros afterwards.
///
/// ```
/// use sporekettle::{test_filling, TEST_WORK};
#[doc = include_str!("sample.txt")]
///
/// let mut work = [0; TEST_WORK];
/// let mut filling = bytes(&[
///     [0x444e, 0x0054, 1, 0, 1, 65535, 0, 0], // no propositions, 1 term, nothing expected
///     [11, 0, 0, 0, 0, 0, 0, 0],              // term 0: unit
/// ]);
/// assert_eq!(test_filling(&filling, &mut work), Ok(()));
/// filling[10..12].fill(0); // a filling expects nothing, not proposition 0
/// assert_eq!(test_filling(&filling, &mut work).unwrap_err().number, 5);
/// ```
///
/// # Errors
///
/// The first test that fails. Its [`Refusal::table`] is [`Which::Old`], there being one table only.
pub fn test_filling(filling: &[u8], work: &mut [u8]) -> Result<(), Refusal> {
    passed(&call::test_filling(filling, work))
}

/// The answer's refusal, if it is one.
fn passed(answer: &Answer) -> Result<(), Refusal> {
    match answer.byte(0) {
        raw::ACCEPTED => Ok(()),
        _ => Err(Refusal::of(answer)),
    }
}
