//! The four kinds of number, a type each, so that none is taken for another.

use std::fmt;

/// What a student calls something: a variable, an object, a predicate or a datatype. Every 16-bit
/// number is a name. `Display` writes `#10`.
///
/// ```
/// use sporekettle::Name;
///
/// assert_eq!(Name(10).to_string(), "#10");
/// assert!(Name(10) != Name(11));
/// ```
///
/// A name cannot even be compared with a number of another kind:
///
/// ```compile_fail,E0308
/// use sporekettle::{Name, Serial};
///
/// assert!(Name(10) != Serial(11));
/// ```
#[derive(Clone, Copy, Debug, PartialEq, Eq, PartialOrd, Ord, Hash)]
pub struct Name(pub u16);

/// An identifier's own number. Serials are counted from 0 in the order in which a run makes them.
/// `Display` writes `$0`.
///
/// ```
/// use sporekettle::{Serial, Serials};
///
/// let made = Serials { first: Some(Serial(0)), second: None };
/// assert_eq!(made.first.map(|serial| serial.to_string()), Some("$0".into()));
/// ```
///
/// ```compile_fail,E0308
/// use sporekettle::{Serials, Term};
///
/// let made = Serials { first: Some(Term(0)), second: None };
/// ```
#[derive(Clone, Copy, Debug, PartialEq, Eq, PartialOrd, Ord, Hash)]
pub struct Serial(pub u16);

/// The number of a proposition in a run, the table's first. The proposition itself is a
/// [`Proposition`](crate::Proposition). `Display` writes the bare number.
///
/// ```
/// use sporekettle::{Proposition, PropositionNumber, Propositions};
///
/// fn first<'a>(all: Propositions<'a>) -> Option<Proposition<'a>> {
///     all.get(PropositionNumber(0))
/// }
/// ```
///
/// ```compile_fail,E0308
/// use sporekettle::{Proposition, Propositions, Term};
///
/// fn first<'a>(all: Propositions<'a>) -> Option<Proposition<'a>> {
///     all.get(Term(0))
/// }
/// ```
#[derive(Clone, Copy, Debug, PartialEq, Eq, PartialOrd, Ord, Hash)]
pub struct PropositionNumber(pub u16);

/// The number of a term in its table, 0 for the root. `Display` writes the bare number.
///
/// ```
/// use sporekettle::{Place, Refusal, Term, Which};
///
/// let refusal = Refusal { number: 14, place: 6, table: Which::Old };
/// assert_eq!(refusal.at(), Place::Term(Term(6)));
/// ```
///
/// ```compile_fail,E0308
/// use sporekettle::{Place, PropositionNumber, Refusal, Which};
///
/// let refusal = Refusal { number: 14, place: 6, table: Which::Old };
/// assert_eq!(refusal.at(), Place::Term(PropositionNumber(6)));
/// ```
#[derive(Clone, Copy, Debug, PartialEq, Eq, PartialOrd, Ord, Hash)]
pub struct Term(pub u16);

impl fmt::Display for Name {
    fn fmt(&self, f: &mut fmt::Formatter<'_>) -> fmt::Result {
        write!(f, "#{}", self.0)
    }
}

impl fmt::Display for Serial {
    fn fmt(&self, f: &mut fmt::Formatter<'_>) -> fmt::Result {
        write!(f, "${}", self.0)
    }
}

impl fmt::Display for PropositionNumber {
    fn fmt(&self, f: &mut fmt::Formatter<'_>) -> fmt::Result {
        self.0.fmt(f)
    }
}

impl fmt::Display for Term {
    fn fmt(&self, f: &mut fmt::Formatter<'_>) -> fmt::Result {
        self.0.fmt(f)
    }
}
