//! Propositions, read in their room.

use std::fmt;

use crate::number::{Name, PropositionNumber, Serial};
use crate::record::{word, RECORD};

/// A proposition of an accepted run.
///
/// `Display` writes it in the notation of the repository's tools, with numbers for names:
///
/// | | |
/// |---|---|
/// | `T`, `F`, `p & q`, `p \| q`, `p -> q` | True, False, And, Or, Impl; every compound part stands in parentheses |
/// | `all #10:#12. p`, `ex #10:#12. p` | ForAll and Exists: object name 10, datatype 12 |
/// | `#13(#14, $0, ^1)` | an atom of predicate 13; its parameters are the free name 14, the identifier of serial 0, and a bound one with 1 quantifier between the atom and its own |
///
/// ```
/// use sporekettle::{check, Kind, Name, Parameter, PropositionNumber, Space};
#[doc = include_str!("sample.txt")]
///
/// // fun x. fun h. (x, h) : all x:D. (P(x) -> ex y:D. P(y))
/// let table = witness();
/// let mut space = Space::new();
/// let all = check(&table, space.rooms())?.propositions();
/// let whole = all.get(PropositionNumber(4)).expect("the one to prove");
/// assert_eq!(whole.number(), PropositionNumber(4));
/// assert_eq!(whole.to_string(), "all #10:#12. (#13(^0) -> (ex #14:#12. #13(^0)))");
///
/// assert!(matches!(whole.kind(), Kind::ForAll { name: Name(10), datatype: Name(12), .. }));
/// match all.get(PropositionNumber(0)).expect("P(x)").kind() {
///     Kind::Atom { predicate, parameters } => {
///         assert_eq!(predicate, Name(13));
///         assert!(parameters.eq([Parameter::Bound(0)]));
///     }
///     other => panic!("{other:?}"),
/// }
/// # Ok::<(), sporekettle::Refusal>(())
/// ```
#[derive(Clone, Copy)]
pub struct Proposition<'a> {
    room: &'a [u8],
    number: PropositionNumber,
}

/// What a proposition is, with its parts.
#[derive(Clone, Debug)]
pub enum Kind<'a> {
    /// True.
    True,
    /// False.
    False,
    /// Both parts.
    And(Proposition<'a>, Proposition<'a>),
    /// One part or the other.
    Or(Proposition<'a>, Proposition<'a>),
    /// The first part implies the second.
    Implies(Proposition<'a>, Proposition<'a>),
    /// For all objects of a datatype.
    ForAll {
        /// The object's name.
        name: Name,
        /// The datatype's name.
        datatype: Name,
        /// What holds of it.
        body: Proposition<'a>,
    },
    /// For some object of a datatype.
    Exists {
        /// The object's name.
        name: Name,
        /// The datatype's name.
        datatype: Name,
        /// What holds of it.
        body: Proposition<'a>,
    },
    /// A predicate of up to four parameters.
    Atom {
        /// The predicate's name.
        predicate: Name,
        /// The parameters in order.
        parameters: Parameters<'a>,
    },
}

/// A parameter of an atom.
#[derive(Clone, Copy, Debug, PartialEq, Eq, Hash)]
pub enum Parameter {
    /// A free name.
    Name(Name),
    /// The identifier of that serial.
    Serial(Serial),
    /// Bound: so many quantifiers stand between the atom and the parameter's own.
    Bound(u16),
}

impl<'a> Proposition<'a> {
    pub(crate) fn new(room: &'a [u8], number: PropositionNumber) -> Proposition<'a> {
        Proposition { room, number }
    }

    /// Its number in the run. A proposition of the table has the table's number.
    pub fn number(&self) -> PropositionNumber {
        self.number
    }

    /// What it is. A part always has a smaller number than the whole, so a walk down ends.
    pub fn kind(&self) -> Kind<'a> {
        let record = self.record();
        let name = |at| Name(word(record, at));
        let part = |at| Proposition::new(self.room, PropositionNumber(word(record, at)));
        match record[0] {
            0 => Kind::True,
            1 => Kind::False,
            2 => Kind::And(part(2), part(4)),
            3 => Kind::Or(part(2), part(4)),
            4 => Kind::Implies(part(2), part(4)),
            5 => Kind::ForAll {
                name: name(2),
                datatype: name(4),
                body: part(6),
            },
            6 => Kind::Exists {
                name: name(2),
                datatype: name(4),
                body: part(6),
            },
            _ => Kind::Atom {
                predicate: name(2),
                parameters: Parameters { record, next: 0 },
            },
        }
    }

    fn record(&self) -> &'a [u8] {
        let start = RECORD * usize::from(self.number.0);
        &self.room[start..start + RECORD]
    }

    fn is_compound(&self) -> bool {
        (2..=6).contains(&self.record()[0])
    }
}

impl fmt::Display for Proposition<'_> {
    fn fmt(&self, f: &mut fmt::Formatter<'_>) -> fmt::Result {
        match self.kind() {
            Kind::True => f.write_str("T"),
            Kind::False => f.write_str("F"),
            Kind::And(p, q) => write!(f, "{} & {}", Part(p), Part(q)),
            Kind::Or(p, q) => write!(f, "{} | {}", Part(p), Part(q)),
            Kind::Implies(p, q) => write!(f, "{} -> {}", Part(p), Part(q)),
            Kind::ForAll {
                name,
                datatype,
                body,
            } => {
                write!(f, "all {name}:{datatype}. {}", Part(body))
            }
            Kind::Exists {
                name,
                datatype,
                body,
            } => {
                write!(f, "ex {name}:{datatype}. {}", Part(body))
            }
            Kind::Atom {
                predicate,
                parameters,
            } => write!(f, "{predicate}{parameters}"),
        }
    }
}

impl fmt::Debug for Proposition<'_> {
    fn fmt(&self, f: &mut fmt::Formatter<'_>) -> fmt::Result {
        write!(f, "Proposition({}: {self})", self.number)
    }
}

/// A part of a proposition, in parentheses where it is compound.
struct Part<'a>(Proposition<'a>);

impl fmt::Display for Part<'_> {
    fn fmt(&self, f: &mut fmt::Formatter<'_>) -> fmt::Result {
        if self.0.is_compound() {
            write!(f, "({})", self.0)
        } else {
            self.0.fmt(f)
        }
    }
}

/// The parameters of an atom in order: an iterator.
#[derive(Clone)]
pub struct Parameters<'a> {
    record: &'a [u8],
    next: usize,
}

impl Iterator for Parameters<'_> {
    type Item = Parameter;

    fn next(&mut self) -> Option<Parameter> {
        if self.len() == 0 {
            return None;
        }
        // Two bits a parameter, the first lowest.
        let kind = word(self.record, 4) >> (2 * self.next) & 3;
        let value = word(self.record, 8 + 2 * self.next);
        self.next += 1;
        Some(match kind {
            0 => Parameter::Name(Name(value)),
            1 => Parameter::Serial(Serial(value)),
            _ => Parameter::Bound(value),
        })
    }

    fn size_hint(&self) -> (usize, Option<usize>) {
        let left = usize::from(self.record[1]) - self.next;
        (left, Some(left))
    }
}

impl ExactSizeIterator for Parameters<'_> {}

impl fmt::Display for Parameters<'_> {
    fn fmt(&self, f: &mut fmt::Formatter<'_>) -> fmt::Result {
        for (i, parameter) in self.clone().enumerate() {
            f.write_str(if i == 0 { "(" } else { ", " })?;
            parameter.fmt(f)?;
        }
        f.write_str(if self.len() == 0 { "" } else { ")" })
    }
}

impl fmt::Debug for Parameters<'_> {
    fn fmt(&self, f: &mut fmt::Formatter<'_>) -> fmt::Result {
        f.debug_list().entries(self.clone()).finish()
    }
}

impl fmt::Display for Parameter {
    fn fmt(&self, f: &mut fmt::Formatter<'_>) -> fmt::Result {
        match self {
            Parameter::Name(name) => name.fmt(f),
            Parameter::Serial(serial) => serial.fmt(f),
            Parameter::Bound(between) => write!(f, "^{between}"),
        }
    }
}

/// All propositions of an accepted run: the table's in their order, then the made ones, whose
/// order is the library's own.
///
/// ```
/// use sporekettle::{check, PropositionNumber, Space};
#[doc = include_str!("sample.txt")]
///
/// let mut space = Space::new();
/// let all = check(&witness(), space.rooms())?.propositions();
/// assert_eq!((all.len(), all.own()), (10, 5));
/// assert_eq!(all.iter().count(), 10);
/// let second = all.get(PropositionNumber(1)).expect("there are 10");
/// assert_eq!(second.to_string(), "#13(^0)");
/// assert!(all.get(PropositionNumber(10)).is_none());
/// # Ok::<(), sporekettle::Refusal>(())
/// ```
#[derive(Clone, Copy)]
pub struct Propositions<'a> {
    room: &'a [u8],
    own: usize,
}

// An accepted table has the proposition that it proves, so there is no `is_empty`.
#[allow(clippy::len_without_is_empty)]
impl<'a> Propositions<'a> {
    pub(crate) fn new(room: &'a [u8], own: usize) -> Propositions<'a> {
        Propositions { room, own }
    }

    /// How many there are.
    pub fn len(&self) -> usize {
        self.room.len() / RECORD
    }

    /// How many of them are the table's. The others were made.
    pub fn own(&self) -> usize {
        self.own
    }

    /// The proposition of that number.
    pub fn get(&self, number: PropositionNumber) -> Option<Proposition<'a>> {
        let there = usize::from(number.0) < self.len();
        there.then(|| Proposition::new(self.room, number))
    }

    /// All of them in order.
    pub fn iter(&self) -> impl Iterator<Item = Proposition<'a>> + 'a {
        let all = *self;
        (0..).map_while(move |number| all.get(PropositionNumber(number)))
    }
}

impl fmt::Debug for Propositions<'_> {
    fn fmt(&self, f: &mut fmt::Formatter<'_>) -> fmt::Result {
        f.debug_list().entries(self.iter()).finish()
    }
}
