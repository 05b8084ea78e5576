//! A script while it is made, and how it becomes the bytes of a table.
//!
//! Records stand in any order and may be left over; `write` walks from the root, numbers what it meets, and so writes a
//! table in which each record is named once.

use crate::names::Names;
use crate::random::Random;

/// The expected field of a filling.
pub const NONE: u16 = 65_535;

pub const AND: u8 = 2;
pub const OR: u8 = 3;
pub const IMPL: u8 = 4;
pub const ALL: u8 = 5;
pub const EXISTS: u8 = 6;
pub const ATOM: u8 = 7;

pub const IDENT: u8 = 0;
pub const PAIR: u8 = 1;
pub const FIRST: u8 = 2;
pub const SECOND: u8 = 3;
pub const FUNCTION: u8 = 4;
pub const APPLICATION: u8 = 5;
pub const LET: u8 = 6;
pub const LEFT: u8 = 7;
pub const RIGHT: u8 = 8;
pub const CASE: u8 = 9;
pub const ABORT: u8 = 10;
pub const UNIT: u8 = 11;
pub const ASCRIPTION: u8 = 12;
pub const SORRY: u8 = 13;

/// How many children a term of each kind has.
pub const CHILDREN: [usize; 14] = [0, 2, 1, 1, 1, 2, 2, 1, 1, 3, 1, 0, 1, 0];

/// A record of 16 bytes. A proposition's fields are a, b, c and four parameters; a term's are type, two names, three
/// children and a zero.
#[derive(Clone, Copy, Default)]
pub struct Record {
    pub kind: u8,
    pub tag: u8,
    pub fields: [u16; 7],
}

impl Record {
    pub fn term(kind: u8, children: &[u16]) -> Record {
        let mut record = Record {
            kind,
            ..Record::default()
        };
        record.fields[3..3 + children.len()].copy_from_slice(children);
        record
    }

    pub fn named(mut self, first: u16, second: u16) -> Record {
        self.fields[1] = first;
        self.fields[2] = second;
        self
    }

    pub fn typed(mut self, tag: u8, of: u16) -> Record {
        self.tag = tag;
        self.fields[0] = of;
        self
    }

    /// The fields of a proposition that are links.
    fn parts(&self) -> std::ops::Range<usize> {
        match self.kind {
            AND | OR | IMPL => 0..2,
            ALL | EXISTS => 2..3,
            _ => 0..0,
        }
    }

    /// The fields of a proposition that are names, datatypes or predicates.
    fn proposition_names(&self) -> &'static [usize] {
        match self.kind {
            ALL | EXISTS => &[0, 1],
            ATOM => &[0, 3, 4, 5, 6][..1 + self.tag as usize],
            _ => &[],
        }
    }

    /// The fields of a term that are names or datatypes.
    fn term_names(&self) -> &'static [usize] {
        match (self.kind, self.tag) {
            (FUNCTION, 2) => &[0, 1],
            (IDENT | FUNCTION, _) => &[1],
            (LET | CASE, _) => &[1, 2],
            (ASCRIPTION, 2) => &[0],
            _ => &[],
        }
    }

    fn rename(&mut self, names: &[usize], rename: &mut impl FnMut(u16) -> u16) {
        for &name in names {
            self.fields[name] = rename(self.fields[name]);
        }
    }

    fn write(&self, into: &mut Vec<u8>) {
        let mut bytes = [0; 16];
        bytes[0] = self.kind;
        bytes[1] = self.tag;
        for (two, field) in bytes[2..].chunks_exact_mut(2).zip(self.fields) {
            two.copy_from_slice(&field.to_le_bytes());
        }
        into.extend_from_slice(&bytes);
    }
}

#[derive(Default)]
pub struct Script {
    pub propositions: Vec<Record>,
    pub terms: Vec<Record>,
    pub root: u16,
    /// A proposition, or `NONE` for a filling.
    pub expected: u16,
}

impl Script {
    pub fn clear(&mut self) {
        self.propositions.clear();
        self.terms.clear();
        self.root = 0;
        self.expected = NONE;
    }

    pub fn proposition(&mut self, record: Record) -> u16 {
        self.propositions.push(record);
        (self.propositions.len() - 1) as u16
    }

    pub fn term(&mut self, record: Record) -> u16 {
        self.terms.push(record);
        (self.terms.len() - 1) as u16
    }

    /// The Sorry terms, left to right: the order of goals.
    pub fn sorries(&self) -> Vec<u16> {
        let mut found = Vec::new();
        let mut ready = vec![self.root];
        while let Some(t) = ready.pop() {
            let term = &self.terms[t as usize];
            if term.kind == SORRY {
                found.push(t);
            }
            ready.extend(children(term).iter().rev());
        }
        found
    }

    /// Writes the table: parents before children for terms, the other way round for propositions, otherwise in an
    /// order that `random` chooses. All names go through `names`.
    pub fn write(&self, random: &mut Random, names: &mut Names, into: &mut Vec<u8>) {
        let shuffled = random.one_in(3);
        let terms = order(random, shuffled, vec![self.root], |t, more| {
            more.extend(children(&self.terms[t as usize]).iter().rev())
        });
        let mut roots: Vec<u16> = Vec::new();
        let typed = terms
            .iter()
            .map(|&t| &self.terms[t as usize])
            .filter(|term| term.tag == 1);
        roots.extend(typed.map(|term| term.fields[0]));
        if self.expected != NONE {
            roots.push(self.expected);
        }
        let mut propositions = order(random, shuffled, roots, |p, more| {
            let record = &self.propositions[p as usize];
            more.extend_from_slice(&record.fields[record.parts()]);
        });
        propositions.reverse();
        let mut rename = |number: u16| names.of(random, number);
        self.records(&propositions, &terms, &mut rename, into);
    }

    fn records(
        &self,
        propositions: &[u16],
        terms: &[u16],
        rename: &mut impl FnMut(u16) -> u16,
        into: &mut Vec<u8>,
    ) {
        let proposition_at = places(propositions, self.propositions.len());
        let term_at = places(terms, self.terms.len());
        let expected = proposition_at
            .get(self.expected as usize)
            .copied()
            .unwrap_or(NONE);
        into.clear();
        header(
            propositions.len() as u16,
            terms.len() as u16,
            expected,
            into,
        );
        for &p in propositions {
            let mut record = self.propositions[p as usize];
            for part in record.parts() {
                record.fields[part] = proposition_at[record.fields[part] as usize];
            }
            record.rename(record.proposition_names(), rename);
            record.write(into);
        }
        for &t in terms {
            let mut record = self.terms[t as usize];
            if record.tag == 1 {
                record.fields[0] = proposition_at[record.fields[0] as usize];
            }
            for child in &mut record.fields[3..3 + CHILDREN[record.kind as usize]] {
                *child = term_at[*child as usize];
            }
            record.rename(record.term_names(), rename);
            record.write(into);
        }
    }
}

pub fn header(propositions: u16, terms: u16, expected: u16, into: &mut Vec<u8>) {
    into.extend_from_slice(b"NDT\0\x01\0");
    for number in [propositions, terms, expected, 0, 0] {
        into.extend_from_slice(&number.to_le_bytes());
    }
}

fn children(term: &Record) -> &[u16] {
    &term.fields[3..3 + CHILDREN[term.kind as usize]]
}

/// Records met from `ready` on, parents first. `more` adds a record's children.
fn order(
    random: &mut Random,
    shuffled: bool,
    mut ready: Vec<u16>,
    more: impl Fn(u16, &mut Vec<u16>),
) -> Vec<u16> {
    let mut met = Vec::new();
    while !ready.is_empty() {
        let next = if shuffled {
            random.below(ready.len())
        } else {
            ready.len() - 1
        };
        let record = ready.swap_remove(next);
        met.push(record);
        more(record, &mut ready);
    }
    met
}

/// Where each of `many` records stands in `order`.
fn places(order: &[u16], many: usize) -> Vec<u16> {
    let mut at = vec![0; many];
    for (place, &record) in order.iter().enumerate() {
        at[record as usize] = place as u16;
    }
    at
}
