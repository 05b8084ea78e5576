//! Tables: how their bytes are read, and tests 2 to 7.

use crate::Refusal;

pub const HEADER: usize = 16;
pub const RECORD: usize = 16;
/// The expected field of a filling.
const NONE: u16 = 65_535;

const MOST_PROPS: usize = 1_024;
const MOST_TERMS: usize = 512;
const MOST_HEIGHT: usize = 32;
const MOST_DEPTH: usize = 64;

/// What a table is tested for: the two differ in the expected field and in test 7.
#[derive(Clone, Copy, PartialEq, Eq)]
pub enum Purpose {
    Check,
    Filling,
}

/// A record as its bytes have it. Propositions and terms have one layout: two bytes, seven words.
#[derive(Clone, Copy)]
pub struct Record {
    pub kind: u8,
    /// A term's type tag, or how many parameters a proposition has.
    pub tag: u8,
    /// A proposition's a, b, c and parameters; a term's type, two names, three children and zero.
    pub fields: [u16; 7],
}

pub struct Table {
    pub props: Vec<Record>,
    pub terms: Vec<Record>,
    pub expected: u16,
}

/// The table, if the bytes pass the tests in their order.
pub fn read(bytes: &[u8], purpose: Purpose) -> Result<Table, Refusal> {
    if !well_marked(bytes) {
        return Err(Refusal::new(2, 0));
    }
    let (props, terms) = (word(bytes, 6) as usize, word(bytes, 8) as usize);
    test_counts(props, terms)?;
    if bytes.len() != HEADER + RECORD * (props + terms) {
        return Err(Refusal::new(3, 0));
    }
    let mut records = bytes[HEADER..].chunks_exact(RECORD).map(Record::read);
    let table = Table {
        props: records.by_ref().take(props).collect(),
        terms: records.collect(),
        expected: word(bytes, 10),
    };
    table.test_forms()?;
    table.test_links(purpose)?;
    table.test_sizes()?;
    if purpose == Purpose::Check {
        table.test_closed()?;
    }
    Ok(table)
}

fn word(bytes: &[u8], at: usize) -> u16 {
    u16::from_le_bytes([bytes[at], bytes[at + 1]])
}

/// Test 2.
fn well_marked(bytes: &[u8]) -> bool {
    bytes.len() >= HEADER && bytes[..6] == *b"NDT\0\x01\0" && bytes[12..16] == [0; 4]
}

/// The counts' half of test 3.
pub fn test_counts(props: usize, terms: usize) -> Result<(), Refusal> {
    if props > MOST_PROPS || terms == 0 || terms > MOST_TERMS {
        return Err(Refusal::new(3, 0));
    }
    Ok(())
}

impl Record {
    fn read(bytes: &[u8]) -> Record {
        let mut fields = [0; 7];
        for (i, field) in fields.iter_mut().enumerate() {
            *field = word(bytes, 2 + 2 * i);
        }
        Record {
            kind: bytes[0],
            tag: bytes[1],
            fields,
        }
    }

    pub fn bytes(&self) -> [u8; RECORD] {
        let mut bytes = [0; RECORD];
        bytes[0] = self.kind;
        bytes[1] = self.tag;
        for (i, field) in self.fields.iter().enumerate() {
            bytes[2 + 2 * i..4 + 2 * i].copy_from_slice(&field.to_le_bytes());
        }
        bytes
    }

    /// The fields of a proposition that are links.
    fn prop_links(&self) -> std::ops::Range<usize> {
        match self.kind {
            2..=4 => 0..2,
            5 | 6 => 2..3,
            _ => 0..0,
        }
    }

    /// The fields of a term that are links to its children.
    fn term_links(&self) -> std::ops::Range<usize> {
        3..3 + term_shape(self.kind).map_or(0, |(_, children)| children)
    }

    pub fn parts(&self) -> &[u16] {
        &self.fields[self.prop_links()]
    }

    pub fn children(&self) -> &[u16] {
        &self.fields[self.term_links()]
    }

    pub fn parts_mut(&mut self) -> &mut [u16] {
        let links = self.prop_links();
        &mut self.fields[links]
    }

    pub fn children_mut(&mut self) -> &mut [u16] {
        let links = self.term_links();
        &mut self.fields[links]
    }

    /// The proposition that a term's type field names.
    pub fn annotation(&self) -> Option<u16> {
        if self.tag == 1 {
            Some(self.fields[0])
        } else {
            None
        }
    }

    /// Test 4 of a proposition.
    fn is_prop(&self) -> bool {
        let zeros = |from: usize| self.fields[from..].iter().all(|&field| field == 0);
        match self.kind {
            0 | 1 => self.tag == 0 && zeros(0),
            2..=4 => self.tag == 0 && zeros(2),
            5 | 6 => self.tag == 0 && zeros(3),
            7 => self.tag <= 4 && self.fields[1..3] == [0; 2] && zeros(3 + self.tag as usize),
            _ => false,
        }
    }

    /// Test 4 of a term.
    fn is_term(&self) -> bool {
        let tags = match self.kind {
            4 => 0..=2,
            12 => 1..=2,
            _ => 0..=0,
        };
        let zeros = |fields: &[u16]| fields.iter().all(|&field| field == 0);
        match term_shape(self.kind) {
            None => false,
            Some((names, children)) => {
                tags.contains(&self.tag)
                    && (self.tag != 0 || self.fields[0] == 0)
                    && zeros(&self.fields[1 + names..3])
                    && zeros(&self.fields[3 + children..])
            }
        }
    }
}

/// How many names and how many children a kind of term has.
fn term_shape(kind: u8) -> Option<(usize, usize)> {
    match kind {
        0 => Some((1, 0)),
        1 | 5 => Some((0, 2)),
        2 | 3 | 7 | 8 | 10 | 12 => Some((0, 1)),
        4 => Some((1, 1)),
        6 => Some((2, 2)),
        9 => Some((2, 3)),
        11 | 13 => Some((0, 0)),
        _ => None,
    }
}

impl Table {
    /// Refuses at the lowest guilty record; propositions are counted before terms.
    fn lowest(
        &self,
        number: u8,
        guilty_prop: impl Fn(usize) -> bool,
        guilty_term: impl Fn(usize) -> bool,
    ) -> Result<(), Refusal> {
        let props = self.props.len();
        let guilty = (0..props).find(|&n| guilty_prop(n)).or_else(|| {
            (0..self.terms.len())
                .find(|&t| guilty_term(t))
                .map(|t| props + t)
        });
        match guilty {
            Some(place) => Err(Refusal::new(number, place as u16)),
            None => Ok(()),
        }
    }

    fn test_forms(&self) -> Result<(), Refusal> {
        self.lowest(
            4,
            |n| !self.props[n].is_prop(),
            |t| !self.terms[t].is_term(),
        )
    }

    fn test_links(&self, purpose: Purpose) -> Result<(), Refusal> {
        let (props, terms) = (self.props.len(), self.terms.len());
        let well_aimed = match purpose {
            Purpose::Check => (self.expected as usize) < props,
            Purpose::Filling => self.expected == NONE,
        };
        if !well_aimed {
            return Err(Refusal::new(5, 0));
        }
        let (props_named, terms_named) = self.count_names(purpose);
        let guilty_prop = |n: usize| {
            let astray = |&part: &u16| part as usize >= n;
            self.props[n].parts().iter().any(astray) || props_named[n] != 1
        };
        let guilty_term = |t: usize| {
            let astray = |&child: &u16| child as usize <= t || child as usize >= terms;
            let record = &self.terms[t];
            record.children().iter().any(astray)
                || record.annotation().map_or(false, |n| n as usize >= props)
                || (t != 0 && terms_named[t] != 1)
        };
        self.lowest(5, guilty_prop, guilty_term)
    }

    /// How often each proposition and each term is named. A link counts whichever way it goes.
    fn count_names(&self, purpose: Purpose) -> (Vec<usize>, Vec<usize>) {
        let mut props = vec![0; self.props.len()];
        let mut terms = vec![0; self.terms.len()];
        let name = |counts: &mut Vec<usize>, link: u16| {
            if let Some(count) = counts.get_mut(link as usize) {
                *count += 1;
            }
        };
        if purpose == Purpose::Check {
            name(&mut props, self.expected);
        }
        for record in &self.props {
            record
                .parts()
                .iter()
                .for_each(|&part| name(&mut props, part));
        }
        for record in &self.terms {
            record
                .annotation()
                .into_iter()
                .for_each(|n| name(&mut props, n));
            record
                .children()
                .iter()
                .for_each(|&child| name(&mut terms, child));
        }
        (props, terms)
    }

    /// Test 6. Parts have smaller numbers and children larger ones, so one pass each is enough.
    pub fn test_sizes(&self) -> Result<(), Refusal> {
        let mut heights: Vec<usize> = Vec::with_capacity(self.props.len());
        for record in &self.props {
            let below = record
                .parts()
                .iter()
                .map(|&part| heights[part as usize])
                .max();
            heights.push(1 + below.unwrap_or(0));
        }
        let mut depths = vec![1; self.terms.len()];
        for (t, record) in self.terms.iter().enumerate() {
            for &child in record.children() {
                depths[child as usize] = depths[t] + 1;
            }
        }
        self.lowest(6, |n| heights[n] > MOST_HEIGHT, |t| depths[t] > MOST_DEPTH)
    }

    fn test_closed(&self) -> Result<(), Refusal> {
        if !self.is_closed(self.expected, &mut Vec::new()) {
            return Err(Refusal::new(7, self.expected));
        }
        Ok(())
    }

    /// Whether every name in a proposition is bound, there or by a quantifier above with that name.
    fn is_closed(&self, n: u16, bound: &mut Vec<u16>) -> bool {
        let record = &self.props[n as usize];
        let [name, _, body, parameters @ ..] = &record.fields;
        match record.kind {
            5 | 6 => {
                bound.push(*name);
                let closed = self.is_closed(*body, bound);
                bound.pop();
                closed
            }
            7 => parameters[..record.tag as usize]
                .iter()
                .all(|parameter| bound.contains(parameter)),
            _ => record
                .parts()
                .iter()
                .all(|&part| self.is_closed(part, bound)),
        }
    }

    /// The bytes that this table is written as.
    pub fn bytes(&self) -> Vec<u8> {
        let mut bytes = b"NDT\0\x01\0".to_vec();
        for count in [
            self.props.len() as u16,
            self.terms.len() as u16,
            self.expected,
            0,
            0,
        ] {
            bytes.extend_from_slice(&count.to_le_bytes());
        }
        for record in self.props.iter().chain(&self.terms) {
            bytes.extend_from_slice(&record.bytes());
        }
        bytes
    }
}
