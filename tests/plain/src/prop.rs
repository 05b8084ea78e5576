//! Propositions: one arena, in which a proposition is its number. The table's come first, in their
//! order; made ones are added behind them. Parts always have smaller numbers.

use crate::table::{Record, Table};

/// How many propositions a run may make.
const MOST_MADE: usize = 2_048;

#[derive(Clone, Copy, Debug, PartialEq, Eq)]
pub enum Param {
    Free(u16),
    Serial(u16),
    /// How many quantifiers stand between the atom and its own.
    Bound(u16),
}

#[derive(Clone, Copy, Debug, PartialEq, Eq)]
pub enum Link {
    And,
    Or,
    Impl,
}

#[derive(Clone, Copy, Debug, PartialEq, Eq)]
pub enum Quant {
    ForAll,
    Exists,
}

#[derive(Clone, Copy, Debug, PartialEq, Eq)]
pub enum Prop {
    True,
    False,
    Link(Link, u16, u16),
    /// Object name, datatype, body.
    Quant(Quant, u16, u16, u16),
    /// Predicate, how many parameters, and these; the rest are `Free(0)`.
    Atom(u16, u8, [Param; 4]),
}

/// A type: a proposition's number, or a datatype's name.
#[derive(Clone, Copy, Debug, PartialEq, Eq)]
pub enum Type {
    Prop(u16),
    Data(u16),
}

/// More propositions would be made than the limit allows.
pub struct Full;

pub struct Props {
    pub nodes: Vec<Prop>,
    /// How many of them are the table's.
    table: usize,
}

impl Props {
    /// The propositions of a table that has passed tests 2 to 6.
    pub fn load(table: &Table) -> Props {
        let records = &table.props;
        let mut parents = vec![None; records.len()];
        for (n, record) in records.iter().enumerate() {
            for &part in record.parts() {
                parents[part as usize] = Some(n);
            }
        }
        let nodes = (0..records.len())
            .map(|n| load_one(records, &parents, n))
            .collect();
        Props {
            nodes,
            table: records.len(),
        }
    }

    pub fn get(&self, n: u16) -> Prop {
        self.nodes[n as usize]
    }

    pub fn made(&self) -> usize {
        self.nodes.len() - self.table
    }

    /// Whether so many more may be made.
    fn room_for(&self, count: usize) -> Result<(), Full> {
        if count > MOST_MADE - self.made() {
            return Err(Full);
        }
        Ok(())
    }

    /// How many nodes a proposition has as a tree: a part that is shared counts at each place.
    fn size(&self, n: u16) -> usize {
        match self.get(n) {
            Prop::True | Prop::False | Prop::Atom(..) => 1,
            Prop::Link(_, a, b) => 1 + self.size(a) + self.size(b),
            Prop::Quant(_, _, _, body) => 1 + self.size(body),
        }
    }

    /// Whether one of the parameters in it is such.
    fn any_param(&self, n: u16, is: &impl Fn(Param) -> bool) -> bool {
        match self.get(n) {
            Prop::True | Prop::False => false,
            Prop::Link(_, a, b) => self.any_param(a, is) || self.any_param(b, is),
            Prop::Quant(_, _, _, body) => self.any_param(body, is),
            Prop::Atom(_, count, params) => params[..count as usize].iter().any(|&p| is(p)),
        }
    }

    pub fn has_serial(&self, n: u16, serial: u16) -> bool {
        self.any_param(n, &|param| param == Param::Serial(serial))
    }

    /// Whether all free names in it are known.
    pub fn all_known(&self, n: u16, known: impl Fn(u16) -> bool) -> bool {
        !self.any_param(
            n,
            &|param| matches!(param, Param::Free(name) if !known(name)),
        )
    }

    /// Same types, binder names included.
    pub fn equal(&self, a: Type, b: Type) -> bool {
        self.same(a, b, true)
    }

    /// Same types, whatever the binder names.
    pub fn alpha_equal(&self, a: Type, b: Type) -> bool {
        self.same(a, b, false)
    }

    fn same(&self, a: Type, b: Type, binder_names: bool) -> bool {
        match (a, b) {
            (Type::Prop(a), Type::Prop(b)) => self.same_props(a, b, binder_names),
            _ => a == b,
        }
    }

    fn same_props(&self, a: u16, b: u16, binder_names: bool) -> bool {
        match (self.get(a), self.get(b)) {
            (Prop::Link(link, a1, a2), Prop::Link(other, b1, b2)) => {
                link == other
                    && self.same_props(a1, b1, binder_names)
                    && self.same_props(a2, b2, binder_names)
            }
            (Prop::Quant(quant, x, d, body), Prop::Quant(other, y, e, other_body)) => {
                quant == other
                    && (x == y || !binder_names)
                    && d == e
                    && self.same_props(body, other_body, binder_names)
            }
            (a, b) => a == b,
        }
    }

    /// Makes one node.
    pub fn make(&mut self, prop: Prop) -> Result<u16, Full> {
        self.room_for(1)?;
        Ok(self.add(prop))
    }

    /// Makes a quantifier's body with an identifier put into it.
    pub fn put(&mut self, body: u16, serial: u16) -> Result<u16, Full> {
        self.room_for(self.size(body))?;
        Ok(self.copy(body, 0, &|param, above| match param {
            Param::Bound(between) if between == above => Param::Serial(serial),
            _ => param,
        }))
    }

    /// Makes a ForAll over a body in which a serial becomes bound.
    pub fn make_for_all(&mut self, x: u16, d: u16, body: u16, serial: u16) -> Result<u16, Full> {
        self.room_for(1 + self.size(body))?;
        let bound = self.copy(body, 0, &|param, above| match param {
            Param::Serial(s) if s == serial => Param::Bound(above),
            _ => param,
        });
        Ok(self.add(Prop::Quant(Quant::ForAll, x, d, bound)))
    }

    /// Makes an annotation with a serial for each free name that is known.
    pub fn resolve(&mut self, n: u16, find: impl Fn(u16) -> Option<u16>) -> Result<u16, Full> {
        self.room_for(self.size(n))?;
        Ok(self.copy(n, 0, &|param, _| match param {
            Param::Free(name) => find(name).map_or(param, Param::Serial),
            _ => param,
        }))
    }

    /// A copy in which each parameter is changed, by how many quantifiers stand above it.
    fn copy(&mut self, n: u16, above: u16, change: &impl Fn(Param, u16) -> Param) -> u16 {
        let prop = match self.get(n) {
            Prop::Link(link, a, b) => {
                let a = self.copy(a, above, change);
                Prop::Link(link, a, self.copy(b, above, change))
            }
            Prop::Quant(quant, x, d, body) => {
                Prop::Quant(quant, x, d, self.copy(body, above + 1, change))
            }
            Prop::Atom(predicate, count, mut params) => {
                for param in &mut params[..count as usize] {
                    *param = change(*param, above);
                }
                Prop::Atom(predicate, count, params)
            }
            constant => constant,
        };
        self.add(prop)
    }

    fn add(&mut self, prop: Prop) -> u16 {
        self.nodes.push(prop);
        (self.nodes.len() - 1) as u16
    }

    /// Takes over the first `count` propositions that were made beside another table's, in a table
    /// that begins with all of that one's.
    pub fn take_over(&mut self, old: &Props, count: usize) {
        for &prop in &old.nodes[old.table..old.table + count] {
            let moved = match prop {
                Prop::Link(link, a, b) => Prop::Link(link, self.moved(old, a), self.moved(old, b)),
                Prop::Quant(quant, x, d, body) => Prop::Quant(quant, x, d, self.moved(old, body)),
                other => other,
            };
            self.nodes.push(moved);
        }
    }

    /// The number that another arena's proposition has here.
    pub fn moved(&self, old: &Props, n: u16) -> u16 {
        if (n as usize) < old.table {
            n
        } else {
            n + (self.table - old.table) as u16
        }
    }

    /// The records of the propositions room.
    pub fn bytes(&self) -> Vec<u8> {
        crate::joined(self.nodes.iter().map(|&prop| record(prop).bytes()))
    }
}

/// What a record of the table stands for.
fn load_one(records: &[Record], parents: &[Option<usize>], n: usize) -> Prop {
    let record = &records[n];
    let [a, b, c, ..] = record.fields;
    match record.kind {
        0 => Prop::True,
        2 => Prop::Link(Link::And, a, b),
        3 => Prop::Link(Link::Or, a, b),
        4 => Prop::Link(Link::Impl, a, b),
        5 => Prop::Quant(Quant::ForAll, a, b, c),
        6 => Prop::Quant(Quant::Exists, a, b, c),
        7 => {
            let mut params = [Param::Free(0); 4];
            for (i, param) in params[..record.tag as usize].iter_mut().enumerate() {
                *param = settle(records, parents, n, record.fields[3 + i]);
            }
            Prop::Atom(a, record.tag, params)
        }
        _ => Prop::False,
    }
}

/// A name in an atom is bound by the nearest quantifier above with that object name.
fn settle(records: &[Record], parents: &[Option<usize>], atom: usize, name: u16) -> Param {
    let mut between = 0;
    let mut at = parents[atom];
    while let Some(n) = at {
        if matches!(records[n].kind, 5 | 6) {
            if records[n].fields[0] == name {
                return Param::Bound(between);
            }
            between += 1;
        }
        at = parents[n];
    }
    Param::Free(name)
}

/// As in the file, but that an atom's b has its parameters' kinds, two bits each.
fn record(prop: Prop) -> Record {
    let (kind, tag, start) = match prop {
        Prop::True => (0, 0, [0; 3]),
        Prop::False => (1, 0, [0; 3]),
        Prop::Link(Link::And, a, b) => (2, 0, [a, b, 0]),
        Prop::Link(Link::Or, a, b) => (3, 0, [a, b, 0]),
        Prop::Link(Link::Impl, a, b) => (4, 0, [a, b, 0]),
        Prop::Quant(Quant::ForAll, x, d, body) => (5, 0, [x, d, body]),
        Prop::Quant(Quant::Exists, x, d, body) => (6, 0, [x, d, body]),
        Prop::Atom(predicate, count, _) => (7, count, [predicate, 0, 0]),
    };
    let mut fields = [0; 7];
    fields[..3].copy_from_slice(&start);
    if let Prop::Atom(_, _, params) = prop {
        for (i, param) in params.iter().enumerate() {
            let (kind, value) = match *param {
                Param::Free(name) => (0, name),
                Param::Serial(serial) => (1, serial),
                Param::Bound(between) => (2, between),
            };
            fields[1] |= kind << (2 * i);
            fields[3 + i] = value;
        }
    }
    Record { kind, tag, fields }
}
