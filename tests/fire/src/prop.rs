//! Propositions of the maker of scripts, with identifiers and bound parameters told apart, and how they are spelled in
//! a table, where a parameter is only a name.

use crate::context::Context;
use crate::random::Random;
use crate::script::{Record, Script, ALL, AND, ATOM, EXISTS, IMPL, OR};

pub type Id = u32;

#[derive(Clone, Copy, PartialEq, Eq)]
pub enum Param {
    Free(u16),
    /// An entry of the context, by the maker's own number.
    Entry(u16),
    /// The number of quantifiers between.
    Bound(u16),
}

#[derive(Clone, Copy)]
pub enum Prop {
    True,
    False,
    /// Kind, left part, right part.
    Link(u8, Id, Id),
    /// Kind, object name, datatype, body.
    Quant(u8, u16, u16, Id),
    /// Predicate, count, parameters.
    Atom(u16, u8, [Param; 4]),
}

/// Object names that `spell` uses where a proposition's own would capture something.
const SPARE_NAMES: u16 = 200;

#[derive(Default)]
pub struct Props(Vec<Prop>);

impl Props {
    pub fn get(&self, id: Id) -> Prop {
        self.0[id as usize]
    }

    pub fn add(&mut self, prop: Prop) -> Id {
        self.0.push(prop);
        (self.0.len() - 1) as Id
    }

    /// Copies, and changes each parameter by what `change` says of it and of the quantifiers passed.
    fn walk(&mut self, id: Id, depth: u16, change: &dyn Fn(Param, u16) -> Param) -> Id {
        let new = match self.get(id) {
            Prop::Link(kind, left, right) => {
                let left = self.walk(left, depth, change);
                Prop::Link(kind, left, self.walk(right, depth, change))
            }
            Prop::Quant(kind, name, datatype, body) => {
                Prop::Quant(kind, name, datatype, self.walk(body, depth + 1, change))
            }
            Prop::Atom(predicate, count, params) => {
                Prop::Atom(predicate, count, params.map(|p| change(p, depth)))
            }
            same => same,
        };
        self.add(new)
    }

    /// A quantifier's body with an entry in place of what the quantifier binds.
    pub fn put(&mut self, body: Id, serial: u16) -> Id {
        self.walk(body, 0, &|param, depth| match param {
            Param::Bound(between) if between == depth => Param::Entry(serial),
            other => other,
        })
    }

    /// ForAll over an entry.
    pub fn bind(&mut self, body: Id, serial: u16, name: u16, datatype: u16) -> Id {
        let body = self.walk(body, 0, &|param, depth| match param {
            Param::Entry(entry) if entry == serial => Param::Bound(depth),
            other => other,
        });
        self.add(Prop::Quant(ALL, name, datatype, body))
    }

    pub fn alpha(&self, a: Id, b: Id) -> bool {
        if a == b {
            return true;
        }
        match (self.get(a), self.get(b)) {
            (Prop::True, Prop::True) | (Prop::False, Prop::False) => true,
            (Prop::Link(k, l, r), Prop::Link(k2, l2, r2)) => {
                k == k2 && self.alpha(l, l2) && self.alpha(r, r2)
            }
            (Prop::Quant(k, _, d, body), Prop::Quant(k2, _, d2, body2)) => {
                k == k2 && d == d2 && self.alpha(body, body2)
            }
            (Prop::Atom(p, n, params), Prop::Atom(p2, n2, params2)) => {
                p == p2 && n == n2 && params == params2
            }
            _ => false,
        }
    }

    /// A copy with another datatype, predicate or constant at one place.
    pub fn nearly(&mut self, random: &mut Random, id: Id) -> Id {
        let new = match self.get(id) {
            Prop::Link(kind, left, right) if random.one_in(2) => {
                Prop::Link(kind, self.nearly(random, left), right)
            }
            Prop::Link(kind, left, right) => Prop::Link(kind, left, self.nearly(random, right)),
            Prop::Quant(kind, name, datatype, body) if random.one_in(2) => {
                Prop::Quant(kind, name, datatype ^ 1, body)
            }
            Prop::Quant(kind, name, datatype, body) => {
                Prop::Quant(kind, name, datatype, self.nearly(random, body))
            }
            Prop::Atom(predicate, count, params) => Prop::Atom(predicate ^ 1, count, params),
            Prop::True => Prop::False,
            Prop::False => Prop::True,
        };
        self.add(new)
    }

    /// Whether an entry stands in a proposition.
    pub fn holds(&self, id: Id, serial: u16) -> bool {
        match self.get(id) {
            Prop::Link(_, left, right) => self.holds(left, serial) || self.holds(right, serial),
            Prop::Quant(_, _, _, body) => self.holds(body, serial),
            Prop::Atom(_, _, params) => params.contains(&Param::Entry(serial)),
            _ => false,
        }
    }

    /// A random proposition of at most this height, about the entries named and the quantifiers around.
    pub fn random(&mut self, random: &mut Random, height: usize, about: &About) -> Id {
        let mut binders = Vec::new();
        self.random_under(random, height, about, &mut binders)
    }

    fn random_under(
        &mut self,
        random: &mut Random,
        height: usize,
        about: &About,
        binders: &mut Vec<u16>,
    ) -> Id {
        let roll = if height <= 1 { 0 } else { random.below(16) };
        let prop = match roll {
            0..=3 => return self.leaf(random, about, binders),
            4..=11 => {
                let kind = random.pick(&[AND, OR, IMPL, IMPL, IMPL]);
                let left = self.random_under(random, height - 1, about, binders);
                Prop::Link(
                    kind,
                    left,
                    self.random_under(random, height - 1, about, binders),
                )
            }
            _ => {
                let kind = random.pick(&[ALL, ALL, EXISTS]);
                let name = random.small(about.names);
                binders.push(name);
                let body = self.random_under(random, height - 1, about, binders);
                binders.pop();
                Prop::Quant(kind, name, random.small(about.datatypes), body)
            }
        };
        self.add(prop)
    }

    fn leaf(&mut self, random: &mut Random, about: &About, binders: &[u16]) -> Id {
        if random.one_in(8) {
            let constant = random.pick(&[Prop::True, Prop::True, Prop::False]);
            return self.add(constant);
        }
        let predicate = random.small(about.predicates);
        let mut count = (predicate % 3) as u8;
        if random.one_in(24) {
            count = random.small(5) as u8;
        }
        let mut params = [Param::Free(0); 4];
        for param in &mut params[..count as usize] {
            let known = binders.len() + about.objects.len();
            if known == 0 {
                count = 0;
                break;
            }
            let chosen = random.below(known);
            *param = match binders.get(chosen) {
                Some(&name) => Param::Bound(nearest(binders, name).unwrap_or(0)),
                None => Param::Entry(about.objects[chosen - binders.len()]),
            };
        }
        self.add(Prop::Atom(predicate, count, params))
    }

    /// Writes a proposition into a script, in names. Where its own object names would capture a name, it gets others.
    /// None if an entry that it speaks of can't be named here.
    pub fn spell(
        &self,
        id: Id,
        context: &Context,
        spare: bool,
        script: &mut Script,
    ) -> Option<u16> {
        let mut binders = Vec::new();
        if !spare {
            if let Some(record) = self.spell_under(id, context, false, &mut binders, script) {
                return Some(record);
            }
            binders.clear();
        }
        self.spell_under(id, context, true, &mut binders, script)
    }

    fn spell_under(
        &self,
        id: Id,
        context: &Context,
        spare: bool,
        binders: &mut Vec<u16>,
        script: &mut Script,
    ) -> Option<u16> {
        let mut record = Record::default();
        match self.get(id) {
            Prop::True => {}
            Prop::False => record.kind = 1,
            Prop::Link(kind, left, right) => {
                record.kind = kind;
                record.fields[0] = self.spell_under(left, context, spare, binders, script)?;
                record.fields[1] = self.spell_under(right, context, spare, binders, script)?;
            }
            Prop::Quant(kind, name, datatype, body) => {
                let spare_name = SPARE_NAMES + binders.len() as u16;
                let name = if spare { spare_name } else { name };
                record.kind = kind;
                binders.push(name);
                let body = self.spell_under(body, context, spare, binders, script)?;
                binders.pop();
                record.fields[..3].copy_from_slice(&[name, datatype, body]);
            }
            Prop::Atom(predicate, count, params) => {
                record.kind = ATOM;
                record.tag = count;
                record.fields[0] = predicate;
                for (field, &param) in record.fields[3..].iter_mut().zip(&params[..count as usize])
                {
                    *field = spell_param(param, context, binders)?;
                }
            }
        }
        Some(script.proposition(record))
    }
}

/// What a random proposition may speak of.
pub struct About<'a> {
    pub names: usize,
    pub datatypes: usize,
    pub predicates: usize,
    pub objects: &'a [u16],
}

/// The number of quantifiers between here and the nearest one of this name.
fn nearest(binders: &[u16], name: u16) -> Option<u16> {
    binders
        .iter()
        .rev()
        .position(|&binder| binder == name)
        .map(|between| between as u16)
}

fn spell_param(param: Param, context: &Context, binders: &[u16]) -> Option<u16> {
    match param {
        Param::Bound(between) => {
            let name = *binders.get(binders.len().checked_sub(1 + between as usize)?)?;
            (nearest(binders, name) == Some(between)).then_some(name)
        }
        Param::Entry(serial) => {
            let name = context.name_of(serial)?;
            nearest(binders, name).is_none().then_some(name)
        }
        Param::Free(name) => nearest(binders, name).is_none().then_some(name),
    }
}
