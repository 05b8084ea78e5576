//! Proofs made together with what they prove, so that nothing gets stuck: pairs, injections, functions and the like are
//! put around what assumptions give.

use crate::context::Type;
use crate::proof::{annotated, Maker};
use crate::prop::{Id, Prop};
use crate::script::*;

impl Maker<'_> {
    /// A term, and a proposition that it can be checked against.
    pub fn give(&mut self, depth: usize) -> (u16, Id) {
        if depth >= self.deepest || self.script.terms.len() >= self.most {
            return self.given_last(depth);
        }
        let roll = self.random.below(24);
        let given = match roll {
            0..=8 => Some(self.give_function(depth)),
            9..=11 => {
                let (a, left) = self.give(depth + 1);
                let (b, right) = self.give(depth + 1);
                Some((
                    self.term(PAIR, &[a, b]),
                    self.props.add(Prop::Link(AND, left, right)),
                ))
            }
            12 | 13 => Some(self.give_side(depth)),
            14 | 15 => self.give_witness(depth),
            16 | 17 => self.give_case(depth),
            18 | 19 => self.give_let(depth),
            20 => self.give_absurd(depth),
            21 => {
                let wanted = self.proposition(2);
                Some((self.ascribed(wanted, depth), wanted))
            }
            _ => None,
        };
        match given {
            Some(given) => given,
            None if depth <= 3 => self.give_function(depth),
            None => self.given_last(depth),
        }
    }

    /// What an assumption gives, in its own words or with other object names; or a gap.
    fn given_last(&mut self, depth: usize) -> (u16, Id) {
        if self.gaps > 0 && self.random.one_in(self.gaps) {
            let wanted = self.proposition(2);
            return (self.sorry(wanted), wanted);
        }
        let (term, of) = self.found_prop(depth);
        let of = if self.random.one_in(4) {
            self.renamed(of)
        } else {
            of
        };
        (term, of)
    }

    fn give_function(&mut self, depth: usize) -> (u16, Id) {
        if self.random.one_in(3) {
            let datatype = self.random.small(2);
            let (name, (body, of, entry)) = self.with(Type::Data(datatype), |maker, entry| {
                let (body, of) = maker.give(depth + 1);
                (body, of, entry)
            });
            let object = self.random.small(self.names);
            let all = self.props.bind(of, entry.serial, object, datatype);
            let tag = if self.random.one_in(3) { 2 } else { 0 };
            let function =
                Record::term(FUNCTION, &[body]).typed(tag, datatype * u16::from(tag / 2));
            return (self.script.term(function.named(name, 0)), all);
        }
        let height = self.random.between(1, 4);
        let left = self.proposition(height);
        let annotation = self.annotation(left);
        let (name, (body, right)) = self.with(Type::Prop(left), |maker, _| maker.give(depth + 1));
        let of = self.props.add(Prop::Link(IMPL, left, right));
        (
            self.script.term(annotated(annotation, body).named(name, 0)),
            of,
        )
    }

    fn give_side(&mut self, depth: usize) -> (u16, Id) {
        let (inside, this) = self.give(depth + 1);
        let other = self.proposition(2);
        let (kind, left, right) = self
            .random
            .pick(&[(LEFT, this, other), (RIGHT, other, this)]);
        (
            self.term(kind, &[inside]),
            self.props.add(Prop::Link(OR, left, right)),
        )
    }

    fn give_witness(&mut self, depth: usize) -> Option<(u16, Id)> {
        let datatype = self.random.small(2);
        let object = self.object(datatype)?;
        let (second, of) = self.give(depth + 1);
        let name = self.random.small(self.names);
        let all = self.props.bind(of, object.serial, name, datatype);
        let Prop::Quant(_, name, datatype, body) = self.props.get(all) else {
            return None;
        };
        let exists = self.props.add(Prop::Quant(EXISTS, name, datatype, body));
        let first = self.ident(object.name);
        Some((self.term(PAIR, &[first, second]), exists))
    }

    fn give_case(&mut self, depth: usize) -> Option<(u16, Id)> {
        let (head, of) = self.head(OR, depth)?;
        let Prop::Link(_, left, right) = self.props.get(of) else {
            return None;
        };
        let (a, (first, wanted)) = self.with(Type::Prop(left), |maker, _| maker.give(depth + 1));
        let (b, second) = self.with(Type::Prop(right), |maker, _| maker.check(wanted, depth + 1));
        Some((
            self.script
                .term(Record::term(CASE, &[head, first, second]).named(a, b)),
            wanted,
        ))
    }

    fn give_let(&mut self, depth: usize) -> Option<(u16, Id)> {
        self.open(depth, |maker, object, _| {
            let (body, of) = maker.give(depth + 1);
            if maker.props.holds(of, object.serial) {
                return (maker.term(UNIT, &[]), maker.props.add(Prop::True));
            }
            (body, of)
        })
    }

    fn give_absurd(&mut self, depth: usize) -> Option<(u16, Id)> {
        let inside = self.absurd(depth)?;
        Some((inside, self.proposition(2)))
    }

    /// The same proposition with other object names.
    fn renamed(&mut self, id: Id) -> Id {
        let new = match self.props.get(id) {
            Prop::Link(kind, left, right) => {
                Prop::Link(kind, self.renamed(left), self.renamed(right))
            }
            Prop::Quant(kind, _, datatype, body) => Prop::Quant(
                kind,
                self.random.small(self.names),
                datatype,
                self.renamed(body),
            ),
            _ => return id,
        };
        self.props.add(new)
    }
}
