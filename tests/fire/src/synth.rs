//! Terms made together with the type that synthesis finds for them.

use crate::context::{Entry, Type};
use crate::proof::{annotated, Maker};
use crate::prop::{Id, Prop};
use crate::script::*;

impl Maker<'_> {
    /// A term with its type.
    pub fn synthesize(&mut self, depth: usize) -> (u16, Type) {
        let end = depth >= self.deepest || self.script.terms.len() >= self.most;
        let made = match if end { 0 } else { self.random.below(12) } {
            0 | 1 => None,
            2..=5 => Some(self.function(depth)),
            6 => {
                let (a, left) = self.synthesize_prop(depth + 1);
                let (b, right) = self.synthesize_prop(depth + 1);
                let of = self.props.add(Prop::Link(AND, left, right));
                Some((self.term(PAIR, &[a, b]), Type::Prop(of)))
            }
            7 | 8 => {
                let wanted = self.proposition(3);
                self.ascription(wanted, depth)
            }
            9 => self.case_of_type(depth),
            10 => self.let_of_type(depth),
            _ => self.datum(),
        };
        made.unwrap_or_else(|| self.found(depth))
    }

    /// A term with a proposition for its type.
    pub fn synthesize_prop(&mut self, depth: usize) -> (u16, Id) {
        match self.synthesize(depth) {
            (term, Type::Prop(of)) => (term, of),
            _ => (self.term(UNIT, &[]), self.props.add(Prop::True)),
        }
    }

    /// An ascription to `wanted`, if it can be spelled.
    fn ascription(&mut self, wanted: Id, depth: usize) -> Option<(u16, Type)> {
        let of = self.spelled(wanted)?;
        let inside = self.check(wanted, depth + 1);
        let term = self
            .script
            .term(Record::term(ASCRIPTION, &[inside]).typed(1, of));
        Some((term, Type::Prop(wanted)))
    }

    /// An object, ascribed to its datatype.
    fn datum(&mut self) -> Option<(u16, Type)> {
        let datatype = self.random.small(2);
        let object = self.object(datatype)?;
        let ident = self.ident(object.name);
        let ascribed = Record::term(ASCRIPTION, &[ident]).typed(2, datatype);
        Some((self.script.term(ascribed), Type::Data(datatype)))
    }

    /// An assumption and some steps on, or a Unit.
    fn found(&mut self, depth: usize) -> (u16, Type) {
        let entries: Vec<Entry> = self.context.seen().collect();
        if entries.is_empty() || self.random.one_in(8) {
            return (self.term(UNIT, &[]), Type::Prop(self.props.add(Prop::True)));
        }
        let start = self.random.pick(&entries);
        let Type::Prop(mut at) = start.of else {
            return (self.ident(start.name), start.of);
        };
        let mut steps = Vec::new();
        for _ in 0..self.random.below(4) {
            let Some((step, next)) = self.step(at) else {
                break;
            };
            steps.push(step);
            at = next;
        }
        (self.taken(start, &steps, depth), Type::Prop(at))
    }

    /// The same, of a proposition.
    pub fn found_prop(&mut self, depth: usize) -> (u16, Id) {
        match self.found(depth) {
            (term, Type::Prop(of)) => (term, of),
            _ => (self.term(UNIT, &[]), self.props.add(Prop::True)),
        }
    }

    /// An annotated function.
    fn function(&mut self, depth: usize) -> (u16, Type) {
        if self.random.one_in(2) {
            let datatype = self.random.small(2);
            let (name, (body, of, entry)) = self.with(Type::Data(datatype), |maker, entry| {
                let (body, of) = maker.synthesize_prop(depth + 1);
                (body, of, entry)
            });
            let all = self.props.bind(of, entry.serial, name, datatype);
            let function = Record::term(FUNCTION, &[body])
                .typed(2, datatype)
                .named(name, 0);
            return (self.script.term(function), Type::Prop(all));
        }
        let left = self.proposition(2);
        let Some(spelled) = self.spelled(left) else {
            return self.found(depth);
        };
        let inside = |maker: &mut Self, _| maker.synthesize_prop(depth + 1);
        let (name, (body, right)) = self.with(Type::Prop(left), inside);
        let of = self.props.add(Prop::Link(IMPL, left, right));
        (
            self.script
                .term(annotated(Some(spelled), body).named(name, 0)),
            Type::Prop(of),
        )
    }

    /// A Case whose arms have the same type, perhaps in other words.
    fn case_of_type(&mut self, depth: usize) -> Option<(u16, Type)> {
        let (head, of) = self.head(OR, depth)?;
        let Prop::Link(_, left, right) = self.props.get(of) else {
            return None;
        };
        let wanted = self.proposition(2);
        let (a, first) = self.with(Type::Prop(left), |maker, _| {
            maker.ascription(wanted, depth + 1)
        });
        let (b, second) = self.with(Type::Prop(right), |maker, _| {
            maker.ascription(wanted, depth + 1)
        });
        let children = [head, first?.0, second?.0];
        let term = self.script.term(Record::term(CASE, &children).named(a, b));
        Some((term, Type::Prop(wanted)))
    }

    /// A let whose body's type does not hold the object.
    fn let_of_type(&mut self, depth: usize) -> Option<(u16, Type)> {
        let (term, of) = self.open(depth, |maker, object, _| {
            let (body, of) = maker.synthesize_prop(depth + 1);
            if maker.props.holds(of, object.serial) {
                return (maker.term(UNIT, &[]), maker.props.add(Prop::True));
            }
            (body, of)
        })?;
        Some((term, Type::Prop(of)))
    }
}
