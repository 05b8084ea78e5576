//! Terms that do not fit: one for each refusal that a rule can give, and terms of no plan at all.

use crate::context::Type;
use crate::proof::{annotated, Maker};
use crate::prop::{Id, Param, Prop};
use crate::script::*;

/// A name that no script of the maker enters.
const UNKNOWN: u16 = 90;

impl Maker<'_> {
    /// Instead of a term for `wanted`. The comments have the numbers that each is for.
    pub fn slip(&mut self, wanted: Id, depth: usize) -> u16 {
        let slips = std::mem::take(&mut self.slips);
        let term = match self.random.below(16) {
            // 20
            0 => self.ident(UNKNOWN),
            // 14, or 11
            1 => self.other_term(),
            2 => self.other_datatype(wanted, depth),
            // 10
            3 | 4 => self.unknown_annotation(wanted, depth),
            // 15
            5 => self.other_ascription(wanted, depth),
            // 12
            6 => self.bad_head(wanted, depth),
            // 13, 10
            7 | 8 => self.bad_witness(wanted, depth),
            // 13
            9 => self.about_a_datatype(depth),
            // 21 to 27
            10..=14 => {
                let inside = self.no_type(depth + 1);
                let outside = self.random.pick(&[FIRST, SECOND]);
                self.term(outside, &[inside])
            }
            _ => self.wild(depth),
        };
        self.slips = slips;
        term
    }

    /// A function over an object that is annotated with another datatype. For what is no ForAll, any other term.
    fn other_datatype(&mut self, wanted: Id, depth: usize) -> u16 {
        let Prop::Quant(ALL, _, datatype, _) = self.props.get(wanted) else {
            return self.other_term();
        };
        let term = self.check(wanted, depth);
        let record = &mut self.script.terms[term as usize];
        if record.kind == FUNCTION && record.tag != 1 {
            *record = record.typed(2, datatype ^ 1);
        }
        term
    }

    fn other_term(&mut self) -> u16 {
        let (term, _) = self.synthesize(self.deepest.saturating_sub(2));
        let kind = self.random.pick(&[IDENT, LEFT, RIGHT, UNIT, FUNCTION]);
        match kind {
            LEFT | RIGHT => self.term(kind, &[term]),
            FUNCTION => self.script.term(annotated(None, term).named(0, 0)),
            UNIT => self.term(UNIT, &[]),
            _ => term,
        }
    }

    /// An atom about a name that is not known.
    fn unknown_atom(&mut self) -> u16 {
        let mut params = [Param::Free(UNKNOWN); 4];
        params[1] = Param::Free(UNKNOWN + 1);
        let atom = self.props.add(Prop::Atom(1, 2, params));
        let context = &self.context;
        let spelled = self.props.spell(atom, context, false, &mut self.script);
        spelled.expect("no quantifier captures these names")
    }

    fn unknown_annotation(&mut self, wanted: Id, depth: usize) -> u16 {
        let of = self.unknown_atom();
        match self.props.get(wanted) {
            Prop::Link(IMPL, left, right) => {
                let (name, body) =
                    self.with(Type::Prop(left), |maker, _| maker.check(right, depth + 1));
                self.script.term(annotated(Some(of), body).named(name, 0))
            }
            _ => {
                let inside = self.check(wanted, depth + 1);
                self.script
                    .term(Record::term(ASCRIPTION, &[inside]).typed(1, of))
            }
        }
    }

    fn other_ascription(&mut self, wanted: Id, depth: usize) -> u16 {
        let inside = self.check(wanted, depth + 1);
        let ascription = Record::term(ASCRIPTION, &[inside]);
        if self.random.one_in(4) {
            return self.script.term(ascription.typed(2, 1));
        }
        let other = if self.random.one_in(2) {
            self.proposition(2)
        } else {
            self.props.nearly(self.random, wanted)
        };
        match self.spelled(other) {
            Some(of) => self.script.term(ascription.typed(1, of)),
            None => inside,
        }
    }

    fn bad_head(&mut self, wanted: Id, depth: usize) -> u16 {
        let (head, _) = self.synthesize(depth + 1);
        let body = self.check(wanted, depth + 1);
        if self.random.one_in(2) {
            return self
                .script
                .term(Record::term(LET, &[head, body]).named(0, 1));
        }
        let other = self.check(wanted, depth + 1);
        self.script
            .term(Record::term(CASE, &[head, body, other]).named(0, 1))
    }

    /// A pair for an Exists whose first component is no Ident, or one that is not known or of another type.
    fn bad_witness(&mut self, wanted: Id, depth: usize) -> u16 {
        let first = match self.random.below(3) {
            0 => self.ident(UNKNOWN),
            1 => {
                let name = self.random.small(self.names);
                self.ident(name)
            }
            _ => self.term(UNIT, &[]),
        };
        if let Prop::Quant(EXISTS, ..) = self.props.get(wanted) {
            let second = self.term(SORRY, &[]);
            return self.term(PAIR, &[first, second]);
        }
        let Some((_, of)) = self.head(EXISTS, depth) else {
            return first;
        };
        let second = self.term(SORRY, &[]);
        let pair = self.term(PAIR, &[first, second]);
        let Some(spelled) = self.spelled(of) else {
            return pair;
        };
        self.script
            .term(Record::term(ASCRIPTION, &[pair]).typed(1, spelled))
    }

    /// A let, a case or an abort where a datatype is expected, in the place of a function.
    fn about_a_datatype(&mut self, depth: usize) -> u16 {
        let datatype = self.random.small(2);
        let (name, function) = self.with(Type::Data(datatype), |maker, object| {
            let inside = maker.inside_datatype(object.name, depth);
            maker
                .script
                .term(Record::term(ASCRIPTION, &[inside]).typed(2, datatype))
        });
        let bound = Record::term(FUNCTION, &[function])
            .typed(2, datatype)
            .named(name, 0);
        let function = self.script.term(bound);
        let argument = self.term(UNIT, &[]);
        self.term(APPLICATION, &[function, argument])
    }

    fn inside_datatype(&mut self, object: u16, depth: usize) -> u16 {
        let body = self.ident(object);
        match self.random.below(4) {
            0 => {
                let falsum = self.props.add(Prop::False);
                let inside = self.check(falsum, depth + 3);
                self.term(ABORT, &[inside])
            }
            1 => {
                let Some((head, _)) = self.head(EXISTS, depth + 3) else {
                    return body;
                };
                self.script
                    .term(Record::term(LET, &[head, body]).named(UNKNOWN, UNKNOWN))
            }
            2 => {
                let Some((head, _)) = self.head(OR, depth + 3) else {
                    return body;
                };
                let other = self.ident(object);
                let arms = [head, body, other];
                self.script
                    .term(Record::term(CASE, &arms).named(UNKNOWN, UNKNOWN))
            }
            _ => self.term(SORRY, &[]),
        }
    }

    /// A term that has no type, each for its own reason.
    fn no_type(&mut self, depth: usize) -> u16 {
        match self.random.below(10) {
            // 21
            0 => {
                let body = self.term(UNIT, &[]);
                let function = self.script.term(annotated(None, body).named(0, 0));
                let argument = self.term(UNIT, &[]);
                self.term(APPLICATION, &[function, argument])
            }
            // 22
            1 => self.synthesize(depth).0,
            // 23, 25
            2 | 3 => self.pair_of_object(depth),
            // 24
            4 => self.function_to_object(),
            5 => self.instance_by_term(depth),
            // 25
            6 => {
                let inside = self.term(SORRY, &[]);
                let kind = self.random.pick(&[SORRY, LEFT, RIGHT, ABORT]);
                if kind == SORRY {
                    return inside;
                }
                self.term(kind, &[inside])
            }
            // 26
            7 => self
                .arms_apart(depth)
                .unwrap_or_else(|| self.ident(UNKNOWN)),
            // 27
            _ => {
                let leave = |maker: &mut Self, _, known: crate::context::Entry| {
                    (maker.ident(known.name), ())
                };
                let made = self.open(depth, leave);
                made.map_or_else(|| self.ident(UNKNOWN), |(term, ())| term)
            }
        }
    }

    fn pair_of_object(&mut self, depth: usize) -> u16 {
        let (name, pair) = self.with(Type::Data(0), |maker, object| {
            let (other, _) = maker.synthesize(depth + 2);
            let this = maker.ident(object.name);
            let sides = if maker.random.one_in(2) {
                [this, other]
            } else {
                [other, this]
            };
            maker.term(PAIR, &sides)
        });
        self.script
            .term(Record::term(FUNCTION, &[pair]).typed(2, 0).named(name, 0))
    }

    fn function_to_object(&mut self) -> u16 {
        let (name, body) = self.with(Type::Data(1), |maker, object| maker.ident(object.name));
        self.script
            .term(Record::term(FUNCTION, &[body]).typed(2, 1).named(name, 0))
    }

    fn instance_by_term(&mut self, depth: usize) -> u16 {
        let Some((function, _)) = self.head(ALL, depth) else {
            return self.ident(UNKNOWN);
        };
        let argument = match self.random.below(3) {
            0 => self.term(UNIT, &[]),
            1 => self.ident(UNKNOWN),
            _ => self.synthesize(depth + 1).0,
        };
        self.term(APPLICATION, &[function, argument])
    }

    /// A case with arms of two types, or of a datatype.
    fn arms_apart(&mut self, depth: usize) -> Option<u16> {
        let (head, of) = self.head(OR, depth)?;
        let Prop::Link(_, left, right) = self.props.get(of) else {
            return None;
        };
        let arm = |maker: &mut Self, _| maker.synthesize(depth + 1).0;
        let (a, first) = self.with(Type::Prop(left), arm);
        let (b, second) = self.with(Type::Prop(right), arm);
        Some(
            self.script
                .term(Record::term(CASE, &[head, first, second]).named(a, b)),
        )
    }

    /// A term of no plan.
    pub fn wild(&mut self, depth: usize) -> u16 {
        let end = depth >= self.deepest || self.script.terms.len() >= self.most;
        let kind = if end {
            self.random.pick(&[IDENT, IDENT, UNIT, SORRY])
        } else {
            self.kind()
        };
        let mut children = [0; 3];
        let children = &mut children[..CHILDREN[kind as usize]];
        for child in children.iter_mut() {
            *child = self.wild(depth + 1);
        }
        let mut term = Record::term(kind, children);
        let names = (self.random.small(self.names), self.random.small(self.names));
        match kind {
            IDENT => term = term.named(names.0, 0),
            FUNCTION => term = self.wildly_typed(0, term.named(names.0, 0)),
            LET | CASE => term = term.named(names.0, names.1),
            ASCRIPTION => term = self.wildly_typed(1, term),
            _ => {}
        }
        self.script.term(term)
    }

    fn kind(&mut self) -> u8 {
        self.random.small(14) as u8
    }

    fn wildly_typed(&mut self, least: usize, term: Record) -> Record {
        match self.random.between(least, 2) {
            0 => term,
            1 => {
                let of = self.proposition(3);
                match self.spelled(of) {
                    Some(of) => term.typed(1, of),
                    None => term.typed(2, 0),
                }
            }
            _ => term.typed(2, self.random.small(2)),
        }
    }
}
