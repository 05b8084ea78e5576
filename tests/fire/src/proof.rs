//! Makes proofs: terms that fit their types, by going from what is wanted and from what is known. Where it gets stuck it
//! leaves a Sorry.

use crate::context::{Context, Entry, Type};
use crate::prop::{About, Id, Prop, Props};
use crate::random::Random;
use crate::script::*;

/// What is wanted and known at a Sorry.
pub struct Hole {
    pub term: u16,
    pub wanted: Id,
    pub context: Context,
}

/// One step from an assumption towards what it gives.
pub enum Step {
    Project(u8),
    Apply(Id),
    Instance(u16),
}

pub struct Maker<'r> {
    pub random: &'r mut Random,
    pub props: Props,
    pub script: Script,
    pub context: Context,
    pub holes: Vec<Hole>,
    pub keep_holes: bool,
    /// No more terms than about this, and none deeper.
    pub most: usize,
    pub deepest: usize,
    /// One term in so many is made to fail; 0 for none.
    pub slips: usize,
    /// One leaf in so many is a Sorry where nothing is stuck; 0 for none.
    pub gaps: usize,
    pub names: usize,
    serials: u16,
}

impl<'r> Maker<'r> {
    pub fn new(random: &'r mut Random) -> Maker<'r> {
        let names = random.between(2, 7);
        let most = if random.one_in(12) {
            random.between(40, 120)
        } else {
            random.between(3, 32)
        };
        let deepest = random.between(4, 12);
        let gaps = random.pick(&[0, 0, 8]);
        let mut script = Script::default();
        script.clear();
        Maker {
            random,
            props: Props::default(),
            script,
            context: Context::default(),
            holes: Vec::new(),
            keep_holes: false,
            most,
            deepest,
            slips: 0,
            gaps,
            names,
            serials: 0,
        }
    }

    /// A whole script: a proof with what it proves, a term with its type, or as much of a proof of a random
    /// proposition as is found.
    pub fn make(&mut self) {
        let (root, wanted) = match self.random.below(8) {
            0..=3 if self.slips == 0 => self.give(1),
            4 if self.slips == 0 => self.synthesize_prop(1),
            _ => return self.make_likely(),
        };
        // What was found may speak of an assumption that is not known outside. Then it can't be expected.
        if !self.expect(root, wanted) {
            self.make_likely();
        }
    }

    fn make_likely(&mut self) {
        let wanted = self.likely();
        let root = self.check(wanted, 1);
        self.expect(root, wanted);
    }

    /// A proposition with assumptions in front, so that something is known when it comes to its end.
    fn likely(&mut self) -> Id {
        let height = self.random.between(1, 3);
        let layers = self.random.between(1, 6);
        self.likely_under(layers, height)
    }

    fn likely_under(&mut self, layers: usize, height: usize) -> Id {
        if layers == 0 {
            return self.proposition(height);
        }
        if self.random.one_in(3) {
            let (name, datatype) = (self.random.small(self.names), self.random.small(2));
            let (_, all) = self.with(Type::Data(datatype), |maker, entry| {
                let body = maker.likely_under(layers - 1, height);
                maker.props.bind(body, entry.serial, name, datatype)
            });
            return all;
        }
        let left = self.proposition(height);
        let right = self.likely_under(layers - 1, height);
        self.props.add(Prop::Link(IMPL, left, right))
    }

    /// Makes `wanted` the expected proposition, if it can be spelled where nothing is known.
    pub fn expect(&mut self, root: u16, wanted: Id) -> bool {
        self.script.root = root;
        let spare = self.random.one_in(6);
        let empty = Context::default();
        let spelled = self.props.spell(wanted, &empty, spare, &mut self.script);
        self.script.expected = spelled.unwrap_or(NONE);
        spelled.is_some()
    }

    pub fn proposition(&mut self, height: usize) -> Id {
        let mut objects = Vec::new();
        if height > 0 {
            let any_type = self.random.one_in(8);
            let named = self.context.seen();
            objects.extend(
                named
                    .filter(|e| any_type || matches!(e.of, Type::Data(_)))
                    .map(|e| e.serial),
            );
        }
        let about = About {
            names: self.names,
            datatypes: 2,
            predicates: 4,
            objects: &objects,
        };
        self.props.random(self.random, height.max(1), &about)
    }

    pub fn term(&mut self, kind: u8, children: &[u16]) -> u16 {
        self.script.term(Record::term(kind, children))
    }

    pub fn ident(&mut self, name: u16) -> u16 {
        self.script.term(Record::term(IDENT, &[]).named(name, 0))
    }

    /// Enters a name, runs `inside`, and takes the name away again.
    pub fn with<T>(&mut self, of: Type, inside: impl FnOnce(&mut Self, Entry) -> T) -> (u16, T) {
        let name = self.random.small(self.names);
        let entry = Entry {
            name,
            serial: self.serials,
            of,
        };
        self.serials += 1;
        self.context.0.push(entry);
        let made = inside(self, entry);
        self.context.0.pop();
        (name, made)
    }

    /// An entry that can be named, of this datatype.
    pub fn object(&mut self, datatype: u16) -> Option<Entry> {
        let of = |e: &Entry| matches!(e.of, Type::Data(d) if d == datatype);
        let many = self.context.seen().filter(of).count();
        let chosen = if many == 0 {
            0
        } else {
            self.random.below(many)
        };
        self.context.seen().filter(of).nth(chosen)
    }

    /// A term for `wanted`.
    pub fn check(&mut self, wanted: Id, depth: usize) -> u16 {
        if self.slips > 0 && self.random.one_in(self.slips) {
            return self.slip(wanted, depth);
        }
        if depth >= self.deepest || self.script.terms.len() >= self.most {
            return self.last(wanted);
        }
        let tried = match self.random.below(20) {
            0 | 1 => self.known(wanted),
            2 => Some(self.ascribed(wanted, depth)),
            3 => self.case(wanted, depth),
            4 => self.unpack(wanted, depth),
            5 => self.absurd(depth),
            6 => Some(self.cut(wanted, depth)),
            7 => Some(self.one_side(wanted, depth)),
            8 => self.derive(wanted, depth),
            9 if self.gaps > 0 && self.random.one_in(self.gaps) => Some(self.sorry(wanted)),
            _ => None,
        };
        if let Some(term) = tried {
            return term;
        }
        let made = self
            .introduce(wanted, depth)
            .or_else(|| self.derive(wanted, depth));
        made.unwrap_or_else(|| self.last(wanted))
    }

    /// Where the script is long enough: an assumption, or a Sorry.
    fn last(&mut self, wanted: Id) -> u16 {
        if let Some(term) = self.known(wanted) {
            return term;
        }
        match self.props.get(wanted) {
            Prop::True => self.term(UNIT, &[]),
            _ => self.sorry(wanted),
        }
    }

    pub fn sorry(&mut self, wanted: Id) -> u16 {
        let term = self.term(SORRY, &[]);
        if self.keep_holes {
            self.holes.push(Hole {
                term,
                wanted,
                context: self.context.clone(),
            });
        }
        term
    }

    fn known(&mut self, wanted: Id) -> Option<u16> {
        let props = &self.props;
        let fits = |e: &Entry| matches!(e.of, Type::Prop(p) if props.alpha(p, wanted));
        let name = self.context.seen().find(fits)?.name;
        Some(self.ident(name))
    }

    /// By the form of what is wanted.
    fn introduce(&mut self, wanted: Id, depth: usize) -> Option<u16> {
        let made = match self.props.get(wanted) {
            Prop::True => self.term(UNIT, &[]),
            Prop::Link(AND, left, right) => {
                let children = [self.check(left, depth + 1), self.check(right, depth + 1)];
                self.term(PAIR, &children)
            }
            Prop::Link(OR, left, right) => {
                let (kind, side) = self.random.pick(&[(LEFT, left), (RIGHT, right)]);
                let inside = self.check(side, depth + 1);
                self.term(kind, &[inside])
            }
            Prop::Link(_, left, right) => {
                let annotation = self.annotation(left);
                let (name, body) =
                    self.with(Type::Prop(left), |maker, _| maker.check(right, depth + 1));
                self.script.term(annotated(annotation, body).named(name, 0))
            }
            Prop::Quant(ALL, _, datatype, body) => {
                let tag = if self.random.one_in(3) { 2 } else { 0 };
                let (name, body) = self.with(Type::Data(datatype), |maker, entry| {
                    let wanted = maker.props.put(body, entry.serial);
                    maker.check(wanted, depth + 1)
                });
                let of = if tag == 2 { datatype } else { 0 };
                let function = Record::term(FUNCTION, &[body]).typed(tag, of);
                self.script.term(function.named(name, 0))
            }
            Prop::Quant(_, _, datatype, body) => {
                let object = self.object(datatype)?;
                let wanted = self.props.put(body, object.serial);
                let children = [self.ident(object.name), self.check(wanted, depth + 1)];
                self.term(PAIR, &children)
            }
            _ => return None,
        };
        Some(made)
    }

    /// An annotation for a checked function, in one of three cases.
    pub fn annotation(&mut self, of: Id) -> Option<u16> {
        if !self.random.one_in(3) {
            return None;
        }
        self.spelled(of)
    }

    /// A proposition in names, sometimes with other object names.
    pub fn spelled(&mut self, of: Id) -> Option<u16> {
        let spare = self.random.one_in(3);
        self.props.spell(of, &self.context, spare, &mut self.script)
    }

    /// From an assumption, by projections and applications.
    fn derive(&mut self, wanted: Id, depth: usize) -> Option<u16> {
        let entries: Vec<Entry> = self.context.seen().collect();
        if entries.is_empty() {
            return None;
        }
        for _ in 0..6 {
            let start = self.random.pick(&entries);
            let Type::Prop(mut at) = start.of else {
                continue;
            };
            let mut steps = Vec::new();
            for _ in 0..5 {
                if self.props.alpha(at, wanted) {
                    return Some(self.taken(start, &steps, depth));
                }
                let Some((step, next)) = self.step(at) else {
                    break;
                };
                steps.push(step);
                at = next;
            }
        }
        None
    }

    /// One step on from a term of type `at`.
    pub fn step(&mut self, at: Id) -> Option<(Step, Id)> {
        match self.props.get(at) {
            Prop::Link(AND, left, right) => {
                Some(self.random.pick(&[(FIRST, left), (SECOND, right)]))
                    .map(|(kind, next)| (Step::Project(kind), next))
            }
            Prop::Link(IMPL, left, right) => Some((Step::Apply(left), right)),
            Prop::Quant(ALL, _, datatype, body) => {
                let object = self.object(datatype)?;
                Some((
                    Step::Instance(object.name),
                    self.props.put(body, object.serial),
                ))
            }
            _ => None,
        }
    }

    /// The term of these steps from an assumption.
    pub fn taken(&mut self, start: Entry, steps: &[Step], depth: usize) -> u16 {
        let mut term = self.ident(start.name);
        for step in steps {
            term = match *step {
                Step::Project(kind) => self.term(kind, &[term]),
                Step::Apply(left) => {
                    let argument = self.check(left, depth + 1);
                    self.term(APPLICATION, &[term, argument])
                }
                Step::Instance(name) => {
                    let object = self.ident(name);
                    self.term(APPLICATION, &[term, object])
                }
            };
        }
        term
    }

    /// Inside an ascription, if the type can be spelled.
    pub fn ascribed(&mut self, wanted: Id, depth: usize) -> u16 {
        let spelled = self.spelled(wanted);
        let inside = self.check(wanted, depth + 1);
        match spelled {
            Some(of) => self
                .script
                .term(Record::term(ASCRIPTION, &[inside]).typed(1, of)),
            None => inside,
        }
    }

    /// A term that has a type of this head: from an assumption, or ascribed.
    pub fn head(&mut self, kind: u8, depth: usize) -> Option<(u16, Id)> {
        let entries: Vec<Entry> = self.context.seen().collect();
        for start in entries {
            let Type::Prop(mut at) = start.of else {
                continue;
            };
            let mut steps = Vec::new();
            for _ in 0..3 {
                match self.props.get(at) {
                    Prop::Link(k, ..) | Prop::Quant(k, ..) if k == kind => {
                        return Some((self.taken(start, &steps, depth + 1), at));
                    }
                    _ => {}
                }
                let Some((step, next)) = self.step(at) else {
                    break;
                };
                steps.push(step);
                at = next;
            }
        }
        self.ascribed_head(kind, depth)
    }

    fn ascribed_head(&mut self, kind: u8, depth: usize) -> Option<(u16, Id)> {
        let wanted = if kind == EXISTS {
            let (name, datatype) = (self.random.small(self.names), self.random.small(2));
            let (_, inside) = self.with(Type::Data(datatype), |maker, entry| {
                let body = maker.proposition(2);
                maker.props.bind(body, entry.serial, name, datatype)
            });
            let Prop::Quant(_, name, datatype, body) = self.props.get(inside) else {
                return None;
            };
            self.props.add(Prop::Quant(EXISTS, name, datatype, body))
        } else {
            let (left, right) = (self.proposition(2), self.proposition(2));
            self.props.add(Prop::Link(kind, left, right))
        };
        let of = self.spelled(wanted)?;
        let inside = self.check(wanted, depth + 2);
        Some((
            self.script
                .term(Record::term(ASCRIPTION, &[inside]).typed(1, of)),
            wanted,
        ))
    }

    fn case(&mut self, wanted: Id, depth: usize) -> Option<u16> {
        let (head, of) = self.head(OR, depth)?;
        let Prop::Link(_, left, right) = self.props.get(of) else {
            return None;
        };
        let (a, first) = self.with(Type::Prop(left), |maker, _| maker.check(wanted, depth + 1));
        let (b, second) = self.with(Type::Prop(right), |maker, _| maker.check(wanted, depth + 1));
        Some(
            self.script
                .term(Record::term(CASE, &[head, first, second]).named(a, b)),
        )
    }

    /// Opens a let over an Exists, and runs `inside` with both names entered.
    pub fn open<T>(
        &mut self,
        depth: usize,
        inside: impl FnOnce(&mut Self, Entry, Entry) -> (u16, T),
    ) -> Option<(u16, T)> {
        let (head, of) = self.head(EXISTS, depth)?;
        let Prop::Quant(_, _, datatype, body) = self.props.get(of) else {
            return None;
        };
        let (x, (h, (term, more))) = self.with(Type::Data(datatype), |maker, object| {
            let known = maker.props.put(body, object.serial);
            maker.with(Type::Prop(known), |maker, entry| {
                inside(maker, object, entry)
            })
        });
        Some((
            self.script
                .term(Record::term(LET, &[head, term]).named(x, h)),
            more,
        ))
    }

    fn unpack(&mut self, wanted: Id, depth: usize) -> Option<u16> {
        let body = |maker: &mut Self, _, _| (maker.check(wanted, depth + 1), ());
        self.open(depth, body).map(|(term, ())| term)
    }

    pub fn absurd(&mut self, depth: usize) -> Option<u16> {
        let falsum = self.props.add(Prop::False);
        let inside = self.derive(falsum, depth + 1).or_else(|| {
            let forced = self.random.one_in(6);
            forced.then(|| self.check(falsum, depth + 1))
        })?;
        Some(self.term(ABORT, &[inside]))
    }

    /// A lemma: an annotated function, applied.
    fn cut(&mut self, wanted: Id, depth: usize) -> u16 {
        let lemma = self.proposition(2);
        let Some(of) = self.spelled(lemma) else {
            return self.ascribed(wanted, depth);
        };
        let (name, body) = self.with(Type::Prop(lemma), |maker, _| {
            let spelled = maker.spelled(wanted)?;
            let inside = maker.check(wanted, depth + 3);
            Some(
                maker
                    .script
                    .term(Record::term(ASCRIPTION, &[inside]).typed(1, spelled)),
            )
        });
        let Some(body) = body else {
            return self.ascribed(wanted, depth);
        };
        let function = self.script.term(annotated(Some(of), body).named(name, 0));
        let argument = self.check(lemma, depth + 1);
        self.term(APPLICATION, &[function, argument])
    }

    /// One side of a pair that has something else on the other.
    fn one_side(&mut self, wanted: Id, depth: usize) -> u16 {
        let Some(of) = self.spelled(wanted) else {
            return self.last(wanted);
        };
        let inside = self.check(wanted, depth + 3);
        let this = self
            .script
            .term(Record::term(ASCRIPTION, &[inside]).typed(1, of));
        let (other, _) = self.synthesize_prop(depth + 2);
        if self.random.one_in(2) {
            let pair = self.term(PAIR, &[this, other]);
            self.term(FIRST, &[pair])
        } else {
            let pair = self.term(PAIR, &[other, this]);
            self.term(SECOND, &[pair])
        }
    }
}

pub fn annotated(annotation: Option<u16>, body: u16) -> Record {
    let function = Record::term(FUNCTION, &[body]);
    match annotation {
        Some(of) => function.typed(1, of),
        None => function,
    }
}
