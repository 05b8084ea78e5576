//! The rules: checking and synthesis. Each rule's steps stand in the order in which they refuse.

use crate::prop::{Full, Link, Prop, Props, Quant, Type};
use crate::table::{Record, Table};
use crate::Refusal;

/// A record without a serial has this number in its place.
const NO_SERIAL: u16 = 65_535;

/// A name, the serial of its identifier, and its type.
#[derive(Clone, Copy)]
pub struct Entry {
    pub name: u16,
    pub serial: u16,
    pub ty: Type,
}

/// A tree record.
#[derive(Clone, Copy)]
pub struct Node {
    pub rule: u8,
    pub term: u16,
    pub ty: Type,
    pub serials: [u16; 2],
    pub premises: u16,
}

#[derive(Clone, Copy)]
pub struct Goal {
    pub term: u16,
    pub ty: Type,
    pub length: u16,
}

/// What a run had reached at a Sorry.
pub struct Hole {
    pub term: u16,
    pub want: Type,
    pub context: Vec<Entry>,
    pub serials: u16,
    pub made: usize,
}

/// A run and what it has reached so far.
pub struct Run<'a> {
    pub terms: &'a [Record],
    pub props: Props,
    /// The latest entry stands last.
    pub context: Vec<Entry>,
    pub serials: u16,
    pub tree: Vec<Node>,
    pub goals: Vec<Goal>,
    /// The goal of which a picture is wanted, and the picture.
    pub wanted: Option<u16>,
    pub hole: Option<Hole>,
}

type Done = Result<(), Refusal>;
type Found = Result<Type, Refusal>;

/// Whether a rule that serves both modes checks against a type or synthesizes one.
#[derive(Clone, Copy)]
enum Mode {
    Check(Type),
    Synthesize,
}

impl Mode {
    /// Of two refusal numbers the second is for synthesis.
    fn of(self, checking: u8, synthesis: u8) -> u8 {
        match self {
            Mode::Check(_) => checking,
            Mode::Synthesize => synthesis,
        }
    }
}

impl<'a> Run<'a> {
    /// A run over a table, with nothing known and nothing made.
    pub fn new(table: &'a Table, wanted: Option<u16>) -> Run<'a> {
        Run {
            terms: &table.terms,
            props: Props::load(table),
            context: Vec::new(),
            serials: 0,
            tree: Vec::new(),
            goals: Vec::new(),
            wanted,
            hole: None,
        }
    }

    pub fn check(&mut self, t: u16, want: Type) -> Done {
        match self.terms[t as usize].kind {
            0 | 2 | 3 | 5 => self.check_found(t, want),
            1 => self.check_pair(t, want),
            4 => self.check_function(t, want),
            6 => self.let_in(t, Mode::Check(want)).map(|_| ()),
            7 => self.check_or(t, want, 7),
            8 => self.check_or(t, want, 8),
            9 => self.case(t, Mode::Check(want)).map(|_| ()),
            10 => self.check_abort(t, want),
            11 => self.check_unit(t, want),
            12 => self.check_ascription(t, want),
            _ => self.sorry(t, want),
        }
    }

    fn synthesize(&mut self, t: u16) -> Found {
        match self.terms[t as usize].kind {
            0 => self.find_ident(t),
            1 => self.find_pair(t),
            2 => self.find_projection(t, 3),
            3 => self.find_projection(t, 4),
            4 => self.find_function(t),
            5 => self.find_application(t),
            6 => self.let_in(t, Mode::Synthesize),
            9 => self.case(t, Mode::Synthesize),
            11 => self.find_unit(t),
            12 => self.find_ascription(t),
            _ => Err(Refusal::new(25, t)),
        }
    }

    fn by_mode(&mut self, t: u16, mode: Mode) -> Found {
        match mode {
            Mode::Check(want) => self.check(t, want).map(|()| want),
            Mode::Synthesize => self.synthesize(t),
        }
    }

    // Parts that several rules share.

    fn name(&self, t: u16, i: usize) -> u16 {
        self.terms[t as usize].fields[1 + i]
    }

    fn child(&self, t: u16, i: usize) -> u16 {
        self.terms[t as usize].fields[3 + i]
    }

    fn prop(&self, ty: Type) -> Option<Prop> {
        match ty {
            Type::Prop(n) => Some(self.props.get(n)),
            Type::Data(_) => None,
        }
    }

    fn find(&self, name: u16) -> Option<Entry> {
        find(&self.context, name)
    }

    /// The serial of an Ident that stands for an object: first it must be one, then be known.
    fn object(&self, t: u16, no_ident: u8, unknown: u8) -> Result<u16, Refusal> {
        if self.terms[t as usize].kind != 0 {
            return Err(Refusal::new(no_ident, t));
        }
        let entry = self.find(self.name(t, 0)).ok_or(Refusal::new(unknown, t))?;
        Ok(entry.serial)
    }

    fn new_serial(&mut self) -> u16 {
        self.serials += 1;
        self.serials - 1
    }

    fn enter(&mut self, name: u16, serial: u16, ty: Type) {
        self.context.push(Entry { name, serial, ty });
    }

    fn put(&mut self, t: u16, body: u16, serial: u16) -> Found {
        made(t, self.props.put(body, serial))
    }

    /// The annotation of a term, if it has one. An unknown name goes before refusal 30.
    fn annotation(&mut self, t: u16, unknown: u8) -> Result<Option<Type>, Refusal> {
        let record = &self.terms[t as usize];
        let n = match record.tag {
            0 => return Ok(None),
            1 => record.fields[0],
            _ => return Ok(Some(Type::Data(record.fields[0]))),
        };
        let context = &self.context;
        if !self
            .props
            .all_known(n, |name| find(context, name).is_some())
        {
            return Err(Refusal::new(unknown, t));
        }
        let resolved = self
            .props
            .resolve(n, |name| find(context, name).map(|e| e.serial));
        made(t, resolved).map(Some)
    }

    /// Keeps the place of a tree record, which stands before its premises. `close` says the rest.
    fn open(&mut self, t: u16) -> usize {
        let (ty, serials) = (Type::Data(0), [NO_SERIAL; 2]);
        self.tree.push(Node {
            rule: 0,
            term: t,
            ty,
            serials,
            premises: 0,
        });
        self.tree.len() - 1
    }

    fn close(&mut self, at: usize, rule: u8, ty: Type, premises: u16) {
        let node = &mut self.tree[at];
        node.rule = rule;
        node.ty = ty;
        node.premises = premises;
    }

    fn close_with(&mut self, at: usize, rule: u8, ty: Type, premises: u16, serials: [u16; 2]) {
        self.close(at, rule, ty, premises);
        self.tree[at].serials = serials;
    }

    // Checking.

    /// Ident, projections, Application: found first, then compared.
    fn check_found(&mut self, t: u16, want: Type) -> Done {
        let at = self.tree.len();
        let found = self.synthesize(t)?;
        if self.props.equal(found, want) {
            return Ok(());
        }
        if !self.props.alpha_equal(found, want) {
            return Err(Refusal::new(14, t));
        }
        let serials = [NO_SERIAL; 2];
        self.tree.insert(
            at,
            Node {
                rule: 16,
                term: t,
                ty: want,
                serials,
                premises: 1,
            },
        );
        Ok(())
    }

    fn check_pair(&mut self, t: u16, want: Type) -> Done {
        let (first, second) = (self.child(t, 0), self.child(t, 1));
        let at = self.open(t);
        match self.prop(want) {
            Some(Prop::Link(Link::And, a, b)) => {
                self.check(first, Type::Prop(a))?;
                self.check(second, Type::Prop(b))?;
                self.close(at, 2, want, 2);
            }
            Some(Prop::Quant(Quant::Exists, _, datatype, body)) => {
                let witness = self.object(first, 13, 10)?;
                let rest = self.put(t, body, witness)?;
                self.check(first, Type::Data(datatype))?;
                self.check(second, rest)?;
                self.close(at, 13, want, 2);
            }
            _ => return Err(Refusal::new(11, t)),
        }
        Ok(())
    }

    fn check_function(&mut self, t: u16, want: Type) -> Done {
        let at = self.open(t);
        let serial = self.new_serial();
        let (rule, from, to) = match self.prop(want) {
            Some(Prop::Link(Link::Impl, a, b)) => (5, Type::Prop(a), Type::Prop(b)),
            Some(Prop::Quant(Quant::ForAll, _, datatype, body)) => {
                (11, Type::Data(datatype), self.put(t, body, serial)?)
            }
            _ => return Err(Refusal::new(11, t)),
        };
        if let Some(annotation) = self.annotation(t, 10)? {
            if !self.props.alpha_equal(annotation, from) {
                return Err(Refusal::new(14, t));
            }
        }
        // The entry has the expected type's wording, not the annotation's.
        self.enter(self.name(t, 0), serial, from);
        self.check(self.child(t, 0), to)?;
        self.context.pop();
        self.close_with(at, rule, want, 1, [serial, NO_SERIAL]);
        Ok(())
    }

    /// OrLeft (rule 7) and OrRight (rule 8).
    fn check_or(&mut self, t: u16, want: Type, rule: u8) -> Done {
        let at = self.open(t);
        let part = match self.prop(want) {
            Some(Prop::Link(Link::Or, left, right)) => {
                if rule == 7 {
                    left
                } else {
                    right
                }
            }
            _ => return Err(Refusal::new(11, t)),
        };
        self.check(self.child(t, 0), Type::Prop(part))?;
        self.close(at, rule, want, 1);
        Ok(())
    }

    fn check_abort(&mut self, t: u16, want: Type) -> Done {
        let at = self.open(t);
        let falsum = made(t, self.props.make(Prop::False))?;
        self.check(self.child(t, 0), falsum)?;
        // Only after the body is the expected type looked at.
        if let Type::Data(_) = want {
            return Err(Refusal::new(13, t));
        }
        self.close(at, 10, want, 1);
        Ok(())
    }

    fn check_unit(&mut self, t: u16, want: Type) -> Done {
        if self.prop(want) != Some(Prop::True) {
            return Err(Refusal::new(11, t));
        }
        let at = self.open(t);
        self.close(at, 1, want, 0);
        Ok(())
    }

    /// An ascription has no record of its own.
    fn check_ascription(&mut self, t: u16, want: Type) -> Done {
        if let Some(annotation) = self.annotation(t, 10)? {
            if !self.props.alpha_equal(annotation, want) {
                return Err(Refusal::new(15, t));
            }
        }
        self.check(self.child(t, 0), want)
    }

    fn sorry(&mut self, t: u16, want: Type) -> Done {
        if self.wanted == Some(self.goals.len() as u16) {
            self.hole = Some(Hole {
                term: t,
                want,
                context: self.context.clone(),
                serials: self.serials,
                made: self.props.made(),
            });
        }
        let at = self.open(t);
        self.close(at, 15, want, 0);
        self.goals.push(Goal {
            term: t,
            ty: want,
            length: self.context.len() as u16,
        });
        Ok(())
    }

    // Synthesis.

    fn find_ident(&mut self, t: u16) -> Found {
        let entry = self.find(self.name(t, 0)).ok_or(Refusal::new(20, t))?;
        let at = self.open(t);
        self.close_with(at, 0, entry.ty, 0, [entry.serial, NO_SERIAL]);
        Ok(entry.ty)
    }

    fn find_pair(&mut self, t: u16) -> Found {
        let at = self.open(t);
        let first = self.synthesize(self.child(t, 0))?;
        let second = self.synthesize(self.child(t, 1))?;
        let pair = match (first, second) {
            (_, Type::Data(_)) => return Err(Refusal::new(23, t)),
            (Type::Data(_), _) => return Err(Refusal::new(25, t)),
            (Type::Prop(a), Type::Prop(b)) => Prop::Link(Link::And, a, b),
        };
        let ty = made(t, self.props.make(pair))?;
        self.close(at, 2, ty, 2);
        Ok(ty)
    }

    /// ProjectFst (rule 3) and ProjectSnd (rule 4).
    fn find_projection(&mut self, t: u16, rule: u8) -> Found {
        let at = self.open(t);
        let whole = self.synthesize(self.child(t, 0))?;
        let part = match self.prop(whole) {
            Some(Prop::Link(Link::And, first, _)) if rule == 3 => Type::Prop(first),
            Some(Prop::Link(Link::And, _, second)) => Type::Prop(second),
            _ => return Err(Refusal::new(22, t)),
        };
        self.close(at, rule, part, 1);
        Ok(part)
    }

    fn find_function(&mut self, t: u16) -> Found {
        let at = self.open(t);
        let from = self.annotation(t, 20)?.ok_or(Refusal::new(21, t))?;
        let serial = self.new_serial();
        let (name, body) = (self.name(t, 0), self.child(t, 0));
        self.enter(name, serial, from);
        let to = match self.synthesize(body)? {
            Type::Prop(n) => n,
            Type::Data(_) => return Err(Refusal::new(24, body)),
        };
        self.context.pop();
        let (rule, whole) = match from {
            Type::Data(datatype) => (11, self.props.make_for_all(name, datatype, to, serial)),
            Type::Prop(a) => (5, self.props.make(Prop::Link(Link::Impl, a, to))),
        };
        let ty = made(t, whole)?;
        self.close_with(at, rule, ty, 1, [serial, NO_SERIAL]);
        Ok(ty)
    }

    fn find_application(&mut self, t: u16) -> Found {
        let (function, argument) = (self.child(t, 0), self.child(t, 1));
        let at = self.open(t);
        let head = self.synthesize(function)?;
        let (rule, ty) = match self.prop(head) {
            Some(Prop::Link(Link::Impl, a, b)) => {
                self.check(argument, Type::Prop(a))?;
                (6, Type::Prop(b))
            }
            Some(Prop::Quant(Quant::ForAll, _, datatype, body)) => {
                let object = self.object(argument, 24, 20)?;
                self.check(argument, Type::Data(datatype))?;
                (12, self.put(t, body, object)?)
            }
            _ => return Err(Refusal::new(22, function)),
        };
        self.close(at, rule, ty, 2);
        Ok(ty)
    }

    fn find_unit(&mut self, t: u16) -> Found {
        let ty = made(t, self.props.make(Prop::True))?;
        let at = self.open(t);
        self.close(at, 1, ty, 0);
        Ok(ty)
    }

    /// Test 4 sees to it that there is a type.
    fn find_ascription(&mut self, t: u16) -> Found {
        let ty = self.annotation(t, 20)?.ok_or(Refusal::new(25, t))?;
        self.check(self.child(t, 0), ty)?;
        Ok(ty)
    }

    // Both modes.

    fn let_in(&mut self, t: u16, mode: Mode) -> Found {
        let (head, body) = (self.child(t, 0), self.child(t, 1));
        let at = self.open(t);
        let found = self.synthesize(head)?;
        let (datatype, inside) = match self.prop(found) {
            Some(Prop::Quant(Quant::Exists, _, datatype, inside)) => (datatype, inside),
            _ => return Err(Refusal::new(mode.of(12, 22), head)),
        };
        let (witness, proof) = (self.new_serial(), self.new_serial());
        let assumed = self.put(t, inside, witness)?;
        self.enter(self.name(t, 0), witness, Type::Data(datatype));
        self.enter(self.name(t, 1), proof, assumed);
        let ty = self.by_mode(body, mode)?;
        self.context.pop();
        self.context.pop();
        match ty {
            Type::Data(_) => return Err(Refusal::new(mode.of(13, 24), body)),
            Type::Prop(n) if self.props.has_serial(n, witness) => {
                return Err(Refusal::new(mode.of(16, 27), body));
            }
            Type::Prop(_) => (),
        }
        self.close_with(at, 14, ty, 2, [witness, proof]);
        Ok(ty)
    }

    fn case(&mut self, t: u16, mode: Mode) -> Found {
        let head = self.child(t, 0);
        let at = self.open(t);
        let found = self.synthesize(head)?;
        let (a, b) = match self.prop(found) {
            Some(Prop::Link(Link::Or, a, b)) => (a, b),
            _ => return Err(Refusal::new(mode.of(12, 22), head)),
        };
        let (left_serial, left) = self.arm(t, 0, a, mode)?;
        let (right_serial, right) = self.arm(t, 1, b, mode)?;
        if let Mode::Synthesize = mode {
            if !self.props.alpha_equal(left, right) {
                return Err(Refusal::new(26, t));
            }
        }
        if let Type::Data(_) = right {
            return Err(Refusal::new(mode.of(13, 24), t));
        }
        // The record has the left arm's wording; what is handed on has the right one's.
        self.close_with(at, 9, left, 3, [left_serial, right_serial]);
        Ok(right)
    }

    /// Runs an arm with its own assumption, which is gone afterwards.
    fn arm(&mut self, t: u16, i: usize, part: u16, mode: Mode) -> Result<(u16, Type), Refusal> {
        let serial = self.new_serial();
        self.enter(self.name(t, i), serial, Type::Prop(part));
        let ty = self.by_mode(self.child(t, 1 + i), mode)?;
        self.context.pop();
        Ok((serial, ty))
    }
}

/// The latest entry of a name.
fn find(context: &[Entry], name: u16) -> Option<Entry> {
    context
        .iter()
        .rev()
        .find(|entry| entry.name == name)
        .copied()
}

/// What was made, or refusal 30 at the term whose rule makes it.
fn made(t: u16, proposition: Result<u16, Full>) -> Found {
    proposition
        .map(Type::Prop)
        .map_err(|Full| Refusal::new(30, t))
}
