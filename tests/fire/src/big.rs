//! Scripts near the limits: deep, high, long, with many goals, or with some 2,048 made propositions.

use crate::context::{Context, Type};
use crate::proof::{annotated, Maker};
use crate::prop::{Id, Param, Prop};
use crate::script::*;

impl Maker<'_> {
    pub fn make_big(&mut self) {
        match self.random.below(8) {
            0 => {
                let depth = self.random.between(60, 66);
                self.make_deep(depth);
            }
            1 => self.make_high(),
            2 => self.make_wide(),
            3 => self.make_many_propositions(),
            4 | 5 => {
                let unit = self.term(UNIT, &[]);
                self.make_near_the_limit(unit);
            }
            6 => self.make_shared(),
            _ => {
                self.most = self.random.between(150, 515);
                self.deepest = self.random.between(12, 60);
                self.make();
            }
        }
    }

    fn truth(&mut self) -> Id {
        self.props.add(Prop::True)
    }

    fn spelled_truth(&mut self) -> u16 {
        self.script.proposition(Record::default())
    }

    pub fn ascribed_truth(&mut self, inside: u16) -> u16 {
        let of = self.spelled_truth();
        self.script
            .term(Record::term(ASCRIPTION, &[inside]).typed(1, of))
    }

    /// Proofs of True within each other, to this depth, around a Unit or an ascribed Sorry.
    pub fn make_deep(&mut self, depth: usize) {
        let mut term = if self.random.one_in(2) {
            self.term(UNIT, &[])
        } else {
            self.term(SORRY, &[])
        };
        let mut deep = 1;
        while deep < depth {
            if deep == 1 || deep + 1 == depth || self.random.one_in(2) {
                term = self.ascribed_truth(term);
                deep += 1;
                continue;
            }
            let other = self.term(UNIT, &[]);
            term = if self.random.one_in(2) {
                let pair = self.term(PAIR, &[term, other]);
                self.term(FIRST, &[pair])
            } else {
                let of = self.spelled_truth();
                let function = self.script.term(annotated(Some(of), term).named(1, 0));
                self.term(APPLICATION, &[function, other])
            };
            deep += 2;
        }
        let truth = self.truth();
        self.holes_of_truth();
        self.expect(term, truth);
    }

    /// The holes of a deep script: all want True and know nothing that matters.
    fn holes_of_truth(&mut self) {
        let wanted = self.truth();
        for term in 0..self.script.terms.len() {
            if self.script.terms[term].kind == SORRY {
                let hole = crate::proof::Hole {
                    term: term as u16,
                    wanted,
                    context: Context::default(),
                };
                self.holes.push(hole);
            }
        }
    }

    /// A proposition of height 30 to 34, with functions for as much of it as there is patience for.
    fn make_high(&mut self) {
        let height = self.random.between(30, 34);
        let mut wanted = self.proposition(1);
        for _ in 1..height {
            let other = self.proposition(1);
            let datatype = self.random.small(2);
            let name = self.random.small(self.names);
            let next = match self.random.below(4) {
                0 => Prop::Quant(ALL, name, datatype, wanted),
                1 => Prop::Quant(EXISTS, name, datatype, wanted),
                2 => Prop::Link(IMPL, other, wanted),
                _ => Prop::Link(AND, wanted, other),
            };
            wanted = self.props.add(next);
        }
        self.deepest = self.random.between(1, 50);
        self.most = 200;
        let root = self.check(wanted, 1);
        self.expect(root, wanted);
    }

    /// A balanced And of so many parts.
    fn balanced(&mut self, parts: usize) -> Id {
        if parts <= 1 {
            return self.proposition(1);
        }
        let left = self.balanced(parts / 2);
        let right = self.balanced(parts - parts / 2);
        self.props.add(Prop::Link(AND, left, right))
    }

    /// Pairs for an And of some 256 parts: up to 513 terms, most of them goals.
    fn make_wide(&mut self) {
        let parts = self.random.pick(&[40, 128, 200, 255, 256, 256, 257]);
        let wanted = self.balanced(parts);
        self.deepest = 40;
        self.most = 2000;
        let root = self.pairs(wanted);
        self.expect(root, wanted);
    }

    fn pairs(&mut self, wanted: Id) -> u16 {
        match self.props.get(wanted) {
            Prop::Link(AND, left, right) => {
                let children = [self.pairs(left), self.pairs(right)];
                self.term(PAIR, &children)
            }
            Prop::True => self.term(UNIT, &[]),
            _ => self.term(SORRY, &[]),
        }
    }

    /// About 1,024 propositions.
    fn make_many_propositions(&mut self) {
        let wanted = self.balanced(512);
        let mut root = self.term(SORRY, &[]);
        for _ in 0..self.random.below(4) {
            root = self.ascribed_truth(root);
        }
        if self.random.one_in(2) {
            let truth = self.truth();
            let (name, body) = self.with(Type::Prop(wanted), |maker, _| maker.term(UNIT, &[]));
            let function = self.script.term(annotated(None, body).named(name, 0));
            let whole = self.props.add(Prop::Link(IMPL, wanted, truth));
            self.expect(function, whole);
        } else {
            self.expect(root, wanted);
        }
    }

    /// `all y. B(y)`, where B is a chain with so many nodes.
    fn long_quantifier(&mut self, nodes: usize) -> Id {
        let params = [
            Param::Bound(0),
            Param::Free(0),
            Param::Free(0),
            Param::Free(0),
        ];
        let mut body = self.props.add(Prop::Atom(1, 1, params));
        let mut have = 1;
        while have + 2 <= nodes {
            let atom = self.props.add(Prop::Atom(1, 1, params));
            body = self.props.add(Prop::Link(AND, atom, body));
            have += 2;
        }
        self.props.add(Prop::Quant(ALL, 1, 0, body))
    }

    /// Terms joined by pairs, as flat as can be.
    fn joined(&mut self, mut row: Vec<u16>) -> u16 {
        while row.len() > 1 {
            let join = |two: &[u16]| {
                if two.len() == 2 {
                    self.term(PAIR, two)
                } else {
                    two[0]
                }
            };
            row = row.chunks(2).map(join).collect();
        }
        row[0]
    }

    /// A last term near the limit, in which 30 and another refusal compete, or 30 has several places to come from. Name 0
    /// is an object, name 1 stands for `known`.
    fn edge(&mut self, known: Id) -> u16 {
        let Prop::Quant(_, name, datatype, body) = self.props.get(known) else {
            return self.ident(0);
        };
        let chosen = self.random.pick(&[0, 1, 1]);
        let witness = self.ident(chosen);
        let sorry = self.term(SORRY, &[]);
        let of = match self.random.below(5) {
            0 => {
                let function = self.ident(1);
                return self.term(APPLICATION, &[function, witness]);
            }
            1 => {
                let inside = self.term(ABORT, &[sorry]);
                return self.ascribed_truth(inside);
            }
            2 => {
                let atom = [Param::Free(self.random.pick(&[0, 90])); 4];
                self.props.add(Prop::Atom(3, 1, atom))
            }
            _ => self.props.add(Prop::Quant(EXISTS, name, datatype, body)),
        };
        let pair = self.term(PAIR, &[witness, sorry]);
        let nothing = Context::default();
        match self.props.spell(of, &nothing, false, &mut self.script) {
            Some(of) => {
                let ascribed = Record::term(ASCRIPTION, &[pair]).typed(1, of);
                let head = self.script.term(ascribed);
                self.unpacked(head)
            }
            None => pair,
        }
    }

    /// The term itself, or a let over it.
    fn unpacked(&mut self, head: u16) -> u16 {
        if self.random.one_in(2) {
            return head;
        }
        let body = self.term(UNIT, &[]);
        self.script
            .term(Record::term(LET, &[head, body]).named(2, 3))
    }

    /// `fun x. fun h. fst (proof, ((h x, h x), ..))`: as many instances as make about 2,048 propositions. `proof` is of
    /// True, and makes one.
    pub fn make_near_the_limit(&mut self, proof: u16) {
        let nodes = 2 * self.random.between(8, 26) + 1;
        let known = self.long_quantifier(nodes);
        let truth = self.truth();
        let implies = self.props.add(Prop::Link(IMPL, known, truth));
        let whole = self.props.add(Prop::Quant(ALL, 2, 0, implies));
        // The outer ForAll puts an identifier into the Impl: its own node, True, the inner ForAll and its body. The
        // first pair makes a True and an And.
        let mut left = 2048 + self.random.below(5) - (nodes + 3) - 2;
        let mut row = Vec::new();
        // Each part of the row makes an And too, but for the first.
        while left > nodes {
            let (function, object) = (self.ident(1), self.ident(0));
            row.push(self.term(APPLICATION, &[function, object]));
            left -= nodes + 1;
        }
        if self.random.one_in(2) {
            // Some instances fewer, so that the last term gets to its second or third step.
            row.truncate(row.len() - self.random.below(4));
        }
        let units = self.random.pick(&[left / 2, left / 2, left / 3]);
        for _ in 0..units {
            row.push(self.term(UNIT, &[]));
        }
        if self.random.one_in(2) {
            row.push(self.edge(known));
        }
        let joined = self.joined(row);
        let pair = self.term(PAIR, &[proof, joined]);
        let first = self.term(FIRST, &[pair]);
        let inner = self.script.term(annotated(None, first).named(1, 0));
        let outer = self.script.term(annotated(None, inner).named(0, 0));
        self.expect(outer, whole);
    }

    /// A pair of pairs of one assumption, under an annotated function: its nodes are shared, and counted at each place.
    fn make_shared(&mut self) {
        let nodes = 2 * self.random.between(1, 12) + 1;
        let known = self.long_quantifier(nodes);
        let levels = self.random.between(2, 7);
        let row = (0..1 << levels).map(|_| self.ident(1)).collect();
        let all = Record::term(FUNCTION, &[self.joined(row)])
            .typed(2, 0)
            .named(2, 0);
        let body = self.script.term(all);
        let Some(of) = self.spelled(known) else {
            return;
        };
        let function = self.script.term(annotated(Some(of), body).named(1, 0));
        let unit = self.term(UNIT, &[]);
        let pair = self.term(PAIR, &[unit, function]);
        let root = self.term(FIRST, &[pair]);
        let truth = self.truth();
        self.expect(root, truth);
    }
}
