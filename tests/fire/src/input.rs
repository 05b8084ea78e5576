//! What is tried: an entry, its tables, and how long each lent room is.

use crate::names::Names;
use crate::proof::{Hole, Maker};
use crate::random::Random;
use crate::room::LONGER;
use crate::script::{Record, IDENT, NONE, SORRY};
use crate::seeds::Seeds;
use crate::{damage, hostile};

#[derive(Clone, Copy, PartialEq, Eq, Debug)]
pub enum Entry {
    Check,
    Fill,
    TestTable,
    TestFilling,
}

/// The rooms: tree, goals, propositions, work, edited table, and the work room of the two tests.
pub const SIZES: [usize; 6] = [
    plain::TREE,
    plain::GOALS,
    plain::PROPOSITIONS,
    plain::WORK,
    plain::EDITED,
    plain::TEST_WORK,
];
pub const EDITED: usize = 4;
pub const TEST_WORK: usize = 5;
pub const ANSWER: usize = 16;

pub struct Input {
    pub entry: Entry,
    /// The table of a check or a test of one, and the old one of a filling.
    pub table: Vec<u8>,
    pub goal: u16,
    pub filling: Vec<u8>,
    /// How long each room is lent.
    pub lengths: [usize; 6],
    pub answer: usize,
    /// Whether it is run a second time, with other dirt.
    pub twice: bool,
    /// Whether an accepted filling is held against a check of the edited table.
    pub demand: bool,
    /// The numbers that stand for names in its made tables.
    names: Names,
}

impl Input {
    pub fn new() -> Input {
        Input {
            entry: Entry::Check,
            table: Vec::new(),
            goal: 0,
            filling: Vec::new(),
            lengths: SIZES,
            answer: ANSWER,
            twice: false,
            demand: false,
            names: Names::default(),
        }
    }

    /// The rooms that its entry is lent.
    pub fn rooms(&self) -> std::ops::Range<usize> {
        match self.entry {
            Entry::Check => 0..EDITED,
            Entry::Fill => 0..TEST_WORK,
            Entry::TestTable | Entry::TestFilling => TEST_WORK..SIZES.len(),
        }
    }

    pub fn short(&self) -> bool {
        self.rooms().any(|room| self.lengths[room] < SIZES[room])
    }

    /// Makes input `index`.
    pub fn make(&mut self, random: &mut Random, index: u64, seeds: &Seeds) {
        self.entry = match random.below(100) {
            0..=61 => Entry::Check,
            62..=85 => Entry::Fill,
            86..=93 => Entry::TestTable,
            _ => Entry::TestFilling,
        };
        self.lend(random, index);
        self.twice = random.one_in(16);
        self.demand = random.one_in(6);
        self.names.begin(random);
        self.table.clear();
        self.filling.clear();
        match self.entry {
            Entry::Check => check_table(random, &mut self.names, seeds, &mut self.table),
            Entry::Fill => self.make_fill(random, seeds),
            Entry::TestTable => {
                check_table(random, &mut self.names, seeds, &mut self.table);
                if random.one_in(2) {
                    damage::table(random, &mut self.table);
                }
            }
            Entry::TestFilling => self.make_filling_alone(random, seeds),
        }
    }

    /// Mostly rooms of the listed sizes or longer.
    fn lend(&mut self, random: &mut Random, index: u64) {
        for (length, size) in self.lengths.iter_mut().zip(SIZES) {
            *length = if random.one_in(2) {
                size
            } else {
                size + random.between(1, LONGER)
            };
        }
        self.answer = match random.below(32) {
            0 => random.below(ANSWER),
            1..=7 => ANSWER + random.between(1, LONGER),
            _ => ANSWER,
        };
        if index % 16 == 7 {
            self.lend_in_turn(index / 16);
        } else if random.one_in(24) {
            for (length, size) in self.lengths.iter_mut().zip(SIZES) {
                let any = random.below(size);
                *length = random.pick(&[0, 1, size - 1, size, size, size, size + 1, any]);
            }
        }
    }

    /// One room has the length whose turn it is: each length of each room comes up once in some three million inputs.
    /// Steps of a prime spread them.
    pub fn lend_in_turn(&mut self, turn: u64) {
        self.answer = self.answer.max(ANSWER);
        let lengths: usize = SIZES.iter().map(|size| size + 1).sum();
        let mut at = (turn % lengths as u64 * 48_271 % lengths as u64) as usize;
        for (room, size) in SIZES.into_iter().enumerate() {
            if at <= size {
                self.lengths[room] = at;
                if room == EDITED {
                    self.entry = Entry::Fill;
                } else if room == TEST_WORK {
                    self.entry = if at % 2 == 0 {
                        Entry::TestTable
                    } else {
                        Entry::TestFilling
                    };
                } else if matches!(self.entry, Entry::TestTable | Entry::TestFilling) {
                    self.entry = Entry::Check;
                }
                return;
            }
            at -= size + 1;
        }
    }

    fn make_fill(&mut self, random: &mut Random, seeds: &Seeds) {
        match random.below(32) {
            0..=2 if !seeds.triples.is_empty() => self.stored_fill(random, seeds),
            3 | 4 => self.deep_fill(random),
            7 => self.late_fill(random),
            5 => {
                check_table(random, &mut self.names, seeds, &mut self.table);
                self.goal = random.small(3);
                self.make_filling_alone(random, seeds);
            }
            roll => self.made_fill(random, roll == 6),
        }
    }

    fn stored_fill(&mut self, random: &mut Random, seeds: &Seeds) {
        let triple = &seeds.triples[random.below(seeds.triples.len())];
        self.table.extend_from_slice(&triple.old);
        self.filling.extend_from_slice(&triple.filling);
        self.goal = triple.goal;
        match random.below(6) {
            0 => damage::table(random, &mut self.table),
            1 | 2 => damage::table(random, &mut self.filling),
            3 => self.goal = random.small(4),
            _ => {}
        }
    }

    /// A deep hole and a deep filling: together near the limit, or past it.
    fn deep_fill(&mut self, random: &mut Random) {
        let (outer, inner) = (random.between(20, 62), random.between(62, 68));
        let mut maker = Maker::new(random);
        maker.make_deep(outer);
        maker
            .script
            .write(maker.random, &mut self.names, &mut self.table);
        maker.script.clear();
        maker.make_deep(inner.saturating_sub(outer));
        maker.script.expected = NONE;
        maker
            .script
            .write(maker.random, &mut self.names, &mut self.filling);
        self.goal = 0;
    }

    /// A hole before some 2,048 made propositions: what the filling makes may leave too little for the terms behind it.
    fn late_fill(&mut self, random: &mut Random) {
        let depth = random.between(1, 6);
        let mut maker = Maker::new(random);
        let sorry = maker.term(SORRY, &[]);
        let open = maker.ascribed_truth(sorry);
        maker.make_near_the_limit(open);
        maker
            .script
            .write(maker.random, &mut self.names, &mut self.table);
        maker.script.clear();
        maker.make_deep(depth);
        maker.script.expected = NONE;
        maker
            .script
            .write(maker.random, &mut self.names, &mut self.filling);
        self.goal = 0;
        self.demand = true;
    }

    /// A made script with goals, and a filling for one of them.
    fn made_fill(&mut self, random: &mut Random, big: bool) {
        let mut maker = Maker::new(random);
        maker.keep_holes = true;
        maker.gaps = 3;
        let mut sorries = Vec::new();
        for _ in 0..3 {
            maker.script.clear();
            if big {
                maker.make_big();
            } else {
                maker.make();
            }
            sorries = maker.script.sorries();
            if !sorries.is_empty() {
                break;
            }
        }
        maker
            .script
            .write(maker.random, &mut self.names, &mut self.table);
        let chosen = maker.random.below(sorries.len().max(1));
        self.goal = chosen as u16;
        if maker.random.one_in(24) {
            self.goal = maker.random.pick(&[sorries.len() as u16, 65_535, 7]);
        }
        let holes = std::mem::take(&mut maker.holes);
        let hole = holes
            .into_iter()
            .find(|hole| sorries.get(chosen) == Some(&hole.term));
        self.make_filling(&mut maker, hole);
    }

    fn make_filling(&mut self, maker: &mut Maker, hole: Option<Hole>) {
        maker.script.clear();
        maker.keep_holes = false;
        maker.most = maker.random.between(1, 24);
        maker.deepest = maker.random.between(1, 8);
        let mut wanted = maker.proposition(2);
        if let Some(hole) = hole {
            maker.context = hole.context;
            wanted = hole.wanted;
        }
        let roll = maker.random.below(20);
        match roll {
            0 | 1 => maker.slips = 4,
            2 => wanted = maker.proposition(2),
            _ => {}
        }
        maker.script.root = match roll {
            3 | 4 => {
                let name = maker.random.small(maker.names + 1);
                maker.script.term(Record::term(IDENT, &[]).named(name, 0))
            }
            _ => maker.check(wanted, 1),
        };
        maker
            .script
            .write(maker.random, &mut self.names, &mut self.filling);
        match roll {
            5 => damage::table(maker.random, &mut self.filling),
            6 => self.filling.clone_from(&self.table),
            7 => hostile::table(maker.random, &mut self.filling),
            _ => {}
        }
    }

    fn make_filling_alone(&mut self, random: &mut Random, seeds: &Seeds) {
        match random.below(8) {
            0 => hostile::table(random, &mut self.filling),
            1 => check_table(random, &mut self.names, seeds, &mut self.filling),
            2 if !seeds.triples.is_empty() => {
                let triple = &seeds.triples[random.below(seeds.triples.len())];
                self.filling.extend_from_slice(&triple.filling);
            }
            _ => {
                let mut maker = Maker::new(random);
                maker.make();
                maker.script.expected = NONE;
                maker
                    .script
                    .write(maker.random, &mut self.names, &mut self.filling);
            }
        }
        if random.one_in(3) {
            damage::table(random, &mut self.filling);
        }
    }
}

/// A table for a check.
fn check_table(random: &mut Random, names: &mut Names, seeds: &Seeds, into: &mut Vec<u8>) {
    into.clear();
    match random.below(100) {
        0..=50 => made(random, names, into, |maker| maker.make()),
        51..=71 => made(random, names, into, |maker| {
            maker.slips = maker.random.between(2, 12);
            maker.make();
        }),
        72..=81 => {
            made(random, names, into, |maker| maker.make());
            damage::table(random, into);
        }
        82..=87 if !seeds.tables.is_empty() => {
            into.extend_from_slice(&seeds.tables[random.below(seeds.tables.len())]);
            if !random.one_in(4) {
                damage::table(random, into);
            }
        }
        88..=91 => hostile::table(random, into),
        92..=95 => {
            made(random, names, into, |maker| maker.make_big());
            if random.one_in(8) {
                damage::table(random, into);
            }
        }
        _ => made(random, names, into, |maker| {
            let root = maker.wild(1);
            let wanted = maker.proposition(3);
            maker.expect(root, wanted);
        }),
    }
}

fn made(random: &mut Random, names: &mut Names, into: &mut Vec<u8>, make: impl Fn(&mut Maker)) {
    let mut maker = Maker::new(random);
    make(&mut maker);
    maker.script.write(maker.random, names, into);
}
