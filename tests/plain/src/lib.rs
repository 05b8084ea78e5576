//! A plain second implementation of the checker: the judge of the proved one, and its yardstick.
//!
//! It is written from document 01, with vectors and recursion and without the rooms: these are
//! written at the end.

#![forbid(unsafe_code)]

mod fill;
mod prop;
mod rules;
mod table;

use prop::Type;
use rules::{Goal, Node, Run};
use table::{Purpose, Table};

/// The counts of an acceptance.
#[derive(Clone, Copy, Debug, PartialEq, Eq)]
pub struct Counts {
    pub records: u16,
    pub goals: u16,
    pub serials: u16,
    pub made: u16,
}

/// The table that a refusal's place is in: the old one for everything but a filling.
#[derive(Clone, Copy, Debug, PartialEq, Eq)]
pub enum Which {
    Old,
    Filling,
    Edit,
}

#[derive(Clone, Copy, Debug, PartialEq, Eq)]
pub enum Answer {
    Accepted(Counts),
    Refused {
        number: u8,
        place: u16,
        which: Which,
    },
}

// The listed sizes of the rooms, in bytes.
pub const TREE: usize = 16_384;
pub const GOALS: usize = 4_096;
pub const PROPOSITIONS: usize = 49_152;
pub const WORK: usize = 65_536;
/// Of a filling only.
pub const EDITED: usize = 49_152;
/// The work room of the two tests.
pub const TEST_WORK: usize = 2_048;

/// Lent rooms. A vector needs no work room, so that one is only cleared.
pub struct Rooms<'a> {
    pub tree: &'a mut [u8],
    pub goals: &'a mut [u8],
    pub propositions: &'a mut [u8],
    pub work: &'a mut [u8],
}

/// The mark of a table. Without `clear` no room is zeroed, which is for timing.
pub fn check(table: &[u8], mut rooms: Rooms, clear: bool) -> Answer {
    if clear {
        rooms.clear();
    }
    let marked = if rooms.are_long_enough() {
        mark(table)
    } else {
        Err(Refusal::new(1, 0))
    };
    match marked {
        Err(refusal) => refusal.of(Which::Old),
        Ok(results) => rooms.hold(&results),
    }
}

fn mark(bytes: &[u8]) -> Result<Results, Refusal> {
    let table = table::read(bytes, Purpose::Check)?;
    let run = run_table(&table, None)?;
    Ok(Results::new(&run, 0))
}

fn run_table(table: &Table, wanted: Option<u16>) -> Result<Run<'_>, Refusal> {
    let mut run = Run::new(table, wanted);
    run.check(0, Type::Prop(table.expected))?;
    Ok(run)
}

/// Fills a goal, counted from 0. Without `clear` no room is zeroed, which is for timing.
pub fn fill(
    old: &[u8],
    goal: u16,
    filling: &[u8],
    mut rooms: Rooms,
    edited: &mut [u8],
    clear: bool,
) -> Answer {
    if clear {
        rooms.clear();
        zero(edited, EDITED);
    }
    if !rooms.are_long_enough() || edited.len() < EDITED {
        return Refusal::new(1, 0).of(Which::Old);
    }
    match fill_goal(old, goal, filling) {
        Err((refusal, which)) => refusal.of(which),
        Ok((results, table)) => {
            write(edited, &table);
            rooms.hold(&results)
        }
    }
}

/// The filling's results and the edited table's bytes.
fn fill_goal(
    old: &[u8],
    goal: u16,
    filling: &[u8],
) -> Result<(Results, Vec<u8>), (Refusal, Which)> {
    let in_old = |refusal| (refusal, Which::Old);
    let in_edited = |refusal| (refusal, Which::Edit);
    let old = table::read(old, Purpose::Check).map_err(in_old)?;
    let old_run = run_table(&old, Some(goal)).map_err(in_old)?;
    let filling = table::read(filling, Purpose::Filling).map_err(|r| (r, Which::Filling))?;
    let hole = old_run
        .hole
        .as_ref()
        .ok_or_else(|| in_old(Refusal::new(31, 0)))?;
    let edited = fill::edit(&old, hole.term, &filling).map_err(in_edited)?;
    let run = fill::run(&edited, &old_run.props, hole).map_err(in_edited)?;
    Ok((Results::new(&run, hole.serials), edited.bytes()))
}

/// Tests 2 to 7 of a table; an acceptance has no counts.
pub fn test_table(table: &[u8], work: &mut [u8]) -> Answer {
    test(table, work, Purpose::Check)
}

/// Tests 2 to 6 of a filling; an acceptance has no counts.
pub fn test_filling(filling: &[u8], work: &mut [u8]) -> Answer {
    test(filling, work, Purpose::Filling)
}

fn test(bytes: &[u8], work: &mut [u8], purpose: Purpose) -> Answer {
    zero(work, TEST_WORK);
    if work.len() < TEST_WORK {
        return Refusal::new(1, 0).of(Which::Old);
    }
    match table::read(bytes, purpose) {
        Err(refusal) => refusal.of(Which::Old),
        Ok(_) => Answer::Accepted(Counts {
            records: 0,
            goals: 0,
            serials: 0,
            made: 0,
        }),
    }
}

/// A refusal that does not say yet which table its place is in.
#[derive(Clone, Copy)]
struct Refusal {
    number: u8,
    place: u16,
}

impl Refusal {
    fn new(number: u8, place: u16) -> Refusal {
        Refusal { number, place }
    }

    fn of(self, which: Which) -> Answer {
        Answer::Refused {
            number: self.number,
            place: self.place,
            which,
        }
    }
}

/// What an acceptance leaves at the front of the rooms.
struct Results {
    counts: Counts,
    tree: Vec<u8>,
    goals: Vec<u8>,
    propositions: Vec<u8>,
}

impl Results {
    /// Of a run that started with so many serials.
    fn new(run: &Run, serials: u16) -> Results {
        Results {
            counts: Counts {
                records: run.tree.len() as u16,
                goals: run.goals.len() as u16,
                serials: run.serials - serials,
                made: run.props.made() as u16,
            },
            tree: joined(run.tree.iter().map(node_bytes)),
            goals: joined(run.goals.iter().map(goal_bytes)),
            propositions: run.props.bytes(),
        }
    }
}

impl Rooms<'_> {
    fn are_long_enough(&self) -> bool {
        self.tree.len() >= TREE
            && self.goals.len() >= GOALS
            && self.propositions.len() >= PROPOSITIONS
            && self.work.len() >= WORK
    }

    fn clear(&mut self) {
        zero(self.tree, TREE);
        zero(self.goals, GOALS);
        zero(self.propositions, PROPOSITIONS);
        zero(self.work, WORK);
    }

    fn hold(&mut self, results: &Results) -> Answer {
        write(self.tree, &results.tree);
        write(self.goals, &results.goals);
        write(self.propositions, &results.propositions);
        Answer::Accepted(results.counts)
    }
}

/// Zeros in the first bytes of a room, as far as it goes.
fn zero(room: &mut [u8], size: usize) {
    room.iter_mut().take(size).for_each(|byte| *byte = 0);
}

fn write(room: &mut [u8], bytes: &[u8]) {
    room[..bytes.len()].copy_from_slice(bytes);
}

/// Records one behind the other.
fn joined<const N: usize>(records: impl Iterator<Item = [u8; N]>) -> Vec<u8> {
    let mut bytes = Vec::new();
    for record in records {
        bytes.extend_from_slice(&record);
    }
    bytes
}

fn type_parts(ty: Type) -> (u8, u16) {
    match ty {
        Type::Prop(n) => (0, n),
        Type::Data(name) => (1, name),
    }
}

fn node_bytes(node: &Node) -> [u8; 16] {
    let (tag, concludes) = type_parts(node.ty);
    let [first, second] = node.serials;
    let mut bytes = [0; 16];
    bytes[0] = node.rule;
    bytes[1] = tag;
    for (i, word) in [node.term, concludes, first, second, node.premises]
        .iter()
        .enumerate()
    {
        bytes[2 + 2 * i..4 + 2 * i].copy_from_slice(&word.to_le_bytes());
    }
    bytes
}

fn goal_bytes(goal: &Goal) -> [u8; 8] {
    let mut bytes = [0; 8];
    for (i, word) in [goal.term, type_parts(goal.ty).1, goal.length]
        .iter()
        .enumerate()
    {
        bytes[2 * i..2 * i + 2].copy_from_slice(&word.to_le_bytes());
    }
    bytes
}
