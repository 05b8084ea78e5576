//! The judgement over one answer: what the library left, beside what the plain checker says.

use crate::room::zeros;
use crate::same::{links_fall, same_made, Meanings};
use plain::{Answer, Which};

/// The first bytes of each room, as many as are listed and lent. A test has a work room only.
#[derive(Clone, Copy, Default)]
pub struct Results<'a> {
    pub tree: &'a [u8],
    pub goals: &'a [u8],
    pub propositions: &'a [u8],
    pub work: &'a [u8],
    pub edited: &'a [u8],
}

/// An answer as the library writes it.
pub fn answer_bytes(answer: &Answer) -> [u8; 16] {
    let mut bytes = [0; 16];
    let mut put = |at: usize, number: u16| bytes[at..at + 2].copy_from_slice(&number.to_le_bytes());
    match *answer {
        Answer::Accepted(counts) => {
            put(8, counts.records);
            put(10, counts.goals);
            put(12, counts.serials);
            put(14, counts.made);
        }
        Answer::Refused {
            number,
            place,
            which,
        } => {
            put(0, 1 | u16::from(number) << 8);
            put(2, place);
            put(
                4,
                match which {
                    Which::Old => 0,
                    Which::Filling => 1,
                    Which::Edit => 2,
                },
            );
        }
    }
    bytes
}

/// An answer of the library, in words.
fn words(answer: &[u8]) -> String {
    let word = |at: usize| u16::from_le_bytes([answer[at], answer[at + 1]]);
    match answer[0] {
        0 => format!(
            "accepted {} {} {} {}",
            word(8),
            word(10),
            word(12),
            word(14)
        ),
        1 => format!("refused {} at {} of table {}", answer[1], word(2), word(4)),
        other => format!("neither accepted nor refused: {other}"),
    }
}

pub fn same_answer(got: &[u8], expected: &Answer) -> Result<(), String> {
    let bytes = answer_bytes(expected);
    if got[..16] == bytes {
        return Ok(());
    }
    Err(format!(
        "the library says: {} ({:?}); the judge: {}",
        words(got),
        &got[..16],
        words(&bytes)
    ))
}

fn need(holds: bool, says: &str) -> Result<(), String> {
    if holds {
        Ok(())
    } else {
        Err(says.to_string())
    }
}

/// After a refusal, and after a test, whatever its answer: all zeros.
pub fn cleared(library: &Results) -> Result<(), String> {
    let nothing = Used {
        tree: 0,
        goals: 0,
        propositions: 0,
        edited: 0,
        table: 0,
    };
    zeros_behind(&nothing, library)
}

/// How many bytes of each room an acceptance uses.
pub struct Used {
    pub tree: usize,
    pub goals: usize,
    pub propositions: usize,
    pub edited: usize,
    /// How many propositions are the table's.
    pub table: usize,
}

/// What an acceptance of `table` uses: the checked table, or the edited one.
pub fn used(counts: &plain::Counts, table: &[u8], edited: bool) -> Result<Used, String> {
    need(table.len() >= 16, "an accepted table has no header")?;
    let word = |at: usize| usize::from(u16::from_le_bytes([table[at], table[at + 1]]));
    let used = Used {
        tree: 16 * usize::from(counts.records),
        goals: 8 * usize::from(counts.goals),
        propositions: 16 * (word(6) + usize::from(counts.made)),
        edited: if edited {
            16 + 16 * (word(6) + word(8))
        } else {
            0
        },
        table: word(6),
    };
    need(
        used.tree <= plain::TREE,
        "more tree records than there is room for",
    )?;
    need(
        used.goals <= plain::GOALS,
        "more goals than there is room for",
    )?;
    need(
        used.propositions <= plain::PROPOSITIONS,
        "more propositions than there is room for",
    )?;
    need(
        used.edited <= plain::EDITED,
        "a longer edited table than there is room for",
    )?;
    Ok(used)
}

/// After an acceptance by both.
pub fn same_results(
    meanings: &mut Meanings,
    used: &Used,
    library: &Results,
    judge: &Results,
) -> Result<(), String> {
    zeros_behind(used, library)?;
    need(
        library.edited.get(..used.edited) == judge.edited.get(..used.edited),
        "the edited tables differ",
    )?;
    let own = 16 * used.table;
    need(
        library.propositions[..own] == judge.propositions[..own],
        "the table's own propositions differ in their room",
    )?;
    let rooms = [library, judge].map(|of| &of.propositions[..used.propositions]);
    let trees = [library, judge].map(|of| &of.tree[..used.tree]);
    let goals = [library, judge].map(|of| &of.goals[..used.goals]);
    let all = used.propositions / 16;
    links_fall(rooms[0], used.table, all)?;
    if rooms[0] == rooms[1] && trees[0] == trees[1] && goals[0] == goals[1] {
        return Ok(());
    }
    meanings.begin(all);
    same_made(meanings, rooms, used.table, all)?;
    let mut numbers = Numbers {
        meanings,
        rooms,
        table: used.table,
    };
    same_tree(&mut numbers, trees)?;
    same_goals(&mut numbers, goals)
}

/// Behind what an acceptance uses there are zeros, and in the work room nothing else.
fn zeros_behind(used: &Used, library: &Results) -> Result<(), String> {
    let rooms = [
        (library.tree, used.tree, "tree"),
        (library.goals, used.goals, "goals"),
        (library.propositions, used.propositions, "propositions"),
        (library.work, 0, "work"),
        (library.edited, used.edited, "edited"),
    ];
    for (room, used, name) in rooms {
        let behind = room.get(used..).unwrap_or(&[]);
        if !zeros(behind) {
            return Err(format!("the {name} room is not zeros from byte {used} on"));
        }
    }
    Ok(())
}

/// Compares proposition numbers of two rooms.
struct Numbers<'a> {
    meanings: &'a mut Meanings,
    rooms: [&'a [u8]; 2],
    table: usize,
}

impl Numbers<'_> {
    /// A number of the table's own must be the same; made ones must stand for the same.
    fn same(&mut self, numbers: [u16; 2]) -> Result<bool, String> {
        if usize::from(numbers[0].min(numbers[1])) < self.table {
            return Ok(numbers[0] == numbers[1]);
        }
        let [library, judge] = self.rooms;
        let first = self.meanings.meaning(0, library, numbers[0])?;
        Ok(first == self.meanings.meaning(1, judge, numbers[1])?)
    }
}

fn number(record: &[u8], at: usize) -> u16 {
    u16::from_le_bytes([record[at], record[at + 1]])
}

fn same_tree(numbers: &mut Numbers, trees: [&[u8]; 2]) -> Result<(), String> {
    for (n, (a, b)) in trees[0].chunks(16).zip(trees[1].chunks(16)).enumerate() {
        need(
            a[..4] == b[..4] && a[6..] == b[6..],
            &format!("tree record {n} differs"),
        )?;
        let conclusions = [number(a, 4), number(b, 4)];
        let same = match a[1] {
            0 => numbers.same(conclusions)?,
            _ => conclusions[0] == conclusions[1],
        };
        need(same, &format!("tree record {n} concludes something else"))?;
    }
    Ok(())
}

fn same_goals(numbers: &mut Numbers, goals: [&[u8]; 2]) -> Result<(), String> {
    for (n, (a, b)) in goals[0].chunks(8).zip(goals[1].chunks(8)).enumerate() {
        need(
            a[..2] == b[..2] && a[4..] == b[4..],
            &format!("goal {n} differs"),
        )?;
        let same = numbers.same([number(a, 2), number(b, 2)])?;
        need(same, &format!("goal {n} wants something else"))?;
    }
    Ok(())
}
