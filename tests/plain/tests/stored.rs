//! The stored tables, scripts and fillings, against the answers that stand beside them.

use plain::{check, fill, test_filling, test_table, Answer, Counts, Rooms, Which};
use std::fmt::Write;
use std::path::Path;

/// So many bytes more than listed are lent of each room, which are to stay as they were.
const BEHIND: usize = 40;
/// What rooms hold before a call.
const OLD: u8 = 0xa5;

fn stored(program: &str, file: &str) -> Vec<u8> {
    let crates = Path::new(env!("CARGO_MANIFEST_DIR")).join("../../crates");
    std::fs::read(crates.join(program).join(file)).expect("a stored file")
}

fn answers(program: &str) -> String {
    String::from_utf8(stored(program, "stdout")).expect("text")
}

/// The answers of `trace` and `trace_fill`, which are blocks.
fn blocks(program: &str) -> Vec<String> {
    answers(program)
        .split_terminator("\n\n")
        .map(|block| block.trim_end().to_string())
        .collect()
}

/// Takes stored input apart.
struct Input {
    bytes: Vec<u8>,
    at: usize,
}

impl Input {
    fn open(program: &str) -> Input {
        Input {
            bytes: stored(program, "stdin"),
            at: 0,
        }
    }

    fn take(&mut self, count: usize) -> Vec<u8> {
        self.at += count;
        self.bytes[self.at - count..self.at].to_vec()
    }

    fn number(&mut self) -> usize {
        let bytes = self.take(4);
        u32::from_le_bytes([bytes[0], bytes[1], bytes[2], bytes[3]]) as usize
    }

    /// A goal's number. No table has as many goals as 16 bits count, so a larger one is as good as
    /// the largest.
    fn goal(&mut self) -> u16 {
        self.number().min(65_535) as u16
    }

    fn table(&mut self) -> Vec<u8> {
        let length = self.number();
        self.take(length)
    }

    fn is_at_end(&self) -> bool {
        self.at == self.bytes.len()
    }
}

/// Rooms for a call, longer than listed and not cleared.
struct Lent {
    tree: Vec<u8>,
    goals: Vec<u8>,
    propositions: Vec<u8>,
    work: Vec<u8>,
    edited: Vec<u8>,
}

impl Lent {
    fn new() -> Lent {
        let room = |size: usize| vec![OLD; size + BEHIND];
        Lent {
            tree: room(plain::TREE),
            goals: room(plain::GOALS),
            propositions: room(plain::PROPOSITIONS),
            work: room(plain::WORK),
            edited: room(plain::EDITED),
        }
    }

    fn rooms(&mut self) -> Rooms<'_> {
        Rooms {
            tree: &mut self.tree,
            goals: &mut self.goals,
            propositions: &mut self.propositions,
            work: &mut self.work,
        }
    }

    fn check(&mut self, table: &[u8]) -> Answer {
        check(table, self.rooms(), true)
    }

    fn fill(&mut self, old: &[u8], goal: u16, filling: &[u8]) -> Answer {
        let Lent {
            tree,
            goals,
            propositions,
            work,
            edited,
        } = self;
        fill(
            old,
            goal,
            filling,
            Rooms {
                tree,
                goals,
                propositions,
                work,
            },
            edited,
            true,
        )
    }

    /// Zeros behind what is used, and old bytes behind the listed sizes.
    fn assert_clean(&self, answer: Answer, table_props: usize, edited: usize, label: &str) {
        let (records, goals, props) = match answer {
            Answer::Accepted(c) => (
                c.records as usize,
                c.goals as usize,
                table_props + c.made as usize,
            ),
            Answer::Refused { .. } => (0, 0, 0),
        };
        assert_room(&self.tree, 16 * records, plain::TREE, label);
        assert_room(&self.goals, 8 * goals, plain::GOALS, label);
        assert_room(&self.propositions, 16 * props, plain::PROPOSITIONS, label);
        assert_room(&self.work, 0, plain::WORK, label);
        assert_room(&self.edited, edited, plain::EDITED, label);
    }
}

fn assert_room(room: &[u8], used: usize, size: usize, label: &str) {
    assert!(
        room[used..size].iter().all(|&byte| byte == 0),
        "{label}: not cleared"
    );
    assert!(
        room[size..].iter().all(|&byte| byte == OLD),
        "{label}: written too far"
    );
}

fn word(bytes: &[u8], at: usize) -> u16 {
    u16::from_le_bytes([bytes[at], bytes[at + 1]])
}

/// A proposition of the room, as `trace` writes it.
fn wording(room: &[u8], n: u16) -> String {
    let record = &room[16 * n as usize..16 * n as usize + 16];
    let (a, b, c) = (word(record, 2), word(record, 4), word(record, 6));
    let link = |sign| format!("({sign} {} {})", wording(room, a), wording(room, b));
    let quant = |sign| format!("({sign} n{a} n{b} {})", wording(room, c));
    match record[0] {
        0 => "T".to_string(),
        1 => "F".to_string(),
        2 => link("&"),
        3 => link("|"),
        4 => link(">"),
        5 => quant("A"),
        6 => quant("E"),
        7 => {
            let mut text = format!("(p n{a}");
            for i in 0..record[1] as usize {
                let kind = ["n", "s", "b", "?"][(b >> (2 * i)) as usize & 3];
                write!(text, " {kind}{}", word(record, 8 + 2 * i)).unwrap();
            }
            text + ")"
        }
        kind => panic!("a proposition of kind {kind}"),
    }
}

fn serial(number: u16) -> String {
    if number == 65_535 {
        "-".to_string()
    } else {
        number.to_string()
    }
}

fn node_line(lent: &Lent, at: usize) -> String {
    let record = &lent.tree[16 * at..16 * at + 16];
    assert_eq!(record[12..], [0; 4]);
    let (first, second) = (serial(word(record, 6)), serial(word(record, 8)));
    let concludes = match record[1] {
        0 => wording(&lent.propositions, word(record, 4)),
        1 => format!("s{first} : n{}", word(record, 4)),
        tag => panic!("a conclusion of tag {tag}"),
    };
    let (rule, term, premises) = (record[0], word(record, 2), word(record, 10));
    format!("{rule} {term} {first} {second} {premises} | {concludes}")
}

fn node_lines(lent: &Lent, counts: Counts) -> Vec<String> {
    let lines = (0..counts.records as usize).map(|at| node_line(lent, at));
    lines.collect()
}

fn goal_line(lent: &Lent, at: usize) -> String {
    let record = &lent.goals[8 * at..8 * at + 8];
    assert_eq!(record[6..], [0; 2]);
    let wanted = wording(&lent.propositions, word(record, 2));
    format!("goal {} {} | {wanted}", word(record, 0), word(record, 4))
}

fn accepted_lines(lent: &Lent, counts: Counts) -> Vec<String> {
    let (records, goals) = (counts.records as usize, counts.goals as usize);
    let mut lines = vec![format!("accepted {records} {goals}")];
    lines.extend(node_lines(lent, counts));
    lines.extend((0..goals).map(|at| goal_line(lent, at)));
    lines.push(format!(
        "counts serials {} made {}",
        counts.serials, counts.made
    ));
    lines
}

/// The block that `trace` prints of table number n, and `trace_fill` with the table's name.
fn block(n: usize, lent: &Lent, answer: Answer, names_table: bool) -> String {
    let mut lines = vec![format!("table {n}")];
    match answer {
        Answer::Accepted(counts) => lines.extend(accepted_lines(lent, counts)),
        Answer::Refused {
            number,
            place,
            which,
        } => {
            lines.push(format!("refused {number} {place}"));
            if names_table {
                let name = match which {
                    Which::Old => "old",
                    Which::Filling => "filling",
                    Which::Edit => "edited",
                };
                lines.push(format!("where {name}"));
            }
        }
    }
    lines.join("\n")
}

/// The line that `replay_tables` prints.
fn verdict(answer: Answer) -> String {
    let none = Counts {
        records: 0,
        goals: 0,
        serials: 0,
        made: 0,
    };
    match answer {
        Answer::Accepted(counts) => {
            assert_eq!(counts, none);
            "passes".to_string()
        }
        Answer::Refused {
            number,
            place,
            which,
        } => {
            assert_eq!(which, Which::Old);
            format!("refused {number} {place}")
        }
    }
}

#[test]
fn tables() {
    let mut input = Input::open("replay_tables");
    let text = answers("replay_tables");
    assert_eq!(input.number(), text.lines().count());
    for (n, line) in text.lines().enumerate() {
        let length = input.number();
        let is_filling = input.take(1) == [1];
        let table = input.take(length);
        let test = if is_filling { test_filling } else { test_table };
        let mut work = vec![OLD; plain::TEST_WORK + BEHIND];
        assert_eq!(verdict(test(&table, &mut work)), line, "table {n}");
        assert_room(&work, 0, plain::TEST_WORK, "work");
        let short = test(&table, &mut work[..plain::TEST_WORK - 1]);
        assert_eq!(verdict(short), "refused 1 0");
    }
    assert!(input.is_at_end());
}

#[test]
fn scripts() {
    let mut input = Input::open("trace");
    let mut lent = Lent::new();
    // A check has no such room: it is as a refused filling would leave it.
    lent.edited[..plain::EDITED].fill(0);
    for (n, expected) in blocks("trace").iter().enumerate() {
        let table = input.table();
        let answer = lent.check(&table);
        assert_eq!(block(n, &lent, answer, false), *expected);
        let props = table.get(6..8).map_or(0, |bytes| word(bytes, 0) as usize);
        lent.assert_clean(answer, props, 0, &format!("script {n}"));
    }
    assert!(input.is_at_end());
}

#[test]
fn fillings() {
    let mut input = Input::open("trace_fill");
    let mut lent = Lent::new();
    for (n, expected) in blocks("trace_fill").iter().enumerate() {
        let (old, goal, filling) = (input.table(), input.goal(), input.table());
        let answer = lent.fill(&old, goal, &filling);
        assert_eq!(block(n, &lent, answer, true), *expected);
        let (mut props, mut length) = (0, 0);
        if let Answer::Accepted(counts) = answer {
            props = word(&lent.edited, 6) as usize;
            length = 16 + 16 * (props + word(&lent.edited, 8) as usize);
            assert_eq!(length, old.len() + filling.len() - 32, "filling {n}");
            let nodes = node_lines(&lent, counts);
            assert_edited(&old, goal, &lent.edited[..length], &nodes, n);
        }
        lent.assert_clean(answer, props, length, &format!("filling {n}"));
    }
    assert!(input.is_at_end());
}

/// In the tree of a fresh check of the edited table the filling's tree stands where the old tree
/// has the goal. The only other answer is 30, since what both make may be too much.
fn assert_edited(old: &[u8], goal: u16, edited: &[u8], filling: &[String], n: usize) {
    let mut lent = Lent::new();
    let before = match lent.check(old) {
        Answer::Accepted(counts) => node_lines(&lent, counts),
        refused => panic!("filling {n}: {refused:?}"),
    };
    let sorry = format!("15 {} ", word(&lent.goals, 8 * goal as usize));
    let at = before.iter().position(|line| line.starts_with(&sorry));
    let at = at.expect("the goal's record");
    match lent.check(edited) {
        Answer::Accepted(counts) => {
            let after = node_lines(&lent, counts);
            assert_eq!(after.len(), before.len() - 1 + filling.len());
            assert_eq!(after[at..at + filling.len()], *filling, "filling {n}");
        }
        Answer::Refused { number, .. } => assert_eq!(number, 30, "filling {n}"),
    }
}

/// Each room in turn is a byte too short: refusal 1, and zeros in all of them.
#[test]
fn short_rooms() {
    let mut input = Input::open("trace_fill");
    let (old, goal, filling) = (input.table(), input.goal(), input.table());
    let sizes = [
        plain::TREE,
        plain::GOALS,
        plain::PROPOSITIONS,
        plain::WORK,
        plain::EDITED,
    ];
    for short in 0..sizes.len() {
        let mut rooms = sizes.map(|size| vec![OLD; size]);
        rooms[short].pop();
        let [tree, goals, propositions, work, edited] = &mut rooms;
        let lent = Rooms {
            tree,
            goals,
            propositions,
            work,
        };
        let answer = fill(&old, goal, &filling, lent, edited, true);
        assert_eq!(verdict(answer), "refused 1 0", "room {short}");
        assert!(rooms.concat().iter().all(|&byte| byte == 0), "room {short}");
    }
}
