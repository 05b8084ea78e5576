//! Shows that the checks can fail: each is given something wrong.

use crate::bench::{demand_holds, Bench, Outcome};
use crate::counts::Counts as Tried;
use crate::damage;
use crate::input::{Entry, Input, SIZES};
use crate::judge::{answer_bytes, cleared, same_answer, same_results, used, Results, Used};
use crate::names::Names;
use crate::random::Random;
use crate::room::{zeros, Noise, Room};
use crate::same::Meanings;
use crate::script::{Record, Script, ALL, ATOM, FUNCTION, IDENT, IMPL, SORRY};
use crate::seeds::Seeds;
use plain::{Answer, Counts, Which};
use sporekettle::{Refusal, Rule};
use std::collections::HashSet;

/// `fun x. fun h. h` for `all x:D. (P(x) -> P(x))`, or `fun x. fun h. sorry` for `all x:D. (P(x) -> Q(x))`.
fn script(last: u8) -> Vec<u8> {
    let mut script = Script::default();
    script.clear();
    let atom = Record {
        kind: ATOM,
        tag: 1,
        fields: [3, 0, 0, 1, 0, 0, 0],
    };
    let left = script.proposition(atom);
    let mut other = atom;
    other.fields[0] = if last == IDENT { 3 } else { 4 };
    let right = script.proposition(other);
    let implies = Record {
        kind: IMPL,
        tag: 0,
        fields: [left, right, 0, 0, 0, 0, 0],
    };
    let body = script.proposition(implies);
    let all = Record {
        kind: ALL,
        tag: 0,
        fields: [1, 7, body, 0, 0, 0, 0],
    };
    script.expected = script.proposition(all);
    let name = if last == IDENT { 2 } else { 0 };
    let leaf = script.term(Record::term(last, &[]).named(name, 0));
    let inner = script.term(Record::term(FUNCTION, &[leaf]).named(2, 0));
    script.root = script.term(Record::term(FUNCTION, &[inner]).named(1, 0));
    let mut table = Vec::new();
    script.write(&mut Random::of(1, 1), &mut Names::default(), &mut table);
    table
}

/// Rooms after an acceptance by the plain checker.
struct Rooms([Vec<u8>; 5]);

impl Rooms {
    fn of(table: &[u8]) -> (Rooms, Counts) {
        let sizes = [SIZES[0], SIZES[1], SIZES[2], SIZES[3], 0];
        let mut rooms = sizes.map(|size| vec![0; size]);
        let [tree, goals, propositions, work, _] = &mut rooms;
        match plain::check(
            table,
            plain::Rooms {
                tree,
                goals,
                propositions,
                work,
            },
            true,
        ) {
            Answer::Accepted(counts) => (Rooms(rooms), counts),
            refused => panic!("{refused:?}"),
        }
    }

    fn results(&self) -> Results<'_> {
        let [tree, goals, propositions, work, edited] = &self.0;
        Results {
            tree,
            goals,
            propositions,
            work,
            edited,
        }
    }
}

/// Whether the rooms pass when `change` has been done to a copy of what the judge has.
fn passes(change: impl Fn(&mut [Vec<u8>; 5], &Used)) -> bool {
    let table = script(SORRY);
    let (mut rooms, counts) = Rooms::of(&table);
    let (judge, _) = Rooms::of(&table);
    let used = used(&counts, &table, false).unwrap();
    assert_eq!((counts.records, counts.goals, counts.made), (3, 1, 3));
    change(&mut rooms.0, &used);
    same_results(
        &mut Meanings::default(),
        &used,
        &rooms.results(),
        &judge.results(),
    )
    .is_ok()
}

/// A change of one byte of a room.
fn flipped(room: usize, at: usize) -> bool {
    passes(|rooms, _| rooms[room][at] ^= 1)
}

#[test]
fn equal_rooms_pass() {
    assert!(passes(|_, _| {}));
}

#[test]
fn every_byte_of_the_tree_counts() {
    assert!((0..3 * 16).all(|at| !flipped(0, at)));
    assert!(!flipped(0, 3 * 16) && !flipped(0, SIZES[0] - 1));
}

#[test]
fn every_byte_of_the_goals_counts() {
    assert!((0..8).all(|at| !flipped(1, at)));
    assert!(!flipped(1, 8) && !flipped(1, SIZES[1] - 1));
}

#[test]
fn every_byte_of_the_propositions_counts() {
    assert!((0..7 * 16).all(|at| !flipped(2, at)));
    assert!(!flipped(2, 7 * 16) && !flipped(2, SIZES[2] - 1));
}

#[test]
fn the_work_room_and_the_edited_room_have_to_be_zeros() {
    assert!(!flipped(3, 0) && !flipped(3, SIZES[3] - 1));
    assert!(!passes(|rooms, _| rooms[4] = vec![0, 0, 1]));
}

fn word(bytes: &[u8], at: usize) -> u16 {
    u16::from_le_bytes([bytes[at], bytes[at + 1]])
}

fn set(bytes: &mut [u8], at: usize, value: u16) {
    bytes[at..at + 2].copy_from_slice(&value.to_le_bytes());
}

/// Of the made propositions: both atoms and the Impl.
fn made(rooms: &[Vec<u8>; 5], used: &Used) -> [u16; 3] {
    let numbers = used.table as u16..(used.propositions / 16) as u16;
    let kind = |n: &u16| rooms[2][16 * usize::from(*n)];
    let atoms: Vec<u16> = numbers.clone().filter(|n| kind(n) == ATOM).collect();
    [
        atoms[0],
        atoms[1],
        numbers.clone().find(|n| kind(n) == IMPL).unwrap(),
    ]
}

/// The two made atoms change places; where `links`, everything that names them follows.
fn renumbered(rooms: &mut [Vec<u8>; 5], used: &Used, links: bool) {
    let [a, b, implies] = made(rooms, used);
    for i in 0..16 {
        rooms[2].swap(16 * usize::from(a) + i, 16 * usize::from(b) + i);
    }
    if !links {
        return;
    }
    let links = 16 * usize::from(implies);
    for (room, at) in [
        (0, 4),
        (0, 20),
        (0, 36),
        (1, 2),
        (2, links + 2),
        (2, links + 4),
    ] {
        let new = match word(&rooms[room], at) {
            n if n == a => b,
            n if n == b => a,
            n => n,
        };
        set(&mut rooms[room], at, new);
    }
}

#[test]
fn made_propositions_may_have_other_numbers() {
    assert!(passes(|rooms, used| renumbered(rooms, used, true)));
    assert!(!passes(|rooms, used| renumbered(rooms, used, false)));
}

#[test]
fn a_conclusion_or_a_goal_that_stands_for_something_else_is_seen() {
    assert!(!passes(|rooms, used| {
        let atoms = made(rooms, used);
        let goal = word(&rooms[1], 2);
        let other = if goal == atoms[0] { atoms[1] } else { atoms[0] };
        set(&mut rooms[1], 2, other);
    }));
    assert!(!passes(|rooms, used| {
        let [atom, _, _] = made(rooms, used);
        set(&mut rooms[0], 20, atom);
    }));
}

#[test]
fn made_links_have_to_go_down() {
    for to in [0, 1, 9] {
        assert!(!passes(|rooms, used| {
            let [_, _, implies] = made(rooms, used);
            set(&mut rooms[2], 16 * usize::from(implies) + 4, implies + to);
        }));
    }
}

#[test]
fn a_made_copy_is_not_the_tables_own() {
    // The whole proposition is the table's, and record 0 of the tree concludes it.
    let own = |rooms: &mut [Vec<u8>; 5], used: &Used| {
        let [_, _, implies] = made(rooms, used);
        set(&mut rooms[0], 4, implies);
    };
    assert!(!passes(own));
}

#[test]
fn every_byte_of_an_answer_counts() {
    let counts = Counts {
        records: 2,
        goals: 1,
        serials: 3,
        made: 4,
    };
    let refused = Answer::Refused {
        number: 14,
        place: 3,
        which: Which::Edit,
    };
    for answer in [Answer::Accepted(counts), refused] {
        let right = answer_bytes(&answer);
        assert!(same_answer(&right, &answer).is_ok());
        for at in 0..16 {
            let mut wrong = right;
            wrong[at] ^= 1;
            assert!(same_answer(&wrong, &answer).is_err());
        }
    }
}

#[test]
fn a_refusal_leaves_zeros() {
    let zeros = [
        vec![0; 9000],
        vec![0; 4096],
        vec![0; 5],
        vec![0; 8192],
        vec![],
    ];
    assert!(cleared(&Rooms(zeros.clone()).results()).is_ok());
    for room in 0..4 {
        for at in [0, 4, zeros[room].len() - 1] {
            let mut dirty = zeros.clone();
            dirty[room][at] = 1;
            assert!(cleared(&Rooms(dirty).results()).is_err());
        }
    }
    let edited = Results {
        edited: &[0, 1],
        ..Results::default()
    };
    assert!(cleared(&edited).is_err());
}

#[test]
fn zeros_are_looked_for_everywhere() {
    let mut bytes = vec![0; 3 * 4096 + 17];
    assert!(zeros(&bytes));
    for at in [0, 4095, 4096, 8191, 12_288, 12_304] {
        bytes[at] = 0x80;
        assert!(!zeros(&bytes));
        bytes[at] = 0;
    }
}

/// Whether a room of 100 bytes shows a write at `at` when so much of it is lent.
fn shows(lent: usize, open: bool, at: isize) -> bool {
    let noise = Noise::new(5);
    let mut random = Random::of(5, 5);
    let mut room = Room::new(100);
    room.refresh(&mut random, &noise);
    room.prepare(&mut random, &noise, lent, open);
    assert_eq!(room.touched(), None);
    *room.byte(at) ^= 0x55;
    match room.touched() {
        Some(found) => {
            assert_eq!(found, at);
            true
        }
        None => false,
    }
}

#[test]
fn writes_outside_a_room_are_seen() {
    assert!([-64, -1, 100, 120, 191]
        .iter()
        .all(|&at| shows(120, true, at)));
    assert!([-1, 10, 99, 100].iter().all(|&at| shows(10, true, at)));
    assert!([-1, 0, 1].iter().all(|&at| shows(0, true, at)));
    assert!([-1, 0, 50, 99, 100].iter().all(|&at| shows(100, false, at)));
    assert!([0, 50, 99].iter().all(|&at| !shows(100, true, at)));
}

#[test]
fn zeros_written_over_what_has_to_stay_are_seen() {
    let noise = Noise::new(5);
    let mut random = Random::of(5, 5);
    for (lent, open, from) in [
        (100, false, 0),
        (120, false, 0),
        (40, true, 40),
        (0, true, 0),
    ] {
        for at in from..100 {
            // A room of zeros, as a refusal leaves it.
            let mut room = Room::new(100);
            room.prepare(&mut random, &noise, lent, open);
            *room.byte(at) = 0;
            assert_eq!(room.touched(), Some(at));
        }
    }
}

/// An input with this table, lent longer rooms than listed.
fn input(entry: Entry, table: Vec<u8>, filling: Vec<u8>) -> Input {
    let mut input = Input::new();
    input.lengths = SIZES.map(|size| size + 3);
    input.answer = 20;
    input.entry = entry;
    input.table = table;
    input.filling = filling;
    input
}

/// `sorry` and `h` as fillings.
fn filling(kind: u8) -> Vec<u8> {
    let mut script = Script::default();
    script.clear();
    let name = if kind == IDENT { 2 } else { 0 };
    script.root = script.term(Record::term(kind, &[]).named(name, 0));
    let mut table = Vec::new();
    script.write(&mut Random::of(1, 1), &mut Names::default(), &mut table);
    table
}

/// Inputs of every entry, accepted and refused, with short rooms and with none.
fn inputs() -> Vec<Input> {
    let mut short = input(Entry::Fill, script(SORRY), filling(SORRY));
    short.lengths = [0, 1, 16, SIZES[3] - 1, SIZES[4], 7];
    let mut unanswered = input(Entry::Check, script(IDENT), vec![]);
    unanswered.answer = 15;
    vec![
        input(Entry::Check, script(IDENT), vec![]),
        input(Entry::Check, script(SORRY), vec![]),
        input(Entry::Check, vec![1, 2, 3], vec![]),
        input(Entry::Fill, script(SORRY), filling(SORRY)),
        input(Entry::Fill, script(SORRY), filling(IDENT)),
        input(Entry::TestTable, script(IDENT), vec![]),
        input(Entry::TestFilling, vec![], filling(IDENT)),
        short,
        unanswered,
    ]
}

/// Whether a call of the library passes after `change` has been done to what it left.
fn stands(bench: &mut Bench, input: &Input, change: impl FnOnce(&mut Bench, &mut u32)) -> bool {
    let mut random = Random::of(3, 3);
    bench.refresh(&mut random);
    let answer = bench.run(&mut random, input).unwrap().answer;
    bench.prepare(&mut random, input);
    let mut returned = bench.call(input);
    change(bench, &mut returned);
    bench.judge_call(input, returned, &answer).is_ok()
}

#[test]
fn whole_runs_pass() {
    let mut bench = Bench::new(3);
    assert!(inputs()
        .iter()
        .all(|input| stands(&mut bench, input, |_, _| {})));
}

#[test]
fn a_byte_changed_in_or_around_a_room_is_seen_in_a_whole_run() {
    let mut bench = Bench::new(3);
    for input in inputs() {
        let rooms = input.rooms().len() + 1;
        for room in 0..rooms {
            let length = match room {
                _ if room + 1 == rooms => input.answer,
                _ => input.lengths[input.rooms().start + room],
            };
            for at in [-64, -1, 0, 15, 16, 47, length as isize - 1, length as isize] {
                let flip =
                    |bench: &mut Bench, _: &mut u32| *bench.lent(&input)[room].byte(at) ^= 0x55;
                assert!(
                    !stands(&mut bench, &input, flip),
                    "{:?} {room} {at}",
                    input.entry
                );
            }
        }
    }
}

#[test]
fn a_changed_table_and_a_wrong_return_are_seen_in_a_whole_run() {
    let mut bench = Bench::new(3);
    for input in inputs() {
        assert!(!stands(&mut bench, &input, |_, returned| *returned ^= 1));
        for (table, bytes) in [&input.table, &input.filling].into_iter().enumerate() {
            let length = bytes.len() as isize;
            for at in [-64, -1, 0, length / 2, length - 1, length, length + 63] {
                let flip = |bench: &mut Bench, _: &mut u32| *bench.tables()[table].byte(at) ^= 1;
                assert!(!stands(&mut bench, &input, flip), "{table} {at}");
            }
        }
    }
}

#[test]
fn a_difference_between_two_runs_is_seen() {
    let mut bench = Bench::new(3);
    let mut random = Random::of(3, 3);
    let input = input(Entry::Fill, script(SORRY), filling(SORRY));
    input_twice(&mut bench, &mut random, &input, None);
    for room in [0, 2, 4] {
        input_twice(&mut bench, &mut random, &input, Some(room));
    }
}

/// Runs an input, keeps what it left, and changes a byte of a used room.
fn input_twice(bench: &mut Bench, random: &mut Random, input: &Input, change: Option<usize>) {
    let answer = bench.run(random, input).unwrap().answer;
    bench.keep(input, &answer).unwrap();
    if let Some(room) = change {
        *bench.lent(input)[room].byte(5) ^= 0x55;
    }
    assert_eq!(bench.as_kept(input, &answer).is_ok(), change.is_none());
}

#[test]
fn demand_3_can_fail() {
    let accepted = |records, goals, serials, made| Counts {
        records,
        goals,
        serials,
        made,
    };
    let old = Answer::Accepted(accepted(5, 2, 3, 1));
    let filling = accepted(4, 1, 2, 7);
    let checked = |records, goals, serials| {
        let new = Answer::Accepted(accepted(records, goals, serials, 9));
        demand_holds(&old, &filling, &new).is_ok()
    };
    assert!(checked(8, 2, 5));
    assert!(!checked(9, 2, 5) && !checked(8, 3, 5) && !checked(8, 2, 4));
    let holds = |old: &Answer, new: &Answer| demand_holds(old, &filling, new).is_ok();
    assert!(holds(&old, &refused(30)) && !holds(&old, &refused(14)));
    assert!(!holds(&refused(30), &refused(30)));
}

fn refused(number: u8) -> Answer {
    Answer::Refused {
        number,
        place: 1,
        which: Which::Old,
    }
}

#[test]
fn an_edited_table_is_checked_by_both() {
    let mut bench = Bench::new(3);
    let mut random = Random::of(3, 3);
    let mut input = input(Entry::Fill, script(SORRY), filling(SORRY));
    input.demand = true;
    let outcome = bench.run(&mut random, &input).unwrap();
    assert!(matches!(outcome.edited, Some(Answer::Accepted(_))));
    // The rooms are those of the last check, of the edited table; the tree that is counted is the filling's.
    let checked = bench.lent(&input)[0].written()[..48].to_vec();
    assert_eq!(checked, Rooms::of(&input.table).0 .0[0][..48]);
    assert_eq!(bench.tree().len(), 16);
}

/// Counts of an input for each of these refusals, and of one whose tree has these rules; `late` if its edited table was
/// refused 30.
fn tried(numbers: &[u8], rules: &[u8], late: bool) -> Tried {
    let mut tried = Tried::default();
    let input = input(Entry::Check, vec![], vec![]);
    for &number in numbers {
        let outcome = Outcome {
            answer: refused(number),
            edited: None,
        };
        tried.add(&input, &outcome, &[]);
    }
    let outcome = Outcome {
        answer: Answer::Accepted(Counts {
            records: rules.len() as u16,
            goals: 0,
            serials: 0,
            made: 0,
        }),
        edited: late.then(|| refused(30)),
    };
    let tree: Vec<u8> = rules.iter().flat_map(|&rule| [rule; 16]).collect();
    tried.add(&input, &outcome, &tree);
    tried
}

#[test]
fn a_run_that_leaves_something_out_is_seen() {
    let numbers = Refusal::NUMBERS;
    let rules: Vec<u8> = Rule::ALL.iter().map(|rule| rule.number()).collect();
    let all = tried(numbers, &rules, true);
    let inputs = numbers.len() as u64 + 1;
    assert!(all.covers(inputs).is_ok() && all.covers(inputs + 1).is_err());
    assert!(tried(numbers, &rules, false).covers(0).is_err());
    let without =
        |all: &[u8], one: u8| -> Vec<u8> { all.iter().copied().filter(|&n| n != one).collect() };
    for &left_out in numbers {
        let says = tried(&without(numbers, left_out), &rules, true)
            .covers(0)
            .unwrap_err();
        assert!(says.ends_with(&format!("wanting: refusal {left_out}")));
    }
    for &left_out in &rules {
        assert!(tried(numbers, &without(&rules, left_out), true)
            .covers(0)
            .is_err());
    }
}

#[test]
fn a_renaming_has_no_clashes() {
    let mut names = Names::default();
    let mut renamed = 0;
    for index in 0..300 {
        let mut random = Random::of(4, index);
        names.begin(&mut random);
        let new: Vec<u16> = (0..256).map(|n| names.of(&mut random, n)).collect();
        let again: Vec<u16> = (0..256).map(|n| names.of(&mut random, n)).collect();
        assert_eq!(new, again);
        assert_eq!(new.iter().collect::<HashSet<_>>().len(), 256);
        renamed += usize::from(new.iter().any(|&n| n > 255));
    }
    assert!((60..140).contains(&renamed));
}

/// A table as a checker would see it that reads names, or only those of Ident terms, in its own way.
fn misread(table: &[u8], idents: bool, reading: &dyn Fn(u16) -> u16) -> Vec<u8> {
    let mut other = table.to_vec();
    let terms = 16 + 16 * usize::from(word(table, 6));
    for at in (16..table.len()).step_by(16) {
        if idents && (at < terms || table[at] != IDENT) {
            continue;
        }
        for field in damage::names(table, at) {
            set(&mut other, at + field, reading(word(table, at + field)));
        }
    }
    other
}

/// The first check whose answer is another one for a checker that reads names so.
fn shows_at(idents: bool, reading: &dyn Fn(u16) -> u16) -> Option<u64> {
    let seeds = Seeds::default();
    let mut rooms = SIZES.map(|size| vec![0; size]);
    let mut answer = |table: &[u8]| {
        let [tree, goals, propositions, work, ..] = &mut rooms;
        let rooms = plain::Rooms {
            tree,
            goals,
            propositions,
            work,
        };
        plain::check(table, rooms, false)
    };
    let mut input = Input::new();
    (0..20_000).find(|&index| {
        input.make(&mut Random::of(1, index), index, &seeds);
        let passes = plain::test_table(&input.table, &mut [0; plain::TEST_WORK]);
        input.entry == Entry::Check
            && matches!(passes, Answer::Accepted(_))
            && answer(&input.table) != answer(&misread(&input.table, idents, reading))
    })
}

#[test]
fn a_checker_that_misreads_names_is_seen() {
    let low = shows_at(false, &|name| name & 0x00FF);
    let high = shows_at(false, &|name| name & 0xFF00);
    let signed = shows_at(false, &|name| name & 0x7FFF);
    // 65,535 is never found: what stands for it is hardly another name of the script.
    let none = shows_at(true, &|name| if name == 65_535 { 40_961 } else { name });
    for (misread, at) in [
        ("low", low),
        ("high", high),
        ("signed", signed),
        ("none", none),
    ] {
        println!("{misread}: {at:?}");
        assert!(at.is_some(), "{misread}");
    }
}

#[test]
fn an_input_is_the_same_alone() {
    let seeds = Seeds::default();
    let mut used = Input::new();
    for index in 0..300 {
        used.make(&mut Random::of(9, index), index, &seeds);
        let mut alone = Input::new();
        alone.make(&mut Random::of(9, index), index, &seeds);
        assert!(used.entry == alone.entry && used.lengths == alone.lengths);
        assert!(used.table == alone.table && used.filling == alone.filling);
        let fills = used.entry == Entry::Fill;
        assert!(!fills || used.goal == alone.goal);
    }
}

#[test]
fn every_length_has_its_turn() {
    let mut seen = SIZES.map(|size| vec![false; size + 1]);
    let mut input = Input::new();
    for turn in 0..seen.iter().map(|room| room.len() as u64).sum() {
        input.lengths = SIZES.map(|size| size + 1);
        input.lend_in_turn(turn);
        let room = (0..6)
            .find(|&room| input.lengths[room] <= SIZES[room])
            .unwrap();
        assert!(input.rooms().contains(&room));
        seen[room][input.lengths[room]] = true;
    }
    assert!(seen.iter().flatten().all(|&seen| seen));
}

#[test]
fn stored_files_tell_their_form() {
    let mut seeds = Seeds::default();
    seeds.add(b"\x01\0\0\0\x02\0\0\0\x01ab").unwrap();
    assert_eq!(seeds.tables, [b"ab"]);
    seeds.add(b"\x01\0\0\0c\x02\0\0\0\x03\0\0\0def").unwrap();
    assert_eq!(
        (
            seeds.tables.len(),
            seeds.triples.len(),
            seeds.triples[0].goal
        ),
        (3, 1, 2)
    );
    seeds.add(b"\x05\0\0\0ghijk").unwrap();
    assert_eq!(seeds.tables[3], b"ghijk");
    assert!(seeds.add(b"\x05\0\0\0ghij").is_err());
}
