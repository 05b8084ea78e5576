//! Whole answers to the stored tests. After each call every room is looked at.

use std::thread;

use sporekettle::{check, fill, test_filling, test_table, Refusal, Which, TEST_WORK};

use crate::input::{expected, tables, Input};
use crate::lent::{used, used_by_filling, Lent, Room, NOTHING};
use crate::lines::{accepted, compare, refused};

fn tested(filling: bool, table: &[u8]) -> String {
    let mut work = Room::new(TEST_WORK);
    let test = if filling { test_filling } else { test_table };
    let line = match test(table, work.lend()) {
        Ok(()) => "passes\n".into(),
        Err(refusal) => refused(refusal),
    };
    work.look(0);
    line
}

fn checked(table: &[u8]) -> String {
    let mut lent = Lent::new();
    let (text, used) = match check(table, lent.rooms().0) {
        Ok(it) => (accepted(&it), used(&it)),
        Err(refusal) => (refused(refusal), NOTHING),
    };
    lent.look(used);
    text
}

fn refused_there(refusal: Refusal) -> String {
    let table = match refusal.table {
        Which::Old => "old",
        Which::Filling => "filling",
        Which::Edited => "edited",
    };
    format!("{}where {table}\n", refused(refusal))
}

fn filled(old: &[u8], goal: u16, filling: &[u8]) -> String {
    let mut lent = Lent::new();
    let (rooms, edited) = lent.rooms();
    let (text, (used, length)) = match fill(old, goal, filling, rooms, edited) {
        Ok(it) => {
            // Two good tables and a good goal give a good table.
            assert_eq!(test_table(it.edited, &mut [0; TEST_WORK]), Ok(()));
            (accepted(&it.accepted), used_by_filling(&it))
        }
        Err(refusal) => (refused_there(refusal), (NOTHING, 0)),
    };
    lent.look(used);
    lent.0[4].look(length);
    text
}

#[test]
fn tables_get_their_verdicts() {
    let got: String = tables()
        .iter()
        .map(|(filling, table)| tested(*filling, table))
        .collect();
    compare(&got, &expected("replay_tables"));
}

fn marks() -> String {
    let mut input = Input::of("trace");
    let mut got = String::new();
    for n in 0.. {
        if input.ended() {
            break;
        }
        got += &format!("table {n}\n{}\n", checked(&input.table()));
    }
    got
}

#[test]
fn scripts_get_their_marks() {
    compare(&marks(), &expected("trace"));
}

/// The library keeps nothing between calls, so threads with rooms of their own go undisturbed.
#[test]
fn threads_do_not_disturb_each_other() {
    let threads: Vec<_> = (0..4).map(|_| thread::spawn(marks)).collect();
    for thread in threads {
        compare(&thread.join().expect("all marks"), &expected("trace"));
    }
}

#[test]
fn fillings_get_their_marks() {
    let mut input = Input::of("trace_fill");
    let mut got = String::new();
    for n in 0.. {
        if input.ended() {
            break;
        }
        let old = input.table();
        // No table has so many goals as 16 bits count.
        let goal = u16::try_from(input.number()).unwrap_or(u16::MAX);
        let filling = input.table();
        got += &format!("table {n}\n{}\n", filled(&old, goal, &filling));
    }
    compare(&got, &expected("trace_fill"));
}
