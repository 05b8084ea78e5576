//! Rooms that are too short: refusal 1, and zeros as far as they go.

use sporekettle::{check, fill, test_filling, test_table, Refusal, Which, TEST_WORK};

use crate::input::Input;
use crate::lent::{Lent, Room, NOTHING};

const REFUSED_1: Refusal = Refusal {
    number: 1,
    place: 0,
    table: Which::Old,
};
const EDITED_ROOM: usize = 4;

/// The first stored script, which is accepted.
fn script() -> Vec<u8> {
    Input::of("trace").table()
}

/// All rooms, one of them cut to a length.
fn cut(room: usize, length: usize) -> Lent {
    let mut lent = Lent::new();
    lent.0[room].length = length;
    lent
}

fn refuses(room: usize, length: usize) {
    let table = script();
    if room != EDITED_ROOM {
        let mut lent = cut(room, length);
        assert_eq!(check(&table, lent.rooms().0).unwrap_err(), REFUSED_1);
        lent.look(NOTHING);
    }
    let mut lent = cut(room, length);
    let (rooms, edited) = lent.rooms();
    assert_eq!(
        fill(&table, 0, &table, rooms, edited).unwrap_err(),
        REFUSED_1
    );
    lent.look(NOTHING);
    lent.0[EDITED_ROOM].look(0);
}

#[test]
fn a_room_may_not_be_too_short() {
    let listed = [16_384, 4_096, 49_152, 65_536, 49_152];
    for (room, length) in listed.into_iter().enumerate() {
        refuses(room, length - 1);
        refuses(room, 0);
    }
}

#[test]
fn no_rooms_at_all() {
    let mut lent = Lent::new();
    for room in &mut lent.0 {
        room.length = 0;
    }
    let (rooms, edited) = lent.rooms();
    assert_eq!(fill(&[], 0, &[], rooms, edited).unwrap_err(), REFUSED_1);
    assert_eq!(check(&[], lent.rooms().0).unwrap_err(), REFUSED_1);
    lent.look(NOTHING);
}

#[test]
fn rooms_of_just_the_listed_sizes_will_do() {
    let mut space = sporekettle::Space::new();
    assert!(check(&script(), space.rooms()).is_ok());
}

#[test]
fn the_work_room_of_the_tests() {
    for test in [test_table, test_filling] {
        for length in [TEST_WORK - 1, 0] {
            let mut work = Room::new(TEST_WORK);
            work.length = length;
            assert_eq!(test(&script(), work.lend()), Err(REFUSED_1));
            work.look(0);
        }
    }
}
