//! Calls of the library on slices of any lengths. All unsafe code of this program is here.
//!
//! Why the calls are sound: a slice's pointer is never null, also where it is empty; its bytes belong to the caller for
//! the time of the call; and no two of them share a byte. Tables are lent as if they could be written: if the library did
//! that, by mistake, it would be seen and nothing undefined.

use sporekettle::raw;

/// The rooms of a call of the library.
pub struct Lent<'a> {
    pub tree: &'a mut [u8],
    pub goals: &'a mut [u8],
    pub propositions: &'a mut [u8],
    pub work: &'a mut [u8],
}

/// Calls a function of the library with the pointer and length of each slice.
macro_rules! call {
    ($function:ident, $($table:expr),+; $($goal:expr, $second:expr)?; $($room:expr),+) => {
        // SAFETY: as the head of this file says.
        unsafe {
            raw::$function(
                $($table.as_mut_ptr(), $table.len(),)+
                $($goal, $second.as_mut_ptr(), $second.len(),)?
                $($room.as_mut_ptr(), $room.len(),)+
            )
        }
    };
}

pub fn check(table: &mut [u8], rooms: Lent, answer: &mut [u8]) -> u32 {
    let Lent {
        tree,
        goals,
        propositions,
        work,
    } = rooms;
    call!(sporekettle_check, table; ; tree, goals, propositions, work, answer)
}

pub fn fill(
    old: &mut [u8],
    goal: u16,
    filling: &mut [u8],
    rooms: Lent,
    edited: &mut [u8],
    answer: &mut [u8],
) -> u32 {
    let Lent {
        tree,
        goals,
        propositions,
        work,
    } = rooms;
    call!(sporekettle_fill, old; goal, filling; tree, goals, propositions, work, edited, answer)
}

pub fn test_table(table: &mut [u8], work: &mut [u8], answer: &mut [u8]) -> u32 {
    call!(sporekettle_test_table, table; ; work, answer)
}

pub fn test_filling(filling: &mut [u8], work: &mut [u8], answer: &mut [u8]) -> u32 {
    call!(sporekettle_test_filling, filling; ; work, answer)
}
