//! The calls of the library, and all the `unsafe` of this crate.
//!
//! Why each call is sound: a slice's pointer is never null and its length never above
//! `isize::MAX`, its bytes are initialised, and the borrows see to the rest: a `&mut` room shares
//! no byte with anything else, and nobody touches rooms or tables before the call is back.

use crate::raw;
use crate::record::word;
use crate::Rooms;

/// The 16 bytes of an answer.
pub(crate) struct Answer([u8; raw::ANSWER]);

impl Answer {
    /// What a call writes into a room for its answer.
    fn of(call: impl FnOnce(&mut [u8]) -> u32) -> Answer {
        let mut bytes = [0; raw::ANSWER];
        let returned = call(&mut bytes);
        // The room is long enough, so the library has answered. If it is another library that was
        // linked, zeros must not pass for an acceptance.
        assert_eq!(returned, raw::ANSWERED);
        Answer(bytes)
    }

    pub(crate) fn byte(&self, at: usize) -> u8 {
        self.0[at]
    }

    pub(crate) fn word(&self, at: usize) -> u16 {
        word(&self.0, at)
    }
}

pub(crate) fn check(table: &[u8], rooms: &mut Rooms<'_>) -> Answer {
    // SAFETY: see the module.
    Answer::of(|answer| unsafe {
        raw::sporekettle_check(
            table.as_ptr(),
            table.len(),
            rooms.tree.as_mut_ptr(),
            rooms.tree.len(),
            rooms.goals.as_mut_ptr(),
            rooms.goals.len(),
            rooms.propositions.as_mut_ptr(),
            rooms.propositions.len(),
            rooms.work.as_mut_ptr(),
            rooms.work.len(),
            answer.as_mut_ptr(),
            answer.len(),
        )
    })
}

pub(crate) fn fill(
    old: &[u8],
    goal: u16,
    filling: &[u8],
    rooms: &mut Rooms<'_>,
    edited: &mut [u8],
) -> Answer {
    // SAFETY: see the module.
    Answer::of(|answer| unsafe {
        raw::sporekettle_fill(
            old.as_ptr(),
            old.len(),
            goal,
            filling.as_ptr(),
            filling.len(),
            rooms.tree.as_mut_ptr(),
            rooms.tree.len(),
            rooms.goals.as_mut_ptr(),
            rooms.goals.len(),
            rooms.propositions.as_mut_ptr(),
            rooms.propositions.len(),
            rooms.work.as_mut_ptr(),
            rooms.work.len(),
            edited.as_mut_ptr(),
            edited.len(),
            answer.as_mut_ptr(),
            answer.len(),
        )
    })
}

pub(crate) fn test_table(table: &[u8], work: &mut [u8]) -> Answer {
    // SAFETY: see the module.
    Answer::of(|answer| unsafe {
        raw::sporekettle_test_table(
            table.as_ptr(),
            table.len(),
            work.as_mut_ptr(),
            work.len(),
            answer.as_mut_ptr(),
            answer.len(),
        )
    })
}

pub(crate) fn test_filling(filling: &[u8], work: &mut [u8]) -> Answer {
    // SAFETY: see the module.
    Answer::of(|answer| unsafe {
        raw::sporekettle_test_filling(
            filling.as_ptr(),
            filling.len(),
            work.as_mut_ptr(),
            work.len(),
            answer.as_mut_ptr(),
            answer.len(),
        )
    })
}
