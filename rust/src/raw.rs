//! The functions of `include/sporekettle.h`, as they are.
//!
//! [`check`](crate::check), [`fill`](crate::fill) and the two tests call these and need no
//! `unsafe`. Every function here asks the same of its caller:
//!
//! - Each pointer is not null, for a length of 0 either, and that many bytes behind it are
//!   initialised and the caller's: to read for a table, to read and write for a room or the
//!   answer.
//! - No length is above `isize::MAX`.
//! - No room, the answer being one, shares a byte with another room or with a table. Two tables
//!   may share bytes.
//! - Until the call is back, nothing else writes to the tables, and nothing else reads or writes
//!   the rooms.
//!
//! Any bytes and any lengths will do otherwise. What is too short or wrong is refused.
//!
//! ```
//! use sporekettle::raw;
//!
//! let (table, mut work, mut answer) = (b"no table", [0u8; 2048], [0u8; raw::ANSWER]);
//! // SAFETY: pointers and lengths are those of three arrays that share nothing.
//! let returned = unsafe {
//!     raw::sporekettle_test_table(
//!         table.as_ptr(),
//!         table.len(),
//!         work.as_mut_ptr(),
//!         work.len(),
//!         answer.as_mut_ptr(),
//!         answer.len(),
//!     )
//! };
//! assert_eq!(returned, raw::ANSWERED);
//! assert_eq!(answer[..2], [raw::REFUSED, 2]);
//! ```

/// The bytes of an answer.
pub const ANSWER: usize = 16;

/// Byte 0 of the answer: accepted.
pub const ACCEPTED: u8 = 0;
/// Byte 0 of the answer: refused.
pub const REFUSED: u8 = 1;

/// Bytes 4 and 5 of the answer: the place is in the old table, or in the only one.
pub const OLD: u16 = 0;
/// Bytes 4 and 5 of the answer: the place is in the filling.
pub const FILLING: u16 = 1;
/// Bytes 4 and 5 of the answer: the place is in the edited table.
pub const EDIT: u16 = 2;

/// What a call returns when the answer is written.
pub const ANSWERED: u32 = 0;
/// What a call returns when the answer room is shorter than [`ANSWER`]. No room was written then.
pub const NO_ROOM: u32 = 1;

extern "C" {
    /// The mark of a table.
    ///
    /// # Safety
    ///
    /// See the [module](self): `table` is a table; `tree`, `goals`, `propositions`, `work` and
    /// `answer` are rooms.
    pub fn sporekettle_check(
        table: *const u8,
        table_length: usize,
        tree: *mut u8,
        tree_length: usize,
        goals: *mut u8,
        goals_length: usize,
        propositions: *mut u8,
        propositions_length: usize,
        work: *mut u8,
        work_length: usize,
        answer: *mut u8,
        answer_length: usize,
    ) -> u32;

    /// Fills goal number `goal`, from 0, of the old table.
    ///
    /// # Safety
    ///
    /// See the [module](self): `old` and `filling` are tables; `tree`, `goals`, `propositions`,
    /// `work`, `edited` and `answer` are rooms.
    pub fn sporekettle_fill(
        old: *const u8,
        old_length: usize,
        goal: u16,
        filling: *const u8,
        filling_length: usize,
        tree: *mut u8,
        tree_length: usize,
        goals: *mut u8,
        goals_length: usize,
        propositions: *mut u8,
        propositions_length: usize,
        work: *mut u8,
        work_length: usize,
        edited: *mut u8,
        edited_length: usize,
        answer: *mut u8,
        answer_length: usize,
    ) -> u32;

    /// Tests 1 to 7 of a table to check.
    ///
    /// # Safety
    ///
    /// See the [module](self): `table` is a table; `work` and `answer` are rooms.
    pub fn sporekettle_test_table(
        table: *const u8,
        table_length: usize,
        work: *mut u8,
        work_length: usize,
        answer: *mut u8,
        answer_length: usize,
    ) -> u32;

    /// Tests 1 to 6 of a filling.
    ///
    /// # Safety
    ///
    /// See the [module](self): `filling` is a table; `work` and `answer` are rooms.
    pub fn sporekettle_test_filling(
        filling: *const u8,
        filling_length: usize,
        work: *mut u8,
        work_length: usize,
        answer: *mut u8,
        answer_length: usize,
    ) -> u32;
}
