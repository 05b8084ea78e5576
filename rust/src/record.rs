//! What all readers of a room share: how long its records are, and the numbers in them.

/// Bytes of a header, a tree record and a proposition.
pub(crate) const RECORD: usize = 16;
/// Bytes of a goal.
pub(crate) const GOAL: usize = 8;

/// The number of 16 bits at byte `at`, low byte first.
pub(crate) fn word(bytes: &[u8], at: usize) -> u16 {
    u16::from_le_bytes([bytes[at], bytes[at + 1]])
}
