//! The rooms that a call wants: lent by the caller, or owned.

/// Bytes of the tree room.
pub const TREE: usize = 16_384;
/// Bytes of the goals room.
pub const GOALS: usize = 4_096;
/// Bytes of the propositions room.
pub const PROPOSITIONS: usize = 49_152;
/// Bytes of the work room of [`check`](crate::check) and [`fill`](crate::fill).
pub const WORK: usize = 65_536;
/// Bytes of the room for the edited table of [`fill`](crate::fill).
pub const EDITED: usize = 49_152;
/// Bytes of the work room of [`test_table`](crate::test_table) and
/// [`test_filling`](crate::test_filling).
pub const TEST_WORK: usize = 2_048;

/// The stack that a call may need at most, in bytes: measured and tested, not proved. Threads have
/// more than that unless they were asked to have less.
pub const STACK: usize = 262_144;

/// Four rooms that are lent to a call. They need not be cleared.
///
/// Any lengths may be lent. A room that is shorter than its constant is refusal 1. Of a longer one
/// the bytes behind that are never touched.
///
/// After a refusal the listed bytes are zeros, as far as the room goes. After an acceptance so are
/// the unused rest of each room and the whole work room.
///
/// ```
/// use sporekettle::{check, Rooms, GOALS, PROPOSITIONS, TREE};
///
/// let (mut tree, mut goals) = (vec![0; TREE], vec![0; GOALS]);
/// let mut propositions = vec![0; PROPOSITIONS];
/// let rooms = Rooms {
///     tree: &mut tree,
///     goals: &mut goals,
///     propositions: &mut propositions,
///     work: &mut [], // too short
/// };
/// assert_eq!(check(b"no table", rooms).unwrap_err().number, 1);
/// ```
pub struct Rooms<'a> {
    /// Gets the tree records; [`TREE`] bytes.
    pub tree: &'a mut [u8],
    /// Gets the goals; [`GOALS`] bytes.
    pub goals: &'a mut [u8],
    /// Gets the table's propositions and those made; [`PROPOSITIONS`] bytes.
    pub propositions: &'a mut [u8],
    /// Used during the call; [`WORK`] bytes.
    pub work: &'a mut [u8],
}

/// Rooms of the right sizes, for those who do not lend their own. They are on the heap, and can be
/// used again for any number of calls.
///
/// ```
/// let mut space = sporekettle::Space::new();
/// let refusal = sporekettle::check(b"no table", space.rooms()).unwrap_err();
/// assert_eq!(refusal.number, 2);
/// ```
pub struct Space {
    tree: Box<[u8]>,
    goals: Box<[u8]>,
    propositions: Box<[u8]>,
    work: Box<[u8]>,
    edited: Box<[u8]>,
}

impl Space {
    /// New rooms: 180 KiB in all.
    pub fn new() -> Space {
        Space {
            tree: room(TREE),
            goals: room(GOALS),
            propositions: room(PROPOSITIONS),
            work: room(WORK),
            edited: room(EDITED),
        }
    }

    /// The rooms for a [`check`](crate::check).
    pub fn rooms(&mut self) -> Rooms<'_> {
        self.rooms_and_edited().0
    }

    /// The rooms for a [`fill`](crate::fill), and the one for the edited table.
    pub fn rooms_and_edited(&mut self) -> (Rooms<'_>, &mut [u8]) {
        let rooms = Rooms {
            tree: &mut self.tree,
            goals: &mut self.goals,
            propositions: &mut self.propositions,
            work: &mut self.work,
        };
        (rooms, &mut self.edited)
    }
}

impl Default for Space {
    fn default() -> Space {
        Space::new()
    }
}

fn room(size: usize) -> Box<[u8]> {
    vec![0; size].into_boxed_slice()
}
