//! Runs an input over the library and over the plain checker, and holds the one against the other.

use crate::call::{self, Lent};
use crate::input::{Entry, Input, ANSWER, EDITED, SIZES};
use crate::judge::{cleared, same_answer, same_results, used, Results};
use crate::random::Random;
use crate::room::{Noise, Room, TableRoom, LONGER};
use crate::same::Meanings;
use plain::{Answer, Which};

const NAMES: [&str; 6] = ["tree", "goals", "propositions", "work", "edited", "work"];

pub struct Bench {
    noise: Noise,
    rooms: [Room; 6],
    answer: Room,
    table: TableRoom,
    filling: TableRoom,
    /// The plain checker's rooms.
    judge: [Vec<u8>; 6],
    meanings: Meanings,
    /// The used bytes that an input's first run left, for its second.
    first: Vec<u8>,
    /// The tree of the last input, if it was accepted.
    tree: Vec<u8>,
}

/// What an input came to.
pub struct Outcome {
    pub answer: Answer,
    /// The check of the edited table, if the filling was held against one.
    pub edited: Option<Answer>,
}

impl Bench {
    pub fn new(seed: u64) -> Bench {
        Bench {
            noise: Noise::new(seed),
            rooms: SIZES.map(Room::new),
            answer: Room::new(ANSWER),
            table: TableRoom::default(),
            filling: TableRoom::default(),
            judge: SIZES.map(|size| vec![0; size + LONGER]),
            meanings: Meanings::default(),
            first: Vec::new(),
            tree: Vec::new(),
        }
    }

    /// Fills all rooms with noise, so that what comes does not hang on what was.
    pub fn refresh(&mut self, random: &mut Random) {
        for room in &mut self.rooms {
            room.refresh(random, &self.noise);
        }
        self.answer.refresh(random, &self.noise);
    }

    pub fn run(&mut self, random: &mut Random, input: &Input) -> Result<Outcome, String> {
        let answer = self.judged(input);
        self.keep_tree(&answer);
        self.once(random, input, &answer)?;
        let mut edited = None;
        if input.answer >= ANSWER {
            if input.twice {
                self.again(random, input, &answer)?;
            }
            if let (Entry::Fill, Answer::Accepted(counts), true) =
                (input.entry, answer, input.demand)
            {
                edited = Some(self.demand(random, input, &counts)?);
            }
        }
        Ok(Outcome { answer, edited })
    }

    /// The records of the last input's tree; none if it was refused.
    pub fn tree(&self) -> &[u8] {
        &self.tree
    }

    fn keep_tree(&mut self, answer: &Answer) {
        self.tree.clear();
        if let Answer::Accepted(counts) = answer {
            let length = 16 * usize::from(counts.records);
            self.tree.extend_from_slice(&self.judge[0][..length]);
        }
    }

    /// The plain checker's answer; its results stay in its rooms.
    fn judged(&mut self, input: &Input) -> Answer {
        let [tree, goals, propositions, work, edited, test_work] = &mut self.judge;
        let [a, b, c, d, e, f] = input.lengths;
        let rooms = plain::Rooms {
            tree: &mut tree[..a],
            goals: &mut goals[..b],
            propositions: &mut propositions[..c],
            work: &mut work[..d],
        };
        match input.entry {
            Entry::Check => plain::check(&input.table, rooms, false),
            Entry::Fill => {
                let edited = &mut edited[..e];
                plain::fill(
                    &input.table,
                    input.goal,
                    &input.filling,
                    rooms,
                    edited,
                    false,
                )
            }
            Entry::TestTable => plain::test_table(&input.table, &mut test_work[..f]),
            Entry::TestFilling => plain::test_filling(&input.filling, &mut test_work[..f]),
        }
    }

    /// One call of the library, judged.
    fn once(&mut self, random: &mut Random, input: &Input, answer: &Answer) -> Result<(), String> {
        self.prepare(random, input);
        let returned = self.call(input);
        self.judge_call(input, returned, answer)
    }

    pub fn prepare(&mut self, random: &mut Random, input: &Input) {
        let open = input.answer >= ANSWER;
        for room in input.rooms() {
            self.rooms[room].prepare(random, &self.noise, input.lengths[room], open);
        }
        self.answer.prepare(random, &self.noise, input.answer, open);
        self.table.hold(&input.table, random, &self.noise);
        self.filling.hold(&input.filling, random, &self.noise);
    }

    /// What a call returned and left behind, beside the plain checker's answer.
    pub fn judge_call(
        &mut self,
        input: &Input,
        returned: u32,
        answer: &Answer,
    ) -> Result<(), String> {
        self.untouched(input)?;
        let open = input.answer >= ANSWER;
        if returned != u32::from(!open) {
            return Err(format!("the call returned {returned}"));
        }
        if !open {
            return Ok(());
        }
        same_answer(self.answer.written(), answer)?;
        self.judge_rooms(input, answer)
    }

    pub fn call(&mut self, input: &Input) -> u32 {
        let [tree, goals, propositions, work, edited, test_work] = &mut self.rooms;
        let rooms = Lent {
            tree: tree.lend(),
            goals: goals.lend(),
            propositions: propositions.lend(),
            work: work.lend(),
        };
        let (table, filling, answer) = (self.table.lend(), self.filling.lend(), self.answer.lend());
        match input.entry {
            Entry::Check => call::check(table, rooms, answer),
            Entry::Fill => call::fill(table, input.goal, filling, rooms, edited.lend(), answer),
            Entry::TestTable => call::test_table(table, test_work.lend(), answer),
            Entry::TestFilling => call::test_filling(filling, test_work.lend(), answer),
        }
    }

    /// Nothing outside the rooms was written, and no table.
    fn untouched(&self, input: &Input) -> Result<(), String> {
        for room in input.rooms() {
            if let Some(at) = self.rooms[room].touched() {
                return Err(format!("byte {at} of the {} room was touched", NAMES[room]));
            }
        }
        if let Some(at) = self.answer.touched() {
            return Err(format!("byte {at} of the answer room was touched"));
        }
        if !self.table.stayed() || !self.filling.stayed() {
            return Err("a table was changed, or a byte beside one".to_string());
        }
        Ok(())
    }

    fn judge_rooms(&mut self, input: &Input, answer: &Answer) -> Result<(), String> {
        if input.short() && *answer != too_short() {
            return Err("a room is too short, and the answer is not refusal 1".to_string());
        }
        let library = results(&self.rooms, input.entry);
        let tested = matches!(input.entry, Entry::TestTable | Entry::TestFilling);
        let counts = match answer {
            Answer::Accepted(counts) if !tested => counts,
            _ => return cleared(&library),
        };
        let [tree, goals, propositions, work, edited, _] = &self.judge;
        let judge = Results {
            tree,
            goals,
            propositions,
            work,
            edited,
        };
        let filled = input.entry == Entry::Fill;
        let used = used(counts, if filled { edited } else { &input.table }, filled)?;
        same_results(&mut self.meanings, &used, &library, &judge)
    }

    /// The same call with other dirt must leave the same bytes.
    fn again(&mut self, random: &mut Random, input: &Input, answer: &Answer) -> Result<(), String> {
        self.keep(input, answer)?;
        self.once(random, input, answer)?;
        self.as_kept(input, answer)
    }

    /// Keeps what a run left in the used part of its rooms. What is behind was found to be zeros.
    pub fn keep(&mut self, input: &Input, answer: &Answer) -> Result<(), String> {
        let fronts = self.fronts(input, answer)?;
        self.first.clear();
        for (room, length) in input.rooms().zip(fronts) {
            let front = &self.rooms[room].written()[..length];
            self.first.extend_from_slice(front);
        }
        Ok(())
    }

    pub fn as_kept(&self, input: &Input, answer: &Answer) -> Result<(), String> {
        let fronts = self.fronts(input, answer)?;
        let mut rest = &self.first[..];
        for (room, length) in input.rooms().zip(fronts) {
            let (before, behind) = rest.split_at(length);
            if self.rooms[room].written()[..length] != *before {
                let name = NAMES[room];
                return Err(format!("two runs left different bytes in the {name} room"));
            }
            rest = behind;
        }
        Ok(())
    }

    /// How many bytes of each room are used.
    fn fronts(&self, input: &Input, answer: &Answer) -> Result<[usize; 5], String> {
        let table = match input.entry {
            Entry::Check => &input.table[..],
            Entry::Fill => &self.judge[EDITED],
            _ => return Ok([0; 5]),
        };
        let Answer::Accepted(counts) = answer else {
            return Ok([0; 5]);
        };
        let used = used(counts, table, input.entry == Entry::Fill)?;
        Ok([used.tree, used.goals, used.propositions, 0, used.edited])
    }

    /// After an accepted filling: a check of the edited table is refused 30, or it has the old counts with the filling's
    /// in the place of the goal.
    fn demand(
        &mut self,
        random: &mut Random,
        input: &Input,
        filling: &plain::Counts,
    ) -> Result<Answer, String> {
        let fronts = self.fronts(input, &Answer::Accepted(*filling))?;
        let edited = self.rooms[EDITED].written()[..fronts[EDITED]].to_vec();
        let old = self.checked(random, &input.table, "old")?;
        let new = self.checked(random, &edited, "edited")?;
        demand_holds(&old, filling, &new)?;
        Ok(new)
    }

    /// The answer to a check, on which both have to agree as on any other.
    fn checked(&mut self, random: &mut Random, table: &[u8], name: &str) -> Result<Answer, String> {
        let mut input = Input::new();
        input.table.extend_from_slice(table);
        let answer = self.judged(&input);
        self.once(random, &input, &answer)
            .map_err(|problem| format!("a check of the {name} table: {problem}"))?;
        Ok(answer)
    }

    /// The rooms of this input, the answer room last.
    #[cfg(test)]
    pub fn lent(&mut self, input: &Input) -> Vec<&mut Room> {
        let rooms = self.rooms[input.rooms()].iter_mut();
        rooms.chain([&mut self.answer]).collect()
    }

    #[cfg(test)]
    pub fn tables(&mut self) -> [&mut TableRoom; 2] {
        [&mut self.table, &mut self.filling]
    }
}

/// What a call left in the rooms that it was lent.
fn results(rooms: &[Room; 6], entry: Entry) -> Results<'_> {
    let [tree, goals, propositions, work, edited, test_work] = rooms;
    let mut results = Results::default();
    if matches!(entry, Entry::TestTable | Entry::TestFilling) {
        results.work = test_work.written();
        return results;
    }
    results.tree = tree.written();
    results.goals = goals.written();
    results.propositions = propositions.written();
    results.work = work.written();
    if entry == Entry::Fill {
        results.edited = edited.written();
    }
    results
}

fn too_short() -> Answer {
    Answer::Refused {
        number: 1,
        place: 0,
        which: Which::Old,
    }
}

pub fn demand_holds(old: &Answer, filling: &plain::Counts, new: &Answer) -> Result<(), String> {
    let holds = match (old, new) {
        (Answer::Accepted(old), Answer::Accepted(new)) => {
            old.records + filling.records == new.records + 1
                && old.goals + filling.goals == new.goals + 1
                && old.serials + filling.serials == new.serials
        }
        (Answer::Accepted(_), Answer::Refused { number, .. }) => *number == 30,
        (Answer::Refused { .. }, _) => false,
    };
    if holds {
        return Ok(());
    }
    Err(format!(
        "old table: {old:?}; filling: {filling:?}; a check of the edited table: {new:?}"
    ))
}
