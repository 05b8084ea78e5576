//! `speed FILE ROUNDS clear|keep`: times the proved checker and the plain one on the scripts of FILE.
//! With `keep` the plain checker leaves its rooms uncleared; the library linked then has to be one that does so too.
use std::env;
use std::fs;
use std::process::exit;
use std::time::{Duration, Instant};

use sporekettle::{GOALS, PROPOSITIONS, TREE, WORK};

/// Scripts by the length of their tables.
const GROUPS: [(&str, usize); 3] = [
    ("up to 512 bytes", 512),
    ("up to 4,096", 4096),
    ("longer", usize::MAX),
];

struct Space {
    tree: Vec<u8>,
    goals: Vec<u8>,
    propositions: Vec<u8>,
    work: Vec<u8>,
}

/// What an answer says, so that the two can be compared and no call is optimised away.
type Told = (bool, u16, u16);

fn proved(table: &[u8], space: &mut Space) -> Told {
    let rooms = sporekettle::Rooms {
        tree: &mut space.tree,
        goals: &mut space.goals,
        propositions: &mut space.propositions,
        work: &mut space.work,
    };
    match sporekettle::check(table, rooms) {
        Ok(accepted) => (
            true,
            accepted.tree().len() as u16,
            accepted.goals().len() as u16,
        ),
        Err(refusal) => (false, refusal.number.into(), refusal.place),
    }
}

fn plain(table: &[u8], space: &mut Space, clear: bool) -> Told {
    let rooms = plain::Rooms {
        tree: &mut space.tree,
        goals: &mut space.goals,
        propositions: &mut space.propositions,
        work: &mut space.work,
    };
    match plain::check(table, rooms, clear) {
        plain::Answer::Accepted(counts) => (true, counts.records, counts.goals),
        plain::Answer::Refused { number, place, .. } => (false, number.into(), place),
    }
}

/// The time of one round over all scripts, and what was told.
fn round(scripts: &[&[u8]], mut one: impl FnMut(&[u8]) -> Told) -> (Duration, Vec<Told>) {
    let mut told = Vec::with_capacity(scripts.len());
    let start = Instant::now();
    for script in scripts {
        told.push(one(script));
    }
    (start.elapsed(), told)
}

/// The shortest round of each, taken in turns.
fn shortest(
    scripts: &[&[u8]],
    rounds: usize,
    clear: bool,
    space: &mut Space,
) -> (Duration, Duration) {
    let mut best = (Duration::MAX, Duration::MAX);
    for _ in 0..rounds {
        let (ours, told) = round(scripts, |script| proved(script, space));
        let (theirs, also) = round(scripts, |script| plain(script, space, clear));
        if let Some(i) = (0..told.len()).find(|&i| told[i] != also[i]) {
            eprintln!(
                "the two disagree on a script: {:?} and {:?}",
                told[i], also[i]
            );
            exit(1);
        }
        best = (best.0.min(ours), best.1.min(theirs));
    }
    best
}

/// The tables of a file, each after its length.
fn tables(bytes: &[u8]) -> Vec<&[u8]> {
    let mut found = Vec::new();
    let mut rest = bytes;
    while let Some((length, after)) = rest.split_first_chunk::<4>() {
        let (table, behind) = after.split_at(u32::from_le_bytes(*length) as usize);
        found.push(table);
        rest = behind;
    }
    found
}

fn report(name: &str, count: usize, times: (Duration, Duration)) {
    let each = |time: Duration| time.as_secs_f64() * 1e6 / count.max(1) as f64;
    println!(
        "{name:<16} {count:>6} scripts  proved {:>8.2} us  plain {:>8.2} us  ratio {:.2}",
        each(times.0),
        each(times.1),
        each(times.0) / each(times.1)
    );
}

/// The scripts' bytes, how many rounds, and whether rooms are cleared.
fn asked() -> (Vec<u8>, usize, bool) {
    let arguments: Vec<String> = env::args().skip(1).collect();
    match &arguments[..] {
        [file, rounds, rooms] if rooms == "clear" || rooms == "keep" => {
            let bytes = fs::read(file).unwrap_or_else(|error| stop(&format!("{file}: {error}")));
            let rounds = rounds.parse().unwrap_or_else(|_| stop("how many rounds?"));
            (bytes, rounds, rooms == "clear")
        }
        _ => stop("usage: speed FILE ROUNDS clear|keep"),
    }
}

fn stop(why: &str) -> ! {
    eprintln!("{why}");
    exit(2)
}

fn main() {
    let (bytes, rounds, clear) = asked();
    let scripts = tables(&bytes);
    let mut space = Space {
        tree: vec![0; TREE],
        goals: vec![0; GOALS],
        propositions: vec![0; PROPOSITIONS],
        work: vec![0; WORK],
    };
    let mut least = 0;
    for (name, most) in GROUPS {
        let fits = |script: &&[u8]| (least..=most).contains(&script.len());
        let group: Vec<&[u8]> = scripts.iter().copied().filter(fits).collect();
        report(
            name,
            group.len(),
            shortest(&group, rounds, clear, &mut space),
        );
        least = most.saturating_add(1);
    }
    report(
        "all",
        scripts.len(),
        shortest(&scripts, rounds, clear, &mut space),
    );
}
