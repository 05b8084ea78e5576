//! Runs the library on random and hostile inputs, and holds every answer and every byte of its rooms against a plain
//! second implementation. README.md says what is tried and what is looked at.

mod arguments;
mod bench;
mod big;
mod call;
mod context;
mod counts;
mod damage;
mod give;
mod hostile;
mod input;
mod judge;
mod names;
mod proof;
mod prop;
mod random;
mod room;
mod same;
mod script;
mod seeds;
mod slip;
mod synth;
#[cfg(test)]
mod tests;

use arguments::{Arguments, Until};
use bench::Bench;
use counts::Counts;
use input::Input;
use random::Random;
use std::panic::{catch_unwind, AssertUnwindSafe};
use std::process::ExitCode;
use std::time::{Duration, Instant};

/// All rooms are filled anew before each input whose index this divides, so that a run can begin there again.
const FRESH: u64 = 1024;

fn main() -> ExitCode {
    let arguments = match arguments::read(std::env::args().skip(1)) {
        Ok(arguments) => arguments,
        Err(problem) => {
            eprintln!("fire: {problem}\n{}", arguments::USAGE);
            return ExitCode::from(2);
        }
    };
    println!("seed {}", arguments.seed);
    let begun = Instant::now();
    let mut counts = Counts::default();
    let ended = fire(&arguments, &mut counts).and_then(|()| match arguments.cover {
        Some(inputs) => counts.covers(inputs),
        None => Ok(()),
    });
    print!("{}{}", counts.table(), counts.trees());
    let seconds = begun.elapsed().as_secs_f64();
    println!(
        "{}; {:.0} inputs a second",
        counts.line(),
        counts.inputs as f64 / seconds
    );
    match ended {
        Ok(()) => ExitCode::SUCCESS,
        Err(problem) => {
            eprintln!("fire: {problem}");
            ExitCode::from(1)
        }
    }
}

/// Runs inputs until it is enough, or until one fails.
fn fire(arguments: &Arguments, counts: &mut Counts) -> Result<(), String> {
    let mut bench = Bench::new(arguments.seed);
    let mut input = Input::new();
    let mut clock = Clock::new();
    let mut index = arguments.first;
    loop {
        if index % 64 == 0 && clock.enough(arguments, index, counts) {
            return Ok(());
        }
        if matches!(arguments.until, Until::Inputs(many) if index - arguments.first >= many) {
            return Ok(());
        }
        if index % FRESH == 0 || index == arguments.first {
            bench.refresh(&mut Random::of(!arguments.seed, index));
        }
        let mut random = Random::of(arguments.seed, index);
        input.make(&mut random, index, &arguments.seeds);
        // A panic of the plain checker is a finding too, and wants its input written down.
        let run = catch_unwind(AssertUnwindSafe(|| bench.run(&mut random, &input)));
        let failed = match run {
            Ok(Ok(outcome)) => {
                counts.add(&input, &outcome, bench.tree());
                None
            }
            Ok(Err(problem)) => Some(problem),
            Err(_) => Some("a panic, see above".to_string()),
        };
        if let Some(problem) = failed {
            return Err(written_down(arguments, index, &input, &problem));
        }
        index += 1;
    }
}

/// When to stop, and when to say how far it is.
struct Clock {
    begun: Instant,
    said: Instant,
}

impl Clock {
    fn new() -> Clock {
        let now = Instant::now();
        Clock {
            begun: now,
            said: now,
        }
    }

    fn enough(&mut self, arguments: &Arguments, index: u64, counts: &Counts) -> bool {
        if self.said.elapsed() >= Duration::from_secs(10) {
            self.said = Instant::now();
            let rate = counts.inputs as f64 / self.begun.elapsed().as_secs_f64();
            eprintln!("at input {index}: {}; {rate:.0} a second", counts.line());
        }
        matches!(arguments.until, Until::Seconds(many) if self.begun.elapsed().as_secs() >= many)
    }
}

/// Writes the input to files, and says what is wrong and how to see it again.
fn written_down(arguments: &Arguments, index: u64, input: &Input, problem: &str) -> String {
    let seed = arguments.seed;
    let folder = format!("fire-{seed}-{index}");
    let (goal, lengths, answer) = (input.goal, input.lengths, input.answer);
    let begin = (index - index % FRESH).max(arguments.first);
    let many = index + 1 - begin;
    let about = format!(
        "{problem}\nentry {:?}, goal {goal}\nrooms lent: tree, goals, propositions, work, edited, work of a test: \
         {lengths:?}; answer: {answer}\nthis input alone: --seed {seed} --first {index} --inputs 1\nwith what the \
         rooms held: --seed {seed} --first {begin} --inputs {many}\nboth with the same --seeds\n",
        input.entry
    );
    let write = || -> std::io::Result<()> {
        std::fs::create_dir_all(&folder)?;
        std::fs::write(format!("{folder}/about.txt"), &about)?;
        std::fs::write(format!("{folder}/table"), &input.table)?;
        std::fs::write(format!("{folder}/filling"), &input.filling)
    };
    match write() {
        Ok(()) => format!("input {index} fails; its tables are in {folder}\n{about}"),
        Err(error) => format!("input {index} fails; {folder} can't be written: {error}\n{about}"),
    }
}
