//! mark FILE: the mark of a proof table. Prints its tree, a node a line with its premises indented
//! below it, and its open goals; or the refusal in words.
//!
//! The exit status is 0 for accepted, 1 for refused, 2 where the file cannot be read.

use std::env;
use std::fs;
use std::process::ExitCode;

use sporekettle::{check, Accepted, Conclusion, Goal, Node, Space};

const REFUSED: u8 = 1;
const PROBLEM: u8 = 2;

fn main() -> ExitCode {
    let files: Vec<_> = env::args_os().skip(1).collect();
    match files.as_slice() {
        [file] => match fs::read(file) {
            Ok(table) => mark(&table),
            Err(why) => problem(&format!("{}: {why}", file.to_string_lossy())),
        },
        _ => problem("usage: mark FILE"),
    }
}

fn problem(why: &str) -> ExitCode {
    eprintln!("{why}");
    ExitCode::from(PROBLEM)
}

fn mark(table: &[u8]) -> ExitCode {
    match check(table, Space::new().rooms()) {
        Ok(accepted) => {
            print_accepted(&accepted);
            ExitCode::SUCCESS
        }
        Err(refusal) => {
            println!("{refusal}");
            ExitCode::from(REFUSED)
        }
    }
}

fn print_accepted(accepted: &Accepted<'_>) {
    println!("accepted; open goals: {}", accepted.goals().len());
    print_node(accepted.tree().root(), 0);
    for (number, goal) in accepted.goals().enumerate() {
        print_goal(number, goal);
    }
}

/// A tree is at most some 130 nodes high, so recursion will do.
fn print_node(node: Node<'_>, depth: usize) {
    print!("{}{}", "  ".repeat(depth), node.rule());
    let serials = node.serials();
    for serial in serials.first.into_iter().chain(serials.second) {
        print!(" {serial}");
    }
    match node.conclusion() {
        Conclusion::Proposition(proposition) => println!(": {proposition}"),
        Conclusion::Datatype(name) => println!(": an object of {name}"),
    }
    for premise in node.premises() {
        print_node(premise, depth + 1);
    }
}

fn print_goal(number: usize, goal: Goal<'_>) {
    let Goal {
        term,
        proposition,
        context_length,
    } = goal;
    println!("goal {number} at term {term}, {context_length} entries known: {proposition}");
}
