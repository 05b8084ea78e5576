//! The command line.

use crate::seeds::Seeds;

pub const USAGE: &str =
    "fire [--seed N] [--inputs N | --seconds N | forever] [--first I] [--cover N] [--seeds FILE..]";

pub enum Until {
    Inputs(u64),
    Seconds(u64),
    Forever,
}

pub struct Arguments {
    pub seed: u64,
    pub first: u64,
    pub until: Until,
    /// How many inputs there must have been at the end, and among them every refusal and every rule.
    pub cover: Option<u64>,
    pub seeds: Seeds,
}

pub fn read(arguments: impl Iterator<Item = String>) -> Result<Arguments, String> {
    let mut arguments = arguments.peekable();
    let mut read = Arguments {
        seed: 1,
        first: 0,
        until: Until::Seconds(60),
        cover: None,
        seeds: Seeds::default(),
    };
    while let Some(argument) = arguments.next() {
        let mut number = || -> Result<u64, String> {
            let text = arguments
                .next()
                .ok_or(format!("{argument} wants a number"))?;
            text.parse()
                .map_err(|_| format!("{argument} wants a number, and {text} is none"))
        };
        match argument.as_str() {
            "--seed" => read.seed = number()?,
            "--first" => read.first = number()?,
            "--cover" => read.cover = Some(number()?),
            "--inputs" => read.until = Until::Inputs(number()?),
            "--seconds" => read.until = Until::Seconds(number()?),
            "forever" => read.until = Until::Forever,
            "--seeds" => {
                while let Some(path) = arguments.next_if(|next| !is_word(next)) {
                    add(&mut read.seeds, &path)?;
                }
            }
            _ => return Err(format!("unknown argument {argument}")),
        }
    }
    Ok(read)
}

fn is_word(argument: &str) -> bool {
    argument.starts_with("--") || argument == "forever"
}

fn add(seeds: &mut Seeds, path: &str) -> Result<(), String> {
    let bytes = std::fs::read(path).map_err(|error| format!("{path}: {error}"))?;
    seeds
        .add(&bytes)
        .map_err(|problem| format!("{path} {problem}"))
}
