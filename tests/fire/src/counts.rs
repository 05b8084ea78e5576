//! What has been tried so far.

use std::collections::BTreeMap;

use crate::bench::Outcome;
use crate::input::{Entry, Input, ANSWER};
use plain::Answer;
use sporekettle::{Refusal, Rule};

#[derive(Default)]
pub struct Counts {
    pub inputs: u64,
    accepted: [u64; 4],
    /// By number, how often each entry gave it.
    refused: BTreeMap<u8, [u64; 4]>,
    goals: u64,
    short: u64,
    no_answer: u64,
    twice: u64,
    demanded: u64,
    /// Of these, checks of the edited table that were refused 30.
    late: u64,
    /// How often each rule stood in an accepted tree, and how many trees were how long.
    rules: [u64; Rule::ALL.len()],
    lengths: [u64; 5],
    made: u64,
}

impl Counts {
    /// Counts an input that went well. `tree` has the records of an acceptance.
    pub fn add(&mut self, input: &Input, outcome: &Outcome, tree: &[u8]) {
        self.inputs += 1;
        self.short += u64::from(input.short());
        if input.answer < ANSWER {
            self.no_answer += 1;
            return;
        }
        self.twice += u64::from(input.twice);
        self.demanded += u64::from(outcome.edited.is_some());
        self.late += u64::from(matches!(outcome.edited, Some(Answer::Refused { .. })));
        let entry = input.entry as usize;
        match outcome.answer {
            Answer::Accepted(counts) => {
                self.accepted[entry] += 1;
                self.goals += u64::from(counts.goals > 0);
                self.made += u64::from(counts.made > 0);
                self.add_tree(tree);
            }
            Answer::Refused { number, .. } => {
                self.refused.entry(number).or_default()[entry] += 1;
            }
        }
    }

    fn add_tree(&mut self, tree: &[u8]) {
        for record in tree.chunks(16) {
            self.rules[usize::from(record[0])] += 1;
        }
        let length = match tree.len() / 16 {
            0 => return,
            1 => 0,
            2..=7 => 1,
            8..=31 => 2,
            32..=127 => 3,
            _ => 4,
        };
        self.lengths[length] += 1;
    }

    /// How often each rule came up, and how long the trees were.
    pub fn trees(&self) -> String {
        let rules: Vec<String> = Rule::ALL
            .iter()
            .zip(self.rules)
            .map(|(rule, many)| format!("{rule} {many}"))
            .collect();
        let [one, few, some, many, most] = self.lengths;
        format!(
            "rules in accepted trees: {}\ntrees of 1 record: {one}, up to 7: {few}, up to 31: {some}, up to 127: \
             {many}, more: {most}; {} with made propositions\n",
            rules.join(", "),
            self.made
        )
    }

    /// A row for each number that can be given, and how often each entry gave it.
    pub fn table(&self) -> String {
        let row = |name: String, of: &[u64; 4]| {
            format!(
                "{name:>8} {:>10} {:>10} {:>10} {:>12}\n",
                of[0], of[1], of[2], of[3]
            )
        };
        let heads = ["check", "fill", "test_table", "test_filling"];
        let mut table = format!(
            "{:>8} {:>10} {:>10} {:>10} {:>12}\n",
            "", heads[0], heads[1], heads[2], heads[3]
        );
        table += &row("accepted".to_string(), &self.accepted);
        let mut refused = self.refused.clone();
        for &number in Refusal::NUMBERS {
            refused.entry(number).or_default();
        }
        for (number, of) in refused {
            table += &row(number.to_string(), &of);
        }
        table
    }

    /// What was not tried, if it had to be: so many inputs, every number that can be given, and every rule.
    pub fn covers(&self, inputs: u64) -> Result<(), String> {
        let mut missing = Vec::new();
        if self.inputs < inputs {
            missing.push(format!("{} more inputs", inputs - self.inputs));
        }
        let met = |number: &u8| self.refused.contains_key(number);
        let unmet = Refusal::NUMBERS.iter().filter(|number| !met(number));
        missing.extend(unmet.map(|number| format!("refusal {number}")));
        if self.late == 0 {
            missing.push("a filling after which the edited table is refused 30".to_string());
        }
        let rules = Rule::ALL.iter().zip(self.rules);
        missing.extend(
            rules
                .filter(|(_, many)| *many == 0)
                .map(|(rule, _)| format!("rule {rule}")),
        );
        if missing.is_empty() {
            return Ok(());
        }
        Err(format!(
            "too little was tried; wanting: {}",
            missing.join(", ")
        ))
    }

    pub fn line(&self) -> String {
        let checks = Entry::Check as usize;
        let refused: u64 = self.refused.values().map(|of| of[checks]).sum();
        format!(
            "{} inputs, {} of {} checks accepted, {} acceptances with goals, {} with a short room, {} with a short \
             answer room, {} run twice, {} fillings held against a check, {} of these refused 30",
            self.inputs,
            self.accepted[checks],
            self.accepted[checks] + refused,
            self.goals,
            self.short,
            self.no_answer,
            self.twice,
            self.demanded,
            self.late
        )
    }
}
