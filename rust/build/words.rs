//! Writes Rust from the tables of words, `docs/refusals.txt` and `docs/rules.txt`, which say what their columns are.
//! `src/refusal.rs` and `src/tree.rs` include what is written here.

use std::fs;
use std::path::Path;

use crate::{stop, variable};

pub fn write() {
    let refusals = read("refusals.txt");
    let refusals = rows(&refusals);
    put("refusals.rs", list(refusals.iter().map(|row| refusal(row))));
    let given = refusals.iter().filter(|row| row[2] != "nobody");
    put("numbers.rs", list(given.map(|row| row[0].to_string())));

    let rules = read("rules.txt");
    let rules = rows(&rules);
    let names: Vec<&str> = rules.iter().map(|row| row[1]).collect();
    put("rules.rs", format!("rules! {{ {} }}\n", names.join(", ")));
    // A row follows in the documentation, so this one ends without a line break.
    let serials: Vec<String> = rules.iter().filter_map(|row| serials(row)).collect();
    put("serials.md", serials.join("\n"));
}

/// The columns of each row. Comments, empty lines and the causes of a refusal, which begin with a dash, are none.
fn rows(table: &str) -> Vec<Vec<&str>> {
    let is_row =
        |line: &&str| !line.trim().is_empty() && !line.starts_with('#') && !line.starts_with(" - ");
    let lines = table.lines().filter(is_row);
    lines
        .map(|line| line.split(" | ").map(str::trim).collect())
        .collect()
}

fn list(items: impl Iterator<Item = String>) -> String {
    let items: String = items.map(|item| format!("    {item},\n")).collect();
    format!("&[\n{items}]\n")
}

fn refusal(row: &[&str]) -> String {
    let [number, place, _, words, ..] = row else {
        stop(&format!(
            "docs/refusals.txt: columns are missing in {row:?}"
        ))
    };
    let counts = match place.split(':').next() {
        Some("none") => "Nothing",
        // Propositions are the file's first records.
        Some("record" | "proposition") => "Records",
        Some("term") => "Terms",
        _ => stop(&format!(
            "docs/refusals.txt: what is the place of {number}?"
        )),
    };
    format!("Row {{ number: {number}, counts: Counts::{counts}, words: {words:?} }}")
}

/// A row of the table of serials in the documentation, for a rule that has some.
fn serials(row: &[&str]) -> Option<String> {
    let [_, name, _, serials, ..] = row else {
        stop(&format!("docs/rules.txt: columns are missing in {row:?}"))
    };
    let (first, second) = serials.split_once(", ").unwrap_or((*serials, "none"));
    (first != "-").then(|| format!("| {name} | {first} | {second} |"))
}

fn read(table: &str) -> String {
    let path = Path::new(&variable("CARGO_MANIFEST_DIR"))
        .join("../docs")
        .join(table);
    println!("cargo:rerun-if-changed={}", path.display());
    fs::read_to_string(&path).unwrap_or_else(|why| stop(&format!("{}: {why}", path.display())))
}

fn put(file: &str, text: String) {
    let path = Path::new(&variable("OUT_DIR")).join(file);
    fs::write(&path, text).unwrap_or_else(|why| stop(&format!("{}: {why}", path.display())));
}
