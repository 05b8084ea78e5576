//! The stored tests: the input and the expected output of a program in `crates/`.

use std::fs;
use std::path::PathBuf;

fn stored(program: &str, file: &str) -> Vec<u8> {
    let here = PathBuf::from(env!("CARGO_MANIFEST_DIR"));
    let path = here.join("../crates").join(program).join(file);
    fs::read(&path).unwrap_or_else(|why| panic!("{}: {why}", path.display()))
}

/// What the program is to print.
pub fn expected(program: &str) -> String {
    String::from_utf8(stored(program, "stdout")).expect("text")
}

/// What the program reads, piece by piece.
pub struct Input {
    bytes: Vec<u8>,
    at: usize,
}

impl Input {
    pub fn of(program: &str) -> Input {
        Input {
            bytes: stored(program, "stdin"),
            at: 0,
        }
    }

    pub fn take(&mut self, length: usize) -> Vec<u8> {
        let start = self.at;
        self.at += length;
        self.bytes[start..self.at].to_vec()
    }

    pub fn ended(&self) -> bool {
        self.at == self.bytes.len()
    }

    /// A number of 32 bits, low byte first.
    pub fn number(&mut self) -> usize {
        let bytes = self.take(4).try_into().expect("four bytes");
        u32::from_le_bytes(bytes) as usize
    }

    /// A table after its length.
    pub fn table(&mut self) -> Vec<u8> {
        let length = self.number();
        self.take(length)
    }
}

/// The tables of `replay_tables`, each with whether it is tested as a filling.
pub fn tables() -> Vec<(bool, Vec<u8>)> {
    let mut input = Input::of("replay_tables");
    let count = input.number();
    let tables = (0..count).map(|_| {
        let length = input.number();
        let filling = input.take(1)[0] != 0;
        (filling, input.take(length))
    });
    let tables = tables.collect();
    assert!(input.ended(), "there is more input than the tables counted");
    tables
}
