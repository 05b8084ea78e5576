//! The stored tests of the repository as a start for damaged tables.

/// An old table, a goal's number and a filling.
pub struct Triple {
    pub old: Vec<u8>,
    pub goal: u16,
    pub filling: Vec<u8>,
}

#[derive(Default)]
pub struct Seeds {
    pub tables: Vec<Vec<u8>>,
    pub triples: Vec<Triple>,
}

impl Seeds {
    /// Adds a file's tables. Which of the three forms it has shows by reading it: only the right one ends with the file.
    pub fn add(&mut self, file: &[u8]) -> Result<(), String> {
        if let Some(tables) = counted(&mut Reader(file)) {
            self.tables.extend(tables);
        } else if let Some(triples) = triples(&mut Reader(file)) {
            self.tables
                .extend(triples.iter().map(|triple| triple.old.clone()));
            self.tables
                .extend(triples.iter().map(|triple| triple.filling.clone()));
            self.triples.extend(triples);
        } else if let Some(tables) = plain(&mut Reader(file)) {
            self.tables.extend(tables);
        } else {
            return Err("has none of the forms of stored tests".to_string());
        }
        Ok(())
    }
}

struct Reader<'a>(&'a [u8]);

impl Reader<'_> {
    fn take(&mut self, many: usize) -> Option<&[u8]> {
        if many > self.0.len() {
            return None;
        }
        let (taken, rest) = self.0.split_at(many);
        self.0 = rest;
        Some(taken)
    }

    fn number(&mut self) -> Option<u32> {
        let four = self.take(4)?;
        Some(u32::from_le_bytes([four[0], four[1], four[2], four[3]]))
    }

    fn table(&mut self) -> Option<Vec<u8>> {
        let length = self.number()?;
        self.take(length as usize).map(<[u8]>::to_vec)
    }

    fn done(&self) -> bool {
        self.0.is_empty()
    }
}

/// A count; then for each table its length, a byte and its bytes.
fn counted(reader: &mut Reader) -> Option<Vec<Vec<u8>>> {
    let mut tables = Vec::new();
    for _ in 0..reader.number()? {
        let length = reader.number()?;
        tables.push(reader.take(1 + length as usize)?[1..].to_vec());
    }
    reader.done().then_some(tables)
}

/// Old table, goal, filling.
fn triples(reader: &mut Reader) -> Option<Vec<Triple>> {
    let mut triples = Vec::new();
    while !reader.done() {
        let old = reader.table()?;
        let goal = reader.number()? as u16;
        triples.push(Triple {
            old,
            goal,
            filling: reader.table()?,
        });
    }
    Some(triples)
}

/// Tables, one after the other.
fn plain(reader: &mut Reader) -> Option<Vec<Vec<u8>>> {
    let mut tables = Vec::new();
    while !reader.done() {
        tables.push(reader.table()?);
    }
    Some(tables)
}
