//! The maker's context: what is known at a term.

use crate::prop::Id;

#[derive(Clone, Copy)]
pub enum Type {
    Prop(Id),
    Data(u16),
}

#[derive(Clone, Copy)]
pub struct Entry {
    pub name: u16,
    /// The maker's own number for it, not the checker's.
    pub serial: u16,
    pub of: Type,
}

#[derive(Clone, Default)]
pub struct Context(pub Vec<Entry>);

impl Context {
    pub fn find(&self, name: u16) -> Option<&Entry> {
        self.0.iter().rev().find(|entry| entry.name == name)
    }

    /// The name of an entry, if no later one hides it.
    pub fn name_of(&self, serial: u16) -> Option<u16> {
        let entry = self.0.iter().find(|entry| entry.serial == serial)?;
        (self.find(entry.name)?.serial == serial).then_some(entry.name)
    }

    /// The entries that can be named, latest first.
    pub fn seen(&self) -> impl Iterator<Item = Entry> + '_ {
        let seen = move |(at, entry): &(usize, &Entry)| {
            !self.0[at + 1..]
                .iter()
                .any(|later| later.name == entry.name)
        };
        self.0
            .iter()
            .enumerate()
            .rev()
            .filter(seen)
            .map(|(_, entry)| *entry)
    }
}
