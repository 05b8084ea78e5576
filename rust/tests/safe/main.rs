//! The safe interface on the repository's stored tests, and on rooms of wrong lengths.

mod input;
mod lent;
mod lines;
mod short;
mod shown;
mod stored;
