//! The letter of the benchmark, laid out as in the crate `bindings`, and what the calls answer.

/// A letter by its number, ordered by size.
#[repr(C)]
#[derive(Clone, Copy, PartialEq, Eq, PartialOrd, Ord, Debug, Default)]
pub struct Letter {
    pub number: u32,
}

#[derive(Clone, Copy, PartialEq, Eq, Debug)]
pub enum Side {
    Left,
    Right,
}

/// A telling row: its letters, and the word that has it.
pub type Row = Option<(Side, Vec<Letter>)>;

/// The scratch that the longest words want.
pub const SCRATCH: usize = 16 * (2 * LONGEST + 2);

pub const LONGEST: usize = 4096;
