//! Shortening in Rust, written from the documents and not from the proved code; cards, made for single quirks and random; and the
//! comparison of the proved code with it.
//!
//! [`tree`] is the independent implementation. [`comparison`] holds a [`ways::Way`] of shortening against it, call by call, on
//! a [`case::Case`]; [`at_random`] does so on any number of random cards.
pub mod at_random;
pub mod cards;
pub mod case;
pub mod comparison;
#[cfg(feature = "console")]
pub mod console;
pub mod current;
mod lent;
pub mod own;
pub mod points;
pub mod random;
pub mod report;
pub mod rows;
pub mod stated;
#[cfg(test)]
mod tests;
pub mod text;
pub mod tree;
pub mod ways;

/// Which shortening.
#[derive(Clone, Copy, Debug, PartialEq)]
pub enum Operation {
    /// The one that the Dafny text defines: a nested module's name stands twice in its prefix, and in a Fn a
    /// path type is wrapped once more for each type and expression around it.
    Upstream,
    /// Straight shortening: the name stands once, and a path type is wrapped once everywhere.
    Straight,
}

impl Operation {
    pub const BOTH: [Operation; 2] = [Operation::Upstream, Operation::Straight];

    /// With what its lines of the vectors begin.
    pub fn word(self) -> &'static str {
        match self {
            Operation::Upstream => "old",
            Operation::Straight => "straight",
        }
    }
}

/// A refusal's number and place.
pub type Refusal = (u32, u32);

/// The output's length or a refusal.
pub type Answer = Result<usize, Refusal>;

/// The output's length and how many entries its list of places has, or a refusal.
pub type Listed = Result<(usize, usize), Refusal>;

/// The second word of an entry. The first is the record's offset in the output.
#[derive(Clone, Copy, Debug, PartialEq)]
pub enum Mark {
    /// The outermost synonym put around a path type.
    Type = 1,
    /// An Identifier put for a path expression.
    Expr = 2,
    /// A UseDecl put ahead of a body.
    Use = 3,
}

/// The last request of document 02 that is answered here. Vectors of later ones aren't read.
pub const LANDED: u32 = 5;
/// Work words: fewer are refused, and the console's call brings so many where none are lent.
pub const WORDS: usize = 2048;
pub const MOST_CARD: usize = 32768;
pub const MOST_ROOT: usize = 256;
/// No output is longer than so many times its card.
pub const MOST_TIMES: usize = 42;
/// The same of straight shortening.
pub const MOST_TIMES_STRAIGHT: usize = 4;
/// No list has more entries: a path that is shortened takes 24 bytes of the card or more and has two at
/// most, its own and a use's.
pub const MOST_ENTRIES: usize = MOST_CARD / 24 * 2;

/// How many pairs a module may have where so many work words are lent.
pub fn most_pairs(words: usize) -> usize {
    (words / 4).min(1024)
}
