//! The ways that are compared and measured.
use crate::walk::{self, Quick};
use compare::ways::{counted, number, Way, TREE};
use std::hash::{BuildHasher, RandomState};

/// The walk, its hashes made by `S`.
const fn walk<S: BuildHasher + Default>(what: &'static str) -> Way {
    Way {
        what,
        call: |operation, card, root, out, words| {
            walk::shorten::<S>(operation, card, root, out, number(words))
        },
        list_call: |operation, card, root, out, words, list, entries| {
            counted(walk::shorten_places::<S>(operation, card, root, out, number(words), list), entries)
        },
        works: false,
    }
}

pub const WAYS: &[Way] = &[
    #[cfg(feature = "console")]
    compare::ways::CONSOLE,
    TREE,
    // A HashMap as it comes.
    walk::<RandomState>("walk"),
    walk::<Quick>("quick"),
];
