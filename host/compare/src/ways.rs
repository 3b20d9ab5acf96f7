//! Ways of shortening, each called alike: the proved code, and those in Rust.
use crate::{tree, Answer, Listed, Operation, WORDS};

/// Work words, none where a call brings its own.
pub type Words<'w> = Option<&'w mut [u32]>;

/// Operation, card, root, out buffer and work words.
pub type Call = fn(Operation, &[u8], &[u8], &mut [u8], Words) -> Answer;

/// The same with a list, and where the number of its entries goes.
pub type ListCall = fn(Operation, &[u8], &[u8], &mut [u8], Words, &mut [u32], &mut u32) -> Answer;

#[derive(Clone, Copy)]
pub struct Way {
    pub what: &'static str,
    pub call: Call,
    pub list_call: ListCall,
    /// Whether it works in words, those lent or its own. Others only look how many there are.
    pub works: bool,
}

/// The proved code.
#[cfg(feature = "console")]
pub const CONSOLE: Way = Way {
    what: "console",
    call: crate::console::shorten,
    list_call: crate::console::shorten_places,
    works: true,
};

pub const TREE: Way = Way {
    what: "tree",
    call: |operation, card, root, out, words| tree::shorten(operation, card, root, out, number(words)),
    list_call: |operation, card, root, out, words, list, entries| {
        counted(tree::shorten_places(operation, card, root, out, number(words), list), entries)
    },
    works: false,
};

/// How many there are, a call's own counted.
pub fn number(words: Words) -> usize {
    words.map_or(WORDS, |words| words.len())
}

/// Puts the number of entries where it goes.
pub fn counted(listed: Listed, entries: &mut u32) -> Answer {
    let (length, count) = listed?;
    *entries = count as u32;
    Ok(length)
}
