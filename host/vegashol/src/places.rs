use std::fmt;

/// What stands at a place of an output.
#[derive(Clone, Copy, Debug, PartialEq, Eq, Hash)]
pub enum Mark {
    /// A path type that was shortened: the outermost synonym put around it.
    Type = 1,
    /// An identifier put for a path expression.
    Expr = 2,
    /// A use put ahead of a module's body.
    Use = 3,
}

/// A record of the output that was put in or shortened.
#[derive(Clone, Copy, Debug, PartialEq, Eq, Hash)]
pub struct Place {
    /// Where the record starts in the output.
    pub offset: usize,
    pub mark: Mark,
}

/// The places of an output, their offsets rising: every shortened name and every use put in, and nothing else.
#[derive(Clone, Copy, PartialEq, Eq)]
pub struct Places<'l> {
    words: &'l [u32],
}

impl<'l> Places<'l> {
    /// Two words an entry.
    pub(crate) fn new(words: &'l [u32]) -> Places<'l> {
        Places { words }
    }

    pub fn len(&self) -> usize {
        self.words.len() / 2
    }

    pub fn is_empty(&self) -> bool {
        self.words.is_empty()
    }

    pub fn iter(&self) -> impl ExactSizeIterator<Item = Place> + 'l {
        self.words.chunks_exact(2).map(|entry| Place {
            offset: entry[0] as usize,
            mark: match entry[1] {
                1 => Mark::Type,
                2 => Mark::Expr,
                3 => Mark::Use,
                // The library is proved to fill a list with these marks alone.
                other => unreachable!("a place has mark 1 to 3, and not {other}"),
            },
        })
    }
}

impl fmt::Debug for Places<'_> {
    fn fmt(&self, f: &mut fmt::Formatter) -> fmt::Result {
        f.debug_list().entries(self.iter()).finish()
    }
}
