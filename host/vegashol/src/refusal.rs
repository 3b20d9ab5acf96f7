use std::{error::Error, fmt};

/// Why a card was refused. Its number is that of the console's answers. The first that is found is the answer: short work, long card,
/// bad root; then those of reading, record by record; full table, no space and short list.
#[derive(Clone, Copy, Debug, PartialEq, Eq, Hash)]
pub enum Reason {
    /// Fewer than [`LEAST_WORK`](crate::LEAST_WORK) work words.
    ShortWork = 1,
    /// A card of more than [`MOST_CARD`](crate::MOST_CARD) bytes.
    LongCard,
    /// Not one sound path, of at most [`MOST_ROOT`](crate::MOST_ROOT) bytes and at most 8 records deep.
    BadRoot,
    /// Fewer than 6 bytes left for a record, or its length under 2 or past the record around it. The place is that record's.
    ShortRecord,
    /// A record of a kind that may not stand there. The place is that record's.
    WrongKind,
    /// A record more than 48 deep. The place is that record's.
    TooDeep,
    /// Bytes behind the end of what a record holds. The place is that of the first of them.
    LeftOver,
    /// A module with more names and paths than the work words have room for. The place is that of its record.
    FullTable,
    /// An output longer than the out buffer.
    NoSpace,
    /// A list with fewer than two words for each place.
    ShortList,
    /// A path's name that is empty or `!`. The place is that of the name's record.
    NoName,
}

impl Reason {
    const ALL: [Reason; 11] = [
        Reason::ShortWork,
        Reason::LongCard,
        Reason::BadRoot,
        Reason::ShortRecord,
        Reason::WrongKind,
        Reason::TooDeep,
        Reason::LeftOver,
        Reason::FullTable,
        Reason::NoSpace,
        Reason::ShortList,
        Reason::NoName,
    ];

    /// The trade's word for it.
    pub fn word(self) -> &'static str {
        match self {
            Reason::ShortWork => "short work",
            Reason::LongCard => "long card",
            Reason::BadRoot => "bad root",
            Reason::ShortRecord => "short record",
            Reason::WrongKind => "wrong kind",
            Reason::TooDeep => "too deep",
            Reason::LeftOver => "left over",
            Reason::FullTable => "full table",
            Reason::NoSpace => "no space",
            Reason::ShortList => "short list",
            Reason::NoName => "no name",
        }
    }

    /// Whether the refusal's place is one in the card, and not 0 for want of one.
    pub fn has_place(self) -> bool {
        use Reason::*;
        matches!(self, ShortRecord | WrongKind | TooDeep | LeftOver | FullTable | NoName)
    }

    /// What is wrong, in plain words.
    pub fn words(self) -> &'static str {
        match self {
            Reason::ShortWork => "fewer than 2,048 work words were lent",
            Reason::LongCard => "the card has more than 32,768 bytes",
            Reason::BadRoot => "the root is not one sound path, of at most 256 bytes and at most 8 records deep",
            Reason::ShortRecord => {
                "a record is due here, but fewer than 6 bytes are left, or its length is under 2 or goes past the record around it"
            }
            Reason::WrongKind => "a record of this kind may not stand here",
            Reason::TooDeep => "this record is more than 48 deep",
            Reason::LeftOver => "a record has ended, and bytes are left over from here on",
            Reason::FullTable => "this module has more names with their paths than the work words have room for",
            Reason::NoSpace => "the output is longer than the out buffer",
            Reason::ShortList => "the list of places has fewer than two words for each entry",
            Reason::NoName => "the name that a path selects here is empty or '!' alone",
        }
    }
}

/// A card that was not shortened. The out buffer and the list are as they were.
///
/// ```
/// let card = [2, 0, 0, 0, 0x60, 0]; // a Mod, and then nothing
/// let mut out = [0; 100];
/// let refusal = vegashol::shorten(&card, vegashol::CRATE, &mut out).unwrap_err();
/// assert_eq!((refusal.number(), refusal.word(), refusal.place), (4, "short record", 6));
/// assert!(refusal.to_string().starts_with("refused, short record (4) at byte 6: a record is due here"));
/// ```
#[derive(Clone, Copy, Debug, PartialEq, Eq, Hash)]
pub struct Refusal {
    pub reason: Reason,
    /// How many bytes of the card are ahead of what is wrong: all of them, where something is due at its end. 0 where the reason has
    /// no place.
    pub place: usize,
}

impl Refusal {
    pub fn number(self) -> u32 {
        self.reason as u32
    }

    /// The trade's word for the reason.
    pub fn word(self) -> &'static str {
        self.reason.word()
    }

    /// From what a call answered; none is an acceptance.
    pub(crate) fn of(number: u32, place: u32) -> Option<Refusal> {
        let before = number.checked_sub(1)?;
        // The library is proved to refuse by these numbers alone.
        let reason = *Reason::ALL.get(before as usize).expect("a refusal's number is 1 to 11");
        Some(Refusal { reason, place: place as usize })
    }
}

impl fmt::Display for Refusal {
    fn fmt(&self, f: &mut fmt::Formatter) -> fmt::Result {
        write!(f, "refused, {} ({})", self.word(), self.number())?;
        if self.reason.has_place() {
            write!(f, " at byte {}", self.place)?;
        }
        write!(f, ": {}", self.reason.words())
    }
}

impl Error for Refusal {}
