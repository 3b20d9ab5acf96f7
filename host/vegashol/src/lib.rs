//! Shortens the long paths of a cue card, by the proved code of the console.
//!
//! A card is a module tree in records, at most 32,768 bytes (`docs/FORMAT.md` of the repository). [`shorten`] does what the pass
//! `FactorPathsOptimization` of Dafny's Rust back end does; [`straight`] is the same with each nested module under its true path and
//! each path type wrapped once. Both ask nothing of what they are lent: any bytes get an answer, and a refusal leaves the out buffer
//! as it was.
//!
//! ```
//! // mod m { impl ::B {} }
//! let card = b"L\0\0\0\x60\0\x02\0\0\0\x01\0\x02\0\0\0\x03\0\x03\0\0\0\x01\0m\x33\0\0\0\x02\0\x2d\0\0\0g\0\
//!              \x27\0\0\0z\0\x02\0\0\0\x02\0\x15\0\0\0\x2d\0\x0f\0\0\0\x13\0\x02\0\0\0\x10\0\x03\0\0\0\x01\0B\x02\0\0\0\x02\0";
//! let mut out = vec![0; vegashol::MOST_TIMES * card.len()];
//! let shortened = vegashol::shorten(card, vegashol::CRATE, &mut out)?;
//! assert_eq!(shortened.output.len(), 137); // mod m { pub use ::B; impl B {} }
//! # Ok::<(), vegashol::Refusal>(())
//! ```
//!
//! | | own work words | lent work words |
//! |---|---|---|
//! | as the text of Dafny has it | [`shorten`] | [`shorten_work`] |
//! | the same, with a list of places | [`shorten_places`] | [`shorten_places_work`] |
//! | straight | [`straight`] | [`straight_work`] |
//! | straight, with a list of places | [`straight_places`] | [`straight_places_work`] |
//!
//! A call that brings its own work words takes 8 KB of stack for them, and took up to 45 KB in all on the cards tried; one that is
//! lent words takes less. No proof speaks of the stack.

pub mod calls;
mod places;
mod refusal;

pub use places::{Mark, Place, Places};
pub use refusal::{Reason, Refusal};

/// A longer card is refused.
pub const MOST_CARD: usize = 32_768;
/// A longer root is refused.
pub const MOST_ROOT: usize = 256;
/// No output is longer than its card so many times.
pub const MOST_TIMES: usize = 42;
/// No output of straight shortening is.
pub const MOST_TIMES_STRAIGHT: usize = 4;
/// With fewer work words every card is refused. The calls that bring their own bring so many.
pub const LEAST_WORK: usize = 2_048;
/// More work words than these allow no more names.
pub const MOST_WORK: usize = 4_096;
/// The root `crate`.
pub const CRATE: &[u8] = &[2, 0, 0, 0, 0x11, 0];

/// An accepted card.
#[derive(Clone, Copy, Debug, PartialEq, Eq)]
pub struct Shortened<'o> {
    /// The shortened card, the first part of the out buffer. What is behind it is as it was.
    pub output: &'o [u8],
}

/// An accepted card with its list of places.
#[derive(Clone, Copy, Debug, PartialEq, Eq)]
pub struct Listed<'o> {
    /// The shortened card, the first part of the out buffer. What is behind it is as it was.
    pub output: &'o [u8],
    /// What was shortened and put in, from the first words of the list. What is behind them is as it was.
    pub places: Places<'o>,
}

/// The output's length or the refusal in what a call answered.
fn unpacked(packed: u64) -> Result<usize, Refusal> {
    match Refusal::of((packed >> 32) as u32, packed as u32) {
        None => Ok(packed as u32 as usize),
        Some(refusal) => Err(refusal),
    }
}

fn shortened(packed: u64, out: &[u8]) -> Result<Shortened<'_>, Refusal> {
    let length = unpacked(packed)?;
    Ok(Shortened { output: &out[..length] })
}

fn listed<'o>(packed: u64, out: &'o [u8], list: &'o [u32], entries: u32) -> Result<Listed<'o>, Refusal> {
    let length = unpacked(packed)?;
    Ok(Listed { output: &out[..length], places: Places::new(&list[..2 * entries as usize]) })
}

/// An exported call, with each slice as its pointer and its length.
macro_rules! call {
    ($name:ident, $card:ident, $root:ident $(, $lent:ident)* $(; $entries:ident)?) => {
        // Each pointer is its slice's, and what is written is borrowed by the call alone.
        unsafe {
            calls::$name(
                $card.as_ptr(),
                $card.len(),
                $root.as_ptr(),
                $root.len()
                $(, $lent.as_mut_ptr(), $lent.len())*
                $(, &mut $entries)?
            )
        }
    };
}

/// Shortens `card`, whose outermost module stands in `root`, into `out`.
///
/// Refused by every reason but short work and short list. An out buffer of [`MOST_TIMES`] times the card's length always has room.
/// A module may have 512 pairs of a name and a path that it stands under.
pub fn shorten<'o>(card: &[u8], root: &[u8], out: &'o mut [u8]) -> Result<Shortened<'o>, Refusal> {
    let packed = call!(vegashol_shorten, card, root, out);
    shortened(packed, out)
}

/// [`shorten`] with lent work words, [`LEAST_WORK`] or more.
///
/// A module may have a quarter as many pairs as there are work words, and at most 1,024. What the words hold before does not matter. After a call they
/// are all zero, or, where the card was refused by short work, long card, bad root or in reading, as they were.
///
/// ```
/// let card = [9, 0, 0, 0, 0x61, 0, 3, 0, 0, 0, 1, 0, b'a']; // extern module a
/// let (mut out, mut work) = ([0; 13], [7; vegashol::LEAST_WORK]);
/// let shortened = vegashol::shorten_work(&card, vegashol::CRATE, &mut out, &mut work)?;
/// assert_eq!(shortened.output, card);
/// assert!(work.iter().all(|word| *word == 0));
/// # Ok::<(), vegashol::Refusal>(())
/// ```
pub fn shorten_work<'o>(
    card: &[u8],
    root: &[u8],
    out: &'o mut [u8],
    work: &mut [u32],
) -> Result<Shortened<'o>, Refusal> {
    let packed = call!(vegashol_shorten_work, card, root, out, work);
    shortened(packed, out)
}

/// [`shorten`] with a list of places: every shortened name and every use put in, at its offset in the output.
///
/// Refused by short list too, if the list has fewer than two words for each place. A word for every six bytes of the card always
/// suffices, and spares the call counting the places before it writes.
///
/// ```
/// use vegashol::{Mark, Place};
/// // mod m { impl ::B {} }
/// let card = b"L\0\0\0\x60\0\x02\0\0\0\x01\0\x02\0\0\0\x03\0\x03\0\0\0\x01\0m\x33\0\0\0\x02\0\x2d\0\0\0g\0\
///              \x27\0\0\0z\0\x02\0\0\0\x02\0\x15\0\0\0\x2d\0\x0f\0\0\0\x13\0\x02\0\0\0\x10\0\x03\0\0\0\x01\0B\x02\0\0\0\x02\0";
/// let (mut out, mut list) = ([0; 200], [0; 70]);
/// let listed = vegashol::shorten_places(card, vegashol::CRATE, &mut out, &mut list)?;
/// let places: Vec<Place> = listed.places.iter().collect();
/// assert_eq!(places, [Place { offset: 31, mark: Mark::Use }, Place { offset: 87, mark: Mark::Type }]);
/// # Ok::<(), vegashol::Refusal>(())
/// ```
pub fn shorten_places<'o>(
    card: &[u8],
    root: &[u8],
    out: &'o mut [u8],
    list: &'o mut [u32],
) -> Result<Listed<'o>, Refusal> {
    let mut entries = 0;
    let packed = call!(vegashol_shorten_places, card, root, out, list; entries);
    listed(packed, out, list, entries)
}

/// [`shorten_places`] with lent work words, as in [`shorten_work`].
pub fn shorten_places_work<'o>(
    card: &[u8],
    root: &[u8],
    out: &'o mut [u8],
    work: &mut [u32],
    list: &'o mut [u32],
) -> Result<Listed<'o>, Refusal> {
    let mut entries = 0;
    let packed = call!(vegashol_shorten_places_work, card, root, out, work, list; entries);
    listed(packed, out, list, entries)
}

/// Straight shortening: a nested module stands under its true path, and a path type is wrapped exactly once.
///
/// Refused as [`shorten`] is. An out buffer of [`MOST_TIMES_STRAIGHT`] times the card's length always has room.
///
/// ```
/// let card = [9, 0, 0, 0, 0x61, 0, 3, 0, 0, 0, 1, 0, b'a']; // extern module a
/// let mut out = vec![0; vegashol::MOST_TIMES_STRAIGHT * card.len()];
/// assert_eq!(vegashol::straight(&card, vegashol::CRATE, &mut out)?.output, card);
/// # Ok::<(), vegashol::Refusal>(())
/// ```
pub fn straight<'o>(card: &[u8], root: &[u8], out: &'o mut [u8]) -> Result<Shortened<'o>, Refusal> {
    let packed = call!(vegashol_straight, card, root, out);
    shortened(packed, out)
}

/// [`straight`] with lent work words, as in [`shorten_work`].
pub fn straight_work<'o>(
    card: &[u8],
    root: &[u8],
    out: &'o mut [u8],
    work: &mut [u32],
) -> Result<Shortened<'o>, Refusal> {
    let packed = call!(vegashol_straight_work, card, root, out, work);
    shortened(packed, out)
}

/// [`straight`] with a list of places, as in [`shorten_places`].
pub fn straight_places<'o>(
    card: &[u8],
    root: &[u8],
    out: &'o mut [u8],
    list: &'o mut [u32],
) -> Result<Listed<'o>, Refusal> {
    let mut entries = 0;
    let packed = call!(vegashol_straight_places, card, root, out, list; entries);
    listed(packed, out, list, entries)
}

/// [`straight_places`] with lent work words, as in [`shorten_work`].
pub fn straight_places_work<'o>(
    card: &[u8],
    root: &[u8],
    out: &'o mut [u8],
    work: &mut [u32],
    list: &'o mut [u32],
) -> Result<Listed<'o>, Refusal> {
    let mut entries = 0;
    let packed = call!(vegashol_straight_places_work, card, root, out, work, list; entries);
    listed(packed, out, list, entries)
}
