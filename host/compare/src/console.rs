//! The proved code.
use crate::{Answer, Operation};
use vegashol::calls::*;

fn unpacked(packed: u64) -> Answer {
    match ((packed >> 32) as u32, packed as u32) {
        (0, length) => Ok(length as usize),
        refusal => Err(refusal),
    }
}

/// In the work words lent; without any it brings its own.
pub fn shorten(
    operation: Operation,
    card: &[u8],
    root: &[u8],
    out: &mut [u8],
    words: Option<&mut [u32]>,
) -> Answer {
    let (card, card_len) = (card.as_ptr(), card.len());
    let (root, root_len) = (root.as_ptr(), root.len());
    let (out, out_len) = (out.as_mut_ptr(), out.len());
    // The functions ask nothing of their slices but that they are slices.
    let packed = match words {
        None => {
            let call = match operation {
                Operation::Upstream => vegashol_shorten,
                Operation::Straight => vegashol_straight,
            };
            unsafe { call(card, card_len, root, root_len, out, out_len) }
        }
        Some(work) => {
            let call = match operation {
                Operation::Upstream => vegashol_shorten_work,
                Operation::Straight => vegashol_straight_work,
            };
            unsafe { call(card, card_len, root, root_len, out, out_len, work.as_mut_ptr(), work.len()) }
        }
    };
    unpacked(packed)
}

/// The same with a list. A refusal leaves `entries` as it was.
pub fn shorten_places(
    operation: Operation,
    card: &[u8],
    root: &[u8],
    out: &mut [u8],
    words: Option<&mut [u32]>,
    list: &mut [u32],
    entries: &mut u32,
) -> Answer {
    let (card, card_len) = (card.as_ptr(), card.len());
    let (root, root_len) = (root.as_ptr(), root.len());
    let (out, out_len) = (out.as_mut_ptr(), out.len());
    let (list, list_len) = (list.as_mut_ptr(), list.len());
    // Nor do these; the number of entries is the caller's own.
    let packed = match words {
        None => {
            let call = match operation {
                Operation::Upstream => vegashol_shorten_places,
                Operation::Straight => vegashol_straight_places,
            };
            unsafe { call(card, card_len, root, root_len, out, out_len, list, list_len, entries) }
        }
        Some(work) => {
            let call = match operation {
                Operation::Upstream => vegashol_shorten_places_work,
                Operation::Straight => vegashol_straight_places_work,
            };
            let (work, work_len) = (work.as_mut_ptr(), work.len());
            unsafe {
                call(card, card_len, root, root_len, out, out_len, work, work_len, list, list_len, entries)
            }
        }
    };
    unpacked(packed)
}
