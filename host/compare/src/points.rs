//! The list of places found again, by "Points and looking up" of docs/FORMAT.md: card and output side by side.

/// The words of the list, none where the two don't stand beside each other. Both are sound.
pub fn places(card: &[u8], output: &[u8]) -> Option<Vec<u32>> {
    let mut list = Vec::new();
    side_by_side((card, 0), (output, 0), &mut list)?;
    Some(list)
}

/// A record, by the bytes around it and its place there.
type At<'b> = (&'b [u8], usize);

fn side_by_side(old: At, new: At, list: &mut Vec<u32>) -> Option<()> {
    match (kind(old), kind(new)) {
        (0x2D, 0x37) => list.extend([new.1 as u32, 1]),
        (0x5C, 0x42) => list.extend([new.1 as u32, 2]),
        (0x01 | 0x03, _) => return (record_at(old) == record_at(new)).then_some(()),
        (0x60, 0x60) => {
            let (old, new) = (inside(old), inside(new));
            all_side_by_side(&old[..3], &new[..3], list)?;
            let (old, new) = (inside(old[3]), inside(new[3]));
            let (put, new) = new.split_at(new.len().checked_sub(old.len())?);
            for &it in put {
                (kind(it) == 0x6A).then_some(())?;
                list.extend([it.1 as u32, 3]);
            }
            all_side_by_side(&old, new, list)?;
        }
        (same, now) if same == now => all_side_by_side(&inside(old), &inside(new), list)?,
        _ => return None,
    }
    Some(())
}

fn all_side_by_side(old: &[At], new: &[At], list: &mut Vec<u32>) -> Option<()> {
    (old.len() == new.len()).then_some(())?;
    old.iter().zip(new).try_for_each(|(&old, &new)| side_by_side(old, new, list))
}

fn kind((bytes, at): At) -> u8 {
    bytes[at + 4]
}

fn record_at((bytes, at): At<'_>) -> &[u8] {
    let length = bytes[at..].first_chunk().map_or(0, |&length| u32::from_le_bytes(length));
    &bytes[at..at + 4 + length as usize]
}

/// The records in this one.
fn inside((bytes, at): At) -> Vec<At> {
    let end = at + record_at((bytes, at)).len();
    let (mut all, mut at) = (Vec::new(), at + 6);
    while at < end {
        all.push((bytes, at));
        at += record_at((bytes, at)).len();
    }
    all
}

#[cfg(test)]
mod tests {
    use super::*;
    use crate::cards::*;
    use crate::stated::short;

    #[test]
    fn only_what_stands_beside() {
        let of = |uses: &[Bytes], of| module("m", &[uses, &[implementation(&[], of, &[])]].concat());
        let card = of(&[], ty("::B"));
        assert_eq!(places(&card, &card), Some(vec![]));
        assert_eq!(places(&card, &of(&[use_decl("::B")], short("::B"))), Some(vec![31, 3, 87, 1]));
        let others = [
            of(&[], bool_type()),
            of(&[], ty("::C")),
            of(&[], ty("crate::B")),
            of(&[nested(extern_module("a"))], ty("::B")),
            module("m", &[]),
            module("n", &[implementation(&[], ty("::B"), &[])]),
        ];
        assert!(others.iter().all(|output| places(&card, output).is_none()));
    }
}
