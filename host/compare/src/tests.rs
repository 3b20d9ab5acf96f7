//! The comparison on cards made for single quirks, on those whose answers are stated and on random ones; without the proved code,
//! of `tree` alone. And what random cards are: every answer and every kind, faults at many depths.
use crate::at_random;
use crate::cards::*;
use crate::case::Case;
use crate::comparison::compare_all;
use crate::report::Report;
use crate::tree::{self, Whole};
use crate::ways::{Way, TREE};
use crate::{most_pairs, own, points, random, stated, Operation, Refusal, MOST_TIMES_STRAIGHT, WORDS};
use std::collections::BTreeSet;

const WAYS: &[Way] = &[
    #[cfg(feature = "console")]
    crate::ways::CONSOLE,
    TREE,
];

fn none_differs(report: &Report) {
    assert!(report.differ == 0, "{:#?}", report.lines("case", WAYS));
}

/// What `tree` makes of a card. The list is found again in the output.
fn whole(operation: Operation, card: &[u8], root: &[u8], words: usize) -> Result<Whole, Refusal> {
    let whole = tree::whole(operation, card, root, words)?;
    assert_eq!(points::places(card, &whole.output).as_ref(), Some(&whole.list));
    Ok(whole)
}

/// The output of a card that is accepted under the root crate.
fn output(operation: Operation, card: &[u8]) -> Vec<u8> {
    whole(operation, card, &CRATE, WORDS).expect("a card that is accepted").output
}

/// P1 to P15, limits, wrong ports, what tells the operations apart, paths without a name, full tables, lists.
#[test]
fn stated_cards() {
    for operation in Operation::BOTH {
        let cases = stated::all(operation).into_iter().map(|case| Case::of_stated(operation, case));
        let cases: Vec<Case> = cases.collect();
        none_differs(&compare_all("case", WAYS, &cases));
        for case in &cases {
            let _ = whole(operation, &case.card, &case.root, case.words);
        }
    }
}

#[test]
fn own_cards() {
    let cases = own::cases().into_iter().chain(own::differing()).map(Case::of_own);
    none_differs(&compare_all("case", WAYS, cases));
    for case in own::cases() {
        for operation in Operation::BOTH {
            let _ = whole(operation, &case.card, &case.root, case.words);
        }
    }
}

/// Each of the cards that are to tell the operations apart does.
#[test]
fn differing_cards() {
    for case in own::differing() {
        let [old, straight] = Operation::BOTH
            .map(|operation| whole(operation, &case.card, &case.root, case.words).map(|whole| whole.output));
        assert_ne!(old, straight, "{}", case.sort);
    }
}

/// What the program shorten is run on takes all the words that it lends.
#[test]
fn most_names() {
    let (card, output) = stated::most_names();
    for operation in Operation::BOTH {
        let given = |words| whole(operation, &card, &CRATE, words).map(|whole| whole.output);
        assert_eq!(given(4095), Err((8, 0)));
        assert_eq!(given(4096), Ok(output.clone()));
    }
}

/// Each synonym taken as its display.
fn displayed(bytes: &[u8]) -> Bytes {
    let mut out = Bytes::new();
    let mut rest = bytes;
    while let [a, b, c, d, kind, ..] = *rest {
        let (it, after) = rest.split_at(4 + u32::from_le_bytes([a, b, c, d]) as usize);
        out.extend(match kind {
            0x01 | 0x03 => it.to_vec(),
            0x37 => {
                let inside = &it[6..];
                let display = u32::from_le_bytes([inside[0], inside[1], inside[2], inside[3]]) as usize;
                displayed(&inside[..4 + display])
            }
            kind => record(kind as u16, &[displayed(&it[6..])]),
        });
        rest = after;
    }
    out
}

/// Its cases have neither nested modules nor a Fn.
#[test]
fn test_apply() {
    for (card, due) in stated::test_apply() {
        let [old, straight] = Operation::BOTH.map(|operation| output(operation, &card));
        assert_eq!(displayed(&old), due);
        assert_eq!(straight, old);
    }
}

/// A quarter of the words, rounded down, and at most 1,024.
#[test]
fn limits_of_pairs() {
    let due = [
        (2048, 512),
        (2049, 512),
        (2051, 512),
        (2052, 513),
        (2799, 699),
        (2800, 700),
        (4092, 1023),
        (4095, 1023),
        (4096, 1024),
        (4097, 1024),
        (4100, 1024),
        (8192, 1024),
        (usize::MAX, 1024),
    ];
    for (words, most) in due {
        assert_eq!(most_pairs(words), most);
    }
}

/// How deep a refusal's record is, or the one that is due there.
fn depth(card: &[u8], place: usize) -> usize {
    let (mut at, mut depth) = (0, 1);
    while at < place {
        let length = card[at..].first_chunk().map_or(0, |&length| u32::from_le_bytes(length));
        match at + 4 + length as usize {
            // What is due at the very end of a record counts as behind it.
            end if place < end => (at, depth) = (at + 6, depth + 1),
            end => at = end,
        }
    }
    depth
}

/// The kinds in sound bytes.
fn seen(mut bytes: &[u8], kinds: &mut BTreeSet<u8>) {
    while let [a, b, c, d, kind, ..] = *bytes {
        let (it, after) = bytes.split_at(4 + u32::from_le_bytes([a, b, c, d]) as usize);
        kinds.insert(kind);
        if !matches!(kind, 0x01 | 0x03) {
            seen(&it[6..], kinds);
        }
        bytes = after;
    }
}

/// Some thousands: every number is answered, by both operations.
#[test]
fn random_cards() {
    let mut seen = 0;
    let report = at_random::compare(WAYS, 7, 6000, |report| seen = report.cases);
    none_differs(&report);
    assert_eq!((report.cases, seen), (6000, 6000));
    for operation in Operation::BOTH {
        let numbers = report.numbers_by(operation);
        assert!(numbers.keys().copied().eq(0..=11), "{numbers:?}");
        assert!(numbers.values().all(|&count| count >= 5), "{numbers:?}");
    }
}

/// Which cards are drawn says the seed alone, and a card's number: not the count, and not the threads.
#[test]
fn draws_repeat() {
    let cards = |seed| -> Vec<Vec<u8>> { random::cases(seed).take(50).map(|case| case.card).collect() };
    assert_eq!(cards(3), cards(3));
    assert_ne!(cards(3), cards(4));
    let different: BTreeSet<Vec<u8>> = cards(3).into_iter().collect();
    assert!(different.len() > 45);
    let lines = |count| at_random::compare(&[TREE], 5, count, |_| ()).lines("card", &[TREE]);
    assert_eq!(lines(730), lines(730));
    assert_ne!(lines(730), lines(731));
}

/// Faults are at many depths; each kind is there; the operations differ; tables are full, also with more
/// words than the console's call brings. No output of straight shortening is longer than 4 times its card.
#[test]
fn what_random_cards_are() {
    let (mut kinds, mut depths, mut differ) = (BTreeSet::new(), [const { BTreeSet::new() }; 12], 0);
    let (mut more, mut too_many) = (0, 0);
    for case in random::cases(7).take(5000) {
        let [old, straight] =
            Operation::BOTH.map(|operation| whole(operation, &case.card, &case.root, case.words));
        for answer in [&old, &straight] {
            match answer {
                Ok(whole) => seen(&whole.output, &mut kinds),
                Err((number @ (4..=7 | 11), place)) => {
                    depths[*number as usize].insert(depth(&case.card, *place as usize));
                }
                Err(_) => {}
            }
        }
        let [old, straight] = [old, straight].map(|answer| answer.map(|whole| whole.output));
        differ += (old != straight) as usize;
        let pairs = tree::outermost(&case.card, &case.root, case.words).map_or(0, |m| m.pairs.len());
        more += (old.is_ok() && pairs > most_pairs(WORDS)) as usize;
        too_many += (case.words > WORDS && matches!(old, Err((8, _)))) as usize;
        let length = straight.map_or(0, |output| output.len());
        assert!(length <= case.card.len() * MOST_TIMES_STRAIGHT);
    }
    let all = [0x01..=0x03, 0x10..=0x13, 0x20..=0x38, 0x40..=0x5E, 0x60..=0x6A, 0x70..=0x86];
    assert_eq!(kinds, all.into_iter().flatten().collect());
    assert!(differ > 400, "{differ}");
    assert!(more > 3 && too_many > 3, "{more}, {too_many}");
    for number in [4, 5, 7, 11] {
        assert!(
            depths[number].len() >= 20 && depths[number].last() >= Some(&30),
            "{number}: {:?}",
            depths[number]
        );
    }
    assert_eq!(depths[6], [49].into());
}

/// Path types under Global, each with a short name of its own: few bytes for much that is put in.
fn dense() -> Bytes {
    // The mark alone is no name.
    let name = |i: usize| match u8::try_from(i) {
        Ok(byte) if byte != b'!' => vec![byte],
        _ => (i as u16).to_le_bytes().to_vec(),
    };
    let types: Vec<Bytes> = (0..512).map(|i| record(0x2D, &[select(path(""), name(i))])).collect();
    module("", &[only_types(&types)])
}

/// No output of straight shortening is longer than 4 times its card, and some are longer than 3 times.
#[test]
fn straight_lengths() {
    for own in own::cases().into_iter().chain(own::differing()) {
        let whole = tree::whole(Operation::Straight, &own.card, &own.root, own.words);
        assert!(whole.map_or(0, |whole| whole.output.len()) <= own.card.len() * MOST_TIMES_STRAIGHT);
    }
    let dense = dense();
    let most = output(Operation::Straight, &dense).len();
    assert!(dense.len() * 3 < most && most <= dense.len() * MOST_TIMES_STRAIGHT);
}
