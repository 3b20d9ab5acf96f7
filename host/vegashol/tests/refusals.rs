//! A call that is refused for each of the reasons.
mod records;

use records::*;
use vegashol::{Reason, Refusal, CRATE, LEAST_WORK, MOST_CARD, MOST_TIMES};

fn refused(card: &[u8]) -> Refusal {
    let mut out = vec![7; MOST_TIMES * card.len()];
    let refusal = vegashol::shorten(card, CRATE, &mut out).unwrap_err();
    assert!(out.iter().all(|byte| *byte == 7));
    let straight = vegashol::straight(card, CRATE, &mut out).unwrap_err();
    assert_eq!(refusal, straight);
    refusal
}

fn of_type(tpe: Vec<u8>) -> Vec<u8> {
    module("m", &[constant("k", tpe, record(0x42, &[&text("v")]))])
}

#[test]
fn every_reason_with_its_number_word_and_place() {
    let long = vec![0; MOST_CARD + 1];
    let deep = (0..60).fold(record(0x20, &[]), |tpe, _| record(0x2F, &[&tpe]));
    let full: Vec<Vec<u8>> = (0..513).map(|n| nested(extern_module(&format!("x{n}")))).collect();
    let left_over = [extern_module("a"), vec![0]].concat();
    let nameless = of_type(record(0x2D, &[&global("!")]));
    let at = |card: &[u8], part: &[u8]| card.windows(part.len()).position(|window| window == part).unwrap();
    let (mut out, mut work, mut list) = ([0; 1000], [0; LEAST_WORK - 1], [0; 5]);
    // A Mod, a List, a ConstDecl and a Constant stand around the type, so 44 records of it are not too deep.
    let first_deep = at(&of_type(deep.clone()), &deep) + 6 * 44;
    let found = [
        vegashol::shorten_work(&card(), CRATE, &mut out, &mut work).unwrap_err(),
        refused(&long),
        vegashol::shorten(&card(), &[], &mut out).unwrap_err(),
        refused(&record(0x60, &[])),
        refused(&record(0x62, &[])),
        refused(&of_type(deep)),
        refused(&left_over),
        refused(&module("m", &full)),
        vegashol::shorten(&card(), CRATE, &mut out[..100]).unwrap_err(),
        vegashol::shorten_places(&card(), CRATE, &mut out, &mut list).unwrap_err(),
        refused(&nameless),
    ];
    let due = [
        (Reason::ShortWork, "short work", 0),
        (Reason::LongCard, "long card", 0),
        (Reason::BadRoot, "bad root", 0),
        (Reason::ShortRecord, "short record", 6),
        (Reason::WrongKind, "wrong kind", 0),
        (Reason::TooDeep, "too deep", first_deep),
        (Reason::LeftOver, "left over", 13),
        (Reason::FullTable, "full table", 0),
        (Reason::NoSpace, "no space", 0),
        (Reason::ShortList, "short list", 0),
        (Reason::NoName, "no name", at(&nameless, &text("!"))),
    ];
    for (before, (refusal, (reason, word, place))) in found.into_iter().zip(due).enumerate() {
        assert_eq!(refusal, Refusal { reason, place });
        assert_eq!((refusal.number(), refusal.word()), (before as u32 + 1, word));
        let line = refusal.to_string();
        assert!(
            line.starts_with(&format!("refused, {word} ({})", before + 1)) && !line.contains('\n'),
            "{line}"
        );
    }
}
