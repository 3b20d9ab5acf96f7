//! `walk`, `quick` and `reader` beside `tree`, on what the documents state of cards, on cards made for single quirks and on random ones, by
//! both operations and all with lists of places too; and what the classes are.
use crate::{classes, reader, WAYS};
use compare::cards::*;
use compare::case::Case;
use compare::comparison::Comparison;
use compare::random::Draws;
use compare::{at_random, most_pairs, own, random, stated, tree, Answer, Operation, MOST_TIMES, WORDS};

/// None differs by the ways in Rust, nor by the proved code where it is there, with lists of all lengths; and reading alone refuses
/// by 1 to 7 and 11 as they do, and goes no further.
fn agree(cases: impl IntoIterator<Item = Case>) {
    let mut comparison = Comparison::new();
    for case in cases {
        for operation in case.operations() {
            let compared = comparison.compare(WAYS, &case, operation, &mut Draws::new(1, 1));
            let compared = compared.and_then(|_| comparison.compare_lengths(WAYS, &case, operation));
            compared.unwrap_or_else(|difference| panic!("{difference}"));
        }
        read_alike(&case.card, &case.root, case.words);
    }
}

fn read_alike(card: &[u8], root: &[u8], words: usize) {
    let answer = tree::whole(Operation::Upstream, card, root, words).map(|_| ());
    let refusal = answer.err().filter(|&(number, _)| matches!(number, 1..=7 | 11));
    assert_eq!(reader::admit(card, root, words).err(), refusal);
}

#[test]
fn stated_cards() {
    for operation in Operation::BOTH {
        agree(stated::all(operation).into_iter().map(|case| Case::of_stated(operation, case)));
    }
}

#[test]
fn own_cards() {
    agree(own::cases().into_iter().chain(own::differing()).map(Case::of_own));
}

/// What the program shorten is run on, and TestApply's cards.
#[test]
fn cards_of_the_programs() {
    let (most_names, _) = stated::most_names();
    let test_apply = stated::test_apply().into_iter().map(|(card, _)| card);
    let with_words = |card: &Bytes, words| Case::new(path("crate"), card.clone(), 65536, words);
    agree([4095, 4096].map(|words| with_words(&most_names, words)));
    agree(test_apply.map(|card| with_words(&card, WORDS)));
}

#[test]
fn random_cards() {
    let report = at_random::compare(WAYS, 11, 3000, |_| ());
    assert!(report.differ == 0, "{:#?}", report.lines("random cards", WAYS));
    random::cases(11).take(3000).for_each(|case| read_alike(&case.card, &case.root, case.words));
    agree(random::cases(12).take(500).map(|case| {
        let out = case.card.len() * MOST_TIMES;
        Case::new(case.root, case.card, out, case.words)
    }));
}

fn answer(operation: Operation, card: &[u8], out: usize, words: usize) -> Answer {
    tree::shorten(operation, card, &CRATE, &mut vec![0; out], words)
}

/// As many pairs as the words have room for, one fewer and one more.
#[test]
fn limits_of_pairs() {
    for words in [2048, 2049, 2051, 2052, 2799, 2800, 4092, 4095, 4096, 4097, 4100, 8192] {
        let most = most_pairs(words);
        for count in [most - 1, most, most + 1] {
            let own = (0..count).map(|i| nested(extern_module(i.to_string())));
            for card in [module("m", &own.collect::<Vec<_>>()), classes::paths(count)] {
                let out = card.len() * MOST_TIMES;
                for operation in Operation::BOTH {
                    let full = answer(operation, &card, out, words) == Err((8, 0));
                    assert_eq!(full, count > most, "{count} pairs, {words} words");
                }
                agree([Case::new(path("crate"), card, out, words)]);
            }
        }
    }
}

/// The cards that are measured are accepted with what is lent, and have the pairs they should.
#[test]
fn measured_cards() {
    use classes::*;
    let cards = [
        least(),
        small(),
        one_name(512),
        nested_modules(200),
        crowded(),
        evicting(490, 17),
        searched(512, 9),
        searched(512, 16),
        deep_types(50),
    ];
    let sized = [1, 4, 16, 32].map(|k| typical(k << 10));
    let accepted = |card: &Vec<u8>, lent, words| {
        Operation::BOTH.into_iter().all(|operation| answer(operation, card, lent, words).is_ok())
    };
    let with_pairs = [8, 32, 128, 512].map(pairs);
    assert!(cards.iter().chain(&sized).chain(&with_pairs).all(|card| accepted(card, 65536, WORDS)));
    let lent = [128, 512, 700, 1024].map(paths).into_iter().chain([700, 1024].map(close_pairs));
    let slow = [close_bases(800), evicting(990, 8)];
    assert!(lent.chain(slow).all(|card| accepted(&card, 131072, 4096)));
    let count = |card: &[u8]| tree::outermost(card, &CRATE, 4096).map(|mapping| mapping.pairs.len());
    assert_eq!([8, 32, 128, 512].map(|n| count(&pairs(n))), [8, 32, 128, 512].map(Ok));
    assert_eq!(count(&one_name(512)), Ok(512));
    assert_eq!(count(&crowded()), Ok(511));
    assert_eq!([9, 16].map(|bits| count(&searched(512, bits))), [512, 512].map(Ok));
    assert_eq!([(490, 17), (990, 8)].map(|(own, inner)| count(&evicting(own, inner))), [507, 998].map(Ok));
    assert_eq!(count(&close_bases(800)), Ok(800));
    assert_eq!([128, 512, 700, 1024].map(|n| count(&paths(n))), [128, 512, 700, 1024].map(Ok));
    assert_eq!([700, 1024].map(|n| count(&close_pairs(n))), [700, 1024].map(Ok));
}
