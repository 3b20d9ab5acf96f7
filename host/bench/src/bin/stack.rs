//! How many bytes of stack the console's calls take: the stack is painted, the call made, and the paint looked at.
use compare::comparison::LONG;
use compare::{cards, console, Operation, WORDS};
use std::hint::black_box;
use std::thread;
use yardstick::classes;

/// How much is painted, and the paint.
const PAINTED: usize = 256 << 10;
const PAINT: u8 = 0xA7;

/// Bytes of the out buffer.
const OUT: usize = 1 << 20;

/// A list that is lent, if any: one that surely suffices for a card, or one that has just the words for its places, which are counted
/// first.
#[derive(Clone, Copy)]
enum List {
    None,
    Long,
    Just,
}

impl List {
    fn words(self, operation: Operation, card: &[u8]) -> Option<usize> {
        match self {
            List::None => None,
            List::Long => Some(LONG),
            List::Just => {
                let (mut out, mut list, mut entries) = (vec![0; OUT], vec![0; LONG], 0);
                let words = &mut vec![0; 4096];
                console::shorten_places(
                    operation,
                    card,
                    &cards::CRATE,
                    &mut out,
                    Some(words),
                    &mut list,
                    &mut entries,
                )
                .expect("a card that is accepted");
                Some(2 * entries as usize)
            }
        }
    }
}

/// A module in a module, as deep as may be.
fn nested(times: usize) -> Vec<u8> {
    (0..times).fold(cards::module("m", &[]), |inner, _| cards::module("m", &[cards::nested(inner)]))
}

/// Types in types, as deep as may be, in a function's formal.
fn deep(times: usize) -> Vec<u8> {
    let of = (0..times).fold(cards::ty("::a::X"), |t, _| cards::record(0x2F, &[t]));
    let function = cards::function("f", &[], &[cards::formal("x", of)], cards::none(), cards::none());
    cards::module("m", &[cards::top_fn(function)])
}

/// The bytes below this frame that a call changed. Nothing is borrowed there: the area is free stack.
#[inline(never)]
fn used(
    operation: Operation,
    card: &[u8],
    out: &mut [u8],
    words: Option<&mut [u32]>,
    list: Option<&mut [u32]>,
) -> usize {
    let here = 0u8;
    let top = (&here as *const u8 as usize) - 4096;
    let area = top - PAINTED;
    unsafe {
        for i in 0..PAINTED {
            std::ptr::write_volatile((area + i) as *mut u8, PAINT);
        }
    }
    let (card, root) = (black_box(card), &cards::CRATE);
    let answer = match list {
        None => console::shorten(operation, card, root, out, words),
        Some(list) => console::shorten_places(operation, card, root, out, words, list, &mut 0),
    };
    black_box(answer).expect("a card that is accepted");
    let kept = (0..PAINTED)
        .take_while(|i| unsafe { std::ptr::read_volatile((area + i) as *const u8) } == PAINT)
        .count();
    PAINTED - kept + 4096
}

fn main() {
    // With so many work words lent; where there are none, the call has its own on the stack.
    let cards: Vec<(&str, Vec<u8>, Option<usize>)> = vec![
        ("13 bytes", classes::least(), None),
        ("32 KB", classes::typical(32 << 10), None),
        ("16 modules, one in the other", nested(15), None),
        ("types in types, 48 deep", deep(36), None),
        ("512 pairs", classes::pairs(512), None),
        ("512 pairs, 2,048 words lent", classes::pairs(512), Some(WORDS)),
        ("1,024 pairs, 4,096 words lent", classes::close_pairs(1024), Some(4096)),
    ];
    let lists =
        [("without a list", List::None), ("with a list", List::Long), ("with just enough", List::Just)];
    print!("{:29}", "bytes of stack");
    lists.iter().for_each(|(what, _)| print!("  {what:>18}"));
    print!("\n{:29}", "card");
    lists.iter().for_each(|_| print!("  {:>8}  {:>8}", "old", "straight"));
    println!();
    for (what, card, words) in cards {
        print!("{what:29}");
        for (_, list) in lists {
            for operation in Operation::BOTH {
                let (card, list) = (card.clone(), list.words(operation, &card));
                let run = move || {
                    // All that is lent lies outside the stack.
                    let lend = |count| vec![0; count];
                    let (mut out, mut words, mut list) = (vec![0; OUT], words.map(lend), list.map(lend));
                    used(operation, &card, &mut out, words.as_deref_mut(), list.as_deref_mut())
                };
                let used = thread::Builder::new().stack_size(2 << 20).spawn(run).unwrap().join().unwrap();
                print!("  {used:8}");
            }
        }
        println!();
    }
}
