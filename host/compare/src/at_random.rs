//! The comparison on random cards, any number of them, on all cores.
use crate::case::Case;
use crate::comparison::Comparison;
use crate::current;
use crate::random::{self, Draws};
use crate::report::Report;
use crate::tree::{self, Whole};
use crate::ways::Way;
use crate::{Operation, Refusal, MOST_CARD, MOST_TIMES};
use std::num::NonZero;
use std::sync::atomic::{AtomicUsize, Ordering};
use std::sync::mpsc;
use std::thread;

/// So many cards are taken by a thread at once.
const BLOCK: usize = 100;

/// Compares so many cards, the first of a seed, and says now and then what has come of those so far. Which thread compares a card
/// changes nothing.
pub fn compare(ways: &[Way], seed: u64, count: usize, mut progress: impl FnMut(&Report)) -> Report {
    let threads = thread::available_parallelism().map_or(1, NonZero::get).min(count.div_ceil(BLOCK));
    let next = AtomicUsize::new(0);
    let mut report = Report::default();
    thread::scope(|scope| {
        let (sender, receiver) = mpsc::channel();
        for _ in 0..threads {
            let (next, sender) = (&next, sender.clone());
            scope.spawn(move || {
                let mut comparison = Comparison::new();
                loop {
                    let first = next.fetch_add(BLOCK, Ordering::Relaxed);
                    if first >= count {
                        return;
                    }
                    let mut report = Report::default();
                    for number in first..count.min(first + BLOCK) {
                        let name = format_args!("card {} of seed {seed}", number + 1);
                        current::named(name, || {
                            compare_card(&mut comparison, ways, seed, number, &mut report)
                        });
                    }
                    if sender.send(report).is_err() {
                        return;
                    }
                }
            });
        }
        drop(sender);
        for block in receiver {
            report.merge(block);
            progress(&report);
        }
    });
    report
}

/// One card by each operation.
fn compare_card(comparison: &mut Comparison, ways: &[Way], seed: u64, number: usize, report: &mut Report) {
    let mut draws = Draws::new(seed, number);
    let random::Case { root, card, words } = random::case(&mut draws);
    let mut case = Case::new(root, card, 0, words);
    let results = Operation::BOTH.map(|operation| {
        let whole = tree::whole(operation, &case.card, &case.root, case.words);
        case.out = room(number, &case.card, &whole);
        (operation, comparison.compare_with(&whole, ways, &case, operation, &mut draws))
    });
    report.add(number, results);
}

/// How many bytes are lent: some a little more than the output takes, some much more, some too few.
fn room(number: usize, card: &[u8], whole: &Result<Whole, Refusal>) -> usize {
    let length = whole.as_ref().map_or(60, |whole| whole.output.len());
    match number % 20 {
        0 | 1 => length.saturating_sub(1),
        2 => length / 2,
        3 => 0,
        4..=8 => length,
        9..=11 => (length * 2).min(MOST_CARD * MOST_TIMES),
        12 => card.len().min(MOST_CARD) * MOST_TIMES,
        13 | 14 => length.max(65536),
        more => length + more,
    }
}
