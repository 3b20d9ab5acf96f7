//! Every answer of a way of shortening, and all that it leaves in what it was lent, held against what `tree` says is due.
//!
//! By an operation a case is called with its work words and with the call's own, each without a list of places, with one that is
//! long enough for every output and with one of the length that is stated or drawn.
use crate::case::{Case, Given, Lending};
use crate::current;
use crate::lent::{first_difference, Lent};
use crate::random::Draws;
use crate::report::Report;
use crate::tree::{self, Whole};
use crate::ways::Way;
use crate::{Answer, Operation, Refusal, MOST_ENTRIES, WORDS};
use std::borrow::Borrow;
use std::fmt;

/// Words of a list that is long enough for every output.
pub const LONG: usize = 2 * MOST_ENTRIES;

/// The number of entries before a call, far more than any output has.
const NO_ENTRIES: u32 = 0xA5A5_A5A5;

/// What is given to a case without a list, and with the one whose length is stated or drawn.
#[derive(Debug, PartialEq)]
pub struct Answers {
    pub without: Answer,
    pub with: Answer,
}

/// A call that does not give what is due.
#[derive(Debug, PartialEq)]
pub struct Difference {
    /// Which way, and whether it brought its own work words.
    pub what: &'static str,
    pub own_words: bool,
    pub answer: Answer,
    pub fault: Fault,
    /// What is due, and who says so.
    pub due: Answer,
    pub says: &'static str,
    /// The case as a line of the vectors, without its answer.
    pub line: String,
}

#[derive(Debug, PartialEq)]
pub enum Fault {
    Answer,
    /// Another byte of the output; here and below, which.
    Output(usize),
    /// A byte of the out buffer that should be as it was.
    ByteBehind(usize),
    /// Another number of entries, or one where there should be none.
    Entries(u32),
    /// Another word of the list.
    List(usize),
    /// A word of the list that should be as it was.
    WordBehind(usize),
    /// A work word that should be zero and isn't, or should be as it was and isn't.
    WorkWord(usize),
}

impl fmt::Display for Difference {
    fn fmt(&self, f: &mut fmt::Formatter) -> fmt::Result {
        let shown = |answer| match answer {
            Ok(length) => format!("0 {length}"),
            Err((number, place)) => format!("{number} {place}"),
        };
        let own = if self.own_words { " with its own words" } else { "" };
        write!(f, "{}{own} answers {}", self.what, shown(self.answer))?;
        match self.fault {
            Fault::Answer => Ok(()),
            Fault::Output(at) => write!(f, " with another byte {at} of the output"),
            Fault::ByteBehind(at) => write!(f, " and changes byte {at} of the out buffer"),
            Fault::Entries(entries) => write!(f, " and says {entries} entries"),
            Fault::List(at) => write!(f, " with another word {at} of the list"),
            Fault::WordBehind(at) => write!(f, " and changes word {at} of the list"),
            Fault::WorkWord(at) => write!(f, " and leaves work word {at} otherwise"),
        }?;
        write!(f, "; {} {}\n    {}", self.says, shown(self.due), self.line)
    }
}

/// What is due of a call.
#[derive(Clone, Copy, PartialEq)]
struct Due<'d> {
    answer: Answer,
    output: &'d [u8],
    list: &'d [u32],
}

impl<'d> Due<'d> {
    /// With so many bytes and words of a list lent.
    fn of(whole: &'d Result<Whole, Refusal>, out: usize, list: Option<usize>) -> Due<'d> {
        let refused = |refusal| Due { answer: Err(refusal), output: &[], list: &[] };
        match whole {
            Err(refusal) => refused(*refusal),
            Ok(whole) if out < whole.output.len() => refused((9, 0)),
            Ok(whole) if list.is_some_and(|words| words < whole.list.len()) => refused((10, 0)),
            Ok(whole) => {
                let entries = if list.is_some() { &whole.list[..] } else { &[] };
                Due { answer: Ok(whole.output.len()), output: &whole.output, list: entries }
            }
        }
    }

    fn of_given(given: &'d Given) -> Due<'d> {
        Due { answer: given.answer, output: &given.output, list: &given.list }
    }

    /// How this differs from another of the same call.
    fn fault(&self, other: Due) -> Option<Fault> {
        if self.answer != other.answer {
            return Some(Fault::Answer);
        }
        if self.list.len() != other.list.len() {
            return Some(Fault::Entries(self.list.len() as u32 / 2));
        }
        let output = first_difference(self.output, other.output).map(Fault::Output);
        output.or_else(|| first_difference(self.list, other.list).map(Fault::List))
    }
}

/// The memory that is lent to each call.
pub struct Comparison {
    out: Lent<u8>,
    work: Lent<u32>,
    list: Lent<u32>,
}

impl Default for Comparison {
    fn default() -> Self {
        Comparison::new()
    }
}

impl Comparison {
    pub fn new() -> Self {
        const fn mixed(i: usize) -> u32 {
            (i as u32).wrapping_mul(0x9E37_79B1) ^ 0xA5
        }
        Comparison {
            out: Lent::new(|i| (i * 31 + i / 256 + 7) as u8),
            // None of these is zero.
            work: Lent::new(|i| mixed(i) | 1),
            list: Lent::new(mixed),
        }
    }

    /// The answers to a case, or the first difference.
    pub fn compare(
        &mut self,
        ways: &[Way],
        case: &Case,
        operation: Operation,
        draws: &mut Draws,
    ) -> Result<Answers, Difference> {
        let whole = tree::whole(operation, &case.card, &case.root, case.words);
        self.compare_with(&whole, ways, case, operation, draws)
    }

    /// The same where it is known what `tree` gives, there being room for all.
    pub fn compare_with(
        &mut self,
        whole: &Result<Whole, Refusal>,
        ways: &[Way],
        case: &Case,
        operation: Operation,
        draws: &mut Draws,
    ) -> Result<Answers, Difference> {
        let drawn = case.list.unwrap_or_else(|| length(words_of_list(whole), draws));
        self.hold_all(whole, ways, case, operation, &[None, Some(LONG), Some(drawn)])?;
        let answer = |list| Due::of(whole, case.out, list).answer;
        Ok(Answers { without: answer(None), with: answer(Some(drawn)) })
    }

    /// The first difference with a list of any of the lengths that may be drawn.
    pub fn compare_lengths(
        &mut self,
        ways: &[Way],
        case: &Case,
        operation: Operation,
    ) -> Result<(), Difference> {
        let whole = tree::whole(operation, &case.card, &case.root, case.words);
        let words = words_of_list(&whole);
        let lengths = [0, words.saturating_sub(2), words.saturating_sub(1), words, words + 3];
        self.hold_all(&whole, ways, case, operation, &lengths.map(Some))
    }

    /// Each way with each of these lists.
    fn hold_all(
        &mut self,
        whole: &Result<Whole, Refusal>,
        ways: &[Way],
        case: &Case,
        operation: Operation,
        lists: &[Option<usize>],
    ) -> Result<(), Difference> {
        // What is due of calls with their own words, where that is not the same.
        let own = match case.is_as_with_own() {
            true => None,
            false => Some(tree::whole(operation, &case.card, &case.root, WORDS)),
        };
        for &list in lists {
            let lending = Lending { words: Some(case.words), list };
            let due = Due::of(whole, case.out, list);
            is_as_stated(case, operation, lending, due)?;
            for way in ways {
                self.hold(way, case, operation, lending, due)?;
            }
            let lending = Lending { words: None, list };
            let due = own.as_ref().map_or(due, |own| Due::of(own, case.out, list));
            for way in ways.iter().filter(|way| way.works || own.is_some()) {
                self.hold(way, case, operation, lending, due)?;
            }
        }
        Ok(())
    }

    /// One call.
    fn hold(
        &mut self,
        way: &Way,
        case: &Case,
        operation: Operation,
        lending: Lending,
        due: Due,
    ) -> Result<(), Difference> {
        let out = self.out.lend(case.out);
        let work = lending.words.map(|count| self.work.lend(count));
        let mut entries = NO_ENTRIES;
        let answer = match lending.list {
            None => (way.call)(operation, &case.card, &case.root, out, work),
            Some(count) => {
                let list = self.list.lend(count);
                (way.list_call)(operation, &case.card, &case.root, out, work, list, &mut entries)
            }
        };
        let Some(fault) = self.fault(way, case, lending, answer, entries, due) else {
            self.out.restore(due.output.len());
            self.list.restore(due.list.len());
            if !keeps_work(answer) {
                self.work.restore(lending.words.unwrap_or(0));
            }
            return Ok(());
        };
        self.out.restore_all();
        self.work.restore_all();
        self.list.restore_all();
        let line = case.line(operation, lending);
        let (what, own_words) = (way.what, lending.words.is_none());
        Err(Difference { what, own_words, answer, fault, due: due.answer, says: "tree answers", line })
    }

    /// What is wrong with what a call answered or left.
    fn fault(
        &self,
        way: &Way,
        case: &Case,
        lending: Lending,
        answer: Answer,
        entries: u32,
        due: Due,
    ) -> Option<Fault> {
        if answer != due.answer {
            return Some(Fault::Answer);
        }
        let due_entries = match (answer, lending.list) {
            (Ok(_), Some(_)) => due.list.len() as u32 / 2,
            _ => NO_ENTRIES,
        };
        if entries != due_entries {
            return Some(Fault::Entries(entries));
        }
        let (output, list) = (self.out.front(due.output.len()), self.list.front(due.list.len()));
        let behind = || self.out.changed(output.len(), case.out).map(Fault::ByteBehind);
        let list_behind = || self.list.changed(list.len(), lending.list?).map(Fault::WordBehind);
        let work = || self.wrong_work(way, lending.words?, answer).map(Fault::WorkWord);
        Due { answer, output, list }.fault(due).or_else(behind).or_else(list_behind).or_else(work)
    }

    /// A work word that is not as it should be after an answer.
    fn wrong_work(&self, way: &Way, lent: usize, answer: Answer) -> Option<usize> {
        if !way.works || keeps_work(answer) {
            return self.work.changed(0, lent);
        }
        let work = self.work.front(lent);
        // All at once is much quicker, and mostly none is wrong.
        match work.iter().fold(0, |all, word| all | word) {
            0 => self.work.changed(lent, lent),
            _ => work.iter().position(|&word| word != 0),
        }
    }
}

/// Whether work words are as they were after an answer, as they are after what is refused before anything is collected. Else all
/// are zero.
fn keeps_work(answer: Answer) -> bool {
    matches!(answer, Err((1..=7 | 11, _)))
}

/// How many words the list takes.
fn words_of_list(whole: &Result<Whole, Refusal>) -> usize {
    whole.as_ref().map_or(0, |whole| whole.list.len())
}

/// A length for a list of so many words: none, too short by one or two, just enough, or more.
fn length(words: usize, draws: &mut Draws) -> usize {
    match draws.below(8) {
        0 => 0,
        1 | 2 => words.saturating_sub(1),
        3 | 4 => words.saturating_sub(2),
        5 | 6 => words,
        _ => words + 1 + draws.below(20),
    }
}

/// Where it is stated what is due of a call, `tree` has to say the same.
fn is_as_stated(case: &Case, operation: Operation, lending: Lending, due: Due) -> Result<(), Difference> {
    let Some(stated) = case.stated(operation, lending.list).map(Due::of_given) else { return Ok(()) };
    let Some(fault) = due.fault(stated) else { return Ok(()) };
    let line = case.line(operation, lending);
    let (what, answer) = ("tree", due.answer);
    Err(Difference { what, own_words: false, answer, fault, due: stated.answer, says: "stated is", line })
}

/// What comes of these cases by these ways. A case's name is `what` with its number behind it.
pub fn compare_all<C: Borrow<Case>>(what: &str, ways: &[Way], cases: impl IntoIterator<Item = C>) -> Report {
    let mut comparison = Comparison::new();
    let mut report = Report::default();
    for (number, case) in cases.into_iter().enumerate() {
        let case = case.borrow();
        let mut draws = Draws::new(1, number);
        let each = case.operations();
        current::named(format_args!("{what} {}", number + 1), || {
            report.add(number, each.map(|by| (by, comparison.compare(ways, case, by, &mut draws))))
        });
    }
    report
}

#[cfg(test)]
mod tests {
    use super::*;
    use crate::cards::{constant, extern_module, module, nested, path, raw, ty};
    use crate::case::Stated;
    use crate::own;
    use crate::ways::{Call, ListCall, Words, TREE};
    use crate::MOST_CARD;

    fn case() -> Case {
        let types = ["::a::X", "::b::Y", "crate::m::Z"];
        let body: Vec<_> = types.iter().map(|of| constant("k", ty(of), raw())).collect();
        Case::new(path("crate"), module("m", &body), 1000, WORDS)
    }

    /// What is found of a way, if anything is.
    fn found(way: Way, case: &Case, operation: Operation) -> Option<Difference> {
        let mut comparison = Comparison::new();
        let compared = comparison.compare(&[way], case, operation, &mut Draws::new(1, 1));
        compared.and_then(|_| comparison.compare_lengths(&[way], case, operation)).err()
    }

    /// What is found of a way that is `tree` but for this.
    fn found_with(list_call: ListCall, operation: Operation) -> Difference {
        found(Way { list_call, ..TREE }, &case(), operation).expect("a difference")
    }

    fn tree_list(
        operation: Operation,
        card: &[u8],
        root: &[u8],
        out: &mut [u8],
        words: Words,
        list: &mut [u32],
        entries: &mut u32,
    ) -> Answer {
        (TREE.list_call)(operation, card, root, out, words, list, entries)
    }

    #[test]
    fn nothing_of_tree() {
        for case in [case(), Case { out: 20, ..case() }, with_pairs(513, WORDS), with_pairs(513, 4096)] {
            for operation in Operation::BOTH {
                assert_eq!(found(TREE, &case, operation), None);
            }
        }
    }

    /// One that doesn't look at the operation, without a list or with one.
    #[test]
    fn operations_are_told_apart() {
        let call: Call = |_, card, root, out, words| (TREE.call)(Operation::Upstream, card, root, out, words);
        let list_call: ListCall = |_, card, root, out, words, list, entries| {
            tree_list(Operation::Upstream, card, root, out, words, list, entries)
        };
        for own in own::differing() {
            let (sort, case) = (own.sort, Case::of_own(own));
            for (way, end) in [(Way { call, ..TREE }, " x x"), (Way { list_call, ..TREE }, " x")] {
                assert_eq!(found(way, &case, Operation::Upstream), None);
                let difference = found(way, &case, Operation::Straight).expect(sort);
                assert!(difference.line.starts_with("straight ") && difference.line.ends_with(end), "{sort}");
            }
        }
    }

    /// Without a list: another answer, another byte of the output or behind it.
    #[test]
    fn faults_without_a_list() {
        for operation in Operation::BOTH {
            let of = |call: Call, case: &Case| found(Way { call, ..TREE }, case, operation).unwrap();
            let longer = of(
                |operation, card, root, out, words| Ok((TREE.call)(operation, card, root, out, words)? + 1),
                &case(),
            );
            assert_eq!((longer.fault, longer.answer), (Fault::Answer, longer.due.map(|length| length + 1)));
            let first = of(
                |operation, card, root, out, words| {
                    let answer = (TREE.call)(operation, card, root, out, words);
                    out[0] ^= 1;
                    answer
                },
                &case(),
            );
            assert_eq!(first.fault, Fault::Output(0));
            let last = of(
                |operation, card, root, out, words| {
                    let length = (TREE.call)(operation, card, root, out, words)?;
                    out[length - 1] ^= 1;
                    Ok(length)
                },
                &case(),
            );
            assert_eq!(last.fault, Fault::Output(last.answer.unwrap() - 1));
            let behind: Call = |operation, card, root, out, words| {
                let answer = (TREE.call)(operation, card, root, out, words);
                if let Some(byte) = out.last_mut() {
                    *byte ^= 1;
                }
                answer
            };
            assert_eq!(of(behind, &case()).fault, Fault::ByteBehind(999));
            // A refusal that writes.
            let short = of(behind, &Case { out: 20, ..case() });
            assert_eq!((short.answer, short.fault), (Err((9, 0)), Fault::ByteBehind(19)));
            // Another place, and another number.
            let unsound = Case { card: vec![2, 0, 0, 0, 0x60, 0], ..case() };
            let moved = of(
                |operation, card, root, out, words| {
                    (TREE.call)(operation, card, root, out, words).map_err(|(number, at)| (number, at + 1))
                },
                &unsound,
            );
            assert_eq!((moved.fault, moved.answer, moved.due), (Fault::Answer, Err((4, 7)), Err((4, 6))));
            let other = of(
                |operation, card, root, out, words| {
                    (TREE.call)(operation, card, root, out, words).map_err(|(number, at)| (number + 1, at))
                },
                &unsound,
            );
            assert_eq!((other.fault, other.answer, other.due), (Fault::Answer, Err((5, 6)), Err((4, 6))));
        }
    }

    #[test]
    fn faults_with_a_list() {
        Operation::BOTH.into_iter().for_each(faults_with_a_list_by);
    }

    fn faults_with_a_list_by(operation: Operation) {
        let found = |list_call| found_with(list_call, operation);
        // Another word or byte behind what is due, another number of entries.
        let word = found(|operation, card, root, out, words, list, entries| {
            let answer = tree_list(operation, card, root, out, words, list, entries);
            if let Some(word) = list.get_mut(2 * *entries as usize) {
                *word ^= 1;
            }
            answer
        });
        assert!(matches!((word.answer, word.fault), (Ok(_), Fault::WordBehind(_))));
        let more = found(|operation, card, root, out, words, list, entries| {
            let answer = tree_list(operation, card, root, out, words, list, entries);
            *entries = entries.wrapping_add(1);
            answer
        });
        assert!(matches!((more.answer, more.fault), (Ok(_), Fault::Entries(6))));
        let fewer = found(|operation, card, root, out, words, list, entries| {
            let answer = tree_list(operation, card, root, out, words, list, entries)?;
            *entries -= 1;
            list[2 * *entries as usize..].iter_mut().for_each(|word| *word = 0);
            Ok(answer)
        });
        assert!(matches!((fewer.answer, fewer.fault), (Ok(_), Fault::Entries(4))));
        let byte = found(|operation, card, root, out, words, list, entries| {
            let answer = tree_list(operation, card, root, out, words, list, entries);
            out[answer.unwrap_or(0)] ^= 1;
            answer
        });
        assert_eq!(byte.fault, Fault::ByteBehind(byte.answer.unwrap()));
        // Another list: a mark, a place, the last word. Another output.
        let mark = found(|operation, card, root, out, words, list, entries| {
            let answer = tree_list(operation, card, root, out, words, list, entries)?;
            list[1] ^= 1;
            Ok(answer)
        });
        assert_eq!(mark.fault, Fault::List(1));
        let place = found(|operation, card, root, out, words, list, entries| {
            let answer = tree_list(operation, card, root, out, words, list, entries)?;
            list[2] += 6;
            Ok(answer)
        });
        assert_eq!(place.fault, Fault::List(2));
        let last = found(|operation, card, root, out, words, list, entries| {
            let answer = tree_list(operation, card, root, out, words, list, entries)?;
            list[2 * *entries as usize - 1] ^= 2;
            Ok(answer)
        });
        assert_eq!(last.fault, Fault::List(9));
        let output = found(|operation, card, root, out, words, list, entries| {
            let answer = tree_list(operation, card, root, out, words, list, entries)?;
            out[6] ^= 1;
            Ok(answer)
        });
        assert_eq!(output.fault, Fault::Output(6));
        // A list that is too short by one word, or by one entry, is taken.
        let odd = found(|operation, card, root, out, words, list, entries| {
            let mut longer = [&*list, &[0]].concat();
            let answer = tree_list(operation, card, root, out, words, &mut longer, entries)?;
            list.copy_from_slice(&longer[..list.len()]);
            Ok(answer)
        });
        assert_eq!((odd.fault, odd.due), (Fault::Answer, Err((10, 0))));
        // A refusal leaves a number of entries, words of the list, or bytes.
        let number = found(|operation, card, root, out, words, list, entries| {
            *entries = 0;
            tree_list(operation, card, root, out, words, list, entries)
        });
        assert_eq!((number.answer, number.fault), (Err((10, 0)), Fault::Entries(0)));
        let words = found(|operation, card, root, out, words, list, entries| {
            let answer = tree_list(operation, card, root, out, words, list, entries);
            if let (Err(_), Some(word)) = (answer, list.first_mut()) {
                *word ^= 1;
            }
            answer
        });
        assert_eq!((words.answer, words.fault), (Err((10, 0)), Fault::WordBehind(0)));
        let bytes = found(|operation, card, root, out, words, list, entries| {
            let answer = tree_list(operation, card, root, out, words, list, entries);
            if answer.is_err() {
                out[0] ^= 1;
            }
            answer
        });
        assert_eq!((bytes.answer, bytes.fault), (Err((10, 0)), Fault::ByteBehind(0)));
    }

    /// 10 ahead of 9.
    #[test]
    fn order_is_seen() {
        let list_call: ListCall = |operation, card, root, out, mut words, list, entries| {
            let first = words.as_deref_mut();
            tree_list(operation, card, root, &mut [0; 1000], first, &mut list.to_vec(), &mut 0)?;
            tree_list(operation, card, root, out, words, list, entries)
        };
        for operation in Operation::BOTH {
            let short = Case { out: 20, ..case() };
            let difference = found(Way { list_call, ..TREE }, &short, operation).unwrap();
            assert_eq!((difference.answer, difference.due), (Err((10, 0)), Err((9, 0))));
        }
    }

    /// A card with so many pairs.
    fn with_pairs(count: usize, words: usize) -> Case {
        let body: Vec<_> = (0..count).map(|i| nested(extern_module(i.to_string()))).collect();
        Case::new(path("crate"), module("m", &body), MOST_CARD, words)
    }

    /// Leaves the words as the console's call does.
    fn leave(answer: Answer, words: Words) {
        if let (Ok(_) | Err((8..=10, _)), Some(words)) = (answer, words) {
            words.fill(0);
        }
    }

    /// `tree` with words to work in; this leaves them.
    macro_rules! working {
        ($leave:expr) => {
            Way {
                what: "other",
                call: |operation, card, root, out, mut words| {
                    let answer = (TREE.call)(operation, card, root, out, words.as_deref_mut());
                    $leave(answer, words);
                    answer
                },
                list_call: |operation, card, root, out, mut words, list, entries| {
                    let answer = tree_list(operation, card, root, out, words.as_deref_mut(), list, entries);
                    $leave(answer, words);
                    answer
                },
                works: true,
            }
        };
    }

    #[test]
    fn work_words() {
        let short = |words| Case { out: 20, words, ..case() };
        let unsound = |words| Case { card: vec![2, 0, 0, 0, 0x60, 0], words, ..case() };
        let cases =
            [0, 2047, 2048, 9999].map(|words| [Case { words, ..case() }, short(words), unsound(words)]);
        let full = [2048, 2052].map(|words| with_pairs(513, words));
        for case in cases.into_iter().flatten().chain(full) {
            for operation in Operation::BOTH {
                assert_eq!(found(working!(leave), &case, operation), None);
            }
        }
        let of = |other, case: &Case| {
            let difference = found(other, case, Operation::Upstream).unwrap();
            (difference.answer.map(|_| ()), difference.fault)
        };
        // They stay as they were.
        fn nothing(_: Answer, _: Words) {}
        assert_eq!(of(working!(nothing), &case()), (Ok(()), Fault::WorkWord(0)));
        assert_eq!(of(working!(nothing), &short(WORDS)), (Err((9, 0)), Fault::WorkWord(0)));
        assert_eq!(of(working!(nothing), &with_pairs(513, WORDS)), (Err((8, 0)), Fault::WorkWord(0)));
        fn but_10(answer: Answer, words: Words) {
            leave(answer, words.filter(|_| answer != Err((10, 0))));
        }
        assert_eq!(of(working!(but_10), &case()), (Err((10, 0)), Fault::WorkWord(0)));
        // All but the last.
        fn but_last(answer: Answer, words: Words) {
            leave(answer, words.and_then(|words| Some(words.split_last_mut()?.1)));
        }
        assert_eq!(of(working!(but_last), &case()), (Ok(()), Fault::WorkWord(WORDS - 1)));
        // They are cleared after any answer.
        fn always(_: Answer, words: Words) {
            leave(Ok(0), words);
        }
        assert_eq!(of(working!(always), &unsound(WORDS)), (Err((4, 6)), Fault::WorkWord(0)));
        assert_eq!(of(working!(always), &unsound(1)), (Err((1, 0)), Fault::WorkWord(0)));
    }

    /// One that takes no more words than its own, and one whose own are more than they should be.
    #[test]
    fn limits_are_told_apart() {
        let fewer: Call = |operation, card, root, out, words| {
            let answer = (TREE.call)(operation, card, root, out, None);
            leave(answer, words);
            answer
        };
        let more: Call = |operation, card, root, out, words| {
            let lent = words.as_ref().map_or(4096, |words| words.len());
            let answer = tree::shorten(operation, card, root, out, lent);
            leave(answer, words);
            answer
        };
        for operation in Operation::BOTH {
            let found = |call, words| {
                let other = Way { call, ..working!(leave) };
                found(other, &with_pairs(513, words), operation)
            };
            assert_eq!(found(fewer, 2051), None);
            let difference = found(fewer, 2052).unwrap();
            assert_eq!((difference.own_words, difference.answer), (false, Err((8, 0))));
            for words in [1, 2048, 2052] {
                let difference = found(more, words).unwrap();
                assert_eq!((difference.own_words, difference.due), (true, Err((8, 0))));
                assert!(difference.answer.is_ok());
                let line = difference.line;
                assert!(line.ends_with(" 2048 x x") || line.ends_with(" 2048"), "{line}");
            }
        }
    }

    /// What is stated counts, and the length that is stated is lent.
    #[test]
    fn stated_lists() {
        Operation::BOTH.into_iter().for_each(stated_lists_of);
    }

    fn stated_lists_of(operation: Operation) {
        let (mut comparison, mut draws) = (Comparison::new(), Draws::new(1, 1));
        let mut case = case();
        let whole = tree::whole(operation, &case.card, &case.root, WORDS);
        let (words, length) = whole.as_ref().map(|whole| (whole.list.len(), whole.output.len())).unwrap();
        let given = |lent| {
            let Due { answer, output, list } = Due::of(&whole, 1000, Some(lent));
            Given { answer, output: output.to_vec(), list: list.to_vec() }
        };
        let mut compared = |lent, given, by| {
            case.list = Some(lent);
            case.stated = Some(Stated { operation, given });
            comparison.compare(&[TREE], &case, by, &mut draws)
        };
        let answers = |with| Ok(Answers { without: Ok(length), with });
        assert_eq!(compared(words, given(words), operation), answers(Ok(length)));
        assert_eq!(compared(words - 1, given(words - 1), operation), answers(Err((10, 0))));
        assert_eq!(compared(words - 1, given(words), operation).unwrap_err().fault, Fault::Answer);
        let mut other = given(words);
        other.list[3] += 1;
        let difference = compared(words, other.clone(), operation).unwrap_err();
        assert_eq!((difference.fault, difference.says), (Fault::List(3), "stated is"));
        assert!(difference.line.starts_with(operation.word()));
        other = Given { output: vec![0; length], ..given(words) };
        assert_eq!(compared(words, other, operation).unwrap_err().fault, Fault::Output(0));
        other = given(words);
        other.output.pop();
        assert_eq!(compared(words, other, operation).unwrap_err().fault, Fault::Output(length - 1));
        // What is stated of one operation says nothing of the other.
        for by in Operation::BOTH {
            let refused = Given { answer: Err((9, 0)), output: vec![], list: vec![] };
            assert_eq!(compared(words, refused, by).is_ok(), by != operation);
        }
    }

    /// A difference says what each answered, and its line is a case by itself.
    #[test]
    fn differences_are_shown() {
        let call: Call = |_, _, _, _, _| Err((4, 17));
        let difference = found(Way { what: "other", call, ..TREE }, &case(), Operation::Straight).unwrap();
        let shown = difference.to_string();
        let (said, line) = shown.split_once("\n    ").unwrap();
        assert_eq!(said, format!("other answers 4 17; tree answers 0 {}", difference.due.unwrap()));
        let again = Case::of_line(line).unwrap();
        assert_eq!((again.card, again.out, again.words, again.list), (case().card, 1000, WORDS, None));
    }

    /// Whatever a call did, nothing of it is found of the next.
    #[test]
    fn differences_leave_nothing() {
        fn spoil(out: &mut [u8], words: Words) {
            out.fill(0);
            words.into_iter().for_each(|words| words.fill(7));
        }
        let call: Call = |_, _, _, out, words| {
            spoil(out, words);
            Err((4, 17))
        };
        let list_call: ListCall = |_, _, _, out, words, list, _| {
            spoil(out, words);
            list.fill(0);
            Err((4, 17))
        };
        let (mut comparison, mut draws) = (Comparison::new(), Draws::new(1, 1));
        for way in [Way { call, ..working!(leave) }, Way { list_call, ..working!(leave) }] {
            let mut compare = |way| comparison.compare(&[way], &case(), Operation::Upstream, &mut draws);
            assert_eq!(compare(way).unwrap_err().fault, Fault::Answer);
            assert!(compare(TREE).is_ok());
        }
    }

    #[test]
    fn differences_are_counted() {
        let call: Call = |_, _, _, _, _| Err((4, 17));
        let cases = || [case(), Case { operation: Some(Operation::Straight), ..case() }, with_pairs(1, 0)];
        let report = compare_all("case", &[Way { call, ..TREE }], cases());
        assert_eq!((report.cases, report.differ, report.differences.len()), (3, 3, 5));
        let report = compare_all("case", &[TREE], cases());
        assert_eq!((report.cases, report.differ, report.differences.len()), (3, 0, 0));
    }

    /// Where comparing panics, the case is known; behind it none is.
    #[test]
    fn a_panic_has_a_name() {
        let call: Call = |operation, card, root, out, words| match out.len() {
            20 => panic!("too few bytes"),
            _ => (TREE.call)(operation, card, root, out, words),
        };
        let cases = || [case(), Case { out: 20, ..case() }];
        compare_all("case", &[TREE], cases());
        assert_eq!(current::name(), None);
        let compare = || compare_all("case", &[Way { call, ..TREE }], cases());
        std::panic::catch_unwind(compare).map(|_| ()).unwrap_err();
        assert_eq!(current::name().as_deref(), Some("case 2"));
    }
}
