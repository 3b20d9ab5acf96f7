//! A case: a card with what is lent for it and, where that is known beforehand, what is due.
use crate::text::{question, vector, Vector};
use crate::{most_pairs, own, stated, Answer, Operation, MOST_TIMES, WORDS};

pub struct Case {
    /// Both are compared where it names none.
    pub operation: Option<Operation>,
    pub root: Vec<u8>,
    pub card: Vec<u8>,
    /// How many bytes of the out buffer are lent, and how many work words.
    pub out: usize,
    pub words: usize,
    /// How many words of a list, where a length is stated.
    pub list: Option<usize>,
    pub stated: Option<Stated>,
}

/// More bytes or words than these are lent to no case of a file. None needs as many.
const MOST_LENT: usize = 1 << 24;

/// Which case of a file lends too much, if one does.
pub fn within_limits(name: &str, cases: &[Case]) -> Result<(), String> {
    let lends = |case: &Case| case.out.max(case.words).max(case.list.unwrap_or(0));
    match cases.iter().position(|case| lends(case) > MOST_LENT) {
        Some(i) => Err(format!("{name}: line {} lends more than {MOST_LENT}", i + 1)),
        None => Ok(()),
    }
}

/// What is due by an operation: with a list where the case states its length, else without one.
pub struct Stated {
    pub operation: Operation,
    pub given: Given,
}

/// What a call gives: its answer, the output and the words of the list's entries.
#[derive(Clone, Debug, PartialEq)]
pub struct Given {
    pub answer: Answer,
    pub output: Vec<u8>,
    pub list: Vec<u32>,
}

/// How many work words are lent, none where a call brings its own, and how many words of a list, none where no
/// list is.
#[derive(Clone, Copy)]
pub struct Lending {
    pub words: Option<usize>,
    pub list: Option<usize>,
}

impl Case {
    pub fn new(root: Vec<u8>, card: Vec<u8>, out: usize, words: usize) -> Case {
        Case { operation: None, root, card, out, words, list: None, stated: None }
    }

    /// With room for any output.
    pub fn of_own(own: own::Case) -> Case {
        let out = own.card.len() * MOST_TIMES;
        Case::new(own.root, own.card, out, own.words)
    }

    pub fn of_stated(operation: Operation, case: stated::Stated) -> Case {
        Case::of_vector(case.vector(Some(operation)))
    }

    pub fn of_vector(v: Vector) -> Case {
        let given = Given { answer: v.answer, output: v.output, list: v.list };
        let operation = v.operation.unwrap_or(Operation::Upstream);
        let stated = Some(Stated { operation, given });
        Case {
            operation: v.operation,
            root: v.root,
            card: v.card,
            out: v.out,
            words: v.words,
            list: v.lent,
            stated,
        }
    }

    /// From a line of the vectors, with its answer or without one.
    pub fn of_line(line: &str) -> Option<Case> {
        match line.contains(" = ") {
            true => vector(line).map(Case::of_vector),
            // With any answer, which is not looked at.
            false => {
                let case = Case::of_vector(vector(&format!("{line} = 1 0"))?);
                Some(Case { stated: None, ..case })
            }
        }
    }

    pub fn operations(&self) -> impl Iterator<Item = Operation> {
        let named = self.operation;
        Operation::BOTH.into_iter().filter(move |&each| named.is_none_or(|named| named == each))
    }

    /// What is stated of a call with so many words of a list, or without one.
    pub fn stated(&self, operation: Operation, list: Option<usize>) -> Option<&Given> {
        let stated = self.stated.as_ref()?;
        ((stated.operation, self.list) == (operation, list)).then_some(&stated.given)
    }

    /// Whether a call that brings its own words is due the same as one with those that are lent.
    pub fn is_as_with_own(&self) -> bool {
        self.words >= WORDS && most_pairs(self.words) == most_pairs(WORDS)
    }

    /// As a line of the vectors, without its answer.
    pub fn line(&self, operation: Operation, lending: Lending) -> String {
        // Without a list the line of the old operation doesn't name it.
        let named = Some(operation).filter(|_| (operation, lending.list) != (Operation::Upstream, None));
        question(named, &self.root, &self.card, self.out, lending.words.unwrap_or(WORDS), lending.list)
    }
}

#[cfg(test)]
mod tests {
    use super::*;

    /// A line is that of the vectors: `old` only with a list, `straight` with x for none and for no counts.
    #[test]
    fn lines() {
        let case = Case::new(vec![1], vec![2], 1000, 2048);
        let line = |operation, list| case.line(operation, Lending { words: Some(2048), list });
        assert_eq!(line(Operation::Upstream, None), "01 02 1000 2048");
        assert_eq!(line(Operation::Upstream, Some(4)), "old 01 02 1000 2048 4");
        assert_eq!(line(Operation::Straight, None), "straight 01 02 1000 2048 x x");
        assert_eq!(line(Operation::Straight, Some(4)), "straight 01 02 1000 2048 4 x");
    }

    #[test]
    fn of_lines() {
        let lines =
            ["01 02 1000 2048", "old 01 02 1000 2048 4", "straight 01 - 7 0 x x", "straight 01 02 9 1 4 x"];
        for line in lines {
            let case = Case::of_line(line).unwrap();
            let lending = Lending { words: Some(case.words), list: case.list };
            assert_eq!(case.line(case.operations().next().unwrap(), lending), line);
            assert!(case.stated.is_none());
            assert!(Case::of_line(&format!("{line} = 10 0")).unwrap().stated.is_some());
        }
        let none =
            ["", "01", "01 02 1000", "01 02 1000 2048 4", "old 01 02 1000 2048", "01 02 x 2048", "0 1 2 3"];
        assert!(none.iter().all(|line| Case::of_line(line).is_none()));
        assert!(Case::of_line("01 02 1000 2048 = ").is_none());
    }
}
