//! What came of comparing cases: how many there are of each answer, and what differs.
use crate::comparison::{Answers, Difference};
use crate::ways::Way;
use crate::{Answer, Operation};
use std::collections::BTreeMap;

/// So many differences are kept, those of the first cases.
const KEPT: usize = 5;

#[derive(Default)]
pub struct Report {
    pub cases: usize,
    /// How many of them differ, by one operation or by both.
    pub differ: usize,
    /// Of each the number of its case, from 0.
    pub differences: Vec<(usize, Operation, Difference)>,
    tallies: [Tally; 2],
}

/// Of one operation: how many cases there are, how many differ, and the answers without a list and with the one whose length
/// is stated or drawn.
#[derive(Default)]
struct Tally {
    cases: usize,
    differ: usize,
    without: Numbers,
    with: Numbers,
}

/// How many there are of each number, 0 for acceptance.
#[derive(Default)]
struct Numbers(BTreeMap<u32, usize>);

impl Numbers {
    fn count(&mut self, answer: Answer) {
        *self.0.entry(answer.map_or_else(|(number, _)| number, |_| 0)).or_default() += 1;
    }

    fn add(&mut self, other: Numbers) {
        other.0.into_iter().for_each(|(number, count)| *self.0.entry(number).or_default() += count);
    }

    fn shown(&self) -> String {
        let each: Vec<String> = self.0.iter().map(|(number, count)| format!("{number}: {count}")).collect();
        each.join(", ")
    }
}

impl Report {
    /// What came of a case, by each operation by which it was compared.
    pub fn add(
        &mut self,
        number: usize,
        results: impl IntoIterator<Item = (Operation, Result<Answers, Difference>)>,
    ) {
        let mut differs = false;
        for (operation, result) in results {
            let tally = &mut self.tallies[operation as usize];
            tally.cases += 1;
            match result {
                Ok(answers) => {
                    tally.without.count(answers.without);
                    tally.with.count(answers.with);
                }
                Err(difference) => {
                    differs = true;
                    tally.differ += 1;
                    if self.differences.len() < KEPT {
                        self.differences.push((number, operation, difference));
                    }
                }
            }
        }
        self.cases += 1;
        self.differ += differs as usize;
    }

    /// With what came of other cases.
    pub fn merge(&mut self, other: Report) {
        self.cases += other.cases;
        self.differ += other.differ;
        self.differences.extend(other.differences);
        self.differences.sort_by_key(|&(number, operation, _)| (number, operation as usize));
        self.differences.truncate(KEPT);
        for (tally, other) in self.tallies.iter_mut().zip(other.tallies) {
            tally.cases += other.cases;
            tally.differ += other.differ;
            tally.without.add(other.without);
            tally.with.add(other.with);
        }
    }

    /// How many answers with a list there are of each number, by both operations.
    pub fn numbers(&self) -> BTreeMap<u32, usize> {
        let mut numbers = BTreeMap::new();
        for (&number, count) in self.tallies.iter().flat_map(|tally| &tally.with.0) {
            *numbers.entry(number).or_default() += count;
        }
        numbers
    }

    /// The same by one operation.
    pub fn numbers_by(&self, operation: Operation) -> &BTreeMap<u32, usize> {
        &self.tallies[operation as usize].with.0
    }

    /// A line for each difference that is kept, and one for each operation.
    pub fn lines(&self, what: &str, ways: &[Way]) -> Vec<String> {
        let ways: Vec<&str> = ways.iter().map(|way| way.what).collect();
        let differences = self.differences.iter().map(|(number, operation, difference)| {
            format!("{what} {}, {}: {difference}", number + 1, operation.word())
        });
        let counts = Operation::BOTH.into_iter().zip(&self.tallies).filter(|(_, tally)| tally.cases > 0);
        let counts = counts.map(|(operation, tally)| {
            format!(
                "{what}, {}: {} of {} differ ({}); answers {}; with a list {}",
                operation.word(),
                tally.differ,
                tally.cases,
                ways.join(", "),
                tally.without.shown(),
                tally.with.shown()
            )
        });
        differences.chain(counts).collect()
    }
}
