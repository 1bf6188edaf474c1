//! What was compared: how many of each family, with which answers.

use crate::inputs::Notes;
use std::collections::BTreeMap;

/// Counts of one kind of input.
pub struct Summary {
    /// What is counted.
    name: &'static str,
    compared: u64,
    /// Cases whose answers are known.
    known: u64,
    /// Answers that are not the ones due.
    pub wrong: usize,
    pub differences: usize,
    families: BTreeMap<&'static str, u64>,
    answers: BTreeMap<String, u64>,
}

impl Summary {
    pub fn new(name: &'static str) -> Summary {
        Summary {
            name,
            compared: 0,
            known: 0,
            wrong: 0,
            differences: 0,
            families: BTreeMap::new(),
            answers: BTreeMap::new(),
        }
    }

    /// One more of a family.
    pub fn begin(&mut self, family: &'static str, known: bool) {
        self.compared += 1;
        self.known += u64::from(known);
        *self.families.entry(family).or_default() += 1;
    }

    /// The answers to an input.
    pub fn note(&mut self, notes: Notes) {
        for note in notes {
            *self.answers.entry(note).or_default() += 1;
        }
    }

    /// Differences and wrong answers.
    pub fn faults(&self) -> usize {
        self.differences + self.wrong
    }

    /// How often an answer was noted.
    pub fn count(&self, answer: &str) -> u64 {
        self.answers.get(answer).copied().unwrap_or(0)
    }

    /// The counts, last those of the whole kind.
    pub fn print(&self) {
        for (family, count) in &self.families {
            println!("{count:9}  {family}");
        }
        for (answer, count) in &self.answers {
            println!("{count:9}  {answer}");
        }
        let (compared, name, differences) = (self.compared, self.name, self.differences);
        let (known, wrong) = (self.known, self.wrong);
        println!(
            "{compared} {name}, {differences} differences; {known} known, {wrong} wrong answers"
        );
    }
}
