//! Questions by seed and index, for comparing engines: a problem with one
//! equation, and a record.
//!
//! `question` is a function of its two numbers and of the results that the
//! given engine writes. The index modulo the sum of the shares chooses the
//! family, the rest varies it. `exhaustive` lists all truncations and
//! single-byte changes of some records.

mod asked;
mod damage;
pub mod exhaustive;
mod forms;
mod growth;
pub(super) mod long;
pub(super) mod made;
mod results;
mod strategies;

use super::random::Random;
use super::terms::{assemble, Symbols};
use super::{by_share, sum_of_shares, Shared};
use crate::questions::Question;
use asked::{budget, Asked, Pair};

/// The result that an engine writes for a problem, none if it refuses.
pub type Complete<'c> = &'c dyn Fn(&[u8]) -> Option<Vec<u8>>;

/// What a question is asked about.
struct Source {
    symbols: Symbols,
    /// Pairs of terms that may replace each other in the terms asked.
    equal: Vec<Pair>,
    record: Vec<u8>,
}

impl Source {
    /// Terms over the symbols, and a budget.
    fn ask(&self, random: &mut Random) -> Question {
        let sides = self.asked(random).sides();
        self.question(random, sides)
    }

    fn asked<'a>(&'a self, random: &'a mut Random) -> Asked<'a> {
        Asked {
            random,
            symbols: &self.symbols,
            equal: &self.equal,
        }
    }

    /// These sides, with a budget.
    fn question(&self, random: &mut Random, sides: Vec<u8>) -> Question {
        let budget = budget(random, &self.symbols, &sides, &self.record);
        let problem = assemble(&self.symbols, budget, &[sides]);
        Question::new(problem, self.record.clone())
    }
}

type Family = fn(&mut Random, Complete) -> Question;

/// The families; the long records are rare.
const FAMILIES: [Shared<Family>; 13] = [
    ("kept result", 16, results::kept),
    ("unfinished rules", 6, results::unfinished),
    ("other symbols", 5, results::other_symbols),
    ("damaged problem", 2, results::damaged_problem),
    ("damaged result", 10, damage::result),
    ("made rules", 12, made::rules),
    ("made fields", 4, made::fields),
    ("growing rules", 4, growth::rules),
    ("erasing and doubling", 6, strategies::rules),
    ("erasing and doubling, delivered", 6, strategies::delivered),
    ("a term and its normal form", 6, forms::normal),
    ("damaged rules", 4, damage::rules),
    ("long record", 1, long::record),
];

/// Sum of the shares.
pub const SHARES: u64 = sum_of_shares(&FAMILIES);

/// The name of the index's family.
pub fn family(index: u64) -> &'static str {
    by_share(&FAMILIES, index).0
}

/// Sets questions apart from the problems of the same numbers.
const QUESTIONS: u64 = 0x5155_4553;

/// The question of a seed and an index.
pub fn question(seed: u64, index: u64, complete: Complete) -> Question {
    let family = by_share(&FAMILIES, index).1;
    family(&mut Random::new(seed ^ QUESTIONS, index), complete)
}
