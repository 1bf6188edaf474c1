//! Saved records by seed and index, for comparing engines, each with a new
//! budget.
//!
//! `resumption` is a function of its two numbers and of the saved records that
//! the given engine writes. The index modulo the sum of the shares chooses the
//! family, the rest varies it. `exhaustive` lists all truncations and
//! single-byte changes of some records.

mod changed;
pub mod exhaustive;
mod long;
mod made;
mod moved;

use super::damage::damage;
use super::random::Random;
use super::{by_share, sum_of_shares, Shared};
use crate::resumptions::Resumption;
use crate::slices::with_budget;
use crate::theories;
use kb_engine::MAX_BUDGET;

/// The saved record that an engine writes for a problem, none if it writes
/// none.
pub type Save<'s> = &'s dyn Fn(&[u8]) -> Option<Vec<u8>>;

type Family = fn(&mut Random, Save) -> Resumption;

/// The families; the long records are rare.
const FAMILIES: [Shared<Family>; 8] = [
    ("saved run", 12, saved),
    ("changed state", 10, changed::state),
    ("made state", 14, made::state),
    ("made fields", 8, made::fields),
    ("moved fields", 6, moved::fields),
    ("damaged record", 10, damaged),
    ("large budget", 2, large_budget),
    ("long record", 1, long::record),
];

/// Sum of the shares.
pub const SHARES: u64 = sum_of_shares(&FAMILIES);

/// The name of the index's family.
pub fn family(index: u64) -> &'static str {
    by_share(&FAMILIES, index).0
}

/// Sets saved records apart from the problems of the same numbers.
const CHECKPOINTS: u64 = 0x5341_5645;

/// The resumption of a seed and an index.
pub fn resumption(seed: u64, index: u64, save: Save) -> Resumption {
    let family = by_share(&FAMILIES, index).1;
    family(&mut Random::new(seed ^ CHECKPOINTS, index), save)
}

/// Problems tried for a saved record.
const TRIES: usize = 20;

/// The saved record of a generated problem, whose run is cut early or late.
fn saved_record(random: &mut Random, save: Save) -> Vec<u8> {
    for _ in 0..TRIES {
        let problem = super::problem(random.bits(), random.bits() >> 32);
        let top = *random.pick(&[3, 10, 10, 30, 30, 100]);
        let cut = random.below(top) as u32;
        if let Some(record) = save(&with_budget(&problem, cut)) {
            return record;
        }
    }
    save(&theories::group_axioms().problem(9)).unwrap_or_default()
}

/// The record with a small budget.
fn with_units(random: &mut Random, record: Vec<u8>) -> Resumption {
    let budget = random.budget().into();
    Resumption { record, budget }
}

/// A record as it was saved.
fn saved(random: &mut Random, save: Save) -> Resumption {
    let record = saved_record(random, save);
    with_units(random, record)
}

/// A record that was saved or made, with bytes changed.
fn damaged(random: &mut Random, save: Save) -> Resumption {
    let mut record = match random.once_in(3) {
        true => made::checkpoint(random).bytes(),
        false => saved_record(random, save),
    };
    for _ in 0..random.between(1, 3) {
        damage(&mut record, random);
    }
    with_units(random, record)
}

/// A budget around the highest, or one that is too high; at times of a record
/// that is damaged.
fn large_budget(random: &mut Random, save: Save) -> Resumption {
    let mut record = saved_record(random, save);
    if random.once_in(4) {
        damage(&mut record, random);
    }
    let highest = u64::from(MAX_BUDGET);
    let budgets = [highest + 1, highest + 1, 1 << 32, 1 << 63, u64::MAX];
    let budget = *random.pick(&budgets);
    Resumption { record, budget }
}
