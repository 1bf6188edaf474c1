//! Pairs of terms by seed and index, for comparing engines: a symbol field
//! and two terms.
//!
//! `pair` is a function of its two numbers alone. The index modulo the sum of
//! the shares chooses the family, the rest varies it. In a third of the pairs
//! symbols share a rank, and more than half of all pairs are accepted.
//! `exhaustive` lists all truncations, single-byte changes and appended bytes
//! of some pairs.

mod damage;
pub mod exhaustive;
mod large;
mod long;
mod related;

use super::random::Random;
use super::terms::{symbol_field, Symbols};
use super::{by_share, ranks, sum_of_shares, Shared};
use crate::pairs::Pair;

type Family = fn(&mut Random) -> Pair;

/// The families; long slices are rare.
const FAMILIES: [Shared<Family>; 11] = [
    ("related terms", 13, related::terms),
    ("lowered term", 9, related::lowered),
    ("unrelated terms", 4, related::unrelated),
    ("sides of an equation", 6, related::sides),
    ("chains", 5, large::chains),
    ("trees", 5, large::trees),
    ("about 120 nodes", 6, large::sizes),
    ("damaged field", 6, damage::field),
    ("damaged term", 7, damage::term),
    ("small tables", 2, damage::tables),
    ("long slices", 1, long::slices),
];

/// Sum of the shares.
pub const SHARES: u64 = sum_of_shares(&FAMILIES);

/// The name of the index's family.
pub fn family(index: u64) -> &'static str {
    by_share(&FAMILIES, index).0
}

/// Sets pairs apart from the problems of the same numbers.
const PAIRS: u64 = 0x5041_4952;

/// The pair of a seed and an index.
pub fn pair(seed: u64, index: u64) -> Pair {
    let family = by_share(&FAMILIES, index).1;
    family(&mut Random::new(seed ^ PAIRS, index))
}

/// Symbols whose ranks are at times shared.
fn shared(random: &mut Random, symbols: Symbols) -> Symbols {
    let mut field = symbol_field(&symbols);
    ranks::share(&mut field, random);
    field[3..].chunks(2).map(|s| (s[0], s[1])).collect()
}

/// The pair of these terms, at times exchanged.
fn either_way(random: &mut Random, symbols: &Symbols, terms: [Vec<u8>; 2]) -> Pair {
    let [first, second] = terms;
    let pair = Pair {
        symbols: symbol_field(symbols),
        first,
        second,
    };
    match random.once_in(3) {
        true => pair.exchanged(),
        false => pair,
    }
}
