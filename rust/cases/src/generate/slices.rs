//! Generated problems whose runs are cut and go on in slices, by seed and
//! index.

use super::random::Random;
use crate::slices::{Sliced, Slices};

/// Sets the cuts apart from the problems of the same numbers.
const CUTS: u64 = 0x4355_5453;

/// The problem of a seed and an index, with a cut, mostly a small one, and
/// slices.
pub fn sliced(seed: u64, index: u64) -> Sliced {
    let mut random = Random::new(seed ^ CUTS, index);
    let top = *random.pick(&[4, 12, 12, 40, 40, 100, 300]);
    let cut = random.below(top) as u32;
    let random_slices = Slices::Random(random.bits());
    let slices = [
        Slices::Of(1),
        Slices::Of(2),
        Slices::Of(7),
        Slices::Of(100),
        random_slices,
        random_slices,
    ];
    Sliced {
        problem: super::problem(seed, index),
        cuts: vec![cut],
        slices: vec![*random.pick(&slices)],
    }
}
