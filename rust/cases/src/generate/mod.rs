//! Problems by seed and index, for comparing engines.
//!
//! `problem` is a function of its two numbers alone. The index modulo the
//! number of families chooses the family, the rest varies it. In a third of
//! the problems symbols share a rank; in four families equations with neither
//! side above wait. Most budgets are small, so that many problems can be run.
//! `damage::exhaustive` lists all truncations and single-byte changes of some
//! problems. `records` makes questions of records, `pairs` pairs of terms for
//! lower, `slices` runs that are cut and go on in slices, `checkpoints` saved
//! records.

pub mod checkpoints;
pub mod damage;
pub mod edges;
pub mod limits;
pub mod pairs;
pub mod random;
pub mod ranks;
pub mod records;
pub mod slices;
pub mod terms;
pub mod theory;
pub mod waiting;
pub mod words;

use random::Random;

type Family = fn(&mut Random) -> Vec<u8>;

/// The families in the order of the index.
const FAMILIES: [(&str, Family); 24] = [
    ("random theory", theory::random),
    ("orientable theory", theory::orientable),
    ("non-linear theory", theory::non_linear),
    ("rich theory", theory::rich),
    ("shuffled paper theory", theory::papers),
    ("random words", words::random),
    ("group presentation", words::groups),
    ("single equation", terms::related_sides),
    ("unrelated sides", terms::unrelated_sides),
    ("doubling unifier", terms::doubling),
    ("doubling overlap", limits::doubling_overlap),
    ("chains and trees", terms::chains_and_trees),
    ("size limit", limits::size),
    ("variable limit", limits::variables),
    ("room limit", limits::room),
    ("unorientable", limits::unorientable),
    ("waiting in rounds", waiting::rounds),
    ("waiting, then simplified", waiting::simplified),
    ("removed, then waiting", waiting::removed),
    ("paper theory behind waiting", waiting::behind),
    ("edges", edges::edges),
    ("damaged", damage::random),
    ("bytes", damage::bytes),
    ("budget sweep", theory::random),
];

/// Number of families.
pub const FAMILY_COUNT: u64 = FAMILIES.len() as u64;
const SWEEP: u64 = FAMILY_COUNT - 1;
/// Budgets of one theory in the sweep.
const SWEPT_BUDGETS: u64 = 48;

/// Name, share and maker of a family.
type Shared<F> = (&'static str, u64, F);

/// The sum of the families' shares.
const fn sum_of_shares<F: Copy>(families: &[Shared<F>]) -> u64 {
    let (mut sum, mut i) = (0, 0);
    while i < families.len() {
        sum += families[i].1;
        i += 1;
    }
    sum
}

/// The name and the maker of the family that the index modulo the sum of the
/// shares chooses.
fn by_share<F: Copy>(families: &[Shared<F>], index: u64) -> (&'static str, F) {
    let mut rest = index % sum_of_shares(families);
    for (name, share, family) in families {
        if rest < *share {
            return (name, *family);
        }
        rest -= share;
    }
    unreachable!("the rest is below the sum");
}

/// The name of the index's family.
pub fn family(index: u64) -> &'static str {
    FAMILIES[(index % FAMILY_COUNT) as usize].0
}

/// Sets the choice of shared ranks apart from the problem's own numbers.
const RANKS: u64 = 0x5241_4e4b;

/// The problem of a seed and an index.
pub fn problem(seed: u64, index: u64) -> Vec<u8> {
    let (number, variant) = (index % FAMILY_COUNT, index / FAMILY_COUNT);
    let swept = variant / SWEPT_BUDGETS;
    let (mut problem, of_ranks) = if number == SWEEP {
        (theory::sweep(seed, swept, variant % SWEPT_BUDGETS), swept)
    } else {
        let family = FAMILIES[number as usize].1;
        (family(&mut Random::new(seed, index)), index)
    };
    ranks::share(&mut problem, &mut Random::new(seed ^ RANKS, of_ranks));
    problem
}
