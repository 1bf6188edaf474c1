//! Runs that are cut by their budget and go on in slices.

use crate::generate::random::Random;
use crate::{fixed, programs};
use kb_engine::MAX_BUDGET;
use std::collections::BTreeSet;

/// A problem, the budgets at which its run is cut, and the slices in which it
/// goes on from there.
#[derive(Clone, Debug, PartialEq, Eq)]
pub struct Sliced {
    /// Its own budget is that of the run in one piece.
    pub problem: Vec<u8>,
    pub cuts: Vec<u32>,
    pub slices: Vec<Slices>,
}

/// How many units each slice has.
#[derive(Clone, Copy, Debug, PartialEq, Eq)]
pub enum Slices {
    /// All as many.
    Of(u32),
    /// Random numbers of a seed.
    Random(u64),
}

impl Slices {
    /// The units, slice by slice.
    pub fn units(self) -> Units {
        let seed = match self {
            Slices::Of(_) => 0,
            Slices::Random(seed) => seed,
        };
        Units {
            slices: self,
            random: Random::new(seed, 0),
            count: 0,
            idle: 0,
        }
    }
}

/// After so many slices all are twice as large, so that long runs end.
const STRETCH: u32 = 20;

/// The units of slice after slice.
pub struct Units {
    slices: Slices,
    random: Random,
    count: u32,
    /// The last so many slices finished no turn.
    idle: u32,
}

impl Units {
    /// The units of the next slice. They are doubled for each slice just before
    /// that finished no turn: a turn is done in one slice or not at all.
    pub fn next(&mut self, finished: bool) -> u32 {
        self.idle = if finished { 0 } else { self.idle + 1 };
        let units = match self.slices {
            Slices::Of(units) => units,
            Slices::Random(_) => self.random.budget(),
        };
        let doublings = (self.idle + self.count / STRETCH).min(20);
        self.count += 1;
        let units = u64::from(units) << doublings;
        units.min(MAX_BUDGET.into()) as u32
    }
}

/// The problem with another budget, if it is long enough to have one.
pub fn with_budget(problem: &[u8], budget: u32) -> Vec<u8> {
    let mut problem = problem.to_vec();
    let field = 3 + usize::from(*problem.get(2).unwrap_or(&0));
    if let Some(bytes) = problem.get_mut(field + 3..field + 7) {
        bytes.copy_from_slice(&budget.to_be_bytes());
    }
    problem
}

/// The fixed problems and those of complete_run, each once, with the highest
/// budget.
pub fn corpus() -> Vec<Vec<u8>> {
    let of_programs = programs::complete::cases();
    let of_programs = of_programs.list().iter().map(|case| case.problem.clone());
    let fixed = fixed::cases().into_iter().map(|case| case.problem);
    let mut seen = BTreeSet::new();
    let problems = fixed.chain(of_programs);
    let problems = problems.map(|problem| with_budget(&problem, MAX_BUDGET));
    problems
        .filter(|problem| seen.insert(problem.clone()))
        .collect()
}

/// Every budget up to this one cuts a run of the corpus.
const EVERY_CUT: u32 = 40;
/// Some budgets up to these cut it too.
const LARGER: [usize; 8] = [60, 100, 200, 400, 800, 1600, 3000, 6000];

/// The runs of the corpus: each cut at every small budget and at some larger
/// ones, and resumed in slices of 1, 2, 7 and random units.
pub fn runs() -> impl Iterator<Item = Sliced> {
    (0..).zip(corpus()).map(|(number, problem)| {
        let mut random = Random::new(number, 0);
        let mut larger = |top: usize| random.between(EVERY_CUT as usize + 1, top) as u32;
        let larger: Vec<u32> = LARGER.map(&mut larger).into();
        Sliced {
            problem,
            cuts: (0..=EVERY_CUT).chain(larger).collect(),
            slices: vec![
                Slices::Of(1),
                Slices::Of(2),
                Slices::Of(7),
                Slices::Random(number),
            ],
        }
    })
}
