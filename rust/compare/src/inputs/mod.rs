//! What is compared: kinds of input, and the table of their families.
//!
//! A kind is a file: the calls that are made on an input, what the summary
//! notes of their answers, how an input is shown, and its families. A further
//! kind is a further file, a case of `Input` and a line of `KINDS`.

mod pair;
mod problem;
mod question;
mod resumption;
mod saving;

pub use problem::PutBack;

use crate::call::Engine;
use crate::check::{Checker, Difference};
use kb_cases::pairs::Pair;
use kb_cases::questions::Question;
use kb_cases::resumptions::Resumption;
use kb_cases::slices::Sliced;

/// What calls are made on.
#[derive(Clone, Debug)]
pub enum Input {
    /// Complete, unify, compare and subterm; decide and outermost of the result.
    Problem(Vec<u8>),
    /// Decide and outermost.
    Question(Question),
    /// Lower.
    Pair(Pair),
    /// Complete_saving, then resume_saving and resume until the run ends; decide
    /// and outermost of the result.
    Sliced(Sliced),
    /// Resume and resume_saving.
    Resumption(Resumption),
}

/// All kinds.
pub const KINDS: [Kind; 5] = [
    problem::KIND,
    question::KIND,
    pair::KIND,
    saving::KIND,
    resumption::KIND,
];

impl Input {
    /// Makes all calls; the number varies how they are lent their bytes.
    pub fn check(&self, checker: &mut Checker, number: u64) -> Result<Notes, Difference> {
        match self {
            Input::Problem(problem) => problem::check(checker, problem, number),
            Input::Question(question) => question::check(checker, question),
            Input::Pair(pair) => pair::check(checker, pair, number),
            Input::Sliced(sliced) => saving::check(checker, sliced, number),
            Input::Resumption(resumption) => resumption::check(checker, resumption, number),
        }
    }

    /// The lent bytes as text.
    pub fn shown(&self) -> String {
        match self {
            Input::Problem(problem) => hex(problem),
            Input::Question(question) => question::shown(question),
            Input::Pair(pair) => pair::shown(pair),
            Input::Sliced(sliced) => saving::shown(sliced),
            Input::Resumption(resumption) => resumption::shown(resumption),
        }
    }
}

/// Families of one kind of input: known answers first, then all damage, then
/// generated ones.
pub struct Kind {
    /// What is counted.
    pub name: &'static str,
    pub families: &'static [fn(Plan) -> Cases],
}

/// Which inputs are generated.
#[derive(Clone, Copy, Debug)]
pub struct Plan {
    pub seed: u64,
    pub first: u64,
    pub count: u64,
}

/// The cases of some families, in order.
pub type Cases = Box<dyn Iterator<Item = Case>>;

/// An input of a family.
pub struct Case {
    pub family: &'static str,
    /// Varies how the input is lent.
    pub number: u64,
    pub input: Input,
    /// Where the answers are known.
    pub due: Option<Due>,
}

/// A case with known answers: its name, and what an engine answers wrong.
pub struct Due {
    pub name: String,
    pub faults: Faults,
}

/// An engine to the calls whose answers are not those due, with the answers.
pub type Faults = Box<dyn Fn(&dyn Engine) -> Vec<(String, u64)>>;

/// What the summary counts of an input.
pub type Notes = Vec<String>;

/// A call, if its answer is not the one due.
fn fault(call: &str, answer: u64, due: u64) -> Vec<(String, u64)> {
    match answer == due {
        true => Vec::new(),
        false => vec![(call.to_string(), answer)],
    }
}

/// All inputs of a list, without answers due.
fn listed(family: &'static str, inputs: impl Iterator<Item = Input> + 'static) -> Cases {
    let case = move |(number, input)| Case {
        family,
        number,
        input,
        due: None,
    };
    Box::new((0..).zip(inputs).map(case))
}

/// The inputs of the plan's seed and indices, without answers due.
fn generated(
    plan: Plan,
    family: fn(u64) -> &'static str,
    input: impl Fn(u64, u64) -> Input + 'static,
) -> Cases {
    let case = move |number| Case {
        family: family(number),
        number,
        input: input(plan.seed, number),
        due: None,
    };
    Box::new((plan.first..plan.first + plan.count).map(case))
}

/// Most bytes of a slice that are shown.
const MOST_SHOWN: usize = 20_000;

/// The bytes and a full stop; a long slice is cut.
fn hex(bytes: &[u8]) -> String {
    let shown = &bytes[..bytes.len().min(MOST_SHOWN)];
    let text: String = shown.iter().map(|b| format!("{b:02x}")).collect();
    match shown.len() == bytes.len() {
        true => format!("{text}."),
        false => format!("{text} .. ({} bytes)", bytes.len()),
    }
}
