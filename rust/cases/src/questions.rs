//! Fixed questions of records, with what decide and outermost must answer.
//!
//! The answers are written out, with the units paid, so that every engine can
//! be held to them. `records` has records that are read or refused, `steps`
//! rewriting by few rules, and `strategies` what tells the two calls apart.

mod records;
mod steps;
mod strategies;

pub use steps::{counted, five_digits};

use crate::kept::Kept;
use crate::notation::Theory;
use kb_engine::problem::Refusal;
use kb_engine::{DecideAnswer, Verdict};

/// A problem with one equation, and a record.
#[derive(Clone, Debug, PartialEq, Eq)]
pub struct Question {
    pub problem: Vec<u8>,
    pub record: Vec<u8>,
    /// Whether the record is, as it stands, what an engine wrote for a problem
    /// with the same symbol field.
    pub delivered: bool,
}

impl Question {
    /// A record of which nothing is known.
    pub fn new(problem: Vec<u8>, record: Vec<u8>) -> Question {
        Question {
            problem,
            record,
            delivered: false,
        }
    }
}

/// A question and what each of the two calls must answer.
pub struct Case {
    pub name: String,
    pub question: Question,
    pub decide: DecideAnswer,
    pub outermost: DecideAnswer,
}

impl Case {
    /// A case that both calls answer so.
    pub fn new(name: &str, question: Question, answer: DecideAnswer) -> Case {
        Case {
            name: name.to_string(),
            question,
            decide: answer,
            outermost: answer,
        }
    }

    /// The same, but outermost answers so.
    fn by_outermost(self, outermost: DecideAnswer) -> Case {
        Case { outermost, ..self }
    }
}

/// The symbols of document 01's settle input: a constant and a unary f.
pub const SETTLE: &str = "c/0/0 f/1/1";
const ENTRY: [u8; 8] = [1, 0, 1, 0, 0, 0, 0, 1];

/// The result of document 01's settle input, f(f(x)) to x.
pub fn settle_record() -> Kept {
    Kept {
        units: 3,
        entries: vec![ENTRY.to_vec()],
        ..Kept::complete(vec![vec![1, 1, 0x80, 0x80]])
    }
}

/// All cases but the long ones.
pub fn cases() -> Vec<Case> {
    let lists = [steps::cases(), strategies::cases(), records::cases()];
    lists.into_iter().flatten().collect()
}

/// Those for which a call pays up to 1,000,000 units.
pub fn long_cases() -> Vec<Case> {
    steps::long_cases()
}

fn case(name: &str, theory: &Theory, budget: u32, record: Vec<u8>, answer: DecideAnswer) -> Case {
    let question = Question::new(theory.problem(budget), record);
    Case::new(name, question, answer)
}

fn same(units: u32) -> DecideAnswer {
    DecideAnswer::Decided(Verdict::Same, units)
}

fn different(units: u32) -> DecideAnswer {
    DecideAnswer::Decided(Verdict::Different, units)
}

/// A step was due and the budget spent: it has been paid in full.
fn spent(budget: u32) -> DecideAnswer {
    DecideAnswer::Decided(Verdict::Ended(21), budget)
}

/// The last step made a term over 120 nodes, and was paid.
fn large(units: u32) -> DecideAnswer {
    DecideAnswer::Decided(Verdict::Ended(22), units)
}

fn refused(number: u8, place: usize) -> DecideAnswer {
    DecideAnswer::Refused(Refusal { number, place })
}
