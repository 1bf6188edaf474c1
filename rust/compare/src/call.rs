//! The calls, with what each is lent, and the engines that run them.
//!
//! An answer is one number: kind * 2^48 + number * 2^32 + place, count or units.
//! Kind 0 is a refusal (number, place). Complete and unify: kind 1 written
//! (count), 2 no common instance, 3 too large (number 22). Compare: kind 1
//! the answer 1 to 4. Decide: kind 1 the answer 1 (same) or 2 (different), 3
//! ended (number 21 or 22). Outermost: kind 1 the number 1 (same) or 2
//! (different), 3 ended (number 21 or 22), each with the units paid.
//! Complete_saving and resume_saving: kind 1 written (count), the number being
//! the length of the saved record, 0 for none; resume: as complete. Two calls
//! have no kinds: subterm answers start * 2^32 + length, 0 if refused; lower 0
//! (refused), 1 (the first) or 2 (the second).

use kb_cases::pairs::Pair;
use kb_engine::calls::TOO_LARGE;
use kb_engine::{CompareAnswer, CompleteAnswer, DecideAnswer, SavingAnswer, UnifyAnswer};
use kb_engine::{Refusal, Verdict, Which};
use kb_engine::{MIN_RESULT, MIN_SAVED};
use std::borrow::Cow;
use std::fmt;

/// Bytes that a call is lent.
pub type Bytes<'a> = Cow<'a, [u8]>;

/// A call and what it reads.
#[derive(Clone, Debug, PartialEq, Eq)]
pub enum Call<'a> {
    Complete(Bytes<'a>),
    Unify(Bytes<'a>),
    Compare(Bytes<'a>),
    /// A problem and a position.
    Subterm(Bytes<'a>, usize),
    /// A problem and a record.
    Decide(Bytes<'a>, Bytes<'a>),
    /// A problem and a record.
    Outermost(Bytes<'a>, Bytes<'a>),
    /// A symbol field and two terms.
    Lower(Bytes<'a>, Bytes<'a>, Bytes<'a>),
    CompleteSaving(Bytes<'a>),
    /// A saved record and a budget.
    Resume(Bytes<'a>, u64),
    /// A saved record and a budget.
    ResumeSaving(Bytes<'a>, u64),
}

/// The two buffers that a call may be lent: for a result, and for a saved
/// record.
pub type Buffers<'b> = [&'b mut [u8]; 2];

impl Call<'_> {
    pub fn name(&self) -> &'static str {
        match self {
            Call::Complete(..) => "complete",
            Call::Unify(..) => "unify",
            Call::Compare(..) => "compare",
            Call::Subterm(..) => "subterm",
            Call::Decide(..) => "decide",
            Call::Outermost(..) => "outermost",
            Call::Lower(..) => "lower",
            Call::CompleteSaving(..) => "complete_saving",
            Call::Resume(..) => "resume",
            Call::ResumeSaving(..) => "resume_saving",
        }
    }

    /// The bytes that it reads.
    pub fn lent(&self) -> [&[u8]; 3] {
        match self {
            Call::Complete(bytes)
            | Call::Unify(bytes)
            | Call::Compare(bytes)
            | Call::Subterm(bytes, _)
            | Call::CompleteSaving(bytes)
            | Call::Resume(bytes, _)
            | Call::ResumeSaving(bytes, _) => [bytes, &[], &[]],
            Call::Decide(problem, record) | Call::Outermost(problem, record) => {
                [problem, record, &[]]
            }
            Call::Lower(symbols, first, second) => [symbols, first, second],
        }
    }
}

impl fmt::Display for Call<'_> {
    fn fmt(&self, f: &mut fmt::Formatter) -> fmt::Result {
        match self {
            Call::Subterm(_, position) => write!(f, "subterm at {position}"),
            Call::Resume(_, budget) | Call::ResumeSaving(_, budget) => {
                write!(f, "{} with {budget} units", self.name())
            }
            _ => f.write_str(self.name()),
        }
    }
}

impl From<Pair> for Call<'_> {
    fn from(pair: Pair) -> Self {
        Call::Lower(pair.symbols.into(), pair.first.into(), pair.second.into())
    }
}

/// The calls with encoded answers.
pub trait Engine {
    /// Runs a call with the two buffers that it may be lent; what it writes goes
    /// to their fronts.
    fn run(&self, call: &Call, buffers: Buffers) -> u64;

    fn complete(&self, problem: &[u8], result: &mut [u8]) -> u64 {
        self.run(&Call::Complete(problem.into()), [result, &mut []])
    }

    fn unify(&self, problem: &[u8], result: &mut [u8]) -> u64 {
        self.run(&Call::Unify(problem.into()), [result, &mut []])
    }

    fn compare(&self, problem: &[u8]) -> u64 {
        self.run(&Call::Compare(problem.into()), Default::default())
    }

    fn subterm(&self, problem: &[u8], position: usize) -> u64 {
        let call = Call::Subterm(problem.into(), position);
        self.run(&call, Default::default())
    }

    fn decide(&self, problem: &[u8], record: &[u8]) -> u64 {
        let call = Call::Decide(problem.into(), record.into());
        self.run(&call, Default::default())
    }

    fn outermost(&self, problem: &[u8], record: &[u8]) -> u64 {
        let call = Call::Outermost(problem.into(), record.into());
        self.run(&call, Default::default())
    }

    fn lower(&self, symbols: &[u8], first: &[u8], second: &[u8]) -> u64 {
        let call = Call::Lower(symbols.into(), first.into(), second.into());
        self.run(&call, Default::default())
    }
}

/// The result that an engine writes for a problem, none if it refuses.
pub fn result_of(engine: &dyn Engine, problem: &[u8]) -> Option<Vec<u8>> {
    let mut result = vec![0; MIN_RESULT];
    let (kind, _, count) = decode(engine.complete(problem, &mut result));
    (kind == 1).then(|| result[..count as usize].to_vec())
}

/// What a call has left.
#[derive(Clone, Debug, PartialEq, Eq)]
pub struct Left {
    pub answer: u64,
    /// Empty if it refused.
    pub result: Vec<u8>,
    /// Empty if there is none.
    pub saved: Vec<u8>,
}

/// What one of the calls that complete or resume leaves, with the least
/// buffers.
pub fn left_by(engine: &dyn Engine, call: &Call) -> Left {
    let (mut result, mut saved) = (vec![0; MIN_RESULT], vec![0; MIN_SAVED]);
    let answer = engine.run(call, [&mut result, &mut saved]);
    let (length, count) = match decode(answer) {
        (1, length, count) => (length as usize, count as usize),
        _ => (0, 0),
    };
    result.truncate(count);
    saved.truncate(length);
    Left {
        answer,
        result,
        saved,
    }
}

/// The saved record that an engine writes for a problem, none if it writes
/// none.
pub fn saved_record_of(engine: &dyn Engine, problem: &[u8]) -> Option<Vec<u8>> {
    let left = left_by(engine, &Call::CompleteSaving(problem.into()));
    (!left.saved.is_empty()).then_some(left.saved)
}

/// One answer as a number.
pub fn encode(kind: u64, number: usize, low: usize) -> u64 {
    (kind << 48) | ((number as u64) << 32) | low as u64
}

/// Kind, number, and place, count or units.
pub fn decode(answer: u64) -> (u64, u64, u64) {
    (answer >> 48, (answer >> 32) & 0xffff, answer & 0xffff_ffff)
}

/// A refusal, by any call but subterm and lower.
pub fn refused(refusal: Refusal) -> u64 {
    encode(0, refusal.number.into(), refusal.place)
}

/// An answer of complete and resume.
pub fn completed(answer: CompleteAnswer) -> u64 {
    match answer {
        CompleteAnswer::Refused(refusal) => refused(refusal),
        CompleteAnswer::Written(count) => encode(1, 0, count),
    }
}

/// An answer of complete_saving and resume_saving.
pub fn saving(answer: SavingAnswer) -> u64 {
    match answer {
        SavingAnswer::Refused(refusal) => refused(refusal),
        SavingAnswer::Written(lengths) => encode(1, lengths.saved, lengths.result),
    }
}

/// An answer of unify.
pub fn unified(answer: UnifyAnswer) -> u64 {
    match answer {
        UnifyAnswer::Refused(refusal) => refused(refusal),
        UnifyAnswer::Written(count) => encode(1, 0, count),
        UnifyAnswer::None => encode(2, 0, 0),
        UnifyAnswer::TooLarge => encode(3, TOO_LARGE.into(), 0),
    }
}

/// An answer of compare.
pub fn compared(answer: CompareAnswer) -> u64 {
    match answer {
        CompareAnswer::Refused(refusal) => refused(refusal),
        CompareAnswer::Compared(order) => encode(1, 0, order as usize),
    }
}

/// An answer of decide, which does not tell the units.
pub fn decided(answer: DecideAnswer) -> u64 {
    match answer {
        DecideAnswer::Refused(refusal) => refused(refusal),
        DecideAnswer::Decided(Verdict::Same, _) => encode(1, 0, 1),
        DecideAnswer::Decided(Verdict::Different, _) => encode(1, 0, 2),
        DecideAnswer::Decided(Verdict::Ended(number), _) => encode(3, number.into(), 0),
    }
}

/// An answer of outermost.
pub fn decided_outermost(answer: DecideAnswer) -> u64 {
    let (kind, number, units) = match answer {
        DecideAnswer::Refused(refusal) => return refused(refusal),
        DecideAnswer::Decided(Verdict::Same, units) => (1, 1, units),
        DecideAnswer::Decided(Verdict::Different, units) => (1, 2, units),
        DecideAnswer::Decided(Verdict::Ended(number), units) => (3, number.into(), units),
    };
    encode(kind, number, units as usize)
}

/// A part of the problem that subterm hands back; 0 if it is empty.
pub fn handed_back(start: usize, length: usize) -> u64 {
    if length == 0 {
        return 0;
    }
    ((start as u64) << 32) | length as u64
}

/// The term that lower hands back.
pub fn chosen(answer: Which) -> u64 {
    match answer {
        Which::Refused => 0,
        Which::First => 1,
        Which::Second => 2,
    }
}

/// The independent engine.
pub struct RustEngine;

impl Engine for RustEngine {
    fn run(&self, call: &Call, [result, saved]: Buffers) -> u64 {
        match call {
            Call::Complete(problem) => completed(kb_engine::complete(problem, result)),
            Call::Unify(problem) => unified(kb_engine::unify(problem, result)),
            Call::Compare(problem) => compared(kb_engine::compare(problem)),
            Call::Subterm(problem, position) => {
                let part = kb_engine::subterm(problem, *position);
                let start = (part.as_ptr() as usize).wrapping_sub(problem.as_ptr() as usize);
                handed_back(start, part.len())
            }
            Call::Decide(problem, record) => decided(kb_engine::decide(problem, record)),
            Call::Outermost(problem, record) => {
                decided_outermost(kb_engine::outermost(problem, record))
            }
            Call::Lower(symbols, first, second) => {
                chosen(kb_engine::lower::which(symbols, first, second))
            }
            Call::CompleteSaving(problem) => {
                saving(kb_engine::complete_saving(problem, result, saved))
            }
            Call::Resume(record, budget) => completed(kb_engine::resume(record, *budget, result)),
            Call::ResumeSaving(record, budget) => {
                saving(kb_engine::resume_saving(record, *budget, result, saved))
            }
        }
    }
}
