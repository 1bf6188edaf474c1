//! Runs that are saved when their budget is spent, and resumed.

use crate::calls::{deliver, test_buffer, CompleteAnswer};
use crate::checkpoint;
use crate::fields::outcome_bytes;
use crate::normalise::Stop;
use crate::problem::{Problem, Refusal};
use crate::run::{run, run_from, End, Outcome};
use crate::{MAX_BUDGET, MIN_RESULT, MIN_SAVED};

/// The number of "the new budget is above 1,000,000".
pub const LARGE_BUDGET: u8 = 17;

/// Answer of `complete_saving` and `resume_saving`.
#[derive(Clone, Copy, Debug, PartialEq, Eq)]
pub enum SavingAnswer {
    Refused(Refusal),
    Written(Lengths),
}

/// How much a call that saves has written.
#[derive(Clone, Copy, Debug, Default, PartialEq, Eq)]
pub struct Lengths {
    /// Count of result bytes.
    pub result: usize,
    /// Length of the saved record, 0 on another end than 21.
    pub saved: usize,
}

/// Completes a problem; on end 21 the saved record goes to the front of the
/// second buffer.
pub fn complete_saving(problem: &[u8], result: &mut [u8], saved: &mut [u8]) -> SavingAnswer {
    answer(try_complete_saving(problem, result, saved))
}

/// Goes on with the run of a saved record, with a new budget.
pub fn resume(record: &[u8], budget: u64, result: &mut [u8]) -> CompleteAnswer {
    match try_resume(record, budget, result) {
        Ok(count) => CompleteAnswer::Written(count),
        Err(refusal) => CompleteAnswer::Refused(refusal),
    }
}

/// The same; on end 21 the new saved record goes to the front of the second
/// buffer.
pub fn resume_saving(
    record: &[u8],
    budget: u64,
    result: &mut [u8],
    saved: &mut [u8],
) -> SavingAnswer {
    answer(try_resume_saving(record, budget, result, saved))
}

fn answer(written: Result<Lengths, Refusal>) -> SavingAnswer {
    match written {
        Ok(lengths) => SavingAnswer::Written(lengths),
        Err(refusal) => SavingAnswer::Refused(refusal),
    }
}

fn try_complete_saving(
    problem: &[u8],
    result: &mut [u8],
    saved: &mut [u8],
) -> Result<Lengths, Refusal> {
    test_buffers(result, saved)?;
    let problem = Problem::read(problem)?;
    let outcome = run(&problem);
    Ok(deliver_both(&problem, &outcome, result, saved))
}

fn try_resume(record: &[u8], budget: u64, result: &mut [u8]) -> Result<usize, Refusal> {
    test_buffer(result, MIN_RESULT)?;
    let (_, outcome) = resumed(record, budget)?;
    Ok(deliver(&outcome_bytes(&outcome), result))
}

fn try_resume_saving(
    record: &[u8],
    budget: u64,
    result: &mut [u8],
    saved: &mut [u8],
) -> Result<Lengths, Refusal> {
    test_buffers(result, saved)?;
    let (problem, outcome) = resumed(record, budget)?;
    Ok(deliver_both(&problem, &outcome, result, saved))
}

fn test_buffers(result: &[u8], saved: &[u8]) -> Result<(), Refusal> {
    test_buffer(result, MIN_RESULT)?;
    test_buffer(saved, MIN_SAVED)
}

/// The problem of a saved record, with the new budget, and what its run then
/// leaves.
fn resumed(record: &[u8], budget: u64) -> Result<(Problem<'_>, Outcome), Refusal> {
    let (problem, state) = checkpoint::read(record)?;
    if budget > MAX_BUDGET.into() {
        let (number, place) = (LARGE_BUDGET, 0);
        return Err(Refusal { number, place });
    }
    let budget = budget as u32;
    let problem = Problem { budget, ..problem };
    let outcome = run_from(&problem, state);
    Ok((problem, outcome))
}

/// Writes the result and, on end 21, the saved record.
fn deliver_both(
    problem: &Problem,
    outcome: &Outcome,
    result: &mut [u8],
    saved: &mut [u8],
) -> Lengths {
    let spent = outcome.end == End::Stopped(Stop::Budget);
    Lengths {
        result: deliver(&outcome_bytes(outcome), result),
        saved: match spent {
            true => deliver(&checkpoint::write(problem, &outcome.state), saved),
            false => 0,
        },
    }
}
