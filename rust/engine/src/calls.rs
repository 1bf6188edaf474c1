//! The four calls.

use crate::fields::{instance_bytes, outcome_bytes};
use crate::order::{self, Order};
use crate::problem::{Problem, Refusal};
use crate::run::run;
use crate::term::{rename, Term};
use crate::unification::{common_instance, CommonInstance};
use crate::MIN_RESULT;

/// The number of "a common instance over 120 nodes".
pub const TOO_LARGE: u8 = 22;

/// Answer of `complete`.
#[derive(Clone, Copy, Debug, PartialEq, Eq)]
pub enum CompleteAnswer {
    Refused(Refusal),
    /// Count of result bytes.
    Written(usize),
}

/// Answer of `compare`.
#[derive(Clone, Copy, Debug, PartialEq, Eq)]
pub enum CompareAnswer {
    Refused(Refusal),
    Compared(Order),
}

/// Answer of `unify`.
#[derive(Clone, Copy, Debug, PartialEq, Eq)]
pub enum UnifyAnswer {
    Refused(Refusal),
    /// Count of result bytes.
    Written(usize),
    /// No common instance.
    None,
    /// A common instance over 120 nodes, number 22.
    TooLarge,
}

/// Completes a problem; the result goes to the front of the buffer.
pub fn complete(problem: &[u8], result: &mut [u8]) -> CompleteAnswer {
    match try_complete(problem, result) {
        Ok(count) => CompleteAnswer::Written(count),
        Err(refusal) => CompleteAnswer::Refused(refusal),
    }
}

fn try_complete(problem: &[u8], result: &mut [u8]) -> Result<usize, Refusal> {
    test_buffer(result, MIN_RESULT)?;
    let problem = Problem::read(problem)?;
    Ok(deliver(&outcome_bytes(&run(&problem)), result))
}

/// Compares the two sides of the only equation by the path order.
pub fn compare(problem: &[u8]) -> CompareAnswer {
    match read_only_sides(problem) {
        Ok((problem, left, right)) => {
            CompareAnswer::Compared(order::compare(&left, &right, &problem.signature))
        }
        Err(refusal) => CompareAnswer::Refused(refusal),
    }
}

/// Unifies the two sides of the only equation, over the same variables.
pub fn unify(problem: &[u8], result: &mut [u8]) -> UnifyAnswer {
    match test_buffer(result, MIN_RESULT).and_then(|()| read_only_sides(problem)) {
        Err(refusal) => UnifyAnswer::Refused(refusal),
        Ok((_, left, right)) => match common_instance(&left, &right) {
            CommonInstance::None => UnifyAnswer::None,
            CommonInstance::TooLarge => UnifyAnswer::TooLarge,
            CommonInstance::Instance(instance) => {
                UnifyAnswer::Written(deliver(&instance_bytes(&rename(&instance)), result))
            }
        },
    }
}

/// The part of the problem that is the subterm of the only equation's left
/// side at the position; empty if refused.
pub fn subterm(problem: &[u8], position: usize) -> &[u8] {
    try_subterm(problem, position).unwrap_or(&[])
}

fn try_subterm(bytes: &[u8], position: usize) -> Option<&[u8]> {
    let problem = Problem::read(bytes).ok()?;
    let equation = problem.only_equation().ok()?;
    if position >= equation.left.len() {
        return None;
    }
    let start = equation.left.start + position;
    Some(&bytes[start..problem.term_end(start)])
}

/// Refuses a buffer with fewer bytes than it must have.
pub(crate) fn test_buffer(buffer: &[u8], least: usize) -> Result<(), Refusal> {
    if buffer.len() < least {
        return Err(Refusal {
            number: 1,
            place: 0,
        });
    }
    Ok(())
}

/// Reads the problem and the two sides of its only equation.
pub(crate) fn read_only_sides(problem: &[u8]) -> Result<(Problem<'_>, Term, Term), Refusal> {
    let problem = Problem::read(problem)?;
    let (left, right) = problem.sides(problem.only_equation()?);
    Ok((problem, left, right))
}

/// Copies the bytes to the front of the buffer.
pub(crate) fn deliver(bytes: &[u8], result: &mut [u8]) -> usize {
    result[..bytes.len()].copy_from_slice(bytes);
    bytes.len()
}
