//! An engine held to the answers that the fixed problems must get.

use crate::call::{compared, decode, handed_back, refused, unified, Engine};
use kb_cases::fixed::Case;
use kb_engine::MIN_RESULT;

/// The calls whose answer to a case is not what it must be, with that answer.
pub fn faults(engine: &dyn Engine, case: &Case) -> Vec<(String, u64)> {
    let problem = case.problem.as_slice();
    let mut result = vec![0; MIN_RESULT];
    let complete = engine.complete(problem, &mut result);
    let completes = completes(case, complete, &result);
    let unify = engine.unify(problem, &mut result);
    let compare = engine.compare(problem);
    let mut answers = vec![
        ("complete".to_string(), complete, completes),
        ("unify".to_string(), unify, unify == unified(case.unify)),
        (
            "compare".to_string(),
            compare,
            compare == compared(case.compare),
        ),
    ];
    // A refused problem is refused before the record is read.
    if let Err(refusal) = case.complete {
        let questions = [
            ("decide", engine.decide(problem, &[])),
            ("outermost", engine.outermost(problem, &[])),
        ];
        let due = refused(refusal);
        answers.extend(questions.map(|(call, answer)| (call.to_string(), answer, answer == due)));
    }
    for (position, range) in &case.parts {
        let subterm = engine.subterm(problem, *position);
        let right = subterm == handed_back(range.start, range.len());
        answers.push((format!("subterm at {position}"), subterm, right));
    }
    let faults = answers.into_iter().filter(|(_, _, right)| !right);
    faults.map(|(call, answer, _)| (call, answer)).collect()
}

fn completes(case: &Case, answer: u64, result: &[u8]) -> bool {
    match (&case.complete, decode(answer)) {
        (Ok(ended), (1, 0, count)) => ended.fits(&result[..count as usize]),
        (Ok(_), _) => false,
        (Err(refusal), _) => answer == refused(*refusal),
    }
}
