//! Helpers of the tests: results taken apart, and refusals.
#![allow(dead_code)]

pub mod literal;
pub mod literal_decide;
pub mod literal_lower;
pub mod literal_resume;
pub mod literal_run;

use kb_cases::notation::Theory;
use kb_engine::fields::split_fields;
use kb_engine::problem::Problem;
use kb_engine::{CompareAnswer, CompleteAnswer, Refusal, UnifyAnswer, MIN_RESULT};
use kb_engine::{Lengths, SavingAnswer, MIN_SAVED};

use literal::{Bytes, Symbols};

const FILL: u8 = 0xa5;

/// The fields of a result.
#[derive(Clone, Debug, Default, PartialEq, Eq)]
pub struct Fields {
    pub count: usize,
    pub end: u8,
    pub units: u32,
    /// Number, then both sides in one byte string.
    pub rules: Vec<(u16, Vec<u8>)>,
    pub log: Vec<Vec<u8>>,
    pub pair: Option<Vec<u8>>,
}

/// Completes a problem that must be accepted.
pub fn completed(problem: &[u8]) -> Fields {
    let mut result = vec![FILL; MIN_RESULT + 7];
    let CompleteAnswer::Written(count) = kb_engine::complete(problem, &mut result) else {
        panic!("refused");
    };
    assert!(result[count..].iter().all(|b| *b == FILL));
    fields_of(&result[..count])
}

/// A result taken apart.
pub fn fields_of(result: &[u8]) -> Fields {
    let mut fields = Fields {
        count: result.len(),
        ..Fields::default()
    };
    for (tag, contents) in split_fields(result) {
        add_field(&mut fields, tag, contents);
    }
    fields
}

fn add_field(fields: &mut Fields, tag: u8, contents: &[u8]) {
    match tag {
        0x10 => fields.end = contents[0],
        0x11 => fields.units = u32::from_be_bytes(contents.try_into().unwrap()),
        0x12 => {
            let number = u16::from_be_bytes([contents[0], contents[1]]);
            fields.rules.push((number, contents[2..].to_vec()));
        }
        0x13 => fields.log.push(contents.to_vec()),
        0x14 => fields.pair = Some(contents.to_vec()),
        _ => panic!("unknown tag {tag:02x}"),
    }
}

/// Symbols and equations of a problem the engine's reader accepts.
pub fn parts(problem: &Problem) -> (Symbols, Vec<(Bytes, Bytes)>) {
    let table = &problem.bytes[3..3 + problem.bytes[2] as usize];
    let symbols = table.chunks(2).map(|pair| (pair[0], pair[1])).collect();
    let side = |range: &std::ops::Range<usize>| problem.bytes[range.clone()].to_vec();
    let equations = problem
        .equations
        .iter()
        .map(|e| (side(&e.left), side(&e.right)));
    (Symbols(symbols), equations.collect())
}

/// The result bytes of complete, none if it refuses.
pub fn result_of(problem: &[u8]) -> Option<Vec<u8>> {
    let mut result = vec![FILL; MIN_RESULT];
    match kb_engine::complete(problem, &mut result) {
        CompleteAnswer::Written(count) => Some(result[..count].to_vec()),
        CompleteAnswer::Refused(_) => None,
    }
}

/// The result and the saved record that a call leaves, or its refusal; it must
/// leave alone what it does not write, and save exactly with end 21.
pub fn saving(
    call: impl FnOnce(&mut [u8], &mut [u8]) -> SavingAnswer,
) -> Result<(Vec<u8>, Vec<u8>), Refusal> {
    let (mut result, mut saved) = (vec![FILL; MIN_RESULT], vec![FILL; MIN_SAVED]);
    let (lengths, refusal) = match call(&mut result, &mut saved) {
        SavingAnswer::Written(lengths) => (lengths, None),
        SavingAnswer::Refused(refusal) => (Lengths::default(), Some(refusal)),
    };
    assert!(result[lengths.result..].iter().all(|b| *b == FILL));
    assert!(saved[lengths.saved..].iter().all(|b| *b == FILL));
    assert_eq!(lengths.saved > 0, lengths.result > 0 && result[3] == 21);
    result.truncate(lengths.result);
    saved.truncate(lengths.saved);
    refusal.map_or(Ok((result, saved)), Err)
}

/// The saved record of complete_saving, none if it writes none.
pub fn saved_record_of(problem: &[u8]) -> Option<Vec<u8>> {
    let left = saving(|result, saved| kb_engine::complete_saving(problem, result, saved));
    left.ok().map(|(_, saved)| saved).filter(|s| !s.is_empty())
}

/// Completes a theory.
pub fn run(theory: &Theory, budget: u32) -> Fields {
    completed(&theory.problem(budget))
}

/// The rules' contents in lower-case hexadecimal, numbers left out.
pub fn rule_sides(fields: &Fields) -> Vec<String> {
    fields.rules.iter().map(|(_, sides)| hex(sides)).collect()
}

pub fn hex(bytes: &[u8]) -> String {
    bytes.iter().map(|b| format!("{b:02x}")).collect()
}

pub fn bytes(hex: &str) -> Vec<u8> {
    let digits: Vec<u8> = hex.bytes().filter(|b| !b.is_ascii_whitespace()).collect();
    let pair = |d: &[u8]| u8::from_str_radix(std::str::from_utf8(d).unwrap(), 16).unwrap();
    digits.chunks(2).map(pair).collect()
}

/// The refusal of complete, which must leave the buffer alone.
pub fn refusal(problem: &[u8]) -> Option<(u8, usize)> {
    let mut result = vec![FILL; MIN_RESULT];
    match kb_engine::complete(problem, &mut result) {
        CompleteAnswer::Refused(Refusal { number, place }) => {
            assert!(result.iter().all(|b| *b == FILL));
            Some((number, place))
        }
        CompleteAnswer::Written(_) => None,
    }
}

/// Asserts that all four calls refuse so.
pub fn assert_refused(problem: &[u8], number: u8, place: usize) {
    let refusal = Refusal { number, place };
    let mut result = vec![FILL; MIN_RESULT];
    let complete = kb_engine::complete(problem, &mut result);
    assert_eq!(
        complete,
        CompleteAnswer::Refused(refusal),
        "{}",
        hex(problem)
    );
    assert_only_refused(problem, number, place);
}

/// Asserts that compare, unify and subterm refuse so.
pub fn assert_only_refused(problem: &[u8], number: u8, place: usize) {
    let refusal = Refusal { number, place };
    let mut result = vec![FILL; MIN_RESULT];
    let unify = kb_engine::unify(problem, &mut result);
    assert_eq!(unify, UnifyAnswer::Refused(refusal), "{}", hex(problem));
    assert_eq!(kb_engine::compare(problem), CompareAnswer::Refused(refusal));
    assert!(kb_engine::subterm(problem, 0).is_empty());
    assert!(result.iter().all(|b| *b == FILL));
}

/// The answer of compare as its number.
pub fn compared(theory: &Theory) -> u8 {
    match kb_engine::compare(&theory.problem(0)) {
        CompareAnswer::Compared(order) => order as u8,
        CompareAnswer::Refused(refusal) => panic!("{refusal:?}"),
    }
}

/// The answer of unify with the bytes written.
pub fn unified(theory: &Theory) -> (UnifyAnswer, Vec<u8>) {
    let mut result = vec![FILL; MIN_RESULT + 7];
    let answer = kb_engine::unify(&theory.problem(0), &mut result);
    let count = match answer {
        UnifyAnswer::Written(count) => count,
        _ => 0,
    };
    assert!(result[count..].iter().all(|b| *b == FILL));
    (answer, result[..count].to_vec())
}
