//! Saved records, each with a new budget: resume and resume_saving.

use super::saving::{buffers, note};
use super::{hex, listed, Case, Cases, Due, Input, Kind, Notes, Plan};
use crate::call::{left_by, refused, saved_record_of, Call, Engine, RustEngine};
use crate::check::{Checker, Difference, NONE};
use crate::ProvedEngine;
use kb_cases::generate::checkpoints::{self as generator, exhaustive};
use kb_cases::resumptions::{self, Resumption};

pub const KIND: Kind = Kind {
    name: "saved records",
    families: &[fixed, damaged, generated],
};

/// The number varies the buffers.
pub fn check(
    checker: &mut Checker,
    resumption: &Resumption,
    number: u64,
) -> Result<Notes, Difference> {
    let [resume, resume_saving] = calls(resumption);
    let buffers = buffers(number);
    let answer = checker.call(&resume, [buffers[0], NONE])?;
    let mut notes = vec![note(&resume, answer, checker.written(answer))];
    let answer = checker.call(&resume_saving, buffers)?;
    notes.push(note(&resume_saving, answer, checker.written(answer)));
    Ok(notes)
}

fn calls(resumption: &Resumption) -> [Call<'_>; 2] {
    let (record, budget) = (&resumption.record, resumption.budget);
    [
        Call::Resume(record.into(), budget),
        Call::ResumeSaving(record.into(), budget),
    ]
}

/// The budget and the record.
pub fn shown(resumption: &Resumption) -> String {
    format!("{} {}", resumption.budget, hex(&resumption.record))
}

/// The calls that do not answer as they must, and leave what they must.
fn faults(engine: &dyn Engine, case: &resumptions::Case) -> Vec<(String, u64)> {
    let wrong = |call: Call| {
        let left = left_by(engine, &call);
        let right = match (&case.answer, &call) {
            (Err(refusal), _) => left.answer == refused(*refusal),
            (Ok(_), _) if left.result.is_empty() => false,
            (Ok(due), Call::Resume(..)) => due.ended.fits(&left.result),
            (Ok(due), _) => due.fits(&left.result, &left.saved),
        };
        (!right).then(|| (call.to_string(), left.answer))
    };
    let calls = calls(&case.resumption).into_iter();
    calls.filter_map(wrong).collect()
}

fn fixed(_: Plan) -> Cases {
    let case = |case: resumptions::Case| Case {
        family: "fixed saved records",
        number: 0,
        input: Input::Resumption(case.resumption.clone()),
        due: Some(Due {
            name: case.name.clone(),
            faults: Box::new(move |engine| faults(engine, &case)),
        }),
    };
    Box::new(resumptions::cases().into_iter().map(case))
}

fn damaged(_: Plan) -> Cases {
    let inputs = exhaustive::all().map(Input::Resumption);
    listed("all damage of saved records", inputs)
}

/// The records that an engine wrote are those of both, in turn.
fn generated(plan: Plan) -> Cases {
    super::generated(plan, generator::family, |seed, index| {
        let writer: &dyn Engine = match index / generator::SHARES % 2 {
            0 => &ProvedEngine,
            _ => &RustEngine,
        };
        let save = |problem: &[u8]| saved_record_of(writer, problem);
        Input::Resumption(generator::resumption(seed, index, &save))
    })
}
