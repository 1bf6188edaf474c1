//! Problems: complete, unify, compare and subterm, and decide and outermost
//! asked of the result.

use super::question;
use super::{Case, Cases, Due, Input, Kind, Notes, Plan};
use crate::call::{decode, Call};
use crate::check::{Checker, Difference, Start, NONE};
use crate::fixed::faults;
use kb_cases::generate::damage;
use kb_cases::generate::ranks::{ranks, Ranks};
use kb_cases::questions::Question;
use kb_cases::{chains as of_chains, fixed as of_papers, generate};
use kb_engine::fields::put_back_entries;
use kb_engine::run::END_COMPLETE;
use kb_engine::{MAX_NODES, MIN_RESULT};

pub const KIND: Kind = Kind {
    name: "problems",
    families: &[fixed, chains, damaged, generated],
};

/// The result that both have written is asked, or an empty record. The number
/// varies buffer and positions.
pub fn check(checker: &mut Checker, problem: &[u8], number: u64) -> Result<Notes, Difference> {
    let result = Start {
        length: result_length(number),
        pattern: number,
    };
    let complete = checker.call(&Call::Complete(problem.into()), [result, NONE])?;
    let record = checker.written(complete).to_vec();
    let unify = checker.call(&Call::Unify(problem.into()), [result, NONE])?;
    let compare = checker.call(&Call::Compare(problem.into()), [NONE; 2])?;
    for position in positions(number) {
        checker.call(&Call::Subterm(problem.into(), position), [NONE; 2])?;
    }
    let mut notes = vec![
        note_complete(complete, &record),
        note_unify(unify),
        note_compare(compare),
        note_ranks(problem),
    ];
    notes.extend(PutBack::of_result(&record).notes(&record));
    let question = Question {
        problem: problem.to_vec(),
        record,
        delivered: true,
    };
    notes.extend(question::check(checker, &question)?);
    Ok(notes)
}

fn note_complete(answer: u64, result: &[u8]) -> String {
    match (result.get(3), decode(answer)) {
        (Some(end), _) => format!("complete: end {end:2}"),
        (None, (_, number, _)) => format!("complete: refused {number:2}"),
    }
}

fn note_unify(answer: u64) -> String {
    match decode(answer) {
        (0, number, _) => format!("unify: refused {number:2}"),
        (1, _, _) => "unify: written".to_string(),
        (2, _, _) => "unify: none".to_string(),
        (_, number, _) => format!("unify: {number}"),
    }
}

fn note_compare(answer: u64) -> String {
    match decode(answer) {
        (0, number, _) => format!("compare: refused {number:2}"),
        (_, _, answer) => format!("compare: {answer}"),
    }
}

fn note_ranks(problem: &[u8]) -> String {
    let ranks = match ranks(problem) {
        Some(Ranks::AllEqual) => "all equal",
        Some(Ranks::SomeEqual) => "some equal",
        Some(Ranks::Distinct) => "distinct",
        None => "no table",
    };
    format!("ranks: {ranks}")
}

/// Equations put back in a run.
#[derive(Clone, Copy, Debug, Default, PartialEq, Eq)]
pub enum PutBack {
    #[default]
    None,
    Once,
    /// One of them more than once.
    Again,
}

impl PutBack {
    /// What the log of a result says.
    pub fn of_result(result: &[u8]) -> PutBack {
        let list: Vec<&[u8]> = put_back_entries(result).collect();
        let again = (0..list.len()).any(|i| list[..i].contains(&list[i]));
        match list.is_empty() {
            true => PutBack::None,
            false if again => PutBack::Again,
            false => PutBack::Once,
        }
    }

    /// Results of end 0, and those in which an equation was put back more
    /// than once, are noted apart as well.
    fn notes(self, result: &[u8]) -> impl Iterator<Item = String> {
        let end = result.get(3) == Some(&END_COMPLETE);
        let notes = [
            ("put back", self != PutBack::None),
            ("put back: end  0", self != PutBack::None && end),
            ("put back: again", self == PutBack::Again),
        ];
        let notes = notes.into_iter().filter(|(_, noted)| *noted);
        notes.map(|(note, _)| note.to_string())
    }
}

/// Of so many numbers all but a few choose the least buffer.
const LENGTHS: u64 = 101;

/// Mostly the least length, at times shorter or longer.
fn result_length(number: u64) -> usize {
    match number % LENGTHS {
        50 => 0,
        51 => 1 + (number / LENGTHS) as usize % (MIN_RESULT - 2),
        52 => MIN_RESULT - 1,
        53 => MIN_RESULT + 1,
        54 => MIN_RESULT + 1000,
        _ => MIN_RESULT,
    }
}

/// Of so many numbers one chooses every position.
const POSITIONS: u64 = 23;

/// All positions of a term and the next at times, else a few.
fn positions(number: u64) -> Vec<usize> {
    match number % POSITIONS {
        0 => (0..=MAX_NODES + 1).collect(),
        1 => vec![usize::MAX, 1 << 32, 1 << 31, 8192, 0],
        _ => vec![0, 1, (number / POSITIONS % 121) as usize],
    }
}

/// The multiples choose the least buffer and every position.
const WHOLE: u64 = LENGTHS * POSITIONS;

fn known(family: &'static str, cases: Vec<of_papers::Case>) -> Cases {
    let case = move |(number, case): (u64, of_papers::Case)| Case {
        family,
        number: number * WHOLE,
        input: Input::Problem(case.problem.clone()),
        due: Some(Due {
            name: case.name.clone(),
            faults: Box::new(move |engine| faults(engine, &case)),
        }),
    };
    Box::new((0..).zip(cases).map(case))
}

fn fixed(_: Plan) -> Cases {
    known("fixed", of_papers::cases())
}

fn chains(_: Plan) -> Cases {
    known("long chains", of_chains::cases())
}

fn damaged(_: Plan) -> Cases {
    let problems = (0..damage::exhaustive_count()).map(damage::exhaustive);
    super::listed("all damage", problems.map(Input::Problem))
}

fn generated(plan: Plan) -> Cases {
    super::generated(plan, generate::family, |seed, index| {
        Input::Problem(generate::problem(seed, index))
    })
}
