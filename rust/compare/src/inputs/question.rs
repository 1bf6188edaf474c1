//! Questions of records: decide and outermost.

use super::{fault, hex, Case, Cases, Due, Input, Kind, Notes, Plan};
use crate::call::{decided, decided_outermost, decode, result_of, Call, Engine, RustEngine};
use crate::check::{Checker, Difference, NONE};
use crate::ProvedEngine;
use kb_cases::chains as of_chains;
use kb_cases::generate::records::{self, exhaustive};
use kb_cases::questions::{self, Question};
use kb_engine::{DecideAnswer, Verdict};

pub const KIND: Kind = Kind {
    name: "questions",
    families: &[fixed, long, chains, damaged, generated],
};

pub fn check(checker: &mut Checker, question: &Question) -> Result<Notes, Difference> {
    Ok(ask(checker, question)?.notes(question))
}

/// What both engines answer by the two calls.
pub struct Answers {
    pub decide: u64,
    pub outermost: u64,
}

/// Makes both calls, and holds one to the other: they refuse alike, and where
/// the rules were delivered as complete they do not contradict each other.
pub fn ask(checker: &mut Checker, question: &Question) -> Result<Answers, Difference> {
    let (problem, record) = (&question.problem, &question.record);
    let decide = Call::Decide(problem.into(), record.into());
    let outermost = Call::Outermost(problem.into(), record.into());
    let answers = Answers {
        decide: checker.call(&decide, [NONE; 2])?,
        outermost: checker.call(&outermost, [NONE; 2])?,
    };
    let wrong = match answers.verdicts() {
        [None, None] => answers.decide != answers.outermost,
        [None, _] | [_, None] => true,
        [Some(inner), Some(outer)] => question.delivered && contrary(inner, outer),
    };
    if wrong {
        let beside = decode(answers.decide);
        let what = format!("outermost, where decide answers {beside:?}");
        return Err(Difference::of_both(&what, answers.outermost));
    }
    Ok(answers)
}

/// Whether the two normal forms were reached.
fn compared(verdict: Verdict) -> bool {
    matches!(verdict, Verdict::Same | Verdict::Different)
}

fn contrary(inner: Verdict, outer: Verdict) -> bool {
    compared(inner) && compared(outer) && inner != outer
}

impl Answers {
    /// What they say, none for a refusal.
    pub fn verdicts(&self) -> [Option<Verdict>; 2] {
        let (kind, number, value) = decode(self.decide);
        let decide = match kind {
            1 => verdict(kind, value),
            _ => verdict(kind, number),
        };
        let (kind, number, _) = decode(self.outermost);
        [decide, verdict(kind, number)]
    }

    /// The answers for the summary, and how they stand to each other.
    pub fn notes(&self, question: &Question) -> Notes {
        let [decide, outermost] = self.verdicts();
        let mut notes = vec![
            note("decide", self.decide, decide),
            note("outermost", self.outermost, outermost),
        ];
        if let (Some(inner), Some(outer)) = (decide, outermost) {
            notes.extend(self.beside(question, inner, outer));
        }
        notes
    }

    fn beside(&self, question: &Question, inner: Verdict, outer: Verdict) -> Notes {
        let rules = match question.delivered {
            true => "delivered rules",
            false => "other rules",
        };
        let how: &[&str] = match (compared(inner), compared(outer)) {
            (true, true) if inner != outer => &["two answers"],
            (true, true) if self.other_units(question) => {
                &["one answer", "one answer, other units"]
            }
            (true, true) => &["one answer"],
            (true, false) => &["only decide answers"],
            (false, true) => &["only outermost answers"],
            (false, false) => &[],
        };
        let note = |how| format!("both calls, {rules}: {how}");
        how.iter().map(note).collect()
    }

    /// Whether decide pays other units, which only the Rust engine tells.
    fn other_units(&self, question: &Question) -> bool {
        let (_, _, units) = decode(self.outermost);
        let decide = kb_engine::decide(&question.problem, &question.record);
        matches!(decide, DecideAnswer::Decided(_, paid) if u64::from(paid) != units)
    }
}

fn verdict(kind: u64, number: u64) -> Option<Verdict> {
    match (kind, number) {
        (0, _) => None,
        (1, 1) => Some(Verdict::Same),
        (1, _) => Some(Verdict::Different),
        _ => Some(Verdict::Ended(number as u8)),
    }
}

fn note(call: &str, answer: u64, verdict: Option<Verdict>) -> String {
    match verdict {
        None => format!("{call}: refused {:2}", decode(answer).1),
        Some(Verdict::Same) => format!("{call}: same"),
        Some(Verdict::Different) => format!("{call}: different"),
        Some(Verdict::Ended(number)) => format!("{call}: {number}"),
    }
}

pub fn shown(question: &Question) -> String {
    let (problem, record) = (hex(&question.problem), hex(&question.record));
    format!("{problem}\n  record {record}")
}

/// The calls that do not answer as they must.
fn faults(engine: &dyn Engine, case: &questions::Case) -> Vec<(String, u64)> {
    let (problem, record) = (&case.question.problem, &case.question.record);
    let decide = engine.decide(problem, record);
    let outermost = engine.outermost(problem, record);
    let mut faults = fault("decide", decide, decided(case.decide));
    let due = decided_outermost(case.outermost);
    faults.extend(fault("outermost", outermost, due));
    faults
}

fn known(family: &'static str, cases: Vec<questions::Case>) -> Cases {
    let case = move |(number, case): (u64, questions::Case)| Case {
        family,
        number,
        input: Input::Question(case.question.clone()),
        due: Some(Due {
            name: case.name.clone(),
            faults: Box::new(move |engine| faults(engine, &case)),
        }),
    };
    Box::new((0..).zip(cases).map(case))
}

fn fixed(_: Plan) -> Cases {
    known("fixed questions", questions::cases())
}

fn long(_: Plan) -> Cases {
    known("long questions", questions::long_cases())
}

fn chains(_: Plan) -> Cases {
    known("rules of long chains", of_chains::questions())
}

fn damaged(_: Plan) -> Cases {
    let inputs = exhaustive::all().map(Input::Question);
    super::listed("all damage of records", inputs)
}

/// The records are results of both engines, in turn.
fn generated(plan: Plan) -> Cases {
    super::generated(plan, records::family, |seed, index| {
        let writer: &dyn Engine = match index / records::SHARES % 2 {
            0 => &ProvedEngine,
            _ => &RustEngine,
        };
        let complete = |problem: &[u8]| result_of(writer, problem);
        Input::Question(records::question(seed, index, &complete))
    })
}
