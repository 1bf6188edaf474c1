//! The engine against the definitions word for word, on generated problems.

mod common;

use common::literal::{apply, rename, Bytes, Rule, Symbols};
use common::{completed, hex, literal_run, parts, result_of, Fields};
use kb_cases::generate::records::{self, exhaustive};
use kb_cases::questions::{self, Question};
use kb_cases::{fixed, generate, programs};
use kb_engine::problem::Problem;
use kb_engine::{compare, decide, outermost, unify};
use kb_engine::{CompareAnswer, DecideAnswer, UnifyAnswer, MIN_RESULT};
use std::collections::{BTreeSet, HashMap};

const SEED: u64 = 20;
/// Longer runs are left to the comparison of engines.
const MOST_BUDGET: u32 = 60;
/// Of the stored and the fixed runs.
const MOST_UNITS: u32 = 2000;

fn problems(count: u64) -> impl Iterator<Item = Vec<u8>> {
    (0..count).map(|index| generate::problem(SEED, index))
}

/// Whether some equation was put back.
fn put_back(fields: &Fields) -> bool {
    fields.log.iter().any(|entry| entry[6..] == [0xff, 0xff])
}

#[test]
fn runs_follow_the_definitions() {
    let (mut decided, mut waited, mut simplified) = (0, 0, 0);
    for mut bytes in problems(if cfg!(debug_assertions) { 1000 } else { 8000 }) {
        let Ok(problem) = Problem::read(&bytes) else {
            continue;
        };
        let (symbols, equations) = parts(&problem);
        let budget = problem.budget.min(MOST_BUDGET);
        set_budget(&mut bytes, budget);
        if let Some(mut expected) = literal_run::run(symbols, budget, &equations) {
            let fields = completed(&bytes);
            expected.count = fields.count;
            assert_eq!(fields, expected, "{}", hex(&bytes));
            decided += 1;
            waited += put_back(&fields) as usize;
            simplified += (put_back(&fields) && fields.end == 0) as usize;
        }
    }
    let found = [decided, waited, simplified];
    assert!(
        decided > 500 && waited > 300 && simplified > 10,
        "{found:?}"
    );
}

/// How many of these problems run as the definitions say, the longest runs
/// left out.
fn literal_runs(problems: impl Iterator<Item = (String, Vec<u8>)>) -> usize {
    let mut decided = 0;
    for (name, bytes) in problems {
        let Ok(problem) = Problem::read(&bytes) else {
            continue;
        };
        let fields = completed(&bytes);
        if fields.units > MOST_UNITS {
            continue;
        }
        let (symbols, equations) = parts(&problem);
        if let Some(mut expected) = literal_run::run(symbols, problem.budget, &equations) {
            expected.count = fields.count;
            assert_eq!(fields, expected, "{name}");
            decided += 1;
        }
    }
    decided
}

/// The cases of complete_run.
#[test]
fn stored_runs_follow_the_definitions() {
    let cases = programs::complete::cases();
    let stored = cases.list().iter();
    let decided = literal_runs(stored.map(|case| (case.name.clone(), case.problem.clone())));
    assert!(decided > 110, "only {decided}");
}

/// The fixed problems, among them those whose equations wait.
#[test]
fn fixed_runs_follow_the_definitions() {
    let fixed = fixed::cases().into_iter();
    let decided = literal_runs(fixed.map(|case| (case.name, case.problem)));
    assert!(decided > 350, "only {decided}");
}

#[test]
fn comparing_follows_the_clauses() {
    for bytes in problems(if cfg!(debug_assertions) { 3000 } else { 20000 }) {
        let CompareAnswer::Compared(order) = compare(&bytes) else {
            continue;
        };
        let problem = Problem::read(&bytes).unwrap();
        let (symbols, equations) = parts(&problem);
        let (left, right) = &equations[0];
        let mut memo = HashMap::new();
        let expected = if left == right {
            3
        } else if symbols.above(left, right, &mut memo) {
            assert!(!symbols.above(right, left, &mut memo));
            1
        } else if symbols.above(right, left, &mut memo) {
            2
        } else {
            4
        };
        assert_eq!(order as u8, expected, "{}", hex(&bytes));
    }
}

#[test]
fn unifying_follows_the_definition() {
    let mut result = vec![0; MIN_RESULT];
    for bytes in problems(if cfg!(debug_assertions) { 3000 } else { 20000 }) {
        let answer = unify(&bytes, &mut result);
        if let UnifyAnswer::Refused(_) = answer {
            continue;
        }
        let problem = Problem::read(&bytes).unwrap();
        let (symbols, equations) = parts(&problem);
        let (left, right) = &equations[0];
        let Ok(found) = symbols.unifier(left, right) else {
            continue;
        };
        let Some(unifier) = found else {
            assert_eq!(answer, UnifyAnswer::None, "{}", hex(&bytes));
            continue;
        };
        let instance = apply(&unifier, left);
        assert_eq!(instance, apply(&unifier, right));
        if instance.len() > 120 {
            assert_eq!(answer, UnifyAnswer::TooLarge, "{}", hex(&bytes));
        } else {
            assert_eq!(answer, UnifyAnswer::Written(instance.len() + 3));
            let expected = rename(&instance, &[]).0;
            assert_eq!(result[3..3 + instance.len()], expected, "{}", hex(&bytes));
        }
    }
}

/// Puts another budget in an accepted problem.
fn set_budget(problem: &mut [u8], budget: u32) {
    let at = 3 + problem[2] as usize + 3;
    problem[at..at + 4].copy_from_slice(&budget.to_be_bytes());
}

/// A call that answers questions, and its next term word for word.
type Defined = (
    fn(&[u8], &[u8]) -> DecideAnswer,
    fn(&Symbols, &[Rule], &[u8]) -> Option<Bytes>,
);

const CALLS: [Defined; 2] = [(decide, Symbols::step), (outermost, Symbols::outer_step)];

/// A refusal's number and all other answers without the units, as text.
fn kind(answer: DecideAnswer) -> String {
    match answer {
        DecideAnswer::Refused(refusal) => format!("refused {}", refusal.number),
        DecideAnswer::Decided(verdict, _) => format!("{verdict:?}"),
    }
}

/// The question with a budget that is not too large, none if its problem is
/// refused.
fn shortened(mut question: Question) -> Option<Question> {
    let problem = Problem::read(&question.problem).ok()?;
    problem.only_equation().ok()?;
    let budget = problem.budget.min(MOST_BUDGET);
    set_budget(&mut question.problem, budget);
    Some(question)
}

/// Holds the calls to the literal answers, units included; gives the kinds of
/// answers that each meets.
fn assert_literal(questions: impl Iterator<Item = Question>) -> [BTreeSet<String>; 2] {
    let mut seen = [BTreeSet::new(), BTreeSet::new()];
    for question in questions.filter_map(shortened) {
        let problem = Problem::read(&question.problem).unwrap();
        let (symbols, equations) = parts(&problem);
        let sides = [&equations[0].0[..], &equations[0].1];
        let record = &question.record;
        for ((call, mut step), seen) in CALLS.into_iter().zip(&mut seen) {
            let due = symbols.question(problem.budget, sides, record, &mut step);
            let answer = call(problem.bytes, record);
            assert_eq!(answer, due, "{} {}", hex(problem.bytes), hex(record));
            seen.insert(kind(answer));
        }
    }
    seen
}

#[test]
fn questions_follow_the_definition() {
    let count = if cfg!(debug_assertions) { 1000 } else { 10_000 };
    let questions = (0..count).map(|index| records::question(SEED, index, &result_of));
    let all = [
        "Different",
        "Ended(21)",
        "Ended(22)",
        "Same",
        "refused 13",
        "refused 14",
        "refused 15",
    ];
    for seen in assert_literal(questions) {
        assert!(seen.iter().eq(all), "{seen:?}");
    }
}

/// The fixed questions too, and damage at every byte.
#[test]
fn damaged_records_follow_the_definition() {
    let fixed = questions::cases().into_iter().map(|case| case.question);
    assert_literal(fixed);
    let step = if cfg!(debug_assertions) { 37 } else { 1 };
    assert_literal(exhaustive::all().step_by(step));
}
