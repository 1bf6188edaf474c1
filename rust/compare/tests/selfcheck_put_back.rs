//! The comparison finds engines that treat equations with neither side above
//! in another way. Runs with the feature `selfcheck`.
#![cfg(feature = "selfcheck")]

mod common;
#[path = "../../cases/tests/common/mod.rs"]
mod definitions;

use common::Other;
use definitions::literal_run::{run_with, Rounds, Taken, Waiting, ROUNDS};
use kb_cases::generate;
use kb_cases::kept::Kept;
use kb_cases::put_back;
use kb_compare::call::{encode, result_of, Buffers, Call};
use kb_compare::check::Checker;
use kb_compare::fixed::faults;
use kb_compare::inputs::Input;
use kb_compare::summary::Summary;
use kb_compare::{Engine, RustEngine};
use kb_engine::problem::Problem;
use kb_engine::{MAX_LOG, MIN_RESULT};

const SEED: u64 = 5;
/// Generated problems: 50 of each family.
const COUNT: u64 = 50 * generate::FAMILY_COUNT;
/// Longer runs are left to the Rust engine: the definitions are slow.
const MOST_UNITS: u32 = 60;

/// The slices of complete to an answer.
type Complete = fn(&[u8], &mut [u8]) -> u64;

/// The Rust engine with another complete.
fn with_complete(complete: Complete) -> impl Engine {
    Other(move |call: &Call, buffers: &mut Buffers| match call {
        Call::Complete(problem) => Some(complete(problem, buffers[0])),
        _ => None,
    })
}

/// The fields that the Rust engine writes, none if it refuses.
fn right(problem: &[u8]) -> Option<Kept> {
    let result = result_of(&RustEngine, problem)?;
    Some(Kept::of_result(&result))
}

/// Writes what is given in place of the Rust engine's result.
fn write(given: Option<Kept>, problem: &[u8], result: &mut [u8]) -> u64 {
    match given {
        Some(kept) if result.len() >= MIN_RESULT => {
            let bytes = kept.bytes();
            result[..bytes.len()].copy_from_slice(&bytes);
            encode(1, 0, bytes.len())
        }
        _ => RustEngine.complete(problem, result),
    }
}

/// Complete by the definitions, with these rounds.
fn defined(rounds: Rounds, problem: &[u8], result: &mut [u8]) -> u64 {
    write(kept(rounds, problem), problem, result)
}

fn kept(rounds: Rounds, problem: &[u8]) -> Option<Kept> {
    right(problem).filter(|kept| kept.units <= MOST_UNITS)?;
    let problem = Problem::read(problem).ok()?;
    let (symbols, equations) = definitions::parts(&problem);
    let fields = run_with(rounds, symbols, problem.budget, &equations)?;
    Some(Kept {
        end: fields.end,
        units: fields.units,
        rules: fields.rules,
        entries: fields.log,
        pair: fields.pair,
    })
}

/// Writes the Rust engine's result with a change.
fn changed(problem: &[u8], result: &mut [u8], change: fn(&mut Kept)) -> u64 {
    let mut kept = right(problem);
    kept.iter_mut().for_each(change);
    write(kept, problem, result)
}

fn is_put_back(entry: &[u8]) -> bool {
    entry[6..] == [0xff, 0xff]
}

fn as_the_definitions(problem: &[u8], result: &mut [u8]) -> u64 {
    defined(ROUNDS, problem, result)
}

fn at_the_front(problem: &[u8], result: &mut [u8]) -> u64 {
    let put_back = |waiting: &mut Vec<Waiting>, taken: &Taken| {
        (ROUNDS.put_back)(waiting, taken);
        waiting.rotate_right(1);
    };
    defined(Rounds { put_back, ..ROUNDS }, problem, result)
}

/// The pair waits as it stood before it was normalised.
fn not_as_forms(problem: &[u8], result: &mut [u8]) -> u64 {
    let put_back = |waiting: &mut Vec<Waiting>, taken: &Taken| {
        let before = Taken {
            before: taken.before.clone(),
            forms: taken.before.clone(),
            origin: taken.origin.clone(),
        };
        (ROUNDS.put_back)(waiting, &before);
    };
    defined(Rounds { put_back, ..ROUNDS }, problem, result)
}

fn not_renamed(problem: &[u8], result: &mut [u8]) -> u64 {
    let put_back = |waiting: &mut Vec<Waiting>, taken: &Taken| {
        let [left, right] = taken.forms.clone();
        waiting.push(Waiting {
            left,
            right,
            origin: taken.origin.clone(),
            put_back: true,
        });
    };
    defined(Rounds { put_back, ..ROUNDS }, problem, result)
}

/// A removed rule becomes an input when it is put back.
fn another_kind(problem: &[u8], result: &mut [u8]) -> u64 {
    let put_back = |waiting: &mut Vec<Waiting>, taken: &Taken| {
        (ROUNDS.put_back)(waiting, taken);
        waiting.iter_mut().for_each(|equation| {
            equation.origin[0] = 1;
        });
    };
    defined(Rounds { put_back, ..ROUNDS }, problem, result)
}

fn settled_is_no_change(problem: &[u8], result: &mut [u8]) -> u64 {
    let after_settling = |_: &mut [Waiting]| ();
    let rounds = Rounds {
        after_settling,
        ..ROUNDS
    };
    defined(rounds, problem, result)
}

fn a_rule_is_no_change(problem: &[u8], result: &mut [u8]) -> u64 {
    let after_a_rule = |_: &mut [Waiting]| ();
    let rounds = Rounds {
        after_a_rule,
        ..ROUNDS
    };
    defined(rounds, problem, result)
}

/// One that was not put back since the last change may still wait.
fn one_round_short(problem: &[u8], result: &mut [u8]) -> u64 {
    fn stuck(waiting: &[Waiting]) -> Option<&Waiting> {
        let put_back = waiting.iter().filter(|equation| equation.put_back);
        let some = put_back.clone().count() > 0;
        let enough = put_back.count() + 1 >= waiting.len();
        waiting.first().filter(|_| some && enough)
    }
    defined(Rounds { stuck, ..ROUNDS }, problem, result)
}

fn at_once(problem: &[u8], result: &mut [u8]) -> u64 {
    fn stuck(waiting: &[Waiting]) -> Option<&Waiting> {
        waiting.iter().find(|equation| equation.put_back)
    }
    defined(Rounds { stuck, ..ROUNDS }, problem, result)
}

fn the_newest_shown(problem: &[u8], result: &mut [u8]) -> u64 {
    fn stuck(waiting: &[Waiting]) -> Option<&Waiting> {
        (ROUNDS.stuck)(waiting).and(waiting.last())
    }
    defined(Rounds { stuck, ..ROUNDS }, problem, result)
}

/// Ends only with a full log or a spent budget.
fn never_stuck(problem: &[u8], result: &mut [u8]) -> u64 {
    let stuck = |_: &[Waiting]| None;
    defined(Rounds { stuck, ..ROUNDS }, problem, result)
}

fn logged_as_settled(problem: &[u8], result: &mut [u8]) -> u64 {
    defined(Rounds { made: 0, ..ROUNDS }, problem, result)
}

fn not_logged(problem: &[u8], result: &mut [u8]) -> u64 {
    changed(problem, result, |kept| {
        kept.entries.retain(|entry| !is_put_back(entry));
    })
}

/// The end 20 is found before the turn's unit is paid.
fn before_the_unit(problem: &[u8], result: &mut [u8]) -> u64 {
    let mut more = problem.to_vec();
    let last = 3 + usize::from(*problem.get(2).unwrap_or(&0)) + 6;
    // One unit more, where the budget's last byte has room.
    if let Some(byte) = more.get_mut(last) {
        *byte = byte.saturating_add(1);
    }
    let found = right(&more).filter(|kept| kept.end == 20);
    let found = found.map(|kept| Kept {
        units: kept.units - 1,
        ..kept
    });
    write(found, problem, result)
}

/// The log is tested before the equations that wait.
fn full_log_first(problem: &[u8], result: &mut [u8]) -> u64 {
    changed(problem, result, |kept| {
        if kept.end == 20 && kept.entries.len() == MAX_LOG {
            kept.end = 24;
            kept.pair = None;
        }
    })
}

/// Fixed cases of equations that wait, with a wrong answer.
fn wrong(complete: Complete) -> usize {
    let engine = with_complete(complete);
    let cases = put_back::cases().into_iter();
    cases
        .filter(|case| !faults(&engine, case).is_empty())
        .count()
}

/// Generated problems on which the answers differ.
fn differences(complete: Complete) -> usize {
    let engine = with_complete(complete);
    let mut checker = Checker::new(&engine, &RustEngine);
    let problems = (0..COUNT).map(|index| (index, generate::problem(SEED, index)));
    let inputs = problems.map(|(number, problem)| (number, Input::Problem(problem)));
    let different = inputs.filter(|(number, input)| checker.run(input, *number).is_err());
    different.count()
}

#[test]
fn the_definitions_agree() {
    assert_eq!(wrong(as_the_definitions), 0);
    assert_eq!(differences(as_the_definitions), 0);
}

#[test]
fn each_fault_is_found() {
    let list: [(&str, Complete); 13] = [
        ("at the front", at_the_front),
        ("not as forms", not_as_forms),
        ("not renamed", not_renamed),
        ("another kind", another_kind),
        ("settled is no change", settled_is_no_change),
        ("a rule is no change", a_rule_is_no_change),
        ("one round short", one_round_short),
        ("at once", at_once),
        ("the newest shown", the_newest_shown),
        ("never stuck", never_stuck),
        ("logged as settled", logged_as_settled),
        ("not logged", not_logged),
        ("before the unit", before_the_unit),
    ];
    for (name, complete) in list {
        let (wrong, differences) = (wrong(complete), differences(complete));
        assert!(
            wrong > 2 && differences > 20,
            "{name}: {wrong}, {differences}"
        );
    }
}

/// Only runs with 512 entries show this.
#[test]
fn a_full_log_tested_first_is_found() {
    assert_eq!(wrong(full_log_first), 2);
}

/// The summary of a small run shows that equations wait.
#[test]
fn the_summary_counts_equations_put_back() {
    let mut checker = Checker::new(&RustEngine, &RustEngine);
    let mut summary = Summary::new("problems");
    for index in 0..COUNT {
        let problem = generate::problem(SEED, index);
        let notes = checker.run(&Input::Problem(problem), index);
        summary.note(notes.expect("equal engines agree"));
    }
    let least = [
        ("complete: end 20", 300),
        ("put back", 300),
        ("put back: again", 100),
        ("put back: end  0", 10),
    ];
    for (answer, least) in least {
        let count = summary.count(answer);
        assert!(count > least, "{answer}: {count}");
    }
}
