//! The kinds of input, as kb_compare runs them, find faults in each call: of
//! one engine as differences, of both as wrong answers where these are known.
//! Runs with the feature `selfcheck`.
#![cfg(feature = "selfcheck")]

mod common;

use common::{right, Other};
use kb_compare::call::{decode, Buffers, Call};
use kb_compare::check::Checker;
use kb_compare::comparison::compare;
use kb_compare::inputs::{Plan, KINDS};
use kb_compare::{Engine, RustEngine};

/// The calls, and the kinds of input on which each is made.
const CALLS: [(&str, &[&str]); 10] = [
    ("complete", &["problems"]),
    ("unify", &["problems"]),
    ("compare", &["problems"]),
    ("subterm", &["problems"]),
    ("decide", &["problems", "questions"]),
    ("outermost", &["problems", "questions"]),
    ("lower", &["pairs of terms"]),
    ("complete_saving", &["saved runs"]),
    ("resume", &["saved runs", "saved records"]),
    ("resume_saving", &["saved runs", "saved records"]),
];
/// Whether the call is held to others as well: its fault is a difference even
/// where both engines have it.
fn held_to_others(call: &str, kind: &str) -> bool {
    kind == "saved runs" || ["decide", "outermost"].contains(&call)
}

const PLAN: Plan = Plan {
    seed: 5,
    first: 0,
    count: 0,
};

/// The differences and the wrong answers on the inputs of a kind.
fn found(kind: &str, left: &dyn Engine, right: &dyn Engine) -> [usize; 2] {
    let kind = KINDS.iter().find(|known| known.name == kind);
    let kind = kind.expect("a kind of this name");
    let summary = compare(&mut Checker::new(left, right), kind, PLAN, false);
    [summary.differences, summary.wrong]
}

/// The last byte of a result's units.
const UNITS_END: usize = 10;

/// Whether a call writes a result with units.
fn completes(call: &Call) -> bool {
    matches!(
        call,
        Call::Complete(..) | Call::CompleteSaving(..) | Call::Resume(..) | Call::ResumeSaving(..)
    )
}

/// The Rust engine with one wrong call: those that complete or resume write
/// other units, and the others answer another number.
fn faulty(wrong: &'static str) -> impl Engine {
    Other(move |call: &Call, buffers: &mut Buffers| {
        if call.name() != wrong {
            return None;
        }
        let answer = right(call, buffers);
        match decode(answer) {
            (1, ..) if completes(call) => buffers[0][UNITS_END] ^= 1,
            _ => return Some(answer ^ 1),
        }
        Some(answer)
    })
}

#[test]
fn a_fault_of_one_engine_is_a_difference() {
    for (call, kinds) in CALLS {
        for kind in kinds {
            let [differences, _] = found(kind, &faulty(call), &RustEngine);
            assert!(differences > 0, "{call} of {kind}");
        }
    }
}

#[test]
fn a_fault_of_both_engines_is_a_wrong_answer() {
    for (call, kinds) in CALLS {
        for kind in kinds {
            let [differences, wrong] = found(kind, &faulty(call), &faulty(call));
            assert!(
                differences == 0 || held_to_others(call, kind),
                "{call} of {kind}"
            );
            assert!(wrong > 0, "{call} of {kind}");
        }
    }
}

/// Whether one of two slices stands in the other.
fn shared(a: &[u8], b: &[u8]) -> bool {
    let (a, b) = (a.as_ptr_range(), b.as_ptr_range());
    a.start < b.end && b.start < a.end
}

/// Lower that exchanges terms of which one is lent as a part of the other.
fn wrong_where_shared(call: &Call, _: &mut Buffers) -> Option<u64> {
    match call {
        Call::Lower(_, first, second) if shared(first, second) => {
            Some(RustEngine.run(call, Default::default()) ^ 3)
        }
        _ => None,
    }
}

#[test]
fn a_known_answer_is_due_however_a_pair_is_lent() {
    let engine = Other(wrong_where_shared);
    let [differences, wrong] = found("pairs of terms", &engine, &engine);
    assert_eq!(differences, 0);
    assert!(wrong > 0);
}
