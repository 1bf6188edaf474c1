//! Document 01's fixed problems on the Rust engine alone.

mod common;

use kb_cases::fixed::{self, Case};
use kb_cases::theories::{self, PAPERS};
use kb_engine::fields::{push_field, TAG_ENTRY, TAG_PAIR};
use kb_engine::{compare, complete, subterm, unify};
use kb_engine::{CompleteAnswer, MAX_BUDGET, MIN_RESULT};

fn completes(case: &Case) -> bool {
    let mut result = vec![0; MIN_RESULT];
    match (complete(&case.problem, &mut result), &case.complete) {
        (CompleteAnswer::Written(count), Ok(ended)) => ended.fits(&result[..count]),
        (CompleteAnswer::Refused(found), Err(refusal)) => found == *refusal,
        _ => false,
    }
}

#[test]
fn each_call_answers_as_it_must() {
    let mut result = vec![0; MIN_RESULT];
    for case in fixed::cases() {
        let (name, problem) = (&case.name, case.problem.as_slice());
        assert!(completes(&case), "{name}");
        assert_eq!(compare(problem), case.compare, "{name}");
        assert_eq!(unify(problem, &mut result), case.unify, "{name}");
        for (position, part) in case.parts {
            let found = subterm(problem, position);
            assert_eq!(found, &problem[part], "{name} at {position}");
        }
    }
}

#[test]
fn a_wrong_result_does_not_fit() {
    for case in fixed::cases() {
        let Ok(ended) = case.complete else { continue };
        let mut result = vec![0; MIN_RESULT];
        let CompleteAnswer::Written(count) = complete(&case.problem, &mut result) else {
            panic!("{} is refused", case.name);
        };
        assert!(ended.fits(&result[..count]));
        // The end, the units, the first rule's left side if it is given.
        let mut places = vec![3, 10];
        places.extend((!ended.printed.is_empty()).then_some(16));
        // The last byte of a log or of field 14 if they are given.
        let logged = ended.logged.iter().any(|l| !l.entries.is_empty());
        places.extend(logged.then_some(count - 1));
        for place in places {
            result[place] ^= 1;
            assert!(!ended.fits(&result[..count]), "{}", case.name);
            result[place] ^= 1;
        }
    }
}

/// An entry or a field 14 more than is given does not fit either.
#[test]
fn a_longer_log_does_not_fit() {
    let given = |case: &Case| case.complete.as_ref().is_ok_and(|e| e.logged.is_some());
    let cases: Vec<Case> = fixed::cases().into_iter().filter(given).collect();
    assert!(cases.len() > 100, "{}", cases.len());
    for case in cases {
        let mut result = common::result_of(&case.problem).unwrap();
        let whole = result.len();
        for (tag, contents) in [(TAG_ENTRY, &[1; 8][..]), (TAG_PAIR, &[0x80; 2])] {
            push_field(&mut result, tag, contents);
            assert!(!case.complete.as_ref().unwrap().fits(&result));
            result.truncate(whole);
        }
    }
}

/// The rules 7 and 8 of 003's list are the ones that are removed.
#[test]
fn numbers_of_the_rules_of_003() {
    let fields = common::run(&theories::arithmetic_rules(), MAX_BUDGET);
    let numbers: Vec<u16> = fields.rules.iter().map(|rule| rule.0).collect();
    assert_eq!(numbers, [1, 2, 3, 4, 5, 6, 9, 10]);
}

/// Neither side of the pair at which 002's axioms end is above the other.
#[test]
fn pair_of_the_group_axioms() {
    for (name, theory) in PAPERS {
        let fields = common::run(&theory(), MAX_BUDGET);
        assert_eq!(fields.pair.is_some(), name == "002 group axioms");
    }
}
