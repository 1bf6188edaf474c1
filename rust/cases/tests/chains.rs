//! Long chains, whole and damaged, on the Rust engine alone.

use kb_cases::chains;
use kb_cases::fixed::Case;
use kb_cases::questions::Question;
use kb_engine::lower::which;
use kb_engine::{compare, complete, decide, outermost, subterm, unify};
use kb_engine::{CompleteAnswer, Refusal, MIN_RESULT};
use std::collections::BTreeSet;

/// Asserts that no name stands twice.
fn assert_distinct<'n>(names: impl Iterator<Item = &'n String> + Clone) {
    let distinct: BTreeSet<&String> = names.clone().collect();
    assert_eq!(distinct.len(), names.count());
}

fn assert_answers(case: &Case) {
    let (name, problem) = (&case.name, case.problem.as_slice());
    let mut result = vec![0; MIN_RESULT];
    match (complete(problem, &mut result), &case.complete) {
        (CompleteAnswer::Written(count), Ok(ended)) => {
            assert!(ended.fits(&result[..count]), "{name}");
        }
        (CompleteAnswer::Refused(found), Err(refusal)) => assert_eq!(found, *refusal, "{name}"),
        (found, _) => panic!("{name}: {found:?}"),
    }
    assert_eq!(compare(problem), case.compare, "{name}");
    assert_eq!(unify(problem, &mut result), case.unify, "{name}");
    for (position, part) in &case.parts {
        let found = subterm(problem, *position);
        assert_eq!(found, &problem[part.clone()], "{name} at {position}");
        let lent = problem[part.clone()].as_ptr();
        assert!(part.is_empty() || found.as_ptr() == lent, "{name}");
    }
}

#[test]
fn chains_are_answered_as_they_must() {
    let cases = chains::cases();
    cases.iter().for_each(assert_answers);
    assert_distinct(cases.iter().map(|case| &case.name));
}

#[test]
fn rules_of_chains_are_answered_as_they_must() {
    let cases = chains::questions();
    for case in &cases {
        let Question {
            problem, record, ..
        } = &case.question;
        assert_eq!(decide(problem, record), case.decide, "{}", case.name);
        assert_eq!(outermost(problem, record), case.outermost, "{}", case.name);
    }
    assert_distinct(cases.iter().map(|case| &case.name));
}

#[test]
fn pairs_of_chains_are_refused() {
    let cases = chains::pairs();
    for case in &cases {
        let pair = &case.pair;
        let found = which(&pair.symbols, &pair.first, &pair.second);
        assert_eq!(found, case.answer, "{}", case.name);
    }
    assert_distinct(cases.iter().map(|case| &case.name));
}

/// Every position of a chain of 120 nodes is asked, and every place damaged.
#[test]
fn every_place_is_reached() {
    let cases = chains::cases();
    let asked = |case: &Case| {
        case.parts
            .iter()
            .filter(|(_, part)| !part.is_empty())
            .count()
    };
    let counts: Vec<usize> = cases.iter().map(asked).filter(|n| *n > 0).collect();
    assert_eq!(counts, [120, 120, 1, 60]);
    let mut seen = BTreeSet::new();
    for case in &cases {
        if let Err(Refusal { number, place }) = case.complete {
            seen.insert((number, place));
        }
    }
    // The field; every node of both sides and the field's end; the left side.
    let nodes = (19..=19 + 240).map(|place| (10, place));
    let expected = nodes.chain([(3, 16), (11, 19)]);
    assert_eq!(seen, expected.collect());
}
