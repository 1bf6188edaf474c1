//! The comparison finds engines whose outermost takes another rule or node, or
//! tells other units. Runs with the feature `selfcheck`.
#![cfg(feature = "selfcheck")]

mod common;
#[path = "../../cases/tests/common/mod.rs"]
mod definitions;

use common::{assert_found, differences, right, Other};
use definitions::literal::{Bytes, Rule, Symbols};
use definitions::literal_decide::Step;
use kb_compare::call::{decided_outermost, decode, encode, Buffers, Call};
use kb_engine::problem::Problem;
use kb_engine::{outermost, DecideAnswer, Verdict};

/// Longer rewriting is left to the Rust engine: the definitions are slow.
const MOST_UNITS: u32 = 60;
/// A wrong strategy may take more.
const MOST_WRONG_UNITS: u32 = 200;

/// Outermost by the definitions, with these steps.
fn by_steps(call: &Call, step: Step) -> Option<u64> {
    let Call::Outermost(problem, record) = call else {
        return None;
    };
    match outermost(problem, record) {
        DecideAnswer::Decided(_, units) if units <= MOST_UNITS => {}
        _ => return None,
    }
    let problem = Problem::read(problem).ok()?;
    let (symbols, equations) = definitions::parts(&problem);
    let sides = [&equations[0].0[..], &equations[0].1];
    let budget = problem.budget.min(MOST_WRONG_UNITS);
    let answer = symbols.question(budget, sides, record, step);
    Some(decided_outermost(answer))
}

fn as_the_definition(call: &Call, _: &mut Buffers) -> Option<u64> {
    by_steps(call, &mut Symbols::outer_step)
}

fn innermost_node(call: &Call, _: &mut Buffers) -> Option<u64> {
    by_steps(call, &mut Symbols::step)
}

fn latest_node(call: &Call, _: &mut Buffers) -> Option<u64> {
    by_steps(call, &mut |symbols, rules, term| {
        let p = *symbols.matched_nodes(rules, term).last()?;
        symbols.step_at(rules, term, p)
    })
}

/// The definition's steps by rules that are changed.
fn with_rules(call: &Call, change: fn(&mut Rule)) -> Option<u64> {
    by_steps(call, &mut |symbols, rules, term| {
        let mut rules = rules.to_vec();
        rules.iter_mut().for_each(change);
        symbols.outer_step(&rules, term)
    })
}

fn highest_rule(call: &Call, _: &mut Buffers) -> Option<u64> {
    with_rules(call, |rule| rule.number = usize::MAX - rule.number)
}

/// A repeated variable stands for the term at its first occurrence, whatever
/// is at the others.
fn first_occurrence(call: &Call, _: &mut Buffers) -> Option<u64> {
    with_rules(call, |rule| {
        let (mut seen, mut fresh) = (Vec::new(), 0x90..);
        for byte in rule.left.iter_mut().filter(|byte| **byte >= 0x80) {
            match seen.contains(byte) {
                true => *byte = fresh.next().expect("a byte for each occurrence"),
                false => seen.push(*byte),
            }
        }
    })
}

/// The definition's steps, but at a node that is chosen from the matched ones
/// by the place of the last step.
fn by_last_step(
    call: &Call,
    node: fn(&Symbols, &[u8], &[usize], usize) -> Option<usize>,
) -> Option<u64> {
    let mut last = (Bytes::new(), 0);
    by_steps(call, &mut |symbols, rules, term| {
        let place = if last.0 == term { last.1 } else { 0 };
        let matched = symbols.matched_nodes(rules, term);
        let p = node(symbols, term, &matched, place)?;
        let next = symbols.step_at(rules, term, p)?;
        last = (next.clone(), p);
        Some(next)
    })
}

/// What is before the last step is not tried again.
fn ancestors_passed_over(call: &Call, _: &mut Buffers) -> Option<u64> {
    by_last_step(call, |_, _, matched, place| {
        matched.iter().copied().find(|p| *p >= place)
    })
}

/// Only the parent of the last step is.
fn parent_only(call: &Call, _: &mut Buffers) -> Option<u64> {
    by_last_step(call, |symbols, term, matched, place| {
        let above = |p: &usize| *p < place && place < symbols.end(term, *p);
        let parent = (0..place).rev().find(above);
        let tried = |p: &usize| *p >= place || Some(*p) == parent;
        matched.iter().copied().find(tried)
    })
}

/// The nearest ancestor of the last step that matches, not the uppermost.
fn nearest_ancestor(call: &Call, _: &mut Buffers) -> Option<u64> {
    by_last_step(call, |symbols, term, matched, place| {
        let above = |p: &&usize| **p < place && place < symbols.end(term, **p);
        let nearest = matched.iter().rev().find(above);
        nearest.or(matched.first()).copied()
    })
}

/// What is behind the last step comes before its ancestors.
fn ancestors_last(call: &Call, _: &mut Buffers) -> Option<u64> {
    by_last_step(call, |_, _, matched, place| {
        let behind = matched.iter().find(|p| **p >= place);
        behind.or(matched.first()).copied()
    })
}

/// The right answer with other units; the function is given the budget too.
fn with_units(call: &Call, change: fn(Verdict, u32, u32) -> u32) -> Option<u64> {
    let Call::Outermost(problem, record) = call else {
        return None;
    };
    let DecideAnswer::Decided(verdict, units) = outermost(problem, record) else {
        return None;
    };
    let budget = Problem::read(problem).ok()?.budget;
    let units = change(verdict, units, budget);
    Some(decided_outermost(DecideAnswer::Decided(verdict, units)))
}

fn units_left(call: &Call, _: &mut Buffers) -> Option<u64> {
    with_units(call, |_, units, budget| budget - units)
}

fn large_step_not_paid(call: &Call, _: &mut Buffers) -> Option<u64> {
    with_units(call, |verdict, units, _| match verdict {
        Verdict::Ended(22) => units - 1,
        _ => units,
    })
}

fn step_due_paid(call: &Call, _: &mut Buffers) -> Option<u64> {
    with_units(call, |verdict, units, _| match verdict {
        Verdict::Ended(21) => units + 1,
        _ => units,
    })
}

fn no_units_at_a_stop(call: &Call, _: &mut Buffers) -> Option<u64> {
    with_units(call, |verdict, units, _| match verdict {
        Verdict::Ended(_) => 0,
        _ => units,
    })
}

fn right_side_first(call: &Call, _: &mut Buffers) -> Option<u64> {
    let Call::Outermost(problem, record) = call else {
        return None;
    };
    let read = Problem::read(problem).ok()?;
    let equation = read.only_equation().ok()?;
    let mut exchanged = problem.to_vec();
    exchanged[equation.left.start..].rotate_left(equation.left.len());
    Some(decided_outermost(outermost(&exchanged, record)))
}

#[test]
fn the_definition_is_not_found() {
    assert_found("questions", &[("definition", as_the_definition, [0, 0])]);
}

#[test]
fn other_nodes_and_rules_are_found() {
    assert_found(
        "questions",
        &[
            ("highest rule", highest_rule, [10, 5]),
            ("innermost node", innermost_node, [60, 18]),
            ("latest node", latest_node, [60, 18]),
            ("first occurrence", first_occurrence, [40, 10]),
            ("ancestors passed over", ancestors_passed_over, [40, 15]),
            ("parent only", parent_only, [10, 5]),
            ("nearest ancestor", nearest_ancestor, [1, 1]),
            ("ancestors last", ancestors_last, [6, 4]),
            ("right side first", right_side_first, [7, 5]),
        ],
    );
}

#[test]
fn other_units_are_found() {
    assert_found(
        "questions",
        &[
            ("units left", units_left, [200, 60]),
            ("22's step not paid", large_step_not_paid, [12, 6]),
            ("21's step paid", step_due_paid, [40, 13]),
            ("no units at a stop", no_units_at_a_stop, [40, 17]),
        ],
    );
}

/// Same for different and different for same.
fn contrary(call: &Call, buffers: &mut Buffers) -> Option<u64> {
    let answer = right(call, buffers);
    match (call, decode(answer)) {
        (Call::Outermost(..), (1, number, units)) => {
            Some(encode(1, 3 - number as usize, units as usize))
        }
        _ => None,
    }
}

/// Every refusal one byte on.
fn refused_elsewhere(call: &Call, buffers: &mut Buffers) -> Option<u64> {
    let answer = right(call, buffers);
    match (call, decode(answer)) {
        (Call::Outermost(..), (0, ..)) => Some(answer + 1),
        _ => None,
    }
}

/// The calls are held to each other: a fault that both engines have is found.
#[test]
fn faults_of_both_engines_are_found() {
    let of_both = |fault: common::Fault| {
        let engine = Other(fault);
        differences("questions", [&engine, &engine])
    };
    assert_eq!(of_both(as_the_definition), 0);
    let (contrary, refused) = (of_both(contrary), of_both(refused_elsewhere));
    assert!(contrary > 60 && refused > 2000, "{contrary}, {refused}");
}
