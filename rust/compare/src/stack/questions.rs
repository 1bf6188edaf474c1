//! The two calls that answer questions, on chains in problems and in records.

use super::cases::{alone, chain, cut, deep, looped, problem, walk, Case, I, LEFT};
use crate::call::{decided, decided_outermost, result_of, Bytes, Call, RustEngine};
use kb_cases::kept::Kept;
use kb_engine::{DecideAnswer, Refusal, Verdict};

/// A problem, a record, and what either call answers.
type Question = (Bytes<'static>, Bytes<'static>, DecideAnswer);

pub(super) fn cases() -> Vec<Case> {
    vec![
        walk("decide, left chain cut", |n| decide(side_cut(n))),
        walk("decide, a rule's chain cut", |n| decide(rule_cut(n))),
        deep("decide, a step at each node", |n| decide(each_node(n))),
        deep("decide, steps at the leaf", |n| decide(leaf(n))),
        deep("decide, a rule of two chains", |n| decide(two_chains(n))),
        walk("outermost, left chain cut", |n| outermost(side_cut(n))),
        walk("outermost, a rule's chain cut", |n| outermost(rule_cut(n))),
        looped("outermost, a step at each node", |n| {
            outermost(each_node(n))
        }),
        looped("outermost, steps at the leaf", |n| outermost(leaf(n))),
        deep("outermost, a rule of two chains", |n| {
            outermost(two_chains(n))
        }),
    ]
}

fn decide((problem, record, answer): Question) -> (Call<'static>, u64) {
    (Call::Decide(problem, record), decided(answer))
}

fn outermost((problem, record, answer): Question) -> (Call<'static>, u64) {
    (Call::Outermost(problem, record), decided_outermost(answer))
}

/// The walk ends with the field of the equation.
fn side_cut(n: usize) -> Question {
    let (problem, _) = cut(n);
    let (number, place) = (10, LEFT + n);
    let answer = DecideAnswer::Refused(Refusal { number, place });
    (problem, Vec::new().into(), answer)
}

/// It ends with that of a rule, which is behind those of the end and the units.
fn rule_cut(n: usize) -> Question {
    let record = Kept::complete(vec![vec![I; n]]).bytes();
    let (number, place) = (13, 11);
    let answer = DecideAnswer::Refused(Refusal { number, place });
    (problem(&[["x", "x"]]), record.into(), answer)
}

/// Sides asked of the result of completing a rule.
fn asked(rule: [&str; 2], sides: [&str; 2], verdict: Verdict, units: usize) -> Question {
    let record = result_of(&RustEngine, &problem(&[rule])).expect("accepted");
    let answer = DecideAnswer::Decided(verdict, units as u32);
    (problem(&[sides]), record.into(), answer)
}

/// Normalising goes down the chain asked about.
fn each_node(n: usize) -> Question {
    let sides = [&*chain("i", n, "x"), &*chain("j", n, "x")];
    asked(["i(x)", "j(x)"], sides, Verdict::Same, n - 1)
}

fn leaf(n: usize) -> Question {
    let sides = [&*chain("i", n, "e"), "x"];
    asked(["i(e)", "e"], sides, Verdict::Different, n - 1)
}

/// The order test of a rule goes down its right side and then its left side,
/// which is deepest.
fn two_chains(n: usize) -> Question {
    let rule = [&*alone(n), &*chain("j", n, "x")];
    asked(rule, rule, Verdict::Same, 1)
}
