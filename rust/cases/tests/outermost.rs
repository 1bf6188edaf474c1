//! The two calls that answer questions, side by side: refused alike, and with
//! one answer where the rules were delivered as complete.

mod common;

use common::result_of;
use kb_cases::generate::records;
use kb_cases::questions::{cases, Question};
use kb_engine::normalise::{normalise, Units};
use kb_engine::problem::Problem;
use kb_engine::record::Record;
use kb_engine::rules::{Rule, RuleSet};
use kb_engine::run::END_COMPLETE;
use kb_engine::term::Term;
use kb_engine::{decide, outermost, DecideAnswer, Verdict};
use std::rc::Rc;

/// The answers of both calls.
fn answers(question: &Question) -> [DecideAnswer; 2] {
    [decide, outermost].map(|call| call(&question.problem, &question.record))
}

fn generated(count: u64) -> impl Iterator<Item = Question> {
    (0..count).map(|index| records::question(8, index, &result_of))
}

/// With the same number and place.
#[test]
fn refusals_are_those_of_decide() {
    let mut refused = 0;
    let fixed = cases().into_iter().map(|case| case.question);
    for question in fixed.chain(generated(4000)) {
        let [inner, outer] = answers(&question);
        if let [DecideAnswer::Refused(_), _] | [_, DecideAnswer::Refused(_)] = [inner, outer] {
            assert_eq!(inner, outer);
            refused += 1;
        }
    }
    assert!(refused > 800, "{refused}");
}

/// The verdict and the units, none if a form was not reached.
fn compared(answer: DecideAnswer) -> Option<(Verdict, u32)> {
    match answer {
        DecideAnswer::Decided(verdict @ (Verdict::Same | Verdict::Different), units) => {
            Some((verdict, units))
        }
        _ => None,
    }
}

/// Whatever the units, which are often others.
#[test]
fn delivered_rules_give_one_answer() {
    let (mut both, mut other_units) = ([0, 0], 0);
    for question in generated(12_000).filter(|question| question.delivered) {
        let [inner, outer] = answers(&question).map(compared);
        let (Some(inner), Some(outer)) = (inner, outer) else {
            continue;
        };
        assert_eq!(question.record[3], END_COMPLETE);
        assert_eq!(inner.0, outer.0);
        both[usize::from(inner.0 == Verdict::Same)] += 1;
        other_units += usize::from(inner.1 != outer.1);
    }
    let enough = both[0] > 400 && both[1] > 1000 && other_units > 400;
    assert!(enough, "{both:?}, {other_units}");
}

/// The left side of a question and the rules, if they are complete.
fn read(question: &Question) -> Option<(Term, RuleSet)> {
    let problem = Problem::read(&question.problem).ok()?;
    let (left, _) = problem.sides(problem.only_equation().ok()?);
    let record = Record::read(&question.record, &problem.signature).ok()?;
    let rules = record.rules.into_iter();
    let rules = rules.map(|rule| Rc::new(Rule::new(rule.number, rule.left, rule.right)));
    let rules = RuleSet::new(rules.collect());
    (record.end == END_COMPLETE).then_some((left, rules))
}

/// The two strategies, where both reach an end.
#[test]
fn delivered_rules_give_one_last_term() {
    let (mut reached, mut other_units) = (0, 0);
    for question in generated(12_000).filter(|question| question.delivered) {
        let Some((term, rules)) = read(&question) else {
            continue;
        };
        let mut units = [Units::new(2000); 2];
        let inner = normalise(&term, &rules, &mut units[0]);
        let outer = kb_engine::outermost::normalise(&term, &rules, &mut units[1]);
        if let (Ok(inner), Ok(outer)) = (inner, outer) {
            assert_eq!(inner, outer);
            reached += 1;
            other_units += usize::from(units[0].paid != units[1].paid);
        }
    }
    let enough = reached > 2500 && other_units > 500;
    assert!(enough, "{reached}, {other_units}");
}

/// Of rules that were not, the two give different answers at times.
#[test]
fn other_rules_give_two_answers() {
    let contrary = generated(12_000).filter(|question| {
        let [inner, outer] = answers(question).map(|answer| Some(compared(answer)?.0));
        !question.delivered && inner.is_some() && outer.is_some() && inner != outer
    });
    let count = contrary.count();
    assert!(count > 50, "{count}");
}

/// One stops where the other answers: by 21 and by 22, and both ways round.
#[test]
fn either_strategy_may_stop_alone() {
    let mut alone = [[0; 2]; 2];
    for question in generated(12_000) {
        let [inner, outer] = answers(&question);
        let (stopped, first) = match (compared(inner), compared(outer)) {
            (None, Some(_)) => (inner, 0),
            (Some(_), None) => (outer, 1),
            _ => continue,
        };
        match stopped {
            DecideAnswer::Decided(Verdict::Ended(21), _) => alone[first][0] += 1,
            _ => alone[first][1] += 1,
        }
    }
    assert!(alone.as_flattened().iter().all(|n| *n > 15), "{alone:?}");
}
