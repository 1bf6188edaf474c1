//! Questions of results that an engine wrote.

use super::asked::Pair;
use super::{Complete, Source};
use crate::generate::random::Random;
use crate::generate::terms::{term_end, Symbols};
use crate::generate::theory::{self, symbols_of};
use crate::generate::{damage, limits, ranks, terms, waiting, words};
use crate::kept::Kept;
use crate::questions::Question;
use kb_engine::fields::push_field;
use kb_engine::problem::Problem;
use kb_engine::run::END_COMPLETE;

type Maker = fn(&mut Random) -> Vec<u8>;

/// Makers of problems that are mostly well-formed; some stand twice.
const QUICK: [Maker; 15] = [
    theory::random,
    theory::random,
    theory::orientable,
    theory::orientable,
    theory::non_linear,
    theory::non_linear,
    theory::papers,
    theory::papers,
    words::groups,
    terms::related_sides,
    limits::size,
    limits::variables,
    waiting::rounds,
    waiting::simplified,
    waiting::removed,
];
/// The same, with long runs or seldom complete.
const SLOW: [Maker; 3] = [theory::rich, words::random, limits::room];
/// One problem in so many is of a slow maker.
const SLOW_ONE_IN: usize = 30;
/// Problems tried for a result with end 0.
const TRIES: usize = 3;
/// A budget with which most of the quick problems complete.
const LONG_RUN: u32 = 150;

/// A result of any end, with its problem's symbols and its pairs of terms.
pub fn completed(random: &mut Random, complete: Complete) -> Source {
    let problem = generated(random);
    let Ok(read) = Problem::read(&problem) else {
        // A side of a single equation can pass 120 nodes.
        return completed(random, complete);
    };
    let symbols = symbols_of(&read);
    let record = complete(&problem).unwrap_or_default();
    let equal = match random.once_in(3) {
        true => rules(&record, &symbols),
        false => equations(&read),
    };
    Source {
        symbols,
        equal,
        record,
    }
}

/// The same, mostly of end 0.
pub fn source(random: &mut Random, complete: Complete) -> Source {
    let tries = if random.once_in(6) { 1 } else { TRIES };
    let mut source = completed(random, complete);
    for _ in 1..tries {
        if source.record.get(3) == Some(&END_COMPLETE) {
            break;
        }
        source = completed(random, complete);
    }
    source
}

fn generated(random: &mut Random) -> Vec<u8> {
    let slow = random.once_in(SLOW_ONE_IN);
    let makers: &[Maker] = if slow { &SLOW } else { &QUICK };
    let make = *random.pick(makers);
    let mut problem = make(random);
    ranks::share(&mut problem, random);
    if !slow && !random.once_in(4) {
        set_budget(&mut problem, LONG_RUN);
    }
    problem
}

/// Puts another budget in a well-formed problem.
fn set_budget(problem: &mut [u8], budget: u32) {
    let place = 3 + problem[2] as usize + 3;
    problem[place..place + 4].copy_from_slice(&budget.to_be_bytes());
}

fn equations(problem: &Problem) -> Vec<Pair> {
    let side = |range: &std::ops::Range<usize>| problem.bytes[range.clone()].to_vec();
    let fields = problem.equations.iter();
    fields.map(|e| (side(&e.left), side(&e.right))).collect()
}

/// The rules of a result as pairs.
fn rules(record: &[u8], symbols: &Symbols) -> Vec<Pair> {
    let kept = Kept::of_result(record);
    let pairs = kept.rules.iter().map(|(_, sides)| {
        let (left, right) = sides.split_at(term_end(sides, 0, symbols));
        (left.to_vec(), right.to_vec())
    });
    pairs.collect()
}

/// A result and its own symbols.
pub fn kept(random: &mut Random, complete: Complete) -> Question {
    Question {
        delivered: true,
        ..source(random, complete).ask(random)
    }
}

/// Rules of a run that did not end with 0, under a record that says it did.
pub fn unfinished(random: &mut Random, complete: Complete) -> Question {
    let mut source = completed(random, complete);
    let mut kept = Kept::of_result(&source.record);
    kept.end = END_COMPLETE;
    kept.pair = None;
    source.record = kept.bytes();
    source.ask(random)
}

/// A result asked over another symbol field.
pub fn other_symbols(random: &mut Random, complete: Complete) -> Question {
    let mut source = source(random, complete);
    let symbols = &mut source.symbols;
    let chosen = random.below(symbols.len());
    match random.below(6) {
        0 if symbols.len() < 16 => symbols.push((random.below(5) as u8, random.below(16) as u8)),
        0 | 1 if symbols.len() > 1 => {
            symbols.pop();
            source.equal.clear();
        }
        2 => {
            symbols[chosen].0 = random.below(5) as u8;
            source.equal.clear();
        }
        3 => symbols[chosen].1 = random.below(16) as u8,
        _ => symbols
            .iter_mut()
            .for_each(|symbol| symbol.1 = random.below(16) as u8),
    }
    source.ask(random)
}

/// A result, and a problem with a fault or with other equations than one.
pub fn damaged_problem(random: &mut Random, complete: Complete) -> Question {
    let mut question = source(random, complete).ask(random);
    if random.once_in(4) {
        push_field(&mut question.problem, 3, &[0x80, 0x80]);
        return question;
    }
    for _ in 0..random.between(1, 2) {
        damage::damage(&mut question.problem, random);
    }
    question
}
