//! Rules that erase, double and repeat their variables: from the inside and
//! from the outside they cost more and less, and may stop in one way only.

use super::asked::Pair;
use super::{Complete, Source};
use crate::generate::random::Random;
use crate::generate::terms::{push_term, term_end, Symbols};
use crate::generate::theory::symbols_of;
use crate::kept::Kept;
use crate::notation::Theory;
use crate::questions::Question;
use kb_engine::problem::Problem;
use kb_engine::{MAX_BUDGET, MAX_NODES};

const SYMBOLS: &str = "0/0/0 c/0/1 s/1/2 t/2/3 d/1/4 k/2/5 h/1/6 e/2/7 m/3/8";

/// No two of these overlap: any of them are complete.
const APART: [&str; 8] = [
    "c = 0",
    "d(0) = 0",
    "d(s(x)) = s(s(d(x)))",
    "k(x,y) = x",
    "h(x) = t(x,x)",
    "e(x,x) = 0",
    "m(x,s(s(y)),x) = e(y,x)",
    "m(x,0,y) = k(y,h(x))",
];
/// These overlap with some.
const OVERLAPPING: [&str; 7] = [
    "k(x,c) = c",
    "k(s(x),y) = k(x,t(y,y))",
    "h(0) = 0",
    "h(s(x)) = d(x)",
    "e(s(x),s(y)) = e(x,y)",
    "t(x,x) = x",
    "m(x,y,x) = y",
];

/// The symbols as nodes.
const ZERO: u8 = 0;
const C: u8 = 1;
const S: u8 = 2;
const D: u8 = 4;
const K: u8 = 5;
const H: u8 = 6;
const E: u8 = 7;

/// Some of the rules in any order.
pub fn rules(random: &mut Random, _: Complete) -> Question {
    let theory = chosen(random, &[APART.as_slice(), &OVERLAPPING].concat());
    let record = Kept::of_theory(&theory).bytes();
    ask(random, &source(&theory, record))
}

/// What an engine writes for rules that are complete.
pub fn delivered(random: &mut Random, complete: Complete) -> Question {
    let source = completed(random, complete);
    Question {
        delivered: true,
        ..ask(random, &source)
    }
}

/// A result of end 0.
pub fn completed(random: &mut Random, complete: Complete) -> Source {
    let theory = chosen(random, &APART);
    let record = complete(&theory.problem(MAX_BUDGET)).expect("the rules are accepted");
    source(&theory, record)
}

fn chosen(random: &mut Random, rules: &[&str]) -> Theory {
    let order = random.permutation(rules.len());
    let count = random.between(3, rules.len());
    let chosen: Vec<&str> = order[..count].iter().map(|i| rules[*i]).collect();
    Theory::new(SYMBOLS).equations(&chosen)
}

fn source(theory: &Theory, record: Vec<u8>) -> Source {
    let problem = theory.problem(0);
    let symbols = symbols_of(&Problem::read(&problem).expect("all are terms"));
    let pair = |sides: Vec<u8>| -> Pair {
        let (left, right) = sides.split_at(term_end(&sides, 0, &symbols));
        (left.to_vec(), right.to_vec())
    };
    let equal = theory.all_sides().into_iter().map(pair).collect();
    Source {
        symbols,
        equal,
        record,
    }
}

/// Terms as for any rules, or one of `term` and an equal one.
fn ask(random: &mut Random, source: &Source) -> Question {
    let left = term(random, &source.symbols);
    if random.once_in(2) || left.len() > MAX_NODES {
        return source.ask(random);
    }
    let right = source.asked(random).walked(&left);
    source.question(random, [left, right].concat())
}

/// A part that grows and may be erased, one that is large and may be copied or
/// erased, or two that may become equal.
pub fn term(random: &mut Random, symbols: &Symbols) -> Vec<u8> {
    let mut part = Vec::new();
    let size = random.between(1, 8);
    push_term(&mut part, random, symbols, size, 2);
    match random.below(3) {
        0 => {
            let number = chain(S, random.between(1, 3), &[ZERO]);
            let growing = chain(D, random.between(1, 7), &number);
            [vec![K], part, growing].concat()
        }
        1 => {
            let number = chain(S, random.between(10, 60), &[ZERO]);
            let large = [vec![K], part, number].concat();
            chain(H, random.between(1, 3), &large)
        }
        _ => {
            let exchanged = |byte: &u8| if *byte == ZERO { C } else { *byte };
            let other: Vec<u8> = part.iter().map(exchanged).collect();
            let above = random.below(10);
            let equal = [vec![E], chain(S, above, &part), chain(S, above, &other)];
            chain(S, random.below(4), &equal.concat())
        }
    }
}

/// A unary symbol so many times over a term.
fn chain(symbol: u8, count: usize, over: &[u8]) -> Vec<u8> {
    [&vec![symbol; count], over].concat()
}
