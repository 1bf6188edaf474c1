//! Records that no engine wrote: random rules, mostly from above to below.

use super::asked::Pair;
use super::{Complete, Source};
use crate::generate::random::Random;
use crate::generate::terms::{assemble, push_term, symbols, term_end, Symbols};
use crate::kept::Kept;
use crate::questions::Question;
use kb_engine::calls::{compare, CompareAnswer};
use kb_engine::order::Order;
use kb_engine::run::{ENDS, END_UNORIENTABLE};
use kb_engine::term::VARIABLE_BASE;
use kb_engine::{MAX_BUDGET, MAX_LOG, MAX_NODES, MAX_RULE_NUMBER};

const ARITIES: [u8; 8] = [0, 0, 1, 1, 2, 2, 3, 4];
/// Pairs of terms tried for a rule.
const TRIES: usize = 6;
/// One rule in so many stands as it comes.
const UNORDERED: usize = 100;

/// Rules with end 0, ascending numbers and a few entries.
pub fn rules(random: &mut Random, _: Complete) -> Question {
    source(random).0.ask(random)
}

/// The same with some field out of the common.
pub fn fields(random: &mut Random, _: Complete) -> Question {
    let (mut source, mut kept) = source(random);
    vary(random, &mut kept, &source.symbols);
    source.record = kept.bytes();
    source.ask(random)
}

/// Symbols and rules, with the fields of their record.
pub(super) fn source(random: &mut Random) -> (Source, Kept) {
    let symbols = table(random);
    let count = *random.pick(&[0, 1, 1, 2, 2, 3, 3, 4, 4, 5, 6, 8, 12, 31, 32, 33]);
    let equal: Vec<Pair> = (0..count).map(|_| rule(random, &symbols)).collect();
    let logged = random.below(4);
    let kept = Kept {
        units: random.budget(),
        rules: numbered(random, &equal),
        entries: entries(random, logged),
        ..Kept::default()
    };
    let record = kept.bytes();
    let source = Source {
        symbols,
        equal,
        record,
    };
    (source, kept)
}

/// Symbols of distinct ranks, or of few.
pub fn table(random: &mut Random) -> Symbols {
    let count = *random.pick(&[1, 2, 3, 3, 4, 4, 5, 6, 16]);
    let mut symbols = symbols(random, count, &ARITIES);
    if random.once_in(3) {
        let ranks = random.between(1, 4);
        let ranked = symbols.iter_mut();
        ranked.for_each(|symbol| symbol.1 = random.below(ranks) as u8);
    }
    symbols
}

/// A rule, renamed, its left side mostly above its right.
pub fn rule(random: &mut Random, symbols: &Symbols) -> Pair {
    let top = *random.pick(&[(4, 3), (6, 5), (9, 4), (9, 12), (30, 30)]);
    for _ in 0..TRIES {
        let (left, right) = terms(random, symbols, top);
        let order = match random.once_in(UNORDERED) {
            true => Order::LeftAbove,
            false => order(symbols, &left, &right),
        };
        match order {
            Order::LeftAbove => return renamed(&left, &right),
            Order::RightAbove => return renamed(&right, &left),
            Order::Identical | Order::Neither => {}
        }
    }
    let (left, _) = terms(random, symbols, top);
    let place = random.between(1, left.len()) % left.len();
    let part = &left[place..term_end(&left, place, symbols)];
    renamed(&left, part)
}

/// Two terms, the second mostly over the variables of the first.
pub fn terms(random: &mut Random, symbols: &Symbols, (left, right): (usize, usize)) -> Pair {
    let variables = random.between(1, 4);
    let term = |random: &mut Random, top| {
        let mut out = Vec::new();
        let size = random.between(1, top);
        push_term(&mut out, random, symbols, size, variables);
        out
    };
    let (left, mut right) = (term(random, left), term(random, right));
    let known: Vec<u8> = left.iter().copied().filter(is_variable).collect();
    if !known.is_empty() && !random.once_in(20) {
        let unknown = right.iter_mut().filter(|byte| is_variable(byte));
        unknown.for_each(|byte| *byte = *random.pick(&known));
    }
    (left, right)
}

fn is_variable(byte: &u8) -> bool {
    *byte >= VARIABLE_BASE
}

/// How two terms stand in the path order.
pub fn order(symbols: &Symbols, left: &[u8], right: &[u8]) -> Order {
    match compare(&assemble(symbols, 0, &[[left, right].concat()])) {
        CompareAnswer::Compared(order) => order,
        CompareAnswer::Refused(refusal) => unreachable!("both are terms: {refusal:?}"),
    }
}

/// The pair with its variables numbered by first occurrence, left first.
pub fn renamed(left: &[u8], right: &[u8]) -> Pair {
    let mut seen = Vec::new();
    let mut number = |byte: &u8| {
        if !is_variable(byte) {
            return *byte;
        }
        let known = seen.iter().position(|known| known == byte);
        let place = known.unwrap_or_else(|| {
            seen.push(*byte);
            seen.len() - 1
        });
        VARIABLE_BASE + place as u8
    };
    let left = left.iter().map(&mut number).collect();
    (left, right.iter().map(&mut number).collect())
}

/// Ascending numbers from a random start, at times up to the highest.
pub fn numbered(random: &mut Random, rules: &[Pair]) -> Vec<(u16, Vec<u8>)> {
    let mut next = 0;
    let mut list: Vec<(u16, Vec<u8>)> = Vec::new();
    for (left, right) in rules {
        next += random.between(1, 3) as u16;
        list.push((next, [left.as_slice(), right].concat()));
    }
    let room = MAX_RULE_NUMBER - next;
    let shift = match random.below(4) {
        0 => room,
        1 => 0,
        _ => random.below(room as usize + 1) as u16,
    };
    list.iter_mut().for_each(|rule| rule.0 += shift);
    list
}

/// Entries of a right kind.
pub fn entries(random: &mut Random, count: usize) -> Vec<Vec<u8>> {
    let mut entry = || {
        let rest = random.bits().to_be_bytes();
        [&[random.between(1, 4) as u8], &rest[1..]].concat()
    };
    (0..count).map(|_| entry()).collect()
}

/// One thing out of the common, at times within the limits.
fn vary(random: &mut Random, kept: &mut Kept, symbols: &Symbols) {
    match random.below(8) {
        0 => {
            let count = *random.pick(&LOGS);
            kept.entries = entries(random, count);
        }
        1 => kept.end = *random.pick(&ENDS),
        2 => kept.end = random.byte(),
        3 => kept.units = *random.pick(&UNITS),
        4 => vary_number(random, &mut kept.rules),
        5 => vary_entry(random, &mut kept.entries),
        6 => vary_pair(random, kept, symbols),
        _ => vary_sides(random, &mut kept.rules, symbols),
    }
}

/// Numbers of entries around the most.
const LOGS: [usize; 4] = [100, MAX_LOG - 1, MAX_LOG, MAX_LOG + 1];
/// Units around the most.
const UNITS: [u32; 5] = [0, MAX_BUDGET - 1, MAX_BUDGET, MAX_BUDGET + 1, u32::MAX];

fn vary_number(random: &mut Random, rules: &mut [(u16, Vec<u8>)]) {
    if rules.is_empty() {
        return;
    }
    let chosen = random.below(rules.len());
    let neighbour = rules[(chosen + 1) % rules.len()].0;
    let any = random.bits() as u16;
    let list = [0, 1, MAX_RULE_NUMBER, MAX_RULE_NUMBER + 1, neighbour, any];
    rules[chosen].0 = *random.pick(&list);
}

fn vary_entry(random: &mut Random, entries: &mut Vec<Vec<u8>>) {
    let length = *random.pick(&[0, 1, 7, 8, 8, 8, 9, 16]);
    let kind = *random.pick(&[0, 1, 4, 5, 255]);
    let place = random.below(entries.len() + 1);
    entries.insert(place, vec![kind; length]);
}

/// A field 14, mostly after end 20.
fn vary_pair(random: &mut Random, kept: &mut Kept, symbols: &Symbols) {
    let (left, right) = terms(random, symbols, (12, 12));
    let (left, right) = match random.once_in(3) {
        true => (left, right),
        false => renamed(&left, &right),
    };
    kept.pair = Some([left, right].concat());
    if !random.once_in(4) {
        kept.end = END_UNORIENTABLE;
    }
}

/// A rule with other sides: turned round, other variables, long, a byte more
/// or less.
fn vary_sides(random: &mut Random, rules: &mut [(u16, Vec<u8>)], symbols: &Symbols) {
    if rules.is_empty() {
        return;
    }
    let chosen = random.below(rules.len());
    let sides = &mut rules[chosen].1;
    match random.below(5) {
        0 => {
            let left = term_end(sides, 0, symbols);
            let (right, left) = renamed(&sides[left..], &sides[..left]);
            *sides = [right, left].concat();
        }
        1 => {
            let place = random.below(sides.len());
            sides[place] = VARIABLE_BASE + random.below(3) as u8;
        }
        2 => sides.push(VARIABLE_BASE),
        3 => {
            sides.pop();
        }
        _ => lengthen(random, sides, symbols),
    }
}

/// Puts unary symbols on the left side up to about the most nodes.
fn lengthen(random: &mut Random, sides: &mut Vec<u8>, symbols: &Symbols) {
    let Some(unary) = symbols.iter().position(|symbol| symbol.0 == 1) else {
        return;
    };
    let left = term_end(sides, 0, symbols);
    let nodes = random.between(MAX_NODES - 1, MAX_NODES + 1);
    let more = vec![unary as u8; nodes.saturating_sub(left)];
    sides.splice(0..0, more);
}
