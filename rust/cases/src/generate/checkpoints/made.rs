//! States that no engine saved: random rules, waiting equations of any origin,
//! and a log of any entries. Nearly all are accepted.

use super::{with_units, Save};
use crate::checkpoints::Checkpoint;
use crate::generate::random::Random;
use crate::generate::records::made::{order, renamed, rule, table, terms};
use crate::generate::terms::Symbols;
use crate::resumptions::Resumption;
use kb_engine::order::Order;
use kb_engine::{MAX_EQUATIONS, MAX_LOG, MAX_RULES, MAX_RULE_NUMBER, MAX_TOGETHER};

/// Nodes of the sides that wait, at the most.
const SIDES: [(usize, usize); 4] = [(4, 4), (6, 6), (9, 9), (25, 25)];

/// One rule in so many stands whether it is from above to below or not.
const UNORDERED: usize = 200;

/// A state in the form.
pub fn state(random: &mut Random, _: Save) -> Resumption {
    let record = checkpoint(random).bytes();
    with_units(random, record)
}

/// The same with one thing out of the common, at times within the limits.
pub fn fields(random: &mut Random, _: Save) -> Resumption {
    let mut checkpoint = checkpoint(random);
    vary(random, &mut checkpoint);
    with_units(random, checkpoint.bytes())
}

/// The fields of such a state.
pub fn checkpoint(random: &mut Random) -> Checkpoint {
    let symbols = table(random);
    let inputs = *random.pick(&[0, 1, 1, 2, 3, 4, MAX_EQUATIONS]);
    let rules = *random.pick(&[0, 0, 1, 1, 2, 2, 3, 4, 5, 8, MAX_RULES - 1, MAX_RULES]);
    let rules = numbered(random, &symbols, rules);
    let room = MAX_TOGETHER - rules.len();
    let waiting = match random.below(6) {
        0 => 0,
        1 => room,
        _ => random.between(1, room.min(4)),
    };
    let next = next_number(random, &rules);
    let logged = log_length(random, next);
    Checkpoint {
        equations: (0..inputs).map(|_| sides(random, &symbols)).collect(),
        next,
        rules,
        waiting: (0..waiting).map(|_| waits(random, &symbols)).collect(),
        entries: (0..logged).map(|_| entry(random)).collect(),
        put_back: put_back(random, waiting),
        symbols: symbols.iter().flat_map(|(a, r)| [*a, *r]).collect(),
    }
}

/// Rules with ascending numbers, all but a few from above to below: at times
/// fewer than asked for, where the symbols give none.
fn numbered(random: &mut Random, symbols: &Symbols, count: usize) -> Vec<(u16, Vec<u8>)> {
    let mut number = 0;
    let mut list = Vec::new();
    for _ in 0..count {
        let (left, right) = rule(random, symbols);
        if order(symbols, &left, &right) == Order::LeftAbove || random.once_in(UNORDERED) {
            number += *random.pick(&[1, 1, 1, 2, 5]);
            list.push((number, [left, right].concat()));
        }
    }
    list
}

/// Above the rules' numbers, at times far above.
fn next_number(random: &mut Random, rules: &[(u16, Vec<u8>)]) -> u16 {
    let least = rules.last().map_or(1, |(number, _)| number + 1);
    let room = usize::from(MAX_RULE_NUMBER + 1 - least);
    match random.below(20) {
        0 => MAX_RULE_NUMBER + 1,
        1 => least + random.between(0, room) as u16,
        2..=5 => least + random.between(0, room.min(9)) as u16,
        _ => least,
    }
}

/// At least an entry for each number given out.
fn log_length(random: &mut Random, next: u16) -> usize {
    let least = usize::from(next) - 1;
    let room = MAX_LOG - least;
    match random.below(20) {
        0 => MAX_LOG,
        1 => MAX_LOG - random.below(room.min(3)),
        2..=7 => least + random.between(0, room.min(6)),
        _ => least,
    }
}

fn put_back(random: &mut Random, waiting: usize) -> u8 {
    let any = random.between(0, waiting);
    *random.pick(&[0, 0, waiting, waiting.saturating_sub(1), any]) as u8
}

/// An equation, which need not be renamed.
fn sides(random: &mut Random, symbols: &Symbols) -> Vec<u8> {
    let size = *random.pick(&SIDES);
    let (left, right) = terms(random, symbols, size);
    [left, right].concat()
}

/// An equation that waits: renamed, of any origin.
fn waits(random: &mut Random, symbols: &Symbols) -> Vec<u8> {
    let size = *random.pick(&SIDES);
    let (left, right) = terms(random, symbols, size);
    let (left, right) = renamed(&left, &right);
    [origin(random), left, right].concat()
}

/// Kind, numbers and position; the numbers are mostly those of rules.
pub fn origin(random: &mut Random) -> Vec<u8> {
    let kind = random.between(1, 4) as u8;
    let number = |random: &mut Random| match random.below(4) {
        0 => (random.bits() as u16).to_be_bytes(),
        1 => [255, 255],
        _ => [0, random.below(9) as u8],
    };
    let [a, b] = number(random);
    let ([c, d], position) = match kind {
        4 => (number(random), random.byte()),
        _ => ([0, 0], 0),
    };
    vec![kind, a, b, c, d, position]
}

/// An entry of any origin, and any rule made.
pub fn entry(random: &mut Random) -> Vec<u8> {
    let any = random.bits() as u16;
    let made = *random.pick(&[0, 1, 2, 0xffff, any]);
    [origin(random), made.to_be_bytes().to_vec()].concat()
}

fn vary(random: &mut Random, checkpoint: &mut Checkpoint) {
    let waiting = checkpoint.waiting.len();
    match random.below(9) {
        0 => checkpoint.put_back = *random.pick(&[waiting + 1, waiting, 255]) as u8,
        1 => vary_next(random, checkpoint),
        2 => vary_number(random, checkpoint),
        3 => vary_log(random, checkpoint),
        4 => repeat(random, &mut checkpoint.waiting, MAX_TOGETHER + 1),
        5 => repeat(random, &mut checkpoint.equations, MAX_EQUATIONS + 1),
        6 => vary_origin(random, &mut checkpoint.waiting),
        7 => vary_origin(random, &mut checkpoint.entries),
        _ => vary_sides(random, checkpoint),
    }
}

/// Around the number of entries, and around the limits.
fn vary_next(random: &mut Random, checkpoint: &mut Checkpoint) {
    let logged = checkpoint.entries.len() as u16;
    let limits = [0, 1, MAX_RULE_NUMBER + 1, MAX_RULE_NUMBER + 2, 65_535];
    checkpoint.next = match random.once_in(3) {
        true => *random.pick(&limits),
        false => logged + random.below(3) as u16,
    };
}

fn vary_number(random: &mut Random, checkpoint: &mut Checkpoint) {
    let chosen = random.below(checkpoint.rules.len());
    let numbers = [0, 1, checkpoint.next, checkpoint.next.wrapping_sub(1)];
    let other = random.below(20) as u16;
    if let Some(rule) = checkpoint.rules.get_mut(chosen) {
        rule.0 = *random.pick(&[numbers.as_slice(), &[other]].concat());
    }
}

/// An entry more or fewer, one of another length, or about the most.
fn vary_log(random: &mut Random, checkpoint: &mut Checkpoint) {
    let entries = &mut checkpoint.entries;
    let place = random.below(entries.len());
    match random.below(4) {
        0 => entries.push(entry(random)),
        1 => entries.truncate(place),
        2 => repeat(random, entries, MAX_LOG + 1),
        _ => entries.insert(place, vec![1; *random.pick(&[0, 6, 7, 9, 16])]),
    }
}

/// One of the list again and again, up to about so many.
fn repeat(random: &mut Random, list: &mut Vec<Vec<u8>>, most: usize) {
    let count = random.between(most - 2, most);
    let chosen = random.below(list.len());
    if let Some(item) = list.get(chosen).cloned() {
        list.resize(count.max(list.len()), item);
    }
}

/// A byte of the origin changed.
fn vary_origin(random: &mut Random, list: &mut [Vec<u8>]) {
    let (chosen, place) = (random.below(list.len()), random.below(6));
    let byte = *random.pick(&[0, 1, 2, 3, 4, 5, 255]);
    let item = list.get_mut(chosen);
    if let Some(old) = item.and_then(|item| item.get_mut(place)) {
        *old = byte;
    }
}

/// A byte more, less or another in a rule or an equation.
fn vary_sides(random: &mut Random, checkpoint: &mut Checkpoint) {
    let rules = checkpoint.rules.iter_mut().map(|(_, sides)| sides);
    let lists = checkpoint.equations.iter_mut().chain(rules);
    let mut lists: Vec<&mut Vec<u8>> = lists.chain(&mut checkpoint.waiting).collect();
    let chosen = random.below(lists.len());
    let Some(sides) = lists.get_mut(chosen) else {
        return;
    };
    let place = random.below(sides.len());
    match random.below(3) {
        0 => sides.push(*random.pick(&[0, 0x80, 0x81])),
        1 => drop(sides.pop()),
        _ => sides[place] = *random.pick(&[0, 1, 2, 0x80, 0x81, 0x82, 0x8f, 0x90]),
    }
}
