//! Two terms of which one comes from the other, and two that do not.

use super::{either_way, shared};
use crate::generate::random::Random;
use crate::generate::terms::{self, mutated, push_term, renumbered, term_end};
use crate::generate::terms::{Symbols, VARIABLES};
use crate::pairs::Pair;
use kb_engine::term::VARIABLE_BASE;
use kb_engine::MAX_NODES;

const ARITIES: [u8; 8] = [0, 0, 1, 1, 2, 2, 3, 4];
/// Most variables of a term.
const FEW: usize = 4;
/// Tries for a large term, and for a step down.
const TRIES: usize = 5;
/// Most steps down.
const STEPS: usize = 4;

/// Symbols, mostly few, mostly one of them with arguments.
pub fn table(random: &mut Random) -> Symbols {
    let count = *random.pick(&[1, 2, 3, 3, 4, 4, 5, 6, 8, 16]);
    let mut symbols = terms::symbols(random, count, &ARITIES);
    let chosen = random.below(count);
    if !random.once_in(20) {
        symbols[chosen].0 = *random.pick(&[1, 2, 2, 3, 4]);
    }
    shared(random, symbols)
}

/// A term of up to 120 nodes, mostly fewer.
pub fn term(random: &mut Random, symbols: &Symbols) -> Vec<u8> {
    let top = *random.pick(&[3, 8, 8, 20, 40, MAX_NODES]);
    let (size, variables) = (random.between(1, top), random.between(1, FEW));
    let mut out = Vec::new();
    for _ in 0..TRIES {
        out.clear();
        push_term(&mut out, random, symbols, size, variables);
        if 2 * out.len() > size {
            break;
        }
    }
    out
}

/// A term and another made from it, mostly a different one.
pub fn terms(random: &mut Random) -> Pair {
    let symbols = table(random);
    let first = term(random, &symbols);
    let how = random.below(12);
    let mut tries = (0..TRIES).map(|_| made(random, how, &first, &symbols));
    let second = tries.find(|second| *second != first);
    let second = second.unwrap_or(first.clone());
    either_way(random, &symbols, [first, second])
}

/// A term made from another, in one way of 12.
fn made(random: &mut Random, how: usize, term: &[u8], symbols: &Symbols) -> Vec<u8> {
    match how {
        0 => term.to_vec(),
        1 | 2 => part(random, term, symbols),
        3 => around(random, term, symbols),
        4 | 5 => renumbered(term, &random.permutation(VARIABLES)),
        6..=8 => with_other_node(random, term, symbols),
        9 => turned(random, term, symbols),
        _ => mutated(term, random, symbols, FEW),
    }
}

/// A random subterm.
fn part(random: &mut Random, term: &[u8], symbols: &Symbols) -> Vec<u8> {
    let place = random.below(term.len());
    term[place..term_end(term, place, symbols)].to_vec()
}

/// The term in place of a random subterm of another, if it is not too large.
fn around(random: &mut Random, term: &[u8], symbols: &Symbols) -> Vec<u8> {
    let mut outside = Vec::new();
    push_term(&mut outside, random, symbols, 12, FEW);
    let place = random.below(outside.len());
    replaced(&outside, place, term, symbols).unwrap_or(outside)
}

/// The term with another in place of the subterm there, up to 120 nodes.
fn replaced(term: &[u8], place: usize, inside: &[u8], symbols: &Symbols) -> Option<Vec<u8>> {
    let end = term_end(term, place, symbols);
    let next = [&term[..place], inside, &term[end..]].concat();
    (next.len() <= MAX_NODES).then_some(next)
}

/// The term with another symbol of one arity, or another leaf, at a node.
pub fn with_other_node(random: &mut Random, term: &[u8], symbols: &Symbols) -> Vec<u8> {
    let place = random.below(term.len());
    let arity = |byte: u8| symbols.get(byte as usize).map_or(0, |symbol| symbol.0);
    let due = arity(term[place]);
    let known = 0..symbols.len() as u8;
    let mut nodes: Vec<u8> = known.filter(|symbol| arity(*symbol) == due).collect();
    if due == 0 {
        nodes.extend((0..FEW as u8).map(|variable| VARIABLE_BASE + variable));
    }
    nodes.retain(|node| *node != term[place]);
    let mut out = term.to_vec();
    if !nodes.is_empty() {
        out[place] = *random.pick(&nodes);
    }
    out
}

/// The term with the arguments of a node in another order.
fn turned(random: &mut Random, term: &[u8], symbols: &Symbols) -> Vec<u8> {
    let place = random.below(term.len());
    let mut list = arguments(&term[place..], symbols);
    let turns = random.below(list.len());
    list.rotate_left(turns);
    let inside = [&[term[place]], list.concat().as_slice()].concat();
    let end = term_end(term, place, symbols);
    [&term[..place], &inside, &term[end..]].concat()
}

/// The arguments of the term that begins here.
fn arguments<'t>(term: &'t [u8], symbols: &Symbols) -> Vec<&'t [u8]> {
    let (end, mut place) = (term_end(term, 0, symbols), 1);
    let mut list = Vec::new();
    while place < end {
        let next = term_end(term, place, symbols);
        list.push(&term[place..next]);
        place = next;
    }
    list
}

/// A term, and the same after steps down: it is above, if any was possible.
pub fn lowered(random: &mut Random) -> Pair {
    let symbols = table(random);
    let first = term(random, &symbols);
    let mut second = first.clone();
    for _ in 0..random.between(1, STEPS) {
        let step = (0..TRIES).find_map(|_| step_down(random, &second, &symbols));
        second = step.unwrap_or(second);
    }
    either_way(random, &symbols, [first, second])
}

/// The term with a lower one in place of a subterm.
fn step_down(random: &mut Random, term: &[u8], symbols: &Symbols) -> Option<Vec<u8>> {
    let place = random.below(term.len());
    let inside = below(random, &term[place..], symbols)?;
    replaced(term, place, &inside, symbols)
}

/// An argument, or a symbol of a lower rank over arguments.
fn below(random: &mut Random, term: &[u8], symbols: &Symbols) -> Option<Vec<u8>> {
    let rank = symbols.get(term[0] as usize)?.1;
    let list = arguments(term, symbols);
    let lower = |symbol: &u8| {
        let (arity, other) = symbols[*symbol as usize];
        other < rank && (arity == 0 || !list.is_empty())
    };
    let known = 0..symbols.len() as u8;
    let lower: Vec<u8> = known.filter(lower).collect();
    if lower.is_empty() || !list.is_empty() && random.once_in(2) {
        let argument = list.get(random.below(list.len()))?;
        return Some(argument.to_vec());
    }
    let symbol = *random.pick(&lower);
    let mut out = vec![symbol];
    for _ in 0..symbols[symbol as usize].0 {
        out.extend(*random.pick(&list));
    }
    Some(out)
}

/// Two terms, each for itself.
pub fn unrelated(random: &mut Random) -> Pair {
    let symbols = table(random);
    let terms = [term(random, &symbols), term(random, &symbols)];
    either_way(random, &symbols, terms)
}

/// The sides of a problem with one equation.
pub fn sides(random: &mut Random) -> Pair {
    let makers = [
        terms::related_sides,
        terms::unrelated_sides,
        terms::chains_and_trees,
        terms::doubling,
    ];
    let problem = random.pick(&makers)(random);
    let (field, rest) = problem.split_at(3 + problem[2] as usize);
    let symbols = field[3..].chunks(2).map(|s| (s[0], s[1])).collect();
    // Behind the budget field and the equation's header.
    let sides = &rest[7 + 3..];
    let (left, right) = sides.split_at(term_end(sides, 0, &symbols));
    let symbols = shared(random, symbols);
    either_way(random, &symbols, [left.to_vec(), right.to_vec()])
}
