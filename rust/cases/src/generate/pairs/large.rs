//! Terms of about 120 nodes, many of which agree in most nodes.

use super::related::{table, term, with_other_node};
use super::{either_way, shared};
use crate::generate::random::Random;
use crate::generate::terms::{symbols, Symbols};
use crate::pairs::Pair;
use kb_engine::term::VARIABLE_BASE;
use kb_engine::MAX_NODES;

/// A number of nodes from 2 on, mostly about the most.
fn nodes(random: &mut Random) -> usize {
    match random.below(12) {
        0..=2 => random.between(2, MAX_NODES),
        3 | 4 => MAX_NODES - 1,
        5 => MAX_NODES + 1,
        6 => MAX_NODES + 2,
        _ => MAX_NODES,
    }
}

const CONSTANTS: [u8; 2] = [0, 1];
const UNARY: [u8; 3] = [2, 3, 4];
const BINARY: [u8; 2] = [5, 6];

/// Two constants, three unary and two binary symbols.
fn few(random: &mut Random) -> Symbols {
    let mut symbols = symbols(random, 7, &[0]);
    for (symbol, arity) in symbols.iter_mut().zip([0, 0, 1, 1, 1, 2, 2]) {
        symbol.0 = arity;
    }
    shared(random, symbols)
}

fn leaf(random: &mut Random) -> u8 {
    match random.once_in(2) {
        true => *random.pick(&CONSTANTS),
        false => VARIABLE_BASE + random.below(2) as u8,
    }
}

/// A chain of so many nodes over one unary symbol or more.
fn chain(random: &mut Random, nodes: usize) -> Vec<u8> {
    let used = random.between(1, UNARY.len());
    let mut out: Vec<u8> = (1..nodes).map(|_| UNARY[random.below(used)]).collect();
    out.push(leaf(random));
    out
}

/// Two long chains: the second is another, or the first with a node more,
/// less or changed, mostly at the bottom.
pub fn chains(random: &mut Random) -> Pair {
    let symbols = few(random);
    let count = nodes(random);
    let first = chain(random, count);
    let mut second = first.clone();
    let last = count - 1;
    match random.below(6) {
        0 => {
            let count = nodes(random);
            second = chain(random, count);
        }
        1 => second[last] = leaf(random),
        2 => second[last - 1] = *random.pick(&UNARY),
        3 => second.insert(random.below(count), *random.pick(&UNARY)),
        4 => {
            second.remove(random.below(last));
        }
        _ => second = with_other_node(random, &second, &symbols),
    }
    either_way(random, &symbols, [first, second])
}

/// Appends a balanced tree of so many nodes.
fn push_tree(out: &mut Vec<u8>, random: &mut Random, nodes: usize) {
    match nodes {
        0 => {}
        1 => out.push(leaf(random)),
        2 => {
            out.push(*random.pick(&UNARY));
            push_tree(out, random, 1);
        }
        _ => {
            out.push(BINARY[random.once_in(8) as usize]);
            push_tree(out, random, (nodes - 1) / 2);
            push_tree(out, random, nodes / 2);
        }
    }
}

/// Two trees that differ in a few nodes.
pub fn trees(random: &mut Random) -> Pair {
    let symbols = few(random);
    let mut first = Vec::new();
    let count = nodes(random);
    push_tree(&mut first, random, count);
    let mut second = first.clone();
    for _ in 0..random.below(4) {
        second = with_other_node(random, &second, &symbols);
    }
    if random.once_in(3) {
        second[count - 1] = leaf(random);
    }
    either_way(random, &symbols, [first, second])
}

/// Terms over any symbols, filled up with unary ones.
pub fn sizes(random: &mut Random) -> Pair {
    let symbols = table(random);
    let mut first = term(random, &symbols);
    let mut second = match random.once_in(2) {
        true => first.clone(),
        false => term(random, &symbols),
    };
    for side in [&mut first, &mut second] {
        fill_up(random, side, &symbols);
    }
    either_way(random, &symbols, [first, second])
}

/// Puts unary symbols anywhere in the term.
fn fill_up(random: &mut Random, term: &mut Vec<u8>, symbols: &Symbols) {
    let known = 0..symbols.len() as u8;
    let unary: Vec<u8> = known.filter(|s| symbols[*s as usize].0 == 1).collect();
    let count = nodes(random);
    while !unary.is_empty() && term.len() < count {
        let place = random.below(term.len());
        term.insert(place, *random.pick(&unary));
    }
}
