//! Random terms, and problems of one equation for unify and compare.

use super::random::Random;
use kb_engine::fields::push_field;
use kb_engine::term::VARIABLE_BASE;

/// Arity and rank by symbol.
pub type Symbols = Vec<(u8, u8)>;

/// Variables that a byte can name.
pub const VARIABLES: usize = 16;

/// A signature of n symbols with distinct random ranks.
pub fn symbols(random: &mut Random, n: usize, arities: &[u8]) -> Symbols {
    let ranks = random.permutation(16);
    let ranks = ranks.into_iter().take(n);
    ranks
        .map(|rank| (*random.pick(arities), rank as u8))
        .collect()
}

/// The bytes of the symbol field.
pub fn symbol_field(symbols: &Symbols) -> Vec<u8> {
    let table = symbols.iter().flat_map(|(arity, rank)| [*arity, *rank]);
    let mut out = Vec::new();
    push_field(&mut out, 1, &table.collect::<Vec<u8>>());
    out
}

/// The bytes of a problem.
pub fn assemble(symbols: &Symbols, budget: u32, equations: &[Vec<u8>]) -> Vec<u8> {
    let mut out = symbol_field(symbols);
    push_field(&mut out, 2, &budget.to_be_bytes());
    equations.iter().for_each(|e| push_field(&mut out, 3, e));
    out
}

/// Appends a random term of at most `size` nodes over variables 0 .. variables-1.
pub fn push_term(
    out: &mut Vec<u8>,
    random: &mut Random,
    symbols: &Symbols,
    size: usize,
    variables: usize,
) {
    let fits = |arity: u8| arity > 0 && (arity as usize) < size;
    let inner = pick_symbol(random, symbols, fits);
    match inner {
        Some(symbol) if !random.once_in(9) => {
            out.push(symbol);
            let mut left = size - 1;
            let arity = symbols[symbol as usize].0 as usize;
            for remaining in (1..=arity).rev() {
                let most = left + 1 - remaining;
                let share = if remaining == 1 {
                    most
                } else {
                    random.between(1, most)
                };
                push_term(out, random, symbols, share, variables);
                left -= share;
            }
        }
        _ => push_leaf(out, random, symbols, variables),
    }
}

fn push_leaf(out: &mut Vec<u8>, random: &mut Random, symbols: &Symbols, variables: usize) {
    let constant = pick_symbol(random, symbols, |arity| arity == 0);
    match constant {
        Some(symbol) if variables == 0 || random.once_in(3) => out.push(symbol),
        _ => out.push(0x80 + random.below(variables) as u8),
    }
}

fn pick_symbol(random: &mut Random, symbols: &Symbols, fits: impl Fn(u8) -> bool) -> Option<u8> {
    let list: Vec<u8> = (0..symbols.len() as u8)
        .filter(|s| fits(symbols[*s as usize].0))
        .collect();
    if list.is_empty() {
        return None;
    }
    Some(*random.pick(&list))
}

/// The end of the subterm that begins at the place.
pub fn term_end(term: &[u8], mut place: usize, symbols: &Symbols) -> usize {
    let mut due = 1;
    while due > 0 {
        let byte = term[place] as usize;
        due = due - 1 + symbols.get(byte).map_or(0, |(arity, _)| *arity as usize);
        place += 1;
    }
    place
}

/// Variable n becomes the n-th of the order.
pub fn renumbered(terms: &[u8], order: &[usize]) -> Vec<u8> {
    let renumber = |byte: &u8| match byte.checked_sub(VARIABLE_BASE) {
        Some(variable) => VARIABLE_BASE + order[variable as usize] as u8,
        None => *byte,
    };
    terms.iter().map(renumber).collect()
}

/// A copy with one random subterm replaced by a random small term.
pub fn mutated(term: &[u8], random: &mut Random, symbols: &Symbols, variables: usize) -> Vec<u8> {
    let place = random.below(term.len());
    let end = term_end(term, place, symbols);
    let mut out = term[..place].to_vec();
    let size = random.between(1, 6).min(121 - (term.len() - (end - place)));
    push_term(&mut out, random, symbols, size, variables);
    out.extend(&term[end..]);
    out
}

fn signature(random: &mut Random) -> Symbols {
    let n = *random.pick(&[1, 2, 3, 4, 5, 6, 16]);
    symbols(random, n, &[0, 0, 1, 1, 2, 2, 3, 4])
}

fn size(random: &mut Random) -> usize {
    let top = *random.pick(&[4, 8, 16, 40, 120]);
    random.between(1, top)
}

/// One equation whose sides come from one term by small changes.
pub fn related_sides(random: &mut Random) -> Vec<u8> {
    let symbols = signature(random);
    let (size, variables) = (size(random), random.between(1, 16));
    let mut left = Vec::new();
    push_term(&mut left, random, &symbols, size, variables);
    let mut right = left.clone();
    for _ in 0..random.below(4) {
        right = mutated(&right, random, &symbols, variables);
    }
    for _ in 0..random.below(3) {
        left = mutated(&left, random, &symbols, variables);
    }
    let budget = random.budget().min(60);
    assemble(&symbols, budget, &[[left, right].concat()])
}

/// One equation of two independent random sides.
pub fn unrelated_sides(random: &mut Random) -> Vec<u8> {
    let symbols = signature(random);
    let variables = random.between(1, 5);
    let mut sides = Vec::new();
    for _ in 0..2 {
        let size = size(random);
        push_term(&mut sides, random, &symbols, size, variables);
    }
    let budget = random.budget().min(60);
    assemble(&symbols, budget, &[sides])
}

const PAIR: u8 = 0;
const DOUBLE: u8 = 1;
const C: u8 = 2;
const D: u8 = 3;

/// t(l1, t(l2, .. c)) of a list of terms.
fn tuple(list: &[Vec<u8>]) -> Vec<u8> {
    let mut out = Vec::new();
    for term in list {
        out.push(PAIR);
        out.extend(term);
    }
    out.push(C);
    out
}

fn double(variable: u8) -> Vec<u8> {
    vec![DOUBLE, 0x80 + variable, 0x80 + variable]
}

/// Chains in which each variable stands for two copies of the one before,
/// one chain or two that meet, with a clash, a cycle or nothing at the end.
pub fn doubling(random: &mut Random) -> Vec<u8> {
    let chains = random.between(1, 2);
    let length = random.between(1, if chains == 1 { 15 } else { 7 });
    let mut pairs = Vec::new();
    for chain in 0..chains {
        let base = (chain * 8) as u8;
        pairs.extend((1..=length as u8).map(|i| (vec![0x80 + base + i], double(base + i - 1))));
    }
    let last = length as u8;
    if chains == 2 && !random.once_in(4) {
        pairs.push((vec![0x80 + last], vec![0x88 + last]));
    }
    match random.below(4) {
        0 => pairs.push((vec![C], vec![D])),
        1 => pairs.push((vec![0x80], vec![0x80 + last])),
        2 => pairs.push((vec![0x80], vec![*random.pick(&[C, D])])),
        _ => {}
    }
    let order = random.permutation(pairs.len());
    let in_order = random.once_in(2);
    let (mut left, mut right) = (Vec::new(), Vec::new());
    for (i, chosen) in order.into_iter().enumerate() {
        let (mut l, mut r) = pairs[if in_order { i } else { chosen }].clone();
        if random.once_in(3) {
            std::mem::swap(&mut l, &mut r);
        }
        left.push(l);
        right.push(r);
    }
    let symbols = vec![(2, 2), (2, random.between(3, 9) as u8), (0, 1), (0, 0)];
    assemble(&symbols, 5, &[[tuple(&left), tuple(&right)].concat()])
}

/// Deep chains and full trees: work for the path order.
pub fn chains_and_trees(random: &mut Random) -> Vec<u8> {
    let symbols = symbols_of_each_arity(random);
    let mut sides = Vec::new();
    let shape = random.below(3);
    for _ in 0..2 {
        let leaf = *random.pick(&[0x80, 0x80, 0x80, 0x81, 0]);
        match shape {
            0 => push_chain(&mut sides, random, leaf),
            1 => push_tree(&mut sides, random, leaf),
            _ if random.once_in(2) => push_chain(&mut sides, random, leaf),
            _ => push_tree(&mut sides, random, leaf),
        }
    }
    assemble(&symbols, 3, &[sides])
}

/// Symbol 0 a constant, 1 and 2 unary, 3 and 4 binary, 5 ternary, 6 of four.
fn symbols_of_each_arity(random: &mut Random) -> Symbols {
    let ranks = random.permutation(16);
    let arities = [0, 1, 1, 2, 2, 3, 4];
    arities
        .iter()
        .zip(ranks)
        .map(|(arity, rank)| (*arity, rank as u8))
        .collect()
}

fn push_chain(out: &mut Vec<u8>, random: &mut Random, leaf: u8) {
    let length = *random.pick(&[5, 30, 60, 118, 119]);
    let mixed = random.once_in(2);
    let symbol = random.between(1, 2) as u8;
    for _ in 0..length {
        out.push(if mixed {
            random.between(1, 2) as u8
        } else {
            symbol
        });
    }
    out.push(leaf);
}

/// A full tree with one or two leaves of another kind.
fn push_tree(out: &mut Vec<u8>, random: &mut Random, leaf: u8) {
    let (arity, depth) = *random.pick(&[(2, 3), (2, 5), (3, 2), (3, 3), (4, 2), (4, 3)]);
    let symbol = match arity {
        2 => random.between(3, 4) as u8,
        3 => 5,
        _ => 6,
    };
    let leaves = usize::pow(arity, depth);
    let odd = [random.below(leaves), random.below(leaves * 2)];
    let mut next = 0;
    push_full(out, symbol, arity, depth, &mut |out| {
        out.push(if odd.contains(&next) { 0x81 } else { leaf });
        next += 1;
    });
}

fn push_full(
    out: &mut Vec<u8>,
    symbol: u8,
    arity: usize,
    depth: u32,
    leaf: &mut dyn FnMut(&mut Vec<u8>),
) {
    if depth == 0 {
        return leaf(out);
    }
    out.push(symbol);
    for _ in 0..arity {
        push_full(out, symbol, arity, depth - 1, leaf);
    }
}
