//! Theories that run into a limit: size, variables, rules, log, orientation.

use super::random::Random;
use super::terms::{assemble, push_term, symbols};
use crate::full_log;
use crate::notation::Theory;
use crate::put_back::limits::{one_removed, two_removed};
use crate::theories::{self, descents, endless_rules, many_variables, power, products};

/// Two left sides whose common instance doubles with each argument pair.
pub fn doubling_overlap(random: &mut Random) -> Vec<u8> {
    let length = random.between(1, 6);
    let (mut first, mut second) = (String::from("c"), String::from("c"));
    for i in (1..=length).rev() {
        let before = i - 1;
        first = format!("t(x{i},t(f(x{i},x{i}),{first}))");
        second = format!("t(f(y{before},y{before}),t(y{i},{second}))");
    }
    let theory = Theory::new("c/0/0 d/0/1 t/2/2 f/2/3 k/2/4").equation(&format!("{first} = c"));
    let theory = match random.below(3) {
        0 => theory.equation(&format!("{second} = d")),
        1 => theory.equation(&format!("k({second},y0) = y{length}")),
        _ => theory.equation(&format!("k(y{length},{second}) = f(y{length},y{length})")),
    };
    theory.problem(random.budget().min(40))
}

/// Terms that grow over 120 nodes: by steps, by peaks, by either side.
pub fn size(random: &mut Random) -> Vec<u8> {
    let budget = random.budget();
    match random.below(5) {
        0 => growth(random).problem(budget),
        1 => long_peaks(random).problem(budget),
        2 => theories::large_left(random.between(40, 70)).problem(budget),
        3 => theories::large_right(random.between(40, 70)).problem(budget),
        _ => exponential(random).problem(budget),
    }
}

/// d(s(x)) = s(s(d(x))) on nested d: doubles with each d.
fn growth(random: &mut Random) -> Theory {
    let d = random.between(1, 7);
    theories::growing(d, random.between(1, 4))
}

/// f^n(x) = f^m(x): peaks up to 2n nodes that all join.
fn long_peaks(random: &mut Random) -> Theory {
    let n = random.between(55, 64);
    let m = *random.pick(&[0, 0, 1, 3, 20]);
    let inside = *random.pick(&["x", "x", "g(x)"]);
    let left = power("f", n, inside);
    Theory::new("f/1/0 g/1/1").equation(&format!("{left} = {}", power("f", m, "x")))
}

/// Trees that double at each step.
fn exponential(random: &mut Random) -> Theory {
    let n = random.between(2, 8);
    Theory::new("0/0/0 t/2/1 h/1/2")
        .equation("h(x) = t(x,x)")
        .equation(&format!("{} = 0", power("h", n, "0")))
}

/// Overlaps with 13 to 20 variables, orientable or not.
pub fn variables(random: &mut Random) -> Vec<u8> {
    let budget = random.below(12) as u32;
    let extra = random.between(9, 14);
    if random.once_in(2) {
        return many_variables(extra).problem(budget);
    }
    theories::many_variables_oriented(extra).problem(budget)
}

/// Too many rules or entries; the long runs are rare.
pub fn room(random: &mut Random) -> Vec<u8> {
    match random.below(400) {
        0 => endless_rules().problem(random.between(5000, 8000) as u32),
        1..=14 => long_log(random),
        15..=20 => endless_rules().problem(random.budget()),
        21..=60 => {
            let lengths = [random.between(0, 9), random.between(0, 9)];
            descents(&lengths).problem(random.budget())
        }
        61..=110 => put_back_last(random),
        _ => product_rules(random),
    }
}

/// Around 512 log entries, and what else is due then.
fn long_log(random: &mut Random) -> Vec<u8> {
    let (length, padding) = (random.between(82, 84), random.below(7));
    let theory = match random.below(7) {
        0 => descents(&[84, 84, random.between(82, 86)]).equation("x = x"),
        1 => full_log::settled(length, padding),
        2 => full_log::neither_above(length, padding),
        3 => full_log::too_large(length, padding),
        4 => full_log::many_variables(length, padding),
        5 => full_log::two_put_back(length, padding.min(5)),
        _ => full_log::endless_rules(length - 4, padding),
    };
    theory.problem(if random.once_in(4) { 1015 } else { 6000 })
}

/// Outer rules times inner rules, up to and over 32.
fn product_rules(random: &mut Random) -> Vec<u8> {
    let outer = random.between(1, 6);
    let inner = random.between(1, 14 - outer);
    let top = *random.pick(&[40, 120, 300, 400]);
    products(outer, inner).problem(random.below(top) as u32)
}

/// The last of about 32 rules removes one or two, with neither side above.
fn put_back_last(random: &mut Random) -> Vec<u8> {
    let (outer, inner) = *random.pick(&[(2, 9), (3, 6), (3, 7), (4, 5), (5, 4), (4, 4)]);
    let (theory, budget) = (random.below(2), random.between(150, 300) as u32);
    match theory {
        0 => one_removed(outer, inner).problem(budget),
        _ => two_removed(outer, inner).problem(budget),
    }
}

/// Equations between terms whose variables are permuted.
pub fn unorientable(random: &mut Random) -> Vec<u8> {
    let symbols = symbols(random, 4, &[0, 1, 2, 3]);
    let mut equations = Vec::new();
    for _ in 0..random.between(1, 4) {
        let size = random.between(2, 12);
        let mut left = Vec::new();
        push_term(&mut left, random, &symbols, size, 3);
        let order = random.permutation(3);
        let permuted = |b: &u8| {
            if *b >= 0x80 {
                0x80 + order[(*b - 0x80) as usize] as u8
            } else {
                *b
            }
        };
        let mut right: Vec<u8> = left.iter().map(permuted).collect();
        if random.once_in(3) {
            right.clear();
            push_term(&mut right, random, &symbols, size, 4);
        }
        equations.push([left, right].concat());
    }
    let budget = random.budget().min(50);
    assemble(&symbols, budget, &equations)
}
