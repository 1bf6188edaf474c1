//! Theories in which equations with neither side above wait: for several
//! rounds, until a later rule simplifies them, or to the end 20.

use super::random::Random;
use crate::notation::Theory;
use crate::theories::{ARITHMETIC, GROUP, PAPERS};

/// Most equations of a theory.
const MOST_EQUATIONS: usize = 16;
/// Of one rank in a ladder.
const MOST_RUNGS: usize = 8;

/// A theory of any of the families below.
pub fn theory(random: &mut Random) -> Theory {
    match random.below(4) {
        0 => ladder(random),
        1 => permuted(random),
        2 => collapsed(random),
        _ => paper(random),
    }
}

/// Rounds in which one equation more is oriented.
pub fn rounds(random: &mut Random) -> Vec<u8> {
    ladder(random).problem(random.budget())
}

/// Permuted arguments, and equations that make a symbol disappear.
pub fn simplified(random: &mut Random) -> Vec<u8> {
    permuted(random).problem(random.budget())
}

/// Removed rules with neither side above.
pub fn removed(random: &mut Random) -> Vec<u8> {
    collapsed(random).problem(random.budget())
}

/// The papers' theories behind equations that wait.
pub fn behind(random: &mut Random) -> Vec<u8> {
    paper(random).problem(random.budget())
}

/// The equations that wait, at random places of a list, mostly its front.
fn mixed<T>(random: &mut Random, mut list: Vec<T>, waiting: Vec<T>) -> Vec<T> {
    let front = !random.once_in(3);
    for equation in waiting {
        let last = if front { 0 } else { list.len() };
        list.insert(random.between(0, last), equation);
    }
    list.truncate(MOST_EQUATIONS);
    list
}

/// The equation, or the same with its sides exchanged.
fn turned(random: &mut Random, equation: &str) -> String {
    match equation.split_once(" = ") {
        Some((left, right)) if random.once_in(3) => format!("{right} = {left}"),
        _ => equation.to_string(),
    }
}

fn built(random: &mut Random, symbols: &str, equations: &[String]) -> Theory {
    let theory = Theory::new(symbols);
    equations.iter().fold(theory, |theory, equation| {
        theory.equation(&turned(random, equation))
    })
}

/// Symbols of one rank, each equal to the next and the last to something
/// lower, with equations that stay or are settled between.
fn ladder(random: &mut Random) -> Theory {
    let length = random.between(2, MOST_RUNGS);
    let (arity, inside) = *random.pick(&[(0, ""), (0, ""), (1, "(x)")]);
    let symbols = (1..=length).map(|k| format!(" a{k}/{arity}/1"));
    let symbols = format!("0/0/0 */2/2{}", symbols.collect::<String>());
    let rung = |k| format!("a{k}{inside} = a{}{inside}", k + 1);
    let mut list: Vec<String> = (1..length).map(rung).collect();
    let lower = *random.pick(&["0", "0", if arity == 0 { "0" } else { "x" }]);
    if !random.once_in(6) {
        list.push(format!("a{length}{inside} = {lower}"));
    }
    if random.once_in(4) {
        let order = random.permutation(list.len());
        list = order.into_iter().map(|i| list[i].clone()).collect();
    }
    let others = ["x = x", "*(x,y) = *(y,x)", "*(x,*(y,z)) = *(z,*(y,x))"];
    let kinds = *random.pick(&[1, others.len()]);
    for _ in 0..random.below(4) {
        let place = random.below(list.len() + 1);
        list.insert(place, random.pick(&others[..kinds]).to_string());
    }
    built(random, &symbols, &list)
}

/// Equations over f and h of one rank, g, s and c, with neither side above.
const PERMUTED: [&str; 12] = [
    "f(x,y) = f(y,x)",
    "f(x,y) = h(x,y)",
    "h(x,y) = f(y,x)",
    "f(x,c) = f(c,x)",
    "s(f(x,y)) = s(f(y,x))",
    "f(s(x),y) = f(y,s(x))",
    "g(x,y) = g(y,x)",
    "g(f(x,y),z) = g(z,h(y,x))",
    "h(f(x,y),z) = h(z,f(x,y))",
    "g(x,c) = g(c,x)",
    "s(x) = s(y)",
    "f(s(x),s(y)) = h(y,x)",
];

/// What rewrites a side of these, or removes a rule made of one.
const LOWERED: [&str; 12] = [
    "f(x,y) = g(x,y)",
    "f(x,y) = g(y,x)",
    "f(x,y) = s(x)",
    "f(x,y) = c",
    "h(x,y) = s(y)",
    "h(x,y) = g(x,c)",
    "f(x,c) = x",
    "f(c,x) = x",
    "g(x,y) = c",
    "g(x,c) = s(x)",
    "s(x) = c",
    "s(s(x)) = x",
];

/// By these nothing but c is left of f, g and h.
const VANISHING: [[&str; 3]; 2] = [
    ["f(x,y) = c", "g(x,y) = c", "h(x,y) = c"],
    ["f(x,y) = g(x,y)", "h(x,y) = g(y,x)", "g(x,y) = c"],
];

fn permuted(random: &mut Random) -> Theory {
    let mut some = |list: &[&str], most| -> Vec<String> {
        let count = random.between(1, most);
        (0..count).map(|_| random.pick(list).to_string()).collect()
    };
    let (waiting, mut lowered) = (some(&PERMUTED, 5), some(&LOWERED, 4));
    if random.once_in(2) {
        lowered.truncate(random.below(3));
        lowered.extend(random.pick(&VANISHING).map(String::from));
    }
    let list = mixed(random, lowered, waiting);
    built(random, "c/0/0 s/1/1 g/2/2 f/2/3 h/2/3", &list)
}

/// What stands behind a rule and the one that removes it. The first two
/// simplify the removed rule when it has been put back, the next two only make
/// a rule when it has.
const BEHIND: [&str; 9] = [
    "m(x,y) = c",
    "c = 0",
    "a = b",
    "b = 0",
    "a = 0",
    "m(x,y) = 0",
    "f(x) = x",
    "x = x",
    "m(x,y) = m(y,x)",
];

/// The rule of the first is removed by that of the second, and its sides are
/// then permuted ones; what follows is settled, makes a rule or waits too.
fn collapsed(random: &mut Random) -> Theory {
    let first = *random.pick(&["m(x,y)", "m(f(x),y)", "m(x,m(y,x))", "m(y,f(x))"]);
    let second = *random.pick(&["m(y,x)", "m(y,x)", "m(m(y,x),x)", "m(x,y)"]);
    let list = vec![format!("k(f(x),y) = {first}"), format!("k(x,y) = {second}")];
    let order = random.permutation(BEHIND.len());
    let others = order.into_iter().map(|i| BEHIND[i]);
    let first = random.pick(&[&[], &BEHIND[..2], &BEHIND[2..4]]).to_vec();
    let count = first.len() + random.below(6);
    let further = first.into_iter().chain(others);
    let further = further.take(count).map(String::from);
    let list: Vec<String> = list.into_iter().chain(further).collect();
    built(random, "0/0/0 a/0/1 b/0/1 f/1/2 c/0/3 m/2/3 k/2/4", &list)
}

/// Equations over the symbols of groups, and of 003, that wait.
const OF_GROUPS: [&str; 6] = [
    "*(x,e) = *(e,x)",
    "i(*(x,e)) = i(*(e,x))",
    "*(*(e,x),y) = *(*(x,e),y)",
    "*(x,i(e)) = *(i(e),x)",
    "*(*(x,e),y) = *(x,*(y,e))",
    "*(x,y) = *(y,x)",
];
const OF_NUMBERS: [&str; 6] = [
    "+(x,0) = +(0,x)",
    "+(x,s(0)) = +(s(0),x)",
    "+(x,s(s(0))) = +(s(s(0)),x)",
    "p(+(x,s(0))) = p(+(s(0),x))",
    "+(x,p(0)) = +(p(0),x)",
    "+(x,y) = +(y,x)",
];

fn paper(random: &mut Random) -> Theory {
    let (name, paper) = *random.pick(&PAPERS);
    let (symbols, list) = match name.starts_with("003") {
        true => (ARITHMETIC, OF_NUMBERS),
        false => (GROUP, OF_GROUPS),
    };
    let count = random.between(1, 3);
    let texts: Vec<String> = (0..count).map(|_| random.pick(&list).to_string()).collect();
    let waiting = built(random, symbols, &texts).all_sides();
    let equations = mixed(random, paper().all_sides(), waiting);
    equations
        .into_iter()
        .fold(Theory::new(symbols), Theory::raw_equation)
}
