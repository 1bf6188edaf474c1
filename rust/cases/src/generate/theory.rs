//! Random theories and variations of the papers' theories.

use super::random::Random;
use super::terms::{assemble, push_term, symbols, term_end, Symbols};
use super::waiting;
use crate::theories::PAPERS;
use kb_engine::problem::Problem;

const ARITIES: [u8; 8] = [0, 0, 1, 1, 2, 2, 3, 4];

/// How the equations of a random theory look.
struct Shape {
    symbols: (usize, usize),
    equations: (usize, usize),
    left: usize,
    right: usize,
    variables: usize,
    /// Right sides use variables of the left side only.
    closed: bool,
}

fn theory(random: &mut Random, shape: &Shape) -> (Symbols, Vec<Vec<u8>>) {
    let count = random.between(shape.symbols.0, shape.symbols.1);
    let symbols = symbols(random, count, &ARITIES);
    let number = random.between(shape.equations.0, shape.equations.1);
    let equations = (0..number)
        .map(|_| equation(random, shape, &symbols))
        .collect();
    (symbols, equations)
}

fn equation(random: &mut Random, shape: &Shape, symbols: &Symbols) -> Vec<u8> {
    let mut out = Vec::new();
    let left = random.between(1, shape.left);
    push_term(&mut out, random, symbols, left, shape.variables);
    let variables: Vec<u8> = out.iter().copied().filter(|b| *b >= 0x80).collect();
    let start = out.len();
    let right = random.between(1, shape.right);
    push_term(&mut out, random, symbols, right, shape.variables);
    if shape.closed && !variables.is_empty() {
        for byte in &mut out[start..] {
            if *byte >= 0x80 {
                *byte = *random.pick(&variables);
            }
        }
    }
    if random.once_in(4) {
        out.rotate_left(start);
    }
    out
}

/// A small theory with every kind of equation.
fn small_theory(random: &mut Random) -> (Symbols, Vec<Vec<u8>>) {
    let closed = !random.once_in(3);
    let shape = Shape {
        symbols: (1, 5),
        equations: (0, 4),
        left: 7,
        right: 5,
        variables: 3,
        closed,
    };
    theory(random, &shape)
}

/// Small theories, oriented or not.
pub fn random(random: &mut Random) -> Vec<u8> {
    let (symbols, equations) = small_theory(random);
    let budget = random.budget();
    assemble(&symbols, budget, &equations)
}

/// Theories that mostly orient, with longer runs.
pub fn orientable(random: &mut Random) -> Vec<u8> {
    let shape = Shape {
        symbols: (2, 5),
        equations: (1, 4),
        left: 9,
        right: 3,
        variables: 2,
        closed: true,
    };
    let (symbols, equations) = theory(random, &shape);
    let budget = random.budget();
    assemble(&symbols, budget, &equations)
}

/// Left sides that repeat their variables.
pub fn non_linear(random: &mut Random) -> Vec<u8> {
    let shape = Shape {
        symbols: (1, 4),
        equations: (1, 5),
        left: 12,
        right: 6,
        variables: 1 + random.below(2),
        closed: true,
    };
    let (symbols, equations) = theory(random, &shape);
    let budget = random.budget();
    assemble(&symbols, budget, &equations)
}

/// Many symbols, many equations, larger terms.
pub fn rich(random: &mut Random) -> Vec<u8> {
    let shape = Shape {
        symbols: (6, 16),
        equations: (4, 16),
        left: 24,
        right: 10,
        variables: 1 + random.below(16),
        closed: !random.once_in(8),
    };
    let (symbols, equations) = theory(random, &shape);
    let budget = random.budget();
    assemble(&symbols, budget, &equations)
}

/// The budget sweep: one theory with each budget in turn.
pub fn sweep(seed: u64, theory: u64, budget: u64) -> Vec<u8> {
    let mut random = Random::new(seed ^ 0x5357_4545, theory);
    let (symbols, equations) = match random.below(3) {
        0 => small_theory(&mut random),
        1 => paper(&mut random),
        _ => return waiting::theory(&mut random).problem(budget as u32),
    };
    assemble(&symbols, budget as u32, &equations)
}

/// The papers' theories with ranks, order and sides changed.
pub fn papers(random: &mut Random) -> Vec<u8> {
    let (symbols, equations) = paper(random);
    let budget = random.budget();
    assemble(&symbols, budget, &equations)
}

fn paper(random: &mut Random) -> (Symbols, Vec<Vec<u8>>) {
    let (_, theory) = random.pick(&PAPERS);
    let bytes = theory().problem(0);
    let problem = Problem::read(&bytes).expect("a fixed theory is well-formed");
    let mut symbols = symbols_of(&problem);
    if random.once_in(3) {
        let ranks = random.permutation(16);
        for (symbol, rank) in symbols.iter_mut().zip(ranks) {
            symbol.1 = rank as u8;
        }
    }
    let fields = problem.equations.iter();
    let mut equations: Vec<Vec<u8>> = fields
        .map(|e| bytes[e.left.start..e.right.end].to_vec())
        .collect();
    vary(random, &symbols, &mut equations);
    (symbols, equations)
}

/// The symbols of an accepted problem.
pub fn symbols_of(problem: &Problem) -> Symbols {
    let contents = &problem.bytes[3..3 + problem.bytes[2] as usize];
    contents.chunks(2).map(|pair| (pair[0], pair[1])).collect()
}

/// Reorders, drops and turns round some equations.
fn vary(random: &mut Random, symbols: &Symbols, equations: &mut Vec<Vec<u8>>) {
    if random.once_in(2) {
        let order = random.permutation(equations.len());
        *equations = order.into_iter().map(|i| equations[i].clone()).collect();
    }
    while equations.len() > 1 && random.once_in(3) {
        equations.pop();
    }
    for equation in equations {
        if random.once_in(6) {
            let left = term_end(equation, 0, symbols);
            equation.rotate_left(left);
        }
    }
}
