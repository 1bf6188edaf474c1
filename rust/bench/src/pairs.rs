//! The pairs of terms of the benchmark, 120 nodes each: chains decided on one
//! way down, trees that agree up to the last leaf, and a comb each leaf of
//! which is compared with every node of a chain.

use crate::cases::{made, tree, Case};
use kb_cases::pairs::{product, Pair};
use kb_cases::theories::power;

pub fn all() -> Vec<Case> {
    let [i, j] = ["i", "j"].map(|symbol| power(symbol, 119, "x"));
    let chains = |first: &str, second: &str| Pair::of_texts("j/1/0 i/1/1", [first, second]);
    vec![
        lower("lower of j^119(x), i^119(x)", chains(&j, &i)),
        lower("lower of i^119(x), j^119(x)", chains(&i, &j)),
        lower("lower of two trees", trees()),
        lower("lower of a comb and a chain", product()),
    ]
}

fn lower(name: &str, pair: Pair) -> Case {
    made(name, pair.into())
}

/// Balanced trees of 60 leaves under one more symbol.
fn trees() -> Pair {
    let mut leaves = ["c"; 60];
    let second = format!("s({})", tree(&leaves));
    leaves[59] = "d";
    let first = format!("s({})", tree(&leaves));
    Pair::of_texts("c/0/0 d/0/1 s/1/2 f/2/3", [&first, &second])
}
