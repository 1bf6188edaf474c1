//! The comparison finds differences in lower. Runs with the feature
//! `selfcheck`.
#![cfg(feature = "selfcheck")]

mod common;

use common::Other;
use kb_cases::generate::pairs::{exhaustive, pair};
use kb_cases::{chains, pairs};
use kb_compare::call::{chosen, Buffers, Call};
use kb_compare::check::Checker;
use kb_compare::inputs::Input;
use kb_compare::lent::{Lent, LAYOUTS};
use kb_compare::{Engine, RustEngine};

/// The slices of lower to an answer.
type Lower = fn(&[u8], &[u8], &[u8]) -> u64;

/// The Rust engine with another lower.
fn with_lower(lower: Lower) -> impl Engine {
    Other(move |call: &Call, _: &mut Buffers| match call {
        Call::Lower(symbols, first, second) => Some(lower(symbols, first, second)),
        _ => None,
    })
}

/// The Rust engine's answer.
fn right(symbols: &[u8], first: &[u8], second: &[u8]) -> u64 {
    RustEngine.lower(symbols, first, second)
}

/// The upper term.
fn upper(symbols: &[u8], first: &[u8], second: &[u8]) -> u64 {
    right(symbols, second, first)
}

/// The first term, whatever the order.
fn always_first(symbols: &[u8], first: &[u8], second: &[u8]) -> u64 {
    right(symbols, first, second).min(1)
}

/// The second of equal terms.
fn second_of_equal(symbols: &[u8], first: &[u8], second: &[u8]) -> u64 {
    match right(symbols, first, second) {
        1 if first == second => 2,
        answer => answer,
    }
}

/// The second where neither is above the other.
fn second_of_neither(symbols: &[u8], first: &[u8], second: &[u8]) -> u64 {
    let exchanged = right(symbols, second, first);
    match right(symbols, first, second) {
        1 if exchanged == 1 && first != second => 2,
        answer => answer,
    }
}

/// The answer, or where that is refused the answer without a last byte.
fn or_without(answer: u64, without: Option<u64>) -> u64 {
    match answer {
        0 => without.unwrap_or(0),
        _ => answer,
    }
}

fn byte_behind_the_field(symbols: &[u8], first: &[u8], second: &[u8]) -> u64 {
    let cut = symbols
        .split_last()
        .map(|(_, cut)| right(cut, first, second));
    or_without(right(symbols, first, second), cut)
}

fn byte_behind_the_first(symbols: &[u8], first: &[u8], second: &[u8]) -> u64 {
    let cut = first
        .split_last()
        .map(|(_, cut)| right(symbols, cut, second));
    or_without(right(symbols, first, second), cut)
}

fn byte_behind_the_second(symbols: &[u8], first: &[u8], second: &[u8]) -> u64 {
    let cut = second
        .split_last()
        .map(|(_, cut)| right(symbols, first, cut));
    or_without(right(symbols, first, second), cut)
}

/// Lengths of two bytes.
fn short_lengths(symbols: &[u8], first: &[u8], second: &[u8]) -> u64 {
    let cut = [symbols, first, second].map(|slice| &slice[..slice.len() % 65_536]);
    right(cut[0], cut[1], cut[2])
}

/// Symbols of one rank are refused.
fn distinct_ranks(symbols: &[u8], first: &[u8], second: &[u8]) -> u64 {
    let ranks: Vec<&u8> = symbols.iter().skip(4).step_by(2).collect();
    let distinct = (0..ranks.len()).all(|i| !ranks[..i].contains(&ranks[i]));
    match distinct {
        true => right(symbols, first, second),
        false => 0,
    }
}

/// A chain of 121 nodes is accepted.
fn one_node_more(symbols: &[u8], first: &[u8], second: &[u8]) -> u64 {
    match first {
        [_, shorter @ ..] if shorter.len() == 120 => right(symbols, shorter, second),
        _ => right(symbols, first, second),
    }
}

/// Pairs on which the answers differ: generated, and damaged.
fn different_pairs(lower: Lower) -> [usize; 2] {
    let faulty = with_lower(lower);
    let mut checker = Checker::new(&faulty, &RustEngine);
    let mut differs = |(number, pair)| checker.run(&Input::Pair(pair), number).is_err();
    let generated = (0..6400).map(|index| (index, pair(5, index)));
    let generated = generated.filter(|case| differs(case.clone())).count();
    let damaged = (0..).zip(exhaustive::all());
    let damaged = damaged.filter(|case| differs(case.clone())).count();
    [generated, damaged]
}

/// Fixed pairs with a wrong answer.
fn wrong_pairs(cases: &[pairs::Case], lower: Lower) -> usize {
    let wrong = cases.iter().filter(|case| {
        let pair = &case.pair;
        lower(&pair.symbols, &pair.first, &pair.second) != chosen(case.answer)
    });
    wrong.count()
}

#[test]
fn faults_in_lower_are_found() {
    assert_eq!(different_pairs(right), [0, 0]);
    let cases = pairs::cases();
    assert_eq!(wrong_pairs(&cases, right), 0);
    // The least that fixed, generated and damaged pairs show.
    let list: [(&str, Lower, [usize; 3]); 10] = [
        ("upper", upper, [30, 1500, 60]),
        ("always first", always_first, [15, 800, 50]),
        ("second of equal", second_of_equal, [6, 400, 2]),
        ("second of neither", second_of_neither, [20, 1200, 300]),
        ("behind the field", byte_behind_the_field, [2, 20, 1000]),
        ("behind the first", byte_behind_the_first, [3, 10, 1000]),
        ("behind the second", byte_behind_the_second, [3, 10, 1000]),
        ("short lengths", short_lengths, [3, 1, 0]),
        ("distinct ranks", distinct_ranks, [7, 1000, 50]),
        ("one node more", one_node_more, [2, 30, 0]),
    ];
    for (name, lower, least) in list {
        let [generated, damaged] = different_pairs(lower);
        let found = [wrong_pairs(&cases, lower), generated, damaged];
        let enough = (0..3).all(|i| found[i] >= least[i]);
        assert!(enough, "{name}: {found:?}");
    }
}

#[test]
fn pairs_of_long_chains_find_faults() {
    let cases = chains::pairs();
    assert_eq!(wrong_pairs(&cases, right), 0);
    // A leaf in place of the last i: one byte is behind it.
    assert_eq!(wrong_pairs(&cases, byte_behind_the_first), 2);
    assert_eq!(wrong_pairs(&cases, byte_behind_the_second), 2);
    let completed: Lower = |symbols, first, second| {
        let longer = [first, &[0x80]].concat();
        or_without(
            right(symbols, first, second),
            Some(right(symbols, &longer, second)),
        )
    };
    // Every cut chain lacks a leaf.
    assert_eq!(wrong_pairs(&cases, completed), 120);
}

/// Every layout lends the slices of the pair, and some lend a term as a part
/// of the other.
#[test]
fn lent_slices_are_those_of_the_pair() {
    let mut shared = 0;
    for index in 0..640 {
        let pair = pair(5, index);
        for layout in 0..LAYOUTS {
            let lent = Lent::new(&pair, layout);
            let [symbols, first, second] = lent.slices();
            assert_eq!((symbols, first), (&pair.symbols[..], &pair.first[..]));
            assert_eq!(second, pair.second);
            let [first, second] = [first, second].map(<[u8]>::as_ptr_range);
            shared += (first.start < second.end && second.start < first.end) as usize;
        }
    }
    assert!(shared > 500, "only {shared}");
}
