//! The measured stack is that of the job, and the table finds what must not
//! be. Runs with the feature `selfcheck`.
#![cfg(feature = "selfcheck")]

mod common;

use common::Other;
use kb_compare::call::{Buffers, Call};
use kb_compare::stack::cases::{cases, Case, Kind};
use kb_compare::stack::table::{Row, LIMIT, NODES};
use kb_compare::stack::{Stack, STACK};
use kb_compare::{Engine, RustEngine};
use std::hint::black_box;

/// Counts to n in as many frames.
#[inline(never)]
fn recursing(n: usize) -> usize {
    if n == 0 {
        return 0;
    }
    black_box(recursing(black_box(n - 1))) + 1
}

/// Counts to n in one frame.
#[inline(never)]
fn looping(n: usize) -> usize {
    let mut count = 0;
    while count < n {
        count = black_box(count) + 1;
    }
    count
}

fn taken(job: fn(usize) -> usize, n: usize) -> usize {
    Stack::new().taken(|| assert_eq!(job(black_box(n)), n))
}

#[test]
fn an_empty_job_takes_none() {
    assert_eq!(Stack::new().taken(|| {}), 0);
}

#[test]
fn recursion_takes_more_for_more() {
    let counts = [0, 1, 2, 10, 100, 1000];
    let depths = counts.map(|n| taken(recursing, n));
    assert!(depths.is_sorted_by(|a, b| a < b), "{depths:?}");
    // A frame has a return address at the least, and all have one size.
    let frame = depths[2] - depths[1];
    assert!(frame >= 8, "{frame}");
    assert_eq!(depths[5] - depths[4], 900 * frame);
}

#[test]
fn a_loop_takes_the_same() {
    let depths = [1, 2, 10, 100, 1000].map(|n| taken(looping, n));
    assert_eq!(depths, [depths[0]; 5]);
}

/// Whatever is written in a frame is found.
#[test]
fn every_written_byte_counts() {
    fn fills<const N: usize>(stack: &mut Stack, byte: u8) -> usize {
        stack.taken(|| {
            black_box([black_box(byte); N]);
        })
    }
    let mut stack = Stack::new();
    let small = fills::<1000>(&mut stack, 0);
    let large = fills::<5000>(&mut stack, 0);
    assert!(small >= 1000 && large >= small + 4000, "{small}, {large}");
    for byte in 1..=255 {
        assert_eq!(fills::<1000>(&mut stack, byte), small, "{byte}");
        assert_eq!(fills::<5000>(&mut stack, byte), large, "{byte}");
    }
}

/// Subterm, which goes down a frame for each byte before.
fn recursing_subterm(call: &Call, _: &mut Buffers) -> Option<u64> {
    if let Call::Subterm(problem, _) = call {
        assert_eq!(recursing(problem.len()), problem.len());
    }
    None
}

/// Lower, with the other term.
fn other_term(call: &Call, _: &mut Buffers) -> Option<u64> {
    match call {
        Call::Lower(..) => Some(RustEngine.run(call, Default::default()) ^ 3),
        _ => None,
    }
}

fn rows(engine: &(dyn Engine + Sync)) -> Vec<Row> {
    let mut stack = Stack::new();
    let measured = |case: &Case| Row::measured(&mut stack, engine, case);
    cases().iter().map(measured).collect()
}

/// The heap of a thread takes stack too, more at one time than at another,
/// but not as much as a return address a node.
#[test]
fn the_rust_engine_walks_in_loops() {
    for row in rows(&RustEngine) {
        assert!(row.wrong.is_empty(), "{row}");
        let [short, _, long] = row.taken;
        assert!(0 < short && long < LIMIT, "{row}");
        assert!(row.kind != Kind::Walk || long < short + 8 * 118, "{row}");
    }
}

#[test]
fn a_recursive_walk_is_found() {
    for row in rows(&Other(recursing_subterm)) {
        assert!(row.wrong.is_empty(), "{row}");
        if row.name.starts_with("subterm") {
            let faults = row.faults();
            assert!(faults[0].contains("depends on the chain"), "{faults:?}");
        }
    }
}

#[test]
fn wrong_answers_are_found() {
    for row in rows(&Other(other_term)) {
        let wrong = match row.name.starts_with("lower") {
            true => NODES.len(),
            false => 0,
        };
        assert_eq!(row.wrong.len(), wrong, "{row}");
        assert!(row.faults().len() >= wrong, "{row}");
    }
}

#[test]
fn unequal_and_large_figures_are_faults() {
    let count = |kind, taken| {
        let (name, wrong) = ("a case", Vec::new());
        let row = Row {
            name,
            kind,
            taken,
            wrong,
        };
        row.faults().len()
    };
    assert_eq!(count(Kind::Walk, [300, 300, 300]), 0);
    assert_eq!(count(Kind::Walk, [300, 300, 301]), 1);
    assert_eq!(count(Kind::Walk, [301, 300, 300]), 1);
    assert_eq!(count(Kind::Loop, [300, 300, 300]), 0);
    assert_eq!(count(Kind::Loop, [300, 301, 300]), 1);
    assert_eq!(count(Kind::Deep, [300, 301, 999]), 0);
    assert_eq!(count(Kind::Deep, [300, 301, LIMIT]), 0);
    assert_eq!(count(Kind::Deep, [300, 301, LIMIT + 1]), 1);
    assert_eq!(count(Kind::Walk, [LIMIT, LIMIT, LIMIT + 1]), 2);
    const { assert!(LIMIT < STACK) };
}
