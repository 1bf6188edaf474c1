//! Measures the stack that each call of the proved library takes on chains of
//! 2, 60 and 120 nodes.
//!
//! Fails if a case that is done by loops takes more on one chain than on
//! another, if a call takes more than the limit, or if an answer is not
//! the one due.

use kb_compare::stack::cases::{cases, Kind};
use kb_compare::stack::table::{Row, LIMIT, NODES};
use kb_compare::stack::Stack;
use kb_compare::ProvedEngine;
use std::process::ExitCode;

const GROUPS: [(Kind, &str); 3] = [
    (Kind::Walk, "walks only"),
    (Kind::Loop, "other loops"),
    (Kind::Deep, "path order and normalising"),
];

fn main() -> ExitCode {
    let mut stack = Stack::new();
    let [a, b, c] = NODES;
    println!("{:32} {a:>8} {b:>8} {c:>8}", "bytes of stack, by nodes");
    let mut faults = Vec::new();
    for (kind, title) in GROUPS {
        let chosen = cases().into_iter().filter(|case| case.kind == kind);
        println!("{title}:");
        for case in chosen {
            let row = Row::measured(&mut stack, &ProvedEngine, &case);
            println!("{row}");
            faults.extend(row.faults());
        }
    }
    println!("{} faults, limit {LIMIT} bytes", faults.len());
    faults.iter().for_each(|fault| println!("FAULT {fault}"));
    match faults.is_empty() {
        true => ExitCode::SUCCESS,
        false => ExitCode::FAILURE,
    }
}
