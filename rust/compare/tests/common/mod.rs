//! An engine that the tests make wrong, and what the comparison finds of it.
#![allow(dead_code)]

use kb_compare::call::{Buffers, Call};
use kb_compare::check::Checker;
use kb_compare::inputs::{Case, Plan, KINDS};
use kb_compare::{Engine, RustEngine};

/// The Rust engine with some calls answered in another way: a call and its
/// buffers to another answer, none for the right one.
pub struct Other<F>(pub F);

impl<F: Fn(&Call, &mut Buffers) -> Option<u64>> Engine for Other<F> {
    fn run(&self, call: &Call, mut buffers: Buffers) -> u64 {
        (self.0)(call, &mut buffers).unwrap_or_else(|| RustEngine.run(call, buffers))
    }
}

/// The right answer to a call, with these buffers.
pub fn right(call: &Call, [first, second]: &mut Buffers) -> u64 {
    RustEngine.run(call, [first, second])
}

const PLAN: Plan = Plan {
    seed: 5,
    first: 0,
    count: 500,
};
/// These families are long, and show no fault that no other shows.
const LEFT_OUT: [&str; 4] = [
    "corpus",
    "all damage of saved records",
    "all damage of records",
    "long questions",
];

/// A call and its buffers to another answer, none for the right one.
pub type Fault = fn(&Call, &mut Buffers) -> Option<u64>;

/// The cases of a kind.
fn cases(kind: &str) -> impl Iterator<Item = Case> {
    let kind = KINDS.iter().find(|known| known.name == kind);
    let families = kind.expect("a kind of this name").families.iter();
    let cases = families.flat_map(|family| family(PLAN));
    cases.filter(|case| !LEFT_OUT.contains(&case.family))
}

/// On how many inputs of a kind two engines differ.
pub fn differences(kind: &str, [left, right]: [&dyn Engine; 2]) -> usize {
    let mut checker = Checker::new(left, right);
    let different = cases(kind).filter(|case| checker.run(&case.input, case.number).is_err());
    different.count()
}

/// Of how many inputs of a kind whose answers are known an engine's are wrong.
fn wrong(kind: &str, engine: &dyn Engine) -> usize {
    let due = cases(kind).filter_map(|case| case.due);
    due.filter(|due| !(due.faults)(engine).is_empty()).count()
}

/// The differences of a faulty engine from the right one, and its wrong answers.
pub fn found(kind: &str, fault: Fault) -> [usize; 2] {
    let engine = Other(fault);
    let differences = differences(kind, [&engine, &RustEngine]);
    [differences, wrong(kind, &engine)]
}

/// A fault, and the least differences and wrong answers that it shows in a kind
/// of input; none at all where that is 0.
pub type Shown = (&'static str, Fault, [usize; 2]);

pub fn assert_found(kind: &str, faults: &[Shown]) {
    for (name, fault, least) in faults {
        let found = found(kind, *fault);
        let enough = |i: usize| found[i] >= least[i] && (least[i] > 0 || found[i] == 0);
        assert!(enough(0) && enough(1), "{name}, {kind}: {found:?}");
    }
}

/// Two terms with their variables numbered by first occurrence.
pub fn renamed(sides: &[u8]) -> Vec<u8> {
    let mut seen: Vec<u8> = Vec::new();
    let number = |byte: &u8| {
        if *byte < 0x80 {
            return *byte;
        }
        let place = seen.iter().position(|known| known == byte);
        let place = place.unwrap_or_else(|| {
            seen.push(*byte);
            seen.len() - 1
        });
        0x80 + place as u8
    };
    sides.iter().map(number).collect()
}
