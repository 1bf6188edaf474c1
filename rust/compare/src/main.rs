//! Compares the proved library with the Rust engine on inputs of every kind.
//!
//! kb_compare [count] [seed] [first index]: of each kind first the fixed
//! inputs and those of long chains, whose answers are known, then all damaged
//! ones, then that many generated ones (100,000 unless KB_COUNT says
//! otherwise). With KB_TRACE set, each input is printed before it is run, and
//! KB_KIND is a part of the names of the kinds that are run.

use kb_compare::check::Checker;
use kb_compare::comparison::compare;
use kb_compare::inputs::{Plan, KINDS};
use kb_compare::{ProvedEngine, RustEngine, LEFT_ENGINE};
use std::env;
use std::process::ExitCode;
use std::time::Instant;

const DEFAULT_COUNT: u64 = 100_000;

fn number(text: Option<String>, default: u64) -> u64 {
    text.map_or(default, |text| text.parse().expect("a whole number"))
}

fn plan() -> Plan {
    let argument = |place| env::args().nth(place);
    let count = number(env::var("KB_COUNT").ok(), DEFAULT_COUNT);
    Plan {
        count: number(argument(1), count),
        seed: number(argument(2), 1),
        first: number(argument(3), 0),
    }
}

fn main() -> ExitCode {
    let (plan, trace) = (plan(), env::var_os("KB_TRACE").is_some());
    let wanted = env::var("KB_KIND").unwrap_or_default();
    let mut checker = Checker::new(&ProvedEngine, &RustEngine);
    let (mut kinds, mut faults) = (0, 0);
    println!("{LEFT_ENGINE} and the Rust engine");
    for kind in KINDS.iter().filter(|kind| kind.name.contains(&wanted)) {
        let start = Instant::now();
        let summary = compare(&mut checker, kind, plan, trace);
        summary.print();
        let seconds = start.elapsed().as_secs_f64();
        println!("seed {}, from {}, {seconds:.1} s", plan.seed, plan.first);
        kinds += 1;
        faults += summary.faults();
    }
    match (kinds, faults) {
        (1.., 0) => ExitCode::SUCCESS,
        _ => ExitCode::FAILURE,
    }
}
