//! Times the proved library against the Rust engine on fixed problems, pairs of
//! terms and saved records.
//!
//! Each case runs on both engines in turn; the least processor time of
//! several samples counts. The buffers have the least lengths that are
//! accepted and are not cleared in between.
//! An argument restricts the table to the cases whose name contains it.

mod cases;
mod clock;
mod decisions;
mod pairs;
mod provers;
mod resumed;

use cases::{Case, Slices, Work};
use kb_compare::call::{decode, Call};
use kb_compare::{Engine, ProvedEngine, RustEngine};
use kb_engine::fields::{split_fields, TAG_RULE};
use kb_engine::{MIN_RESULT, MIN_SAVED};
use std::hint::black_box;

const SAMPLES: usize = 9;
const SAMPLE_SECONDS: f64 = 0.008;

/// The buffers that every call is lent.
#[derive(Clone, PartialEq)]
struct Lent {
    result: Vec<u8>,
    saved: Vec<u8>,
}

impl Lent {
    fn new() -> Lent {
        Lent {
            result: vec![0; MIN_RESULT],
            saved: vec![0; MIN_SAVED],
        }
    }

    fn call(&mut self, engine: &dyn Engine, call: &Call) -> u64 {
        engine.run(black_box(call), [&mut self.result, &mut self.saved])
    }

    /// The last answer of a run in slices.
    fn slices(&mut self, engine: &dyn Engine, slices: &Slices) -> u64 {
        let (mut record, mut answer) = (slices.record.clone(), 0);
        for _ in 0..slices.most {
            let call = Call::ResumeSaving(record.as_slice().into(), slices.units.into());
            answer = self.call(engine, &call);
            let (_, length, _) = decode(answer);
            if length == 0 {
                break;
            }
            record.clear();
            record.extend_from_slice(&self.saved[..length as usize]);
        }
        answer
    }

    fn run(&mut self, engine: &dyn Engine, case: &Case) -> u64 {
        match &case.work {
            Work::Call(call) => self.call(engine, call),
            Work::Slices(slices) => self.slices(engine, slices),
        }
    }
}

/// Seconds a run of the case, over so many runs.
fn sample(engine: &dyn Engine, case: &Case, lent: &mut Lent, runs: u32) -> f64 {
    let start = clock::seconds();
    for _ in 0..runs {
        black_box(lent.run(engine, case));
    }
    (clock::seconds() - start) / runs as f64
}

/// Runs that fill a sample.
fn runs_for(engine: &dyn Engine, case: &Case, lent: &mut Lent) -> u32 {
    let once = sample(engine, case, lent, 1).max(1e-9);
    (SAMPLE_SECONDS / once).clamp(1.0, 1e6) as u32
}

/// What a case answered, in words.
fn answer_text(case: &Case, answer: u64, result: &[u8]) -> String {
    let (kind, number, low) = decode(answer);
    let call = match &case.work {
        Work::Call(call) => call,
        Work::Slices(_) => return ended(&result[..low as usize]),
    };
    match (call, kind) {
        (Call::Subterm(..), _) => format!("{} bytes", low),
        (Call::Lower(..), _) => ["refused", "first", "second"][low as usize].to_string(),
        (_, 0) => format!("refused {number}"),
        (Call::Compare(..), _) => format!("answer {low}"),
        (Call::Unify(..), 1) => format!("{} nodes", low - 3),
        (Call::Unify(..), 2) => "none".to_string(),
        (Call::Decide(..), 1) if low == 1 => "same".to_string(),
        (Call::Decide(..), 1) => "different".to_string(),
        (Call::Outermost(..), 1) if number == 1 => format!("same, {low} units"),
        (Call::Outermost(..), 1) => format!("different, {low} units"),
        (Call::Outermost(..), _) => format!("number {number}, {low} units"),
        (Call::Unify(..) | Call::Decide(..), _) => format!("number {number}"),
        (Call::ResumeSaving(_, 0), _) => format!("{number} bytes saved"),
        _ => ended(&result[..low as usize]),
    }
}

/// End, units and rules of a result.
fn ended(result: &[u8]) -> String {
    let units = result[7..11].iter().fold(0, |n, b| n << 8 | *b as u32);
    let rules = split_fields(result).filter(|(tag, _)| *tag == TAG_RULE);
    let (end, rules) = (result[3], rules.count());
    format!("end {end}, {units} units, {rules} rules")
}

/// Microseconds of processor time on the proved library and on the Rust engine.
type Times = [f64; 2];

fn print_case(case: &Case) -> Times {
    let (proved, rust): (&dyn Engine, &dyn Engine) = (&ProvedEngine, &RustEngine);
    let mut lent = Lent::new();
    let expected = lent.run(rust, case);
    let text = answer_text(case, expected, &lent.result);
    let left = lent.clone();
    let agree = lent.run(proved, case) == expected && lent == left;
    let runs = [
        runs_for(proved, case, &mut lent),
        runs_for(rust, case, &mut lent),
    ];
    let mut least = [f64::MAX; 2];
    for _ in 0..SAMPLES {
        for (i, engine) in [proved, rust].into_iter().enumerate() {
            least[i] = least[i].min(sample(engine, case, &mut lent, runs[i]));
        }
    }
    let [a, b] = least.map(|seconds| seconds * 1e6);
    let note = if agree { "" } else { "  DIFFERENT" };
    println!(
        "{:<34} {text:<34} {a:>12.2} {b:>12.2} {:>8.2}{note}",
        case.name,
        a / b
    );
    [a, b]
}

/// What some cases take against others that were timed too.
fn print_related(timed: &[(&Case, Times)]) {
    for (case, [a, b]) in timed {
        let other = timed
            .iter()
            .find(|(other, _)| Some(&other.name) == case.against.as_ref());
        if let Some((other, [c, d])) = other {
            let (name, other, proved, rust) = (&case.name, &other.name, a / c, b / d);
            println!("{name} against {other}: proved {proved:.2}, rust {rust:.2}");
        }
    }
}

fn main() -> std::io::Result<()> {
    let wanted = std::env::args().nth(1).unwrap_or_default();
    println!(
        "{:<34} {:<34} {:>12} {:>12} {:>8}",
        "case", "answer", "proved us", "rust us", "ratio"
    );
    let cases = cases::all();
    let chosen = cases.iter().filter(|case| case.name.contains(&wanted));
    let timed: Vec<(&Case, Times)> = chosen.map(|case| (case, print_case(case))).collect();
    println!("processor time, least of {SAMPLES} samples; buffers not cleared between calls");
    print_related(&timed);
    if wanted.is_empty() || wanted == "provers" {
        provers::print()?;
    }
    Ok(())
}
