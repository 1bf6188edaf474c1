//! Saved records of the benchmark: long ones that are read and written, and runs
//! that go on in slices, against the same in one piece.

use crate::cases::{made, Case, Slices, Work};
use crate::decisions::long_rules;
use kb_cases::checkpoints::{waiting, Checkpoint};
use kb_cases::notation::Theory;
use kb_cases::theories::{countdown, power};
use kb_compare::call::Call;
use kb_engine::{MAX_BUDGET, MAX_LOG, MAX_RULES};

/// Units of a slice.
const SLICE: u32 = 1000;
/// Equations that wait beside a full log, for about as many bytes as the rules.
const WAIT: usize = 30;
/// The chains of `filled_log`, and what each turn of theirs counts down from.
const CHAIN: usize = 86;
const COUNTED: usize = 30;

pub fn all() -> Vec<Case> {
    let mut list = vec![
        saved("resume_saving, 32 rules", &long_state(MAX_RULES, 0)),
        saved("resume_saving, 30 wait", &long_state(0, WAIT)),
    ];
    list.extend(sliced("1,000,000 units", countdown(15, 1)));
    list.extend(sliced("log filled", filled_log()));
    list
}

/// A record of about 13,000 bytes that is read and written.
fn saved(name: &str, checkpoint: &Checkpoint) -> Case {
    made(name, Call::ResumeSaving(checkpoint.bytes().into(), 0))
}

/// A full log, and rules or waiting equations of 240 nodes.
fn long_state(rules: usize, wait: usize) -> Checkpoint {
    let theory = long_rules();
    let sides = theory.all_sides();
    let rules = (1..).zip(&sides[..rules]);
    let wait = sides[..wait].iter();
    Checkpoint {
        symbols: theory.symbol_field()[3..].to_vec(),
        next: MAX_RULES as u16 + 1,
        rules: rules.map(|(n, sides)| (n, sides.clone())).collect(),
        waiting: wait
            .map(|sides| waiting([4, 0, 1, 0, 2, 3], sides))
            .collect(),
        entries: vec![vec![4, 0, 1, 0, 2, 3, 0, 0]; MAX_LOG],
        ..Checkpoint::default()
    }
}

/// A run from its beginning, in one piece and in slices.
fn sliced(name: &str, theory: Theory) -> [Case; 2] {
    let record = Checkpoint::of_theory(&theory).bytes();
    let one_piece = Call::ResumeSaving(record.clone().into(), MAX_BUDGET.into());
    let one_piece = made(&format!("{name}, one piece"), one_piece);
    let slices = Slices {
        record,
        units: SLICE,
        most: MAX_BUDGET / SLICE,
    };
    let slices = Case {
        name: format!("{name}, in slices"),
        work: Work::Slices(slices),
        against: Some(one_piece.name.clone()),
    };
    [one_piece, slices]
}

/// 512 entries, every other one after some 960 units. P(s^n(x)) = d loses one s
/// a rule by an overlap whose left side, u(d,s^30(0)), counts down to d; the
/// rule before is removed and settled.
fn filled_log() -> Theory {
    let symbols = "0/0/0 s/1/1 d/0/2 w/4/3 u/2/4 A/1/5 B/1/6 C/1/7";
    let number = power("s", COUNTED, "0");
    let theory = Theory::new(symbols).equations(&[
        "w(x,s(y),v,z) = w(x,y,v,z)",
        "w(s(x),0,v,z) = w(x,v,v,z)",
        "w(0,0,v,z) = z",
        "u(d,y) = w(y,y,y,d)",
    ]);
    ["A", "B", "C"].iter().fold(theory, |theory, p| {
        let chain = power("s", CHAIN, "x");
        let theory = theory.equation(&format!("u({p}(s(x)),{number}) = {p}(x)"));
        theory.equation(&format!("{p}({chain}) = d"))
    })
}
