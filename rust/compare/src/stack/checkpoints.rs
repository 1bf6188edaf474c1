//! The calls that save and resume, on chains in problems and in saved records.

use super::cases::{alone, chain, cut, deep, looped, problem, walk, Case, I, SYMBOLS};
use crate::call::{encode, refused, Call};
use kb_cases::checkpoints::{waiting, Checkpoint};
use kb_cases::notation::Theory;
use kb_cases::slices::with_budget;
use kb_engine::Refusal;

/// Where the field behind the symbols begins, and the one behind the next
/// number, if there are no equations.
const BEHIND_SYMBOLS: usize = 13;
const BEHIND_NEXT: usize = BEHIND_SYMBOLS + 5;
/// Bytes of a field's head, of an origin, of an entry's field, of the field of
/// those put back, and of a result's end and units.
const HEAD: usize = 3;
const ORIGIN: usize = 6;
const ENTRY: usize = HEAD + 8;
const COUNT: usize = HEAD + 1;
const END_AND_UNITS: usize = 4 + 7;

/// The origin of the first input.
const INPUT: [u8; 6] = [1, 0, 1, 0, 0, 0];

type Resumed = fn(Vec<u8>, u64) -> Call<'static>;

fn resume(record: Vec<u8>, budget: u64) -> Call<'static> {
    Call::Resume(record.into(), budget)
}

fn resume_saving(record: Vec<u8>, budget: u64) -> Call<'static> {
    Call::ResumeSaving(record.into(), budget)
}

pub(super) fn cases() -> Vec<Case> {
    let mut list = readings();
    list.extend(first_states());
    list.extend(runs());
    list
}

/// No equation and no rule.
fn empty() -> Checkpoint {
    Checkpoint::of_theory(&Theory::new(SYMBOLS))
}

/// Both sides in one byte string.
fn sides(left: &str, right: &str) -> Vec<u8> {
    Theory::new(SYMBOLS).terms([left, right]).concat()
}

/// A cut chain: the walk ends with the field, a subterm owed.
fn readings() -> Vec<Case> {
    fn refused_at(call: Resumed, record: &Checkpoint, place: usize) -> (Call<'static>, u64) {
        let number = 16;
        let answer = refused(Refusal { number, place });
        (call(record.bytes(), 9), answer)
    }
    vec![
        walk("complete_saving, chain cut", |n| {
            let (problem, answer) = cut(n);
            (Call::CompleteSaving(problem), answer)
        }),
        walk("resume, an equation's chain cut", |n| {
            let equations = vec![vec![I; n]];
            let record = Checkpoint {
                equations,
                ..empty()
            };
            refused_at(resume, &record, BEHIND_SYMBOLS)
        }),
        walk("resume, a waiting chain cut", |n| {
            let waiting = vec![waiting(INPUT, &vec![I; n])];
            let record = Checkpoint { waiting, ..empty() };
            refused_at(resume, &record, BEHIND_NEXT)
        }),
        walk("resume_saving, rule's chain cut", |n| {
            let (next, rules) = (2, vec![(1, vec![I; n])]);
            let record = Checkpoint {
                next,
                rules,
                ..empty()
            };
            refused_at(resume_saving, &record, BEHIND_NEXT)
        }),
    ]
}

/// Without a unit the record is read and written, and nothing is compared.
fn first_states() -> Vec<Case> {
    fn theory(n: usize) -> Theory {
        let [left, right] = ["i", "j"].map(|symbol| chain(symbol, n, "x"));
        Theory::new(SYMBOLS).equation(&format!("{left} = {right}"))
    }
    fn saved(n: usize) -> u64 {
        let waits = HEAD + ORIGIN + 2 * n;
        let length = BEHIND_NEXT + HEAD + 2 * n + waits + COUNT;
        encode(1, length, END_AND_UNITS)
    }
    vec![
        looped("complete_saving, no unit", |n| {
            (Call::CompleteSaving(theory(n).problem(0).into()), saved(n))
        }),
        looped("resume, no unit", |n| {
            let record = Checkpoint::of_theory(&theory(n)).bytes();
            (resume(record, 0), encode(1, 0, END_AND_UNITS))
        }),
        looped("resume_saving, no unit", |n| {
            let record = Checkpoint::of_theory(&theory(n)).bytes();
            (resume_saving(record, 0), saved(n))
        }),
    ]
}

/// The order test of a rule when it is read, and orienting, are deepest; then
/// normalising.
fn runs() -> Vec<Case> {
    /// The record with this rule, and this equation if one waits.
    fn stopped(rule: Vec<u8>, waits: Option<Vec<u8>>) -> Vec<u8> {
        Checkpoint {
            next: 2,
            rules: vec![(1, rule)],
            waiting: waits.iter().map(|sides| waiting(INPUT, sides)).collect(),
            entries: vec![vec![1, 0, 1, 0, 0, 0, 0, 1]],
            ..empty()
        }
        .bytes()
    }
    fn result(rule: usize, entries: usize) -> usize {
        END_AND_UNITS + HEAD + 2 + rule + entries * ENTRY
    }
    vec![
        deep("complete_saving, two chains", |n| {
            let lent = problem(&[[&alone(n), &chain("j", n, "x")]]);
            let saved = BEHIND_NEXT + HEAD + 2 * n + (HEAD + 2 + 2 * n) + ENTRY + COUNT;
            let call = Call::CompleteSaving(with_budget(&lent, 1).into());
            (call, encode(1, saved, result(2 * n, 1)))
        }),
        deep("resume, a rule of two chains", |n| {
            let record = stopped(sides(&alone(n), &chain("j", n, "x")), None);
            (resume(record, 9), encode(1, 0, result(2 * n, 1)))
        }),
        deep("resume_saving, steps", |n| {
            let chains = sides(&chain("i", n, "x"), &chain("j", n, "x"));
            let record = stopped(sides("i(x)", "j(x)"), Some(chains));
            (resume_saving(record, 1000), encode(1, 0, result(4, 2)))
        }),
    ]
}
