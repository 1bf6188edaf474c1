//! Every truncation, every value of every byte and every exchange of two fields
//! of some records.

use super::moved::joined;
use crate::checkpoints::{waiting, Checkpoint};
use crate::notation::Theory;
use crate::resumptions::Resumption;
use crate::theories::{ARITHMETIC, GROUP};
use kb_engine::fields::split_fields;

/// Changes of a byte: its 256 values and a cut before it.
const CHANGES: usize = 257;
/// Enough for most of the runs that are then left.
const BUDGET: u64 = 30;

/// The records that are damaged in every way.
fn bases() -> [Vec<u8>; 4] {
    [groups(), one_rank(), arithmetic(), first_state()].map(|base| base.bytes())
}

/// 002's axioms: two rules made, the third equation waits.
fn groups() -> Checkpoint {
    let axioms = ["*(e,x) = x", "*(i(x),x) = e", "*(x,*(y,z)) = *(*(x,y),z)"];
    let first = Checkpoint::of_theory(&Theory::new(GROUP).equations(&axioms));
    Checkpoint {
        next: 3,
        rules: vec![
            (1, first.equations[0].clone()),
            (2, first.equations[1].clone()),
        ],
        waiting: vec![first.waiting[2].clone()],
        entries: vec![vec![1, 0, 1, 0, 0, 0, 0, 1], vec![1, 0, 2, 0, 0, 0, 0, 2]],
        ..first
    }
}

/// Equations of every kind of origin wait; one was put back.
fn one_rank() -> Checkpoint {
    let theory = Theory::new("c/0/0 f/1/1 g/1/1").equations(&["f(x) = g(x)", "f(g(x)) = x"]);
    let first = Checkpoint::of_theory(&theory);
    let [stuck, made] = [0, 1].map(|i| first.equations[i].as_slice());
    Checkpoint {
        next: 4,
        rules: vec![(3, made.to_vec())],
        waiting: vec![
            waiting([2, 0, 1, 0, 0, 0], &[1, 0, 2, 0x80]),
            waiting([3, 0, 2, 0, 0, 0], &[0x80, 0x80]),
            waiting([4, 0, 1, 0, 2, 1], stuck),
            waiting([1, 0, 1, 0, 0, 0], stuck),
        ],
        entries: (1..=4).map(|k| vec![k, 0, 1, 0, 0, 0, 0, 0]).collect(),
        put_back: 1,
        ..first
    }
}

/// Rules that another one will remove and compose, and nothing waits.
fn arithmetic() -> Checkpoint {
    let symbols = Theory::new(ARITHMETIC);
    let rules = symbols
        .clone()
        .equations(&["+(x,s(y)) = s(+(x,y))", "p(s(x)) = x"]);
    let [first, second] = [0, 1].map(|i| rules.all_sides()[i].clone());
    Checkpoint {
        next: 6,
        rules: vec![(2, first), (5, second)],
        entries: vec![vec![4, 0, 2, 0, 5, 1, 0, 2]; 5],
        ..Checkpoint::of_theory(&symbols)
    }
}

/// The beginning of a run.
fn first_state() -> Checkpoint {
    Checkpoint::of_theory(&Theory::new("c/0/0 f/1/1").equation("f(f(x)) = x"))
}

/// All the resumptions.
pub fn all() -> impl Iterator<Item = Resumption> {
    let damaged = bases().into_iter().flat_map(|base| {
        let numbers = 0..base.len() * CHANGES;
        numbers.map(move |number| changed(&base, number / CHANGES, number % CHANGES))
    });
    let exchanged = bases().into_iter().flat_map(|base| exchanged(&base));
    let budget = BUDGET;
    let records = damaged.chain(exchanged);
    records.map(move |record| Resumption { record, budget })
}

fn changed(base: &[u8], place: usize, value: usize) -> Vec<u8> {
    let mut record = base.to_vec();
    match u8::try_from(value) {
        Ok(value) => record[place] = value,
        Err(_) => record.truncate(place),
    }
    record
}

/// Two fields exchanged, and a field left out (the same number twice).
fn exchanged(base: &[u8]) -> Vec<Vec<u8>> {
    let fields: Vec<(u8, &[u8])> = split_fields(base).collect();
    let pairs = (0..fields.len()).flat_map(|i| (0..=i).map(move |j| (i, j)));
    let exchange = |(i, j): (usize, usize)| {
        let mut fields = fields.clone();
        match i == j {
            true => drop(fields.remove(i)),
            false => fields.swap(i, j),
        }
        joined(&fields)
    };
    pairs.map(exchange).collect()
}
