//! Equations with neither side above: put back, taken again, and the end 20.

mod common;

use common::{bytes, completed, hex, run, Fields};
use kb_cases::full_log;
use kb_cases::generate;
use kb_cases::notation::Theory;
use kb_cases::put_back::limits::{one_removed, two_removed};
use kb_cases::put_back::rounds::ladder;
use kb_cases::put_back::simplified::groups_with_unit;
use kb_cases::put_back::{self, Run};
use kb_cases::theories::{self, GROUP};
use kb_engine::problem::Problem;
use std::collections::BTreeSet;

const BUDGET: u32 = 1_000_000;
const PUT_BACK: [u8; 2] = [0xff, 0xff];

fn is_put_back(entry: &[u8]) -> bool {
    entry[6..] == PUT_BACK
}

/// Kind, numbers and position of the entries put back.
fn origins(fields: &Fields) -> Vec<String> {
    let entries = fields.log.iter().filter(|entry| is_put_back(entry));
    entries.map(|entry| hex(&entry[..6])).collect()
}

#[test]
fn axioms_of_groups_complete_behind_an_equation_that_waits() {
    let fields = run(&groups_with_unit(), BUDGET);
    assert_eq!((fields.end, fields.units, fields.log.len()), (0, 981, 33));
    assert_eq!(origins(&fields), ["010001000000"]);
    let found: BTreeSet<_> = fields.rules.into_iter().map(|(_, sides)| sides).collect();
    let rules = theories::group_rules().all_sides();
    assert_eq!(found, rules.into_iter().collect());
    // x*e to x is made of the equation that waited.
    assert_eq!(fields.log[0], bytes("01 0001 0000 00 ffff"));
    assert_eq!(fields.log[4], bytes("01 0001 0000 00 0004"));
}

/// Without that equation the pair comes from an overlap and waits alone: the
/// next turn ends the run.
#[test]
fn axioms_of_groups_end_20() {
    let fields = run(&theories::group_axioms(), BUDGET);
    let counts = (fields.rules.len(), fields.log.len());
    assert_eq!((fields.end, fields.units, counts), (20, 1102, (21, 27)));
    assert_eq!(origins(&fields), ["04000a000b04"]);
    assert!(is_put_back(&fields.log[26]));
    let less = run(&theories::group_axioms(), 1101);
    assert_eq!((less.end, less.units, less.pair), (21, 1101, None));
    assert_eq!((less.rules, less.log), (fields.rules, fields.log));
}

#[test]
fn a_ladder_takes_a_round_a_rule() {
    for length in 2..=15 {
        let fields = run(&ladder(length), BUDGET);
        let length = length as usize;
        assert_eq!((fields.end, fields.rules.len()), (0, length));
        assert_eq!(origins(&fields).len(), length * (length - 1) / 2);
        assert_eq!(fields.log.len(), length * (length + 1) / 2);
    }
}

/// The forms are held: rewriting them is not paid for again, and field 14 has
/// them renamed as a pair.
#[test]
fn forms_wait_renamed() {
    let theory = Theory::new("e/0/0 i/1/1 */2/2 k/2/3").equations(&[
        "k(x,y) = *(y,i(x))",
        "k(x,y) = *(x,y)",
        "x = x",
    ]);
    let fields = run(&theory, BUDGET);
    // k(x,y) is rewritten once, in the second turn.
    assert_eq!((fields.end, fields.units), (20, 6));
    assert_eq!(origins(&fields), ["010002000000"; 2]);
    assert_eq!(hex(&fields.pair.unwrap()), "02800181028180");
}

/// Put back by the scan, and the pair in the order of the overlap.
#[test]
fn an_overlap_is_put_back_once() {
    let fields = run(&theories::many_variables(12), BUDGET);
    assert_eq!((fields.end, fields.units), (20, 4));
    assert_eq!(origins(&fields), ["040001000201"]);
    assert_eq!(fields.log.len(), 3);
}

#[test]
fn a_33rd_rule_is_due_of_one_put_back() {
    let last = |fields: &Fields| hex(fields.log.last().unwrap());
    let fields = run(&two_removed(2, 9), BUDGET);
    assert_eq!((fields.end, fields.rules.len()), (23, 32));
    assert_eq!(origins(&fields), ["02000c000000"]);
    assert_eq!(last(&fields), "02000e0000000022");
    let fields = run(&two_removed(3, 6), BUDGET);
    assert_eq!((fields.end, fields.rules.len()), (0, 31));
    assert_eq!(last(&fields), "02000a0000000021");
    let fields = run(&one_removed(3, 7), BUDGET);
    assert_eq!((fields.end, fields.rules.len()), (20, 32));
    assert_eq!(last(&fields), "02000b000000ffff");
}

/// With 512 entries the end is 20 if all that wait were put back since the
/// last change, else 24; and no entry is added then.
#[test]
fn end_20_before_24() {
    let ended = |theory| {
        let fields = run(&theory, BUDGET);
        assert_eq!(fields.log.len(), 512);
        let last = fields.log.last().map(|entry| is_put_back(entry));
        (fields.end, origins(&fields).len(), last == Some(true))
    };
    assert_eq!(ended(full_log::neither_above(83, 3)), (20, 2, true));
    assert_eq!(ended(full_log::neither_above(83, 4)), (24, 1, false));
    assert_eq!(ended(full_log::neither_above(83, 5)), (24, 1, true));
    assert_eq!(ended(full_log::neither_above(84, 0)), (24, 0, false));
    assert_eq!(ended(full_log::two_put_back(82, 5)), (20, 4, true));
    assert_eq!(ended(full_log::two_put_back(83, 0)), (24, 3, true));
    assert_eq!(ended(full_log::two_put_back(83, 1)), (24, 2, false));
}

/// 21 at the unit of the turn that would end 20.
#[test]
fn end_20_costs_a_unit() {
    let theory = Theory::new(GROUP).equation("*(x,y) = *(y,x)");
    for (budget, end, entries) in [(0, 21, 0), (1, 21, 1), (2, 20, 1), (3, 20, 1)] {
        let fields = run(&theory, budget);
        let found = (fields.end, fields.units, fields.log.len());
        assert_eq!(found, (end, budget.min(2), entries));
    }
}

/// The fixed runs reach what they are for.
#[test]
fn fixed_runs_wait_in_every_way() {
    let runs = put_back::runs();
    let results = |end: u8| {
        let ended = runs.iter().filter(move |run| run.end == end);
        ended.map(|run: &Run| completed(&run.theory.problem(BUDGET)))
    };
    let twice = |fields: &Fields| {
        let list = origins(fields);
        let removed = list.iter().filter(|origin| origin.starts_with("02"));
        removed.count() > 1
    };
    assert!(results(0).all(|fields| !origins(&fields).is_empty()));
    assert!(results(0).any(|fields| origins(&fields).len() > 30));
    assert!(results(20).any(|fields| twice(&fields)));
    assert_eq!(results(22).count(), 1);
}

/// Entries of equations put back, with no change between.
fn stretches(log: &[Vec<u8>]) -> impl Iterator<Item = &[Vec<u8>]> {
    log.split(|entry| !is_put_back(entry))
}

/// In generated runs no equation is put back twice without a change between,
/// an end 20 follows an entry put back, and one of the scan follows at once.
#[test]
fn no_equation_is_put_back_twice_in_a_round() {
    let (mut longest, mut ended) = (0, 0);
    for index in 0..6000 {
        let problem = generate::problem(7, index);
        if Problem::read(&problem).is_err() {
            continue;
        }
        let fields = completed(&problem);
        for stretch in stretches(&fields.log) {
            let origins: BTreeSet<&[u8]> = stretch.iter().map(|entry| &entry[..6]).collect();
            assert_eq!(origins.len(), stretch.len(), "{}", hex(&problem));
            longest = longest.max(stretch.len());
        }
        if fields.end == 20 {
            ended += 1;
            assert!(fields.log.last().is_some_and(|entry| is_put_back(entry)));
        }
        let scanned = |entry: &Vec<u8>| is_put_back(entry) && entry[0] > 2;
        let place = fields.log.iter().position(scanned);
        assert!(place.is_none_or(|place| place + 1 == fields.log.len()));
    }
    assert!(longest > 8 && ended > 1000, "{longest}, {ended}");
}
