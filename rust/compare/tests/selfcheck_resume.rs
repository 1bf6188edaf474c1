//! The comparison finds engines that resume in another way, and those that accept
//! what must be refused. Runs with the feature `selfcheck`.
#![cfg(feature = "selfcheck")]

mod common;

use common::{assert_found, renamed, right};
use kb_cases::checkpoints::Checkpoint;
use kb_compare::call::{decode, encode, Buffers, Call};
use kb_engine::MAX_BUDGET;

/// The record and the budget of a call that resumes.
fn resumed<'c>(call: &'c Call) -> Option<(&'c [u8], u64)> {
    match call {
        Call::Resume(record, budget) | Call::ResumeSaving(record, budget) => {
            Some((record, *budget))
        }
        _ => None,
    }
}

/// The same call with another record and another budget.
fn with(call: &Call, record: &[u8], budget: u64) -> Call<'static> {
    let record = record.to_vec().into();
    match call {
        Call::ResumeSaving(..) => Call::ResumeSaving(record, budget),
        _ => Call::Resume(record, budget),
    }
}

fn one_unit_more(call: &Call, buffers: &mut Buffers) -> Option<u64> {
    let (record, budget) = resumed(call)?;
    let more = budget + u64::from(budget < MAX_BUDGET.into());
    Some(right(&with(call, record, more), buffers))
}

/// The units are those of the run from its beginning on: at least one an entry.
fn all_units(call: &Call, buffers: &mut Buffers) -> Option<u64> {
    let (record, _) = resumed(call)?;
    let entries = Checkpoint::of_record(record).map_or(0, |c| c.entries.len());
    let answer = right(call, buffers);
    if decode(answer).0 == 1 {
        let units = &mut buffers[0][7..11];
        let paid = units.iter().fold(0, |n, byte| n * 256 + u32::from(*byte));
        units.copy_from_slice(&(paid + entries as u32).to_be_bytes());
    }
    Some(answer)
}

fn any_budget(call: &Call, buffers: &mut Buffers) -> Option<u64> {
    let (record, budget) = resumed(call)?;
    let budget = budget.min(MAX_BUDGET.into());
    Some(right(&with(call, record, budget), buffers))
}

/// 17 is given before the record is read.
fn budget_first(call: &Call, _: &mut Buffers) -> Option<u64> {
    let (_, budget) = resumed(call)?;
    (budget > MAX_BUDGET.into()).then_some(encode(0, 17, 0))
}

/// The refusal of a record is changed.
fn refusing(call: &Call, buffers: &mut Buffers, change: fn(u64, usize) -> u64) -> Option<u64> {
    let (record, _) = resumed(call)?;
    let answer = right(call, buffers);
    match decode(answer) {
        (0, 16, place) => Some(change(place, record.len())),
        _ => Some(answer),
    }
}

fn next_place(call: &Call, buffers: &mut Buffers) -> Option<u64> {
    refusing(call, buffers, |place, _| encode(0, 16, place as usize + 1))
}

/// A record that stops is refused where the last field begins.
fn never_at_the_end(call: &Call, buffers: &mut Buffers) -> Option<u64> {
    refusing(call, buffers, |place, end| match place as usize == end {
        true => encode(0, 16, end.saturating_sub(4)),
        false => encode(0, 16, place as usize),
    })
}

fn refused_as_by_decide(call: &Call, buffers: &mut Buffers) -> Option<u64> {
    refusing(call, buffers, |place, _| encode(0, 13, place as usize))
}

/// A record that is refused is repaired and then accepted.
fn lenient(call: &Call, buffers: &mut Buffers, repair: fn(&mut Checkpoint)) -> Option<u64> {
    let (record, budget) = resumed(call)?;
    let answer = right(call, buffers);
    let mut checkpoint = match decode(answer) {
        (0, 16, _) => Checkpoint::of_record(record)?,
        _ => return Some(answer),
    };
    repair(&mut checkpoint);
    Some(right(&with(call, &checkpoint.bytes(), budget), buffers))
}

fn any_count(call: &Call, buffers: &mut Buffers) -> Option<u64> {
    lenient(call, buffers, |c| {
        c.put_back = c.put_back.min(c.waiting.len() as u8);
    })
}

fn any_next_number(call: &Call, buffers: &mut Buffers) -> Option<u64> {
    lenient(call, buffers, |c| c.next = c.entries.len() as u16 + 1)
}

fn many_waiting(call: &Call, buffers: &mut Buffers) -> Option<u64> {
    lenient(call, buffers, |c| {
        c.waiting.truncate(33_usize.saturating_sub(c.rules.len()));
    })
}

fn many_entries(call: &Call, buffers: &mut Buffers) -> Option<u64> {
    lenient(call, buffers, |c| c.entries.truncate(512))
}

fn any_order_of_rules(call: &Call, buffers: &mut Buffers) -> Option<u64> {
    lenient(call, buffers, |c| c.rules.sort_by_key(|rule| rule.0))
}

/// Kinds, second numbers and positions are not tested.
fn any_origin(call: &Call, buffers: &mut Buffers) -> Option<u64> {
    fn repair(list: &mut [Vec<u8>]) {
        let origins = list
            .iter_mut()
            .filter(|item| item.len() > 5 && item[0] != 4);
        origins.for_each(|item| {
            item[0] = item[0].clamp(1, 3);
            item[3..6].fill(0);
        });
    }
    lenient(call, buffers, |c| {
        repair(&mut c.waiting);
        repair(&mut c.entries);
    })
}

/// Equations that wait need not be renamed.
fn any_variables(call: &Call, buffers: &mut Buffers) -> Option<u64> {
    lenient(call, buffers, |c| {
        for waits in c.waiting.iter_mut().filter(|waits| waits.len() > 6) {
            let sides = renamed(&waits[6..]);
            waits.splice(6.., sides);
        }
    })
}

/// A rule with its right side above its left side is turned round.
fn any_rule(call: &Call, buffers: &mut Buffers) -> Option<u64> {
    lenient(call, buffers, |c| {
        c.rules.iter_mut().for_each(|rule| turn(&mut rule.1))
    })
}

/// Exchanges sides of which the left one is one node.
fn turn(sides: &mut Vec<u8>) {
    if sides.first().is_some_and(|byte| *byte >= 0x80) {
        sides.rotate_left(1);
        *sides = renamed(sides);
    }
}

#[test]
fn runs_find_faults() {
    assert_found(
        "saved runs",
        &[
            ("one unit more", one_unit_more, [60, 13]),
            ("all units", all_units, [100, 13]),
        ],
    );
}

#[test]
fn records_find_faults() {
    assert_found(
        "saved records",
        &[
            ("one unit more", one_unit_more, [60, 20]),
            ("all units", all_units, [200, 13]),
            ("any budget", any_budget, [8, 3]),
            ("17 before 16", budget_first, [4, 2]),
            ("next place", next_place, [150, 80]),
            ("never at the end", never_at_the_end, [6, 6]),
            ("13 for 16", refused_as_by_decide, [150, 80]),
            ("any count", any_count, [8, 3]),
            ("any next number", any_next_number, [15, 9]),
            ("many waiting", many_waiting, [4, 2]),
            ("many entries", many_entries, [1, 1]),
            ("any order", any_order_of_rules, [2, 1]),
            ("any origin", any_origin, [10, 9]),
            ("any variables", any_variables, [2, 2]),
            ("any rule", any_rule, [1, 1]),
        ],
    );
}
