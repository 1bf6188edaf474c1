//! The comparison finds engines that save in another way. Runs with the feature
//! `selfcheck`.
#![cfg(feature = "selfcheck")]

mod common;

use common::{assert_found, differences, found, renamed, right, Fault, Other};
use kb_cases::checkpoints::Checkpoint;
use kb_compare::call::{decode, encode, Buffers, Call};
use kb_compare::{Engine, RustEngine};
use kb_engine::{MIN_RESULT, MIN_SAVED};

/// Whether a call saves.
fn saves(call: &Call) -> bool {
    matches!(call, Call::CompleteSaving(..) | Call::ResumeSaving(..))
}

/// Saves the state with a change.
fn saving(call: &Call, buffers: &mut Buffers, change: fn(&mut Checkpoint)) -> Option<u64> {
    if !saves(call) {
        return None;
    }
    let answer = right(call, buffers);
    let (kind, length, count) = decode(answer);
    if kind == 0 || length == 0 {
        return Some(answer);
    }
    let mut checkpoint = Checkpoint::of_record(&buffers[1][..length as usize])?;
    change(&mut checkpoint);
    let bytes = checkpoint.bytes();
    buffers[1][..bytes.len()].copy_from_slice(&bytes);
    Some(encode(1, bytes.len(), count as usize))
}

fn without_the_oldest(call: &Call, buffers: &mut Buffers) -> Option<u64> {
    saving(call, buffers, |c| {
        c.waiting = c.waiting.split_off(c.waiting.len().min(1))
    })
}

fn newest_first(call: &Call, buffers: &mut Buffers) -> Option<u64> {
    saving(call, buffers, |c| c.waiting.reverse())
}

fn no_count(call: &Call, buffers: &mut Buffers) -> Option<u64> {
    saving(call, buffers, |c| c.put_back = 0)
}

/// The next number is the one after the last live rule.
fn live_numbers(call: &Call, buffers: &mut Buffers) -> Option<u64> {
    saving(call, buffers, |c| {
        c.next = c.rules.last().map_or(0, |rule| rule.0) + 1;
    })
}

/// Entries of equations that were put back are not saved.
fn shorter_log(call: &Call, buffers: &mut Buffers) -> Option<u64> {
    saving(call, buffers, |c| {
        c.entries.retain(|entry| entry[6..] != [255, 255]);
    })
}

/// The origin of what waits is not saved.
fn no_origins(call: &Call, buffers: &mut Buffers) -> Option<u64> {
    saving(call, buffers, |c| {
        c.waiting.iter_mut().for_each(|waits| waits[0] = 1);
    })
}

/// The equations of the problem stand renamed, as if they were waiting.
fn renamed_equations(call: &Call, buffers: &mut Buffers) -> Option<u64> {
    saving(call, buffers, |c| {
        c.equations
            .iter_mut()
            .for_each(|sides| *sides = renamed(sides));
    })
}

/// The length is not answered.
fn no_length(call: &Call, buffers: &mut Buffers) -> Option<u64> {
    let answer = right(call, buffers);
    match decode(answer) {
        (1, _, count) if saves(call) => Some(encode(1, 0, count as usize)),
        _ => Some(answer),
    }
}

/// A byte of the second buffer is written on any end.
fn always_written(call: &Call, buffers: &mut Buffers) -> Option<u64> {
    let answer = right(call, buffers);
    if saves(call) && decode(answer).0 == 1 && decode(answer).1 == 0 {
        buffers[1][0] ^= 1;
    }
    Some(answer)
}

/// A short buffer for the saved record is accepted.
fn short_buffer(call: &Call, [result, saved]: &mut Buffers) -> Option<u64> {
    if !saves(call) || result.len() < MIN_RESULT || saved.len() >= MIN_SAVED {
        return None;
    }
    let mut own = vec![0; MIN_SAVED];
    Some(RustEngine.run(call, [result, &mut own]))
}

/// A refused record changes the second buffer.
fn written_when_refused(call: &Call, buffers: &mut Buffers) -> Option<u64> {
    let answer = right(call, buffers);
    if saves(call) && decode(answer).0 == 0 {
        buffers[1].iter_mut().take(1).for_each(|byte| *byte ^= 1);
    }
    Some(answer)
}

#[test]
fn equal_engines_agree() {
    assert_eq!(found("saved runs", |_, _| None), [0, 0]);
    assert_eq!(found("saved records", |_, _| None), [0, 0]);
}

/// Where both engines lose something, the run in slices is not that in one
/// piece.
#[test]
fn a_fault_of_both_engines_is_found_on_runs() {
    let list: [(&str, Fault); 5] = [
        ("oldest lost", without_the_oldest),
        ("newest first", newest_first),
        ("no count", no_count),
        ("shorter log", shorter_log),
        ("no length", no_length),
    ];
    for (name, fault) in list {
        let engine = Other(fault);
        let found = differences("saved runs", [&engine, &engine]);
        assert!(found > 20, "{name}: {found}");
    }
}

/// The newest rule is live, so that runs do not show other numbers; and the
/// known answers are asked with buffers of the least length.
#[test]
fn runs_find_faults() {
    assert_found(
        "saved runs",
        &[
            ("oldest lost", without_the_oldest, [200, 13]),
            ("newest first", newest_first, [150, 13]),
            ("no count", no_count, [80, 4]),
            ("live numbers", live_numbers, [0, 0]),
            ("shorter log", shorter_log, [200, 13]),
            ("no origins", no_origins, [40, 3]),
            ("renamed equations", renamed_equations, [40, 0]),
            ("no length", no_length, [300, 300]),
            ("always written", always_written, [300, 0]),
            ("short buffer", short_buffer, [5, 0]),
            ("written when refused", written_when_refused, [40, 0]),
        ],
    );
}

#[test]
fn records_find_faults() {
    assert_found(
        "saved records",
        &[
            ("oldest lost", without_the_oldest, [30, 8]),
            ("newest first", newest_first, [20, 1]),
            ("no count", no_count, [10, 3]),
            ("live numbers", live_numbers, [2, 1]),
            ("shorter log", shorter_log, [30, 3]),
            ("no origins", no_origins, [20, 2]),
            ("renamed equations", renamed_equations, [20, 0]),
            ("no length", no_length, [60, 20]),
            ("always written", always_written, [150, 0]),
            ("short buffer", short_buffer, [5, 0]),
            ("written when refused", written_when_refused, [150, 0]),
        ],
    );
}
