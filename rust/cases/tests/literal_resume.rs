//! Resuming against the definitions word for word, on saved records of every
//! kind.

mod common;

use common::literal_resume::resume;
use common::{fields_of, hex, saved_record_of, saving};
use kb_cases::generate::checkpoints::{exhaustive, resumption};
use kb_cases::resumptions::{self, Resumption};
use kb_engine::resume_saving;
use std::collections::BTreeMap;

const SEED: u64 = 20;
/// Longer runs are left to the comparison of engines.
const MOST_BUDGET: u64 = 25;

/// Holds resumptions to the literal answers; counts these by refusal or end.
fn assert_literal(resumptions: impl Iterator<Item = Resumption>) -> BTreeMap<String, usize> {
    let mut seen = BTreeMap::new();
    for Resumption { record, budget } in resumptions {
        let budget = match budget {
            0..=1_000_000 => budget.min(MOST_BUDGET),
            _ => budget,
        };
        let Some(expected) = resume(&record, budget) else {
            continue;
        };
        let found = saving(|result, saved| resume_saving(&record, budget, result, saved));
        let found = found.map(|(result, saved)| (fields_of(&result), saved));
        let kind = match &found {
            Ok((fields, _)) => format!("end {}", fields.end),
            Err(refusal) => format!("refused {}", refusal.number),
        };
        let expected = expected.map(|(mut fields, saved)| {
            fields.count = found.as_ref().map_or(0, |(fields, _)| fields.count);
            (fields, saved)
        });
        assert_eq!(found, expected, "{budget} {}", hex(&record));
        *seen.entry(kind).or_default() += 1;
    }
    seen
}

#[test]
fn fixed_records_follow_the_definitions() {
    let cases = resumptions::cases().into_iter();
    let seen = assert_literal(cases.map(|case| case.resumption));
    assert!(seen.values().sum::<usize>() > 100, "{seen:?}");
}

#[test]
fn generated_records_follow_the_definitions() {
    let generated = (0..4000).map(|index| resumption(SEED, index, &saved_record_of));
    let seen = assert_literal(generated);
    let all = [
        "end 0",
        "end 20",
        "end 21",
        "end 22",
        "end 23",
        "end 24",
        "refused 16",
        "refused 17",
        "refused 2",
    ];
    assert!(seen.keys().eq(all.iter()), "{seen:?}");
}

#[test]
fn damaged_records_follow_the_definitions() {
    let step = if cfg!(debug_assertions) { 37 } else { 5 };
    let seen = assert_literal(exhaustive::all().step_by(step));
    assert!(seen["refused 16"] > 1000, "{seen:?}");
}
