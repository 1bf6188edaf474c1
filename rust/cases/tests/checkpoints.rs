//! The generators of saved records and of runs in slices: functions of their
//! numbers, and their reach.

mod common;

use common::{saved_record_of, saving};
use kb_cases::checkpoints::Checkpoint;
use kb_cases::generate::checkpoints::{exhaustive, family, resumption, SHARES};
use kb_cases::generate::slices::sliced;
use kb_cases::resumptions::{self, Resumption};
use kb_cases::slices::{corpus, runs, with_budget, Slices};
use kb_engine::{resume_saving, MAX_SAVED};
use std::collections::BTreeSet;

const COUNT: u64 = 8000;

fn generated(seed: u64, index: u64) -> Resumption {
    resumption(seed, index, &saved_record_of)
}

/// A refusal's number, or the end of the run.
fn answer(resumption: &Resumption) -> String {
    let Resumption { record, budget } = resumption;
    let left = saving(|result, saved| resume_saving(record, *budget, result, saved));
    match left {
        Err(refusal) => format!("refused {}", refusal.number),
        Ok((result, _)) => format!("end {}", result[3]),
    }
}

#[test]
fn records_depend_on_seed_and_index_only() {
    for index in 0..300 {
        assert_eq!(generated(3, index), generated(3, index));
        assert_eq!(sliced(3, index), sliced(3, index));
    }
    let differ = (0..300).filter(|i| generated(3, *i) != generated(4, *i));
    assert!(differ.count() > 280);
    let differ = (0..300).filter(|i| sliced(3, *i) != sliced(4, *i));
    assert!(differ.count() > 280);
}

#[test]
fn records_reach_every_answer() {
    let families: BTreeSet<_> = (0..SHARES).map(family).collect();
    assert_eq!(families.len(), 8);
    let all = [
        "end 0",
        "end 20",
        "end 21",
        "end 22",
        "end 23",
        "end 24",
        "refused 16",
        "refused 17",
        "refused 2",
    ];
    let seen: BTreeSet<_> = (0..COUNT).map(|i| answer(&generated(1, i))).collect();
    assert!(seen.iter().eq(all), "{seen:?}");
}

/// The accepted records among those of a family, taken apart.
fn accepted(name: &'static str) -> impl Iterator<Item = Checkpoint> {
    let records = (0..COUNT).filter(move |i| family(*i) == name);
    let records = records.map(|index| generated(1, index).record);
    let records = records.map(|record| Resumption { record, budget: 0 });
    let accepted = records.filter(|resumption| answer(resumption) == "end 21");
    accepted.filter_map(|resumption| Checkpoint::of_record(&resumption.record))
}

/// What no run leaves is accepted: 33 that wait, origins of any numbers, all
/// kinds, a next number far above the rules.
#[test]
fn made_states_reach_the_limits() {
    let states: Vec<Checkpoint> = accepted("made state").collect();
    let some = |what: &str, holds: &dyn Fn(&Checkpoint) -> bool| {
        let count = states.iter().filter(|state| holds(state)).count();
        assert!(count > 5, "{what}: {count}");
    };
    let origins = |state: &Checkpoint| [&state.waiting[..], &state.entries].concat();
    some("33 wait", &|s| s.rules.is_empty() && s.waiting.len() == 33);
    some("33 together", &|s| s.rules.len() + s.waiting.len() == 33);
    some("many rules", &|s| s.rules.len() > 30);
    some("all put back", &|s| {
        s.put_back > 1 && usize::from(s.put_back) == s.waiting.len()
    });
    some("the highest next number", &|s| s.next == 513);
    some("a full log", &|s| s.entries.len() == 512);
    some("first number 65,535", &|s| {
        s.waiting.iter().any(|w| w[1..3] == [255, 255])
    });
    some("second number 65,535", &|s| {
        s.waiting.iter().any(|w| w[3..5] == [255, 255])
    });
    some("position 255", &|s| origins(s).iter().any(|o| o[5] == 255));
    for kind in 1..=4 {
        some("every kind", &|s| s.waiting.iter().any(|w| w[0] == kind));
    }
    some("equations not renamed", &|s| {
        s.equations
            .iter()
            .any(|sides| sides.contains(&0x82) && !sides.contains(&0x80))
    });
}

#[test]
fn long_records_reach_every_length() {
    let long = (0..20 * COUNT).filter(|i| family(*i) == "long record");
    let lengths: BTreeSet<usize> = long.map(|i| generated(1, i).record.len()).collect();
    assert!(lengths.range(15_000..18_000).count() > 20);
    for length in [MAX_SAVED - 1, MAX_SAVED, MAX_SAVED + 1] {
        assert!(lengths.contains(&length), "{length}");
    }
    let longest = resumptions::cases()
        .into_iter()
        .filter(|c| c.answer.is_ok());
    let longest = longest.map(|case| case.resumption.record.len()).max();
    assert_eq!(longest, Some(17_781));
}

/// The records that are damaged in every way are accepted as they are, and in
/// part when they are changed.
#[test]
fn damaged_records_are_answered() {
    let all: Vec<Resumption> = exhaustive::all().step_by(11).collect();
    let refused = all.iter().filter(|r| answer(r) == "refused 16").count();
    assert!(refused > 3000 && all.len() - refused > 1000, "{refused}");
    let seen: BTreeSet<_> = all.iter().map(answer).collect();
    assert!(
        seen.contains("end 0") && seen.contains("end 20"),
        "{seen:?}"
    );
}

/// Every run of the corpus is cut at every budget up to 40 and at larger ones.
#[test]
fn the_corpus_is_cut_everywhere() {
    let distinct: BTreeSet<Vec<u8>> = corpus().into_iter().collect();
    assert_eq!(distinct.len(), corpus().len());
    assert!(distinct.len() > 100);
    for run in runs() {
        assert_eq!(run.problem, with_budget(&run.problem, 1_000_000));
        assert!(run.cuts[..41].iter().copied().eq(0..=40));
        assert!(run.cuts[41..].iter().all(|cut| *cut > 40));
        let equal = [1, 2, 7].map(Slices::Of);
        assert_eq!(run.slices[..3], equal);
        assert!(matches!(run.slices[3..], [Slices::Random(_)]));
    }
}

/// Slices grow until a turn is done, and after a while in any case.
#[test]
fn slices_grow() {
    let mut units = Slices::Of(2).units();
    let some: Vec<u32> = [true, true, false, false, true]
        .map(|f| units.next(f))
        .into();
    assert_eq!(some, [2, 2, 4, 8, 2]);
    let mut units = Slices::Of(1).units();
    let last = (0..1000).map(|_| units.next(true)).last();
    assert_eq!(last, Some(1_000_000));
    let mut units = Slices::Random(3).units();
    let random: BTreeSet<u32> = (0..20).map(|_| units.next(true)).collect();
    assert!(random.len() > 10, "{random:?}");
}
