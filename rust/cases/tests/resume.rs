//! Saved records: what is written, what is refused, and that a run saved and
//! resumed is the run with no budget.

mod common;

use common::{completed, fields_of, hex, saved_record_of, saving, Fields};
use kb_cases::checkpoints::Checkpoint;
use kb_cases::generate::checkpoints::{family, resumption};
use kb_cases::notation::Theory;
use kb_cases::resumptions::{self, Resumption};
use kb_cases::slices::{runs, with_budget, Slices};
use kb_cases::theories::{self, GROUP, PAPERS};
use kb_cases::{fixed, generate, put_back};
use kb_engine::fields::push_field;
use kb_engine::problem::{Problem, TAG_EQUATION};
use kb_engine::{complete, complete_saving, decide, resume, resume_saving};
use kb_engine::{CompleteAnswer, DecideAnswer, Refusal, SavingAnswer, Verdict};
use kb_engine::{MIN_RESULT, MIN_SAVED};
use std::collections::BTreeMap;
use std::ops::Range;

const BUDGET: u32 = 1_000_000;

/// The result and the saved record of a run from its beginning.
fn started(problem: &[u8]) -> (Vec<u8>, Vec<u8>) {
    let left = saving(|result, saved| complete_saving(problem, result, saved));
    left.expect("not refused")
}

/// The same of a resumed run; resume leaves the same result.
fn resumed(record: &[u8], budget: u32) -> (Vec<u8>, Vec<u8>) {
    let left = saving(|result, saved| resume_saving(record, budget.into(), result, saved));
    let (result, saved) = left.expect("not refused");
    let mut again = vec![0; MIN_RESULT];
    let answer = resume(record, budget.into(), &mut again);
    assert_eq!(answer, CompleteAnswer::Written(result.len()));
    assert_eq!(again[..result.len()], result);
    (result, saved)
}

/// The fields of the record that a problem's run leaves.
fn state(problem: &[u8]) -> Checkpoint {
    let (_, record) = started(problem);
    Checkpoint::of_record(&record).expect("a record")
}

/// The last result of a run that is cut and goes on in slices, and the units of
/// all slices.
fn in_slices(problem: &[u8], cut: u32, slices: Slices) -> (Vec<u8>, u64) {
    let (mut result, mut record) = started(&with_budget(problem, cut));
    let (mut units, mut paid, mut finished) = (slices.units(), 0, true);
    while !record.is_empty() {
        paid += u64::from(fields_of(&result).units);
        let (next, saved) = resumed(&record, units.next(finished));
        finished = saved != record;
        (result, record) = (next, saved);
    }
    paid += u64::from(fields_of(&result).units);
    (result, paid)
}

/// End, rules, log and field 14.
fn without_units(result: &[u8]) -> Fields {
    Fields {
        count: 0,
        units: 0,
        ..fields_of(result)
    }
}

#[test]
fn fixed_records_get_their_answers() {
    for case in resumptions::cases() {
        let (record, budget) = (&case.resumption.record, case.resumption.budget);
        let left = saving(|result, saved| resume_saving(record, budget, result, saved));
        let mut result = vec![0xa5; MIN_RESULT];
        let answer = resume(record, budget, &mut result);
        match (left, case.answer) {
            (Err(refusal), Err(due)) => {
                assert_eq!(refusal, due, "{}", case.name);
                assert_eq!(answer, CompleteAnswer::Refused(due), "{}", case.name);
                assert!(result.iter().all(|byte| *byte == 0xa5), "{}", case.name);
            }
            (Ok((left, saved)), Ok(due)) => {
                assert!(due.fits(&left, &saved), "{}", case.name);
                assert_eq!(answer, CompleteAnswer::Written(left.len()));
                assert_eq!(result[..left.len()], left, "{}", case.name);
            }
            (left, _) => panic!("{}: {left:?}", case.name),
        }
    }
}

/// Another end, other units, another rule or another saved byte do not fit.
#[test]
fn wrong_answers_do_not_fit() {
    for case in resumptions::cases() {
        let (Resumption { record, budget }, Ok(due)) = (case.resumption, case.answer) else {
            continue;
        };
        let left = saving(|result, saved| resume_saving(&record, budget, result, saved));
        let (mut result, mut saved) = left.expect("not refused");
        for place in [3, 10, result.len() - 1] {
            result[place] ^= 1;
            assert!(!due.fits(&result, &saved), "{}, {place}", case.name);
            result[place] ^= 1;
        }
        saved.push(0);
        assert!(!due.fits(&result, &saved), "{}", case.name);
    }
}

#[test]
fn short_buffers_are_refused_first() {
    let (number, place) = (1, 0);
    let first = SavingAnswer::Refused(Refusal { number, place });
    let lengths = [
        (MIN_RESULT - 1, MIN_SAVED),
        (MIN_RESULT, MIN_SAVED - 1),
        (0, MIN_SAVED),
        (MIN_SAVED, MIN_RESULT),
        (0, 0),
    ];
    for (result, saved) in lengths {
        let (mut result, mut saved) = (vec![7; result], vec![7; saved]);
        for problem in [vec![], vec![0; 8193], theories::group_axioms().problem(9)] {
            let answer = complete_saving(&problem, &mut result, &mut saved);
            assert_eq!(answer, first);
        }
        for record in [vec![], vec![0; MIN_SAVED + 1]] {
            let answer = resume_saving(&record, u64::MAX, &mut result, &mut saved);
            assert_eq!(answer, first);
        }
        assert!(result.iter().chain(&saved).all(|byte| *byte == 7));
    }
    let mut short = vec![0; MIN_RESULT - 1];
    let answer = resume(&[], u64::MAX, &mut short);
    assert_eq!(answer, CompleteAnswer::Refused(Refusal { number, place }));
}

/// The problem's refusals are those of complete, and so are the results.
#[test]
fn complete_saving_answers_as_complete() {
    let fixed = fixed::cases().into_iter().map(|case| case.problem);
    let generated = (0..4000).map(|index| generate::problem(9, index));
    for problem in fixed.chain(generated) {
        let mut result = vec![0; MIN_RESULT];
        let left = saving(|result, saved| complete_saving(&problem, result, saved));
        match (complete(&problem, &mut result), left) {
            (CompleteAnswer::Refused(due), Err(refusal)) => assert_eq!(refusal, due),
            (CompleteAnswer::Written(count), Ok((left, _))) => assert_eq!(left, result[..count]),
            (answer, _) => panic!("{answer:?} of {}", hex(&problem)),
        }
    }
}

/// Each field of a record, written out.
#[test]
fn a_saved_record_is_as_written_out() {
    let theory = theories::group_axioms();
    let first = Checkpoint::of_theory(&theory);
    let due = Checkpoint {
        next: 3,
        rules: vec![
            (1, first.equations[0].clone()),
            (2, first.equations[1].clone()),
        ],
        waiting: vec![first.waiting[2].clone()],
        entries: vec![vec![1, 0, 1, 0, 0, 0, 0, 1], vec![1, 0, 2, 0, 0, 0, 0, 2]],
        ..first.clone()
    };
    assert_eq!(started(&theory.problem(2)).1, due.bytes());
    assert_eq!(started(&theory.problem(0)).1, first.bytes());
    let commutes = Theory::new(GROUP).equation("x*y = y*x");
    let record = started(&commutes.problem(1)).1;
    let text = "010006000001020201 03000602808102818020000200012100\
                0c0100010000000280810281801300080100010000 00ffff 22000101";
    assert_eq!(record, common::bytes(text));
}

/// The equations stand as in the problem, those that wait renamed.
#[test]
fn equations_are_kept_as_given() {
    let theory = theories::one_rank("f(x) = g(x)").raw_equation(vec![1, 0x87, 2, 0x83]);
    let checkpoint = state(&theory.problem(0));
    assert_eq!(checkpoint.equations, theory.all_sides());
    assert_eq!(checkpoint.waiting[1][6..], [1, 0x80, 2, 0x81]);
    // Resuming keeps them, too.
    let again = Checkpoint::of_record(&resumed(&checkpoint.bytes(), 1).1);
    let equations = again.map(|checkpoint| checkpoint.equations);
    assert_eq!(equations, Some(theory.all_sides()));
}

/// A stop inside a turn leaves everything as at its beginning: at every budget
/// the record is that of the last turn that was paid.
#[test]
fn a_stop_leaves_the_turn_unbegun() {
    let mut inside = 0;
    for run in put_back::runs() {
        let mut last: Option<Checkpoint> = None;
        for budget in 0..run.units {
            let checkpoint = state(&run.theory.problem(budget));
            let same_turn = |c: &Checkpoint| c.entries.len() == checkpoint.entries.len();
            if let Some(last) = last.filter(same_turn) {
                assert_eq!(last, checkpoint, "{}, budget {budget}", run.name);
                inside += 1;
            }
            last = Some(checkpoint);
        }
    }
    assert!(inside > 100, "{inside}");
}

/// The runs that are known turn by turn, cut and resumed with every budget.
#[test]
fn known_runs_go_on_with_the_unfinished_turn() {
    for run in put_back::runs() {
        for cut in 0..run.units {
            let record = started(&run.theory.problem(cut)).1;
            for budget in (0..12).chain([run.units, BUDGET]) {
                let (result, _) = resumed(&record, budget);
                let due = run.resumed(cut, budget);
                assert!(due.fits(&result), "{}, {cut}, {budget}", run.name);
            }
        }
    }
}

/// Every slice pays for itself: in all at least what the run in one piece does.
#[test]
fn papers_in_slices_are_the_runs_with_no_budget() {
    for (name, theory) in PAPERS {
        let problem = theory().problem(BUDGET);
        let (whole, record) = started(&problem);
        assert!(record.is_empty());
        let slices = [1, 2, 7, 60, 1000].map(Slices::Of);
        for slices in slices.into_iter().chain([1, 2, 3].map(Slices::Random)) {
            let (result, paid) = in_slices(&problem, 5, slices);
            let (left, due) = (without_units(&result), without_units(&whole));
            assert_eq!(left, due, "{name} in {slices:?}");
            assert!(paid >= fields_of(&whole).units.into(), "{name}: {paid}");
        }
    }
}

#[test]
fn generated_runs_in_slices() {
    let mut ends: BTreeMap<u8, usize> = BTreeMap::new();
    for index in 0..800 {
        let problem = with_budget(&generate::problem(11, index), 3000);
        if Problem::read(&problem).is_err() {
            continue;
        }
        let (whole, record) = started(&problem);
        if !record.is_empty() {
            continue;
        }
        *ends.entry(whole[3]).or_default() += 1;
        let cut = index as u32 % 17;
        for slices in [Slices::Of(1), Slices::Random(index)] {
            let (result, _) = in_slices(&problem, cut, slices);
            assert_eq!(without_units(&result), without_units(&whole), "{index}");
        }
    }
    let enough = |end| ends.get(&end).is_some_and(|count| *count > 5);
    assert!([0, 20, 22, 23].into_iter().all(enough), "{ends:?}");
}

/// The problem with these two terms as its only equation.
fn asked(problem: &Problem, left: &Range<usize>, right: &Range<usize>) -> Vec<u8> {
    let mut asked = problem.bytes[..problem.equations[0].start].to_vec();
    let [left, right] = [left, right].map(|side| &problem.bytes[side.clone()]);
    push_field(&mut asked, TAG_EQUATION, &[left, right].concat());
    asked
}

/// The sides of every equation are the same by what a resumed run leaves with
/// end 0; other questions are answered as of the run in one piece.
#[test]
fn results_of_resumed_runs_can_be_asked() {
    let (mut same, mut different) = (0, 0);
    for sliced in runs() {
        let Ok(problem) = Problem::read(&sliced.problem) else {
            continue;
        };
        if completed(&sliced.problem).end != 0 || problem.equations.is_empty() {
            continue;
        }
        let whole = started(&sliced.problem).0;
        let (result, _) = in_slices(&sliced.problem, 3, Slices::Of(50));
        let first = &problem.equations[0];
        for equation in &problem.equations {
            let own = asked(&problem, &equation.left, &equation.right);
            let own = decide(&own, &result);
            assert!(matches!(own, DecideAnswer::Decided(Verdict::Same, _)));
            let other = asked(&problem, &first.left, &equation.right);
            let answer = decide(&other, &result);
            assert_eq!(answer, decide(&other, &whole));
            same += 1;
            let differ = matches!(answer, DecideAnswer::Decided(Verdict::Different, _));
            different += usize::from(differ);
        }
    }
    assert!(same > 100 && different > 50, "{same}, {different}");
}

/// A record that is accepted is written again as it was if there is no budget,
/// and whatever a resumed run saves is accepted.
#[test]
fn what_is_saved_is_accepted() {
    let mut accepted: BTreeMap<&str, [usize; 2]> = BTreeMap::new();
    for index in 0..6000 {
        let record = resumption(3, index, &saved_record_of).record;
        let left = saving(|result, saved| resume_saving(&record, 0, result, saved));
        let counts = accepted.entry(family(index)).or_default();
        counts[usize::from(left.is_err())] += 1;
        let Ok((_, saved)) = left else {
            continue;
        };
        assert_eq!(saved, record);
        let (_, further) = resumed(&record, index as u32 % 40);
        if !further.is_empty() {
            assert_eq!(resumed(&further, 0).1, further, "{}", hex(&record));
        }
    }
    let accepts = |family: &str, least: usize, most_refused: usize| {
        let [accepted, refused] = accepted[family];
        let enough = accepted >= least && refused <= most_refused;
        assert!(enough, "{family}: {accepted}, {refused}");
    };
    accepts("saved run", 1000, 0);
    accepts("made state", 1000, 200);
    accepts("changed state", 300, 600);
    accepts("long record", 20, 80);
}
