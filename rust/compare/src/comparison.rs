//! All inputs of a kind through both engines.

use crate::call::decode;
use crate::check::{Checker, Difference};
use crate::inputs::{Case, Due, Kind, Plan};
use crate::summary::Summary;

/// After so many differences and wrong answers a kind is given up.
const MOST_FAULTS: usize = 10;

/// Compares the inputs of a kind; what is wrong is printed as it is found.
/// With trace, each input is printed before it is run.
pub fn compare(checker: &mut Checker, kind: &Kind, plan: Plan, trace: bool) -> Summary {
    let mut summary = Summary::new(kind.name);
    for case in kind.families.iter().flat_map(|family| family(plan)) {
        if trace {
            let (family, number, shown) = (case.family, case.number, case.input.shown());
            eprintln!("{family} {number} {shown}");
        }
        compare_case(checker, &case, &mut summary);
        if summary.faults() >= MOST_FAULTS {
            break;
        }
    }
    summary
}

/// No difference; and where the answers are known, each engine gives them.
fn compare_case(checker: &mut Checker, case: &Case, summary: &mut Summary) {
    summary.begin(case.family, case.due.is_some());
    match checker.run(&case.input, case.number) {
        Ok(notes) => summary.note(notes),
        Err(difference) => {
            summary.differences += 1;
            print_difference(&difference, case);
        }
    }
    if let Some(due) = &case.due {
        summary.wrong += wrong_answers(checker, due);
    }
}

fn print_difference(difference: &Difference, case: &Case) {
    println!("DIFFERENT in {}", difference.call);
    let (family, number, shown) = (case.family, case.number, case.input.shown());
    println!("  {family}, number {number}: {shown}");
    let (left, right) = (decode(difference.left), decode(difference.right));
    println!("  proved {left:?}, rust {right:?}");
    if let Some((buffer, place)) = difference.place {
        println!("  buffer {buffer} differs from byte {place}");
    }
}

/// How many answers of the two engines are not those due.
fn wrong_answers(checker: &Checker, due: &Due) -> usize {
    let mut count = 0;
    for (name, engine) in ["proved", "rust"].into_iter().zip(checker.engines()) {
        for (call, answer) in (due.faults)(engine) {
            count += 1;
            println!("WRONG in {call} of {}", due.name);
            println!("  {name} {:?}", decode(answer));
        }
    }
    count
}
