//! Cases of complete_run in which equations with neither side above wait.

use super::Cases;
use crate::full_log;
use crate::notation::Theory;
use crate::put_back::limits::{one_removed, two_removed};
use crate::put_back::rounds::{ladder, removed_and_stuck};
use crate::put_back::{runs, simplified::groups_with_unit};
use kb_engine::MAX_BUDGET;

pub fn cases(cases: &mut Cases) {
    let mut run = |name: &str, theory: Theory| cases.bytes(name, theory.problem(MAX_BUDGET));
    run("0: 002 group axioms behind x*e = e*x", groups_with_unit());
    for known in runs() {
        run(&format!("{}: {}", known.end, known.name), known.theory);
    }
    run("0: a ladder of 15 constants", ladder(15));
    run("20: put back beside 32 rules", one_removed(3, 7));
    run("0: a removed rule put back, 31 rules", two_removed(3, 6));
    run("23: a 33rd rule of one put back", two_removed(2, 9));
    let (last, more) = (
        full_log::neither_above(83, 3),
        full_log::two_put_back(83, 0),
    );
    run("20 before 24: put back last of 512", last);
    run("24 before 20: one more to put back", more);
    spent(cases);
}

/// A budget that ends at every unit: at the step of a pair put back, at the
/// turn after it, at the turn that ends 20.
fn spent(cases: &mut Cases) {
    let run = removed_and_stuck();
    for budget in 0..run.units {
        let name = format!("put back twice, budget {budget}");
        cases.bytes(&name, run.theory.problem(budget));
    }
}
