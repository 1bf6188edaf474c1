//! Equations with neither side above that later rules simplify: the runs end
//! 0, and ended 20 when such an equation did not wait.

use super::{case, input, overlap, removed, Run, BACK, BUDGET, SETTLED};
use crate::fixed::{Case, Ended};
use crate::notation::Theory;
use crate::theories::{self, GROUP};

/// 0, s, + and *, ranked so.
const NUMBERS: &str = "0/0/0 s/1/1 +/2/2 */2/3";

/// 002's three axioms behind x*e = e*x, which waits until e*x to x is a rule
/// and then becomes x*e to x: all ten rules of 002. Without that equation the
/// axioms end 20, and so they did behind it, at the first turn.
pub fn groups_with_unit() -> Theory {
    let axioms = theories::group_axioms().all_sides();
    let theory = Theory::new(GROUP).equation("*(x,e) = *(e,x)");
    axioms.into_iter().fold(theory, Theory::raw_equation)
}

pub(super) fn groups() -> Case {
    let ended = Ended::complete(981, &theories::group_rules().all_sides());
    let name = "002 group axioms behind x*e = e*x";
    case(name, &groups_with_unit(), BUDGET, ended)
}

fn numbers(equations: &[&str]) -> Theory {
    Theory::new(NUMBERS).equations(equations)
}

/// The runs that are written turn by turn.
pub(super) fn runs() -> Vec<Run> {
    vec![
        added(),
        added_and_settled(),
        multiplied(),
        fragment(),
        named(),
        removed_and_settled(),
    ]
}

/// x+1 = 1+x before the rules of addition, by which its left side becomes s(x).
fn added() -> Run {
    let (one, zero, s) = (
        "+(x,s(0)) = +(s(0),x)",
        "+(x,0) = x",
        "+(x,s(y)) = s(+(x,y))",
    );
    let rules = numbers(&[zero, s, "+(s(0),x) = s(x)"]);
    let theory = numbers(&[one, zero, s]);
    Run::complete("x+1 = 1+x before addition", theory, 14, rules).with_turns(&[
        (1, input(1), BACK, 0),
        (2, input(2), 1, 1),
        (3, input(3), 2, 2),
        (6, input(1), 3, 3),
    ])
}

/// The same beside 1+x = s(x): both sides become s(x).
fn added_and_settled() -> Run {
    let (one, first) = ("+(x,s(0)) = +(s(0),x)", "+(s(0),x) = s(x)");
    let rules = [first, "+(x,0) = x", "+(x,s(y)) = s(+(x,y))"];
    let theory = numbers(&[one]).equations(&rules);
    Run::complete("x+1 = 1+x, settled", theory, 17, numbers(&rules)).with_turns(&[
        (1, input(1), BACK, 0),
        (2, input(2), 1, 1),
        (3, input(3), 2, 2),
        (4, input(4), 3, 3),
        (8, input(1), SETTLED, 3),
    ])
}

/// Two that wait at once, for the rules of addition and of multiplication.
fn multiplied() -> Run {
    let waiting = ["*(x,s(0)) = *(s(0),x)", "+(x,s(0)) = +(s(0),x)"];
    let defining = [
        "+(x,0) = x",
        "+(x,s(y)) = s(+(x,y))",
        "*(x,0) = 0",
        "*(x,s(y)) = +(*(x,y),x)",
    ];
    let made = ["*(s(0),x) = +(0,x)", "+(s(0),x) = s(x)"];
    let theory = numbers(&waiting).equations(&defining);
    let rules = numbers(&defining).equations(&made);
    Run::complete("x*1 = 1*x and x+1 = 1+x", theory, 35, rules).with_turns(&[
        (1, input(1), BACK, 0),
        (2, input(2), BACK, 0),
        (3, input(3), 1, 1),
        (4, input(4), 2, 2),
        (5, input(5), 3, 3),
        (6, input(6), 4, 4),
        (9, input(1), 5, 5),
        (12, input(2), 6, 6),
    ])
}

/// 001's axioms with x*e = e*x in place of e*x = x: the eight rules of 001.
fn fragment() -> Run {
    let equations = ["*(x,e) = *(e,x)", "*(i(x),*(x,y)) = y", "*(x,e) = x"];
    let theory = Theory::new(GROUP).equations(&equations);
    let printed = theories::fragment_rules().sides(&[1, 2, 3, 4, 5, 7, 8, 9]);
    let rules = printed.into_iter();
    let rules = rules.fold(Theory::new(GROUP), Theory::raw_equation);
    Run::complete("001 axioms with x*e = e*x", theory, 80, rules).with_turns(&[
        (1, input(1), BACK, 0),
        (2, input(2), 1, 1),
        (3, input(3), 2, 2),
        (5, input(1), 3, 3),
        (6, overlap(1, 1, 3), 4, 4),
        (8, overlap(2, 1, 3), 5, 5),
        (11, overlap(3, 1, 3), 6, 6),
        (15, overlap(1, 4, 0), 7, 7),
        (24, overlap(2, 4, 0), 8, 7),
        (26, removed(4), SETTLED, 7),
        (32, overlap(2, 5, 0), 9, 7),
        (35, removed(6), SETTLED, 7),
        (44, overlap(2, 7, 2), 10, 8),
    ])
}

/// x-y = x+n(y) with one rank for + and -, until x+n(y) has a lower name.
fn named() -> Run {
    let symbols = || Theory::new("n/1/0 d/2/1 +/2/2 -/2/2");
    let lower = "+(x,n(y)) = d(x,y)";
    let theory = symbols().equations(&["-(x,y) = +(x,n(y))", lower]);
    let rules = symbols().equations(&[lower, "-(x,y) = d(x,y)"]);
    Run::complete("one rank for + and -, a lower d", theory, 8, rules).with_turns(&[
        (1, input(1), BACK, 0),
        (2, input(2), 1, 1),
        (4, input(1), 2, 2),
    ])
}

/// A removed rule with neither side above: m(y,f(x)) and m(x,y). It is put
/// back behind m(x,y) = c, which waits as m and c have one rank, and taken
/// again when that has become the rule m(x,y) to e.
fn removed_and_settled() -> Run {
    let symbols = || Theory::new("e/0/0 f/1/1 c/0/2 m/2/2 k/2/3");
    let equations = [
        "k(f(x),y) = m(x,y)",
        "k(x,y) = m(y,x)",
        "m(x,y) = c",
        "c = e",
    ];
    let rules = symbols().equations(&["k(x,y) = e", "c = e", "m(x,y) = e"]);
    let theory = symbols().equations(&equations);
    Run::complete("a removed rule, settled", theory, 20, rules).with_turns(&[
        (1, input(1), 1, 1),
        (2, input(2), 2, 1),
        (3, input(3), BACK, 1),
        (4, input(4), 3, 2),
        (6, removed(1), BACK, 2),
        (9, input(3), 4, 3),
        (12, removed(1), SETTLED, 3),
    ])
}
