//! Equations that were put back, and the limits: a term over 120 nodes, 16 and
//! 17 variables, 32 rules and a 33rd, 512 entries and a 513th.

use super::{case, input, Run, BACK, BUDGET};
use crate::fixed::{Case, Ended};
use crate::full_log;
use crate::notation::Theory;
use crate::theories::{many_variables, power, with_products};

/// Symbols of the equations beside products.
const BESIDE_PRODUCTS: &str = "q/1 m/2 k/3 g/3";

/// The last rule that products make removes a rule, whose forms q(m(z,y)) and
/// m(y,z) are put back: alone they end the run.
pub fn one_removed(outer: usize, inner: usize) -> Theory {
    let equations = removed_rules(outer, inner);
    let first = [equations[0].as_str(), &equations[1]];
    with_products(outer, inner, BESIDE_PRODUCTS, &first)
}

/// It removes two rules: the second becomes m(x,y) to 0, and the one put back
/// q(0) to 0.
pub fn two_removed(outer: usize, inner: usize) -> Theory {
    let equations = removed_rules(outer, inner);
    let all = equations.each_ref().map(String::as_str);
    with_products(outer, inner, BESIDE_PRODUCTS, &all)
}

fn removed_rules(outer: usize, inner: usize) -> [String; 4] {
    let last = ["A", "B", "C", "D", "E", "F"][outer - 1];
    let (t, s) = (power("t", inner, "0"), power("s", inner, "0"));
    [
        format!("k({last}(0,{t}),y,z) = m(y,z)"),
        format!("k(e(0,{s}),y,z) = q(m(z,y))"),
        format!("g({last}(0,{t}),x,y) = m(x,y)"),
        format!("g(e(0,{s}),x,y) = 0"),
    ]
}

/// An equation that waits, and by the rule made then its left side grows to
/// 129 nodes.
pub(super) fn grown() -> Run {
    let symbols = || Theory::new("a/0/0 t/2/1 h/1/2");
    let (long, doubling) = (power("h", 6, "x"), "h(x) = t(x,x)");
    let theory = symbols().equation(&format!("t({long},y) = t(y,{long})"));
    let (theory, rules) = (theory.equation(doubling), symbols().equation(doubling));
    let run = Run::complete("put back, then too large", theory, 9, rules);
    let run = run.with_turns(&[(1, input(1), BACK, 0), (2, input(2), 1, 1)]);
    Run { end: 22, ..run }
}

/// A run with the highest budget: its end, its units and its rules.
fn full(name: &str, theory: Theory, (end, units, rules): (u8, u32, usize)) -> Case {
    case(name, &theory, BUDGET, Ended::new(end, units, rules))
}

/// The ends at these limits.
pub(super) fn cases() -> Vec<Case> {
    let (sixteen, seventeen) = (many_variables(12), many_variables(13));
    let mut list = vec![
        full("16 variables, put back", sixteen, (20, 4, 2)),
        full("17 variables, not put back", seventeen, (22, 3, 2)),
        full("put back beside 32 rules", one_removed(3, 7), (20, 247, 32)),
        full("31 rules, one put back", two_removed(3, 6), (0, 233, 31)),
        full(
            "a 33rd rule of one put back",
            two_removed(2, 9),
            (23, 196, 32),
        ),
    ];
    list.extend(full_logs());
    list
}

/// 512 entries: the end is 20 if all that wait were put back since the last
/// change, else 24, whatever would become of the one taken.
fn full_logs() -> Vec<Case> {
    let (one, two) = (full_log::neither_above, full_log::two_put_back);
    vec![
        full("put back last of 512", one(83, 3), (20, 1016, 5)),
        full("512 entries, due again", one(83, 4), (24, 1016, 5)),
        full("512 entries, to be settled", one(83, 5), (24, 1016, 5)),
        full("512 entries, first due", one(84, 0), (24, 1021, 5)),
        full("two put back last of 512", two(82, 5), (20, 1012, 6)),
        full("512 entries, second due again", two(83, 0), (24, 1018, 6)),
    ]
}
