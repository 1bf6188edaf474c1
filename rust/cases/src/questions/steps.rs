//! Questions that are answered by some steps, or by many.

use super::{case, different, large, same, settle_record, spent, Case, SETTLE};
use crate::kept::Kept;
use crate::notation::Theory;
use crate::theories::{countdown, digits, group_rules, power, COUNTDOWN, DIGITS, GROUP};

pub(super) fn cases() -> Vec<Case> {
    let lists = [involution(), groups(), growth(), order_of_steps()];
    lists.into_iter().flatten().collect()
}

pub(super) fn long_cases() -> Vec<Case> {
    let lists = [counters(), many_digits()];
    lists.into_iter().flatten().collect()
}

fn involution() -> Vec<Case> {
    let ask = |name, equation: &str, budget, answer| {
        let theory = Theory::new(SETTLE).equation(equation);
        case(name, &theory, budget, settle_record().bytes(), answer)
    };
    vec![
        ask("one step", "f(f(f(c))) = f(c)", 1, same(1)),
        ask("one step, no unit", "f(f(f(c))) = f(c)", 0, spent(0)),
        ask("no step, no unit", "f(c) = f(c)", 0, same(0)),
        ask("the equation itself", "f(f(x)) = x", 9, same(1)),
        ask("a step in each side", "f(f(x)) = f(f(x))", 2, same(2)),
        ask("one budget for both", "f(f(x)) = f(f(x))", 1, spent(1)),
        ask("odd and even", "f(f(f(c))) = c", 9, different(1)),
        ask("two variables", "f(x) = f(y)", 9, different(0)),
        ask("two variables after a step", "f(f(x)) = y", 9, different(1)),
    ]
}

/// The ten rules of 002.
fn groups() -> Vec<Case> {
    let record = Kept::of_theory(&group_rules()).bytes();
    let ask = |name, equation: &str, budget, answer| {
        let theory = Theory::new(GROUP).equation(equation);
        case(name, &theory, budget, record.clone(), answer)
    };
    let product = "i(*(x,*(y,z))) = *(i(z),*(i(y),i(x)))";
    vec![
        ask("inverse of a product", product, 3, same(3)),
        ask("inverse, one unit less", product, 2, spent(2)),
        ask("sides exchanged", "*(x,y) = *(y,x)", 9, different(0)),
        ask("left, then right", "*(e,x) = *(x,e)", 2, same(2)),
        ask("left only", "*(e,x) = *(x,e)", 1, spent(1)),
    ]
}

/// Steps to 120 and 121 nodes, and a rule that doubles: n h are n steps from
/// the inside, and 2^n - 1 from the outside.
fn growth() -> Vec<Case> {
    let longer = Theory::new("a/0/0 s/1/1 h/1/2");
    let doubling = Theory::new("0/0/0 t/2/1 h/1/2");
    let step = |name, n, budget, answer| {
        let record = Kept::of_theory(&longer.clone().equation("h(x) = s(s(x))"));
        let chain = power("s", n, "a");
        let theory = longer.clone().equation(&format!("s(h({chain})) = a"));
        case(name, &theory, budget, record.bytes(), answer)
    };
    let double = |name, n, budget, answer| {
        let record = Kept::of_theory(&doubling.clone().equation("h(x) = t(x,x)"));
        let theory = doubling
            .clone()
            .equation(&format!("{} = 0", power("h", n, "0")));
        case(name, &theory, budget, record.bytes(), answer)
    };
    vec![
        step("a step to 120 nodes", 116, 1, different(1)),
        step("a step to 121 nodes", 117, 1, large(1)),
        step("that step, no unit", 117, 0, spent(0)),
        double("63 nodes", 5, 5, different(5)).by_outermost(spent(5)),
        double("63 nodes, 31 units", 5, 31, different(5)).by_outermost(different(31)),
        double("127 nodes", 6, 6, large(6)).by_outermost(spent(6)),
        double("127 nodes, one unit less", 6, 5, spent(5)),
        // 121 nodes: the last five steps would add six.
        double("127 nodes, 63 units", 6, 63, large(6)).by_outermost(large(58)),
    ]
}

/// Rules that do not join show which node and which rule is taken, and a
/// stop shows which side comes first.
fn order_of_steps() -> Vec<Case> {
    let symbols = Theory::new("a/0/0 b/0/1 c/0/2 s/1/3 h/1/4");
    let ask = |name, rules: &[&str], equation: &str, answer| {
        let record = Kept::of_theory(&symbols.clone().equations(rules)).bytes();
        case(name, &symbols.clone().equation(equation), 1, record, answer)
    };
    let longer = ["h(x) = s(s(x))"];
    let large_side = format!("s(h({}))", power("s", 117, "a"));
    let first = format!("{large_side} = h(h(a))");
    let second = format!("h(h(a)) = {large_side}");
    let (inner, outer) = (["h(s(x)) = a", "s(x) = b"], ["s(x) = b", "h(s(x)) = a"]);
    vec![
        ask(
            "lowest rule",
            &["h(c) = a", "h(x) = b"],
            "h(c) = a",
            same(1),
        ),
        ask(
            "lower rule",
            &["h(x) = b", "h(c) = a"],
            "h(c) = a",
            different(1),
        ),
        ask("innermost node", &inner, "h(s(c)) = h(b)", same(1)).by_outermost(different(1)),
        ask("innermost, lowest", &outer, "h(s(c)) = a", different(1)).by_outermost(same(1)),
        ask("22 on the left", &longer, &first, large(1)),
        ask("21 on the left", &longer, &second, spent(1)),
    ]
}

/// Counters that run down in n (n + 1)^2 (1 + (n + 1)^2) + (n + 1)^2 steps.
/// From the outside the inner counter is copied before it has run.
fn counters() -> Vec<Case> {
    let record = Kept::of_theory(&countdown(0, 0)).bytes();
    let ask = |name, n, budget, answer| {
        let case = case(name, &counted(n), budget, record.clone(), answer);
        case.by_outermost(large(2))
    };
    vec![
        ask("counters from 9", 9, 91_000, same(91_000)),
        ask("counters, one unit less", 9, 90_999, spent(90_999)),
        ask("counters from 15", 15, 987_136, same(987_136)),
    ]
}

/// The question whether the counters of `countdown` run down from n.
pub fn counted(n: usize) -> Theory {
    let full = power("s", n, "0");
    Theory::new(COUNTDOWN).equation(&format!("f({full},{full},{full},{full}) = a"))
}

/// Digits that run down in (n + 1)^5 + (n + 1)^2 - 1 steps of either strategy.
fn many_digits() -> Vec<Case> {
    let record = Kept::of_theory(&digits()).bytes();
    let ask = |name, n, budget, answer| {
        let theory = five_digits(n);
        case(name, &theory, budget, record.clone(), answer)
    };
    vec![
        ask("digits from 2", 2, 251, same(251)),
        ask("digits from 9", 9, 100_099, same(100_099)),
        ask("digits, one unit less", 9, 100_098, spent(100_098)),
        ask("digits from 15", 15, 1_000_000, spent(1_000_000)),
    ]
}

/// The question whether the digits of `digits` run down from n.
pub fn five_digits(n: usize) -> Theory {
    let n = power("s", n, "0");
    let (first, last) = (
        format!("g({n},{n},{n},f({n},{n},{n},{n}))"),
        format!("g(0,0,{n},a)"),
    );
    Theory::new(DIGITS).equation(&format!("{first} = {last}"))
}
