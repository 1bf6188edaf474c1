//! Questions that tell the two strategies apart, or show one thing of the
//! outermost one: which rule, which node, what it comes back to, what it pays.

use super::{case, different, large, same, spent, Case};
use crate::kept::Kept;
use crate::notation::Theory;
use crate::theories::{group_rules, power, GROUP};
use kb_engine::DecideAnswer;

pub(super) fn cases() -> Vec<Case> {
    let lists = [
        nodes_and_rules(),
        ancestors(),
        equal_ancestors(),
        repeated_variables(),
        units(),
        erased_and_doubled(),
        groups(),
    ];
    lists.into_iter().flatten().collect()
}

const SYMBOLS: &str = "a/0/0 b/0/1 c/0/2 d/0/3 s/1/4 h/1/5 g/2/6 k/3/7";

/// An equation asked of rules over `SYMBOLS`.
fn ask(name: &str, rules: &[&str], equation: &str, answer: DecideAnswer) -> Case {
    asked(SYMBOLS, name, rules, equation, 9, answer)
}

fn asked(
    symbols: &str,
    name: &str,
    rules: &[&str],
    equation: &str,
    budget: u32,
    answer: DecideAnswer,
) -> Case {
    let record = Kept::of_theory(&Theory::new(symbols).equations(rules)).bytes();
    let theory = Theory::new(symbols).equation(equation);
    case(name, &theory, budget, record, answer)
}

fn nodes_and_rules() -> Vec<Case> {
    let two = ["h(x) = s(x)", "h(c) = a", "s(x) = a"];
    let erasing = ["c = b", "h(x) = b"];
    let pair = ["c = b", "d = b", "g(b,d) = a"];
    vec![
        // The other rule is one step to the same.
        ask("the lowest rule's units", &two, "h(c) = a", same(2)),
        ask("outer node", &erasing, "h(h(c)) = b", same(3)).by_outermost(same(1)),
        ask(
            "outer node in both sides",
            &erasing,
            "g(c,h(c)) = g(h(c),b)",
            same(5),
        )
        .by_outermost(same(3)),
        // Behind c the other constant is not rewritten any more.
        ask("earliest node", &pair, "g(c,d) = a", different(2)).by_outermost(same(2)),
    ]
}

/// A node above the last step matches: it comes before what is behind the
/// step, the uppermost first. The node of the step itself may match again.
fn ancestors() -> Vec<Case> {
    let rules = ["c = b", "h(b) = a"];
    let outer = ["c = b", "h(b) = s(b)", "g(h(b),c) = a"];
    let again = ["c = b", "g(x,b) = h(x)", "h(b) = a"];
    let chain = ["c = b", "h(b) = b", "g(b,d) = a"];
    let twice = ["d = c", "c = b"];
    vec![
        ask("parent", &rules, "s(h(c)) = s(a)", same(2)),
        ask("root before parent", &outer, "g(h(c),c) = a", different(3)).by_outermost(same(2)),
        ask("root, then its contractum", &again, "g(b,c) = a", same(3)),
        ask("three in turn", &chain, "g(h(h(c)),d) = a", same(4)),
        ask("one node twice", &twice, "g(d,a) = g(b,a)", same(2)),
    ]
}

/// Two parts of a node become equal by a step in one of them.
fn equal_ancestors() -> Vec<Case> {
    let [c, b] = ["c", "b"].map(|leaf| power("s", 7, leaf));
    let rules = ["c = b", "g(x,x) = a"];
    let three = ["c = b", "d = b", "k(x,x,y) = x"];
    vec![
        ask("equal arguments", &rules, "g(c,b) = a", same(2)),
        ask("two levels up", &rules, "g(s(c),s(b)) = a", same(2)),
        ask(
            "eight levels up",
            &rules,
            &format!("g({c},{b}) = a"),
            same(2),
        ),
        // What is behind, d, is thrown away.
        ask("first part", &three, "k(s(c),s(b),d) = s(b)", same(3)).by_outermost(same(2)),
        ask("second part", &three, "k(s(b),s(c),d) = s(b)", same(3)).by_outermost(same(2)),
    ]
}

/// All occurrences of a variable stand for one term.
fn repeated_variables() -> Vec<Case> {
    let (two, three) = (["g(x,x) = a"], ["k(x,x,x) = a"]);
    vec![
        ask("second occurrence", &two, "g(b,c) = a", different(0)),
        ask("third occurrence", &three, "k(b,b,c) = a", different(0)),
        ask("a leaf", &two, "g(s(s(b)),s(s(c))) = a", different(0)),
        ask("unlike variables", &two, "g(x,y) = a", different(0)),
        ask("like variables", &two, "g(x,x) = a", same(1)),
    ]
}

/// Steps in both sides, added up; a step to 121 nodes, paid.
fn units() -> Vec<Case> {
    let ask = |name, equation: &str, budget, answer| {
        asked(SYMBOLS, name, &["h(x) = s(s(x))"], equation, budget, answer)
    };
    let too_large = format!("h(h(a)) = s(h({}))", power("s", 117, "a"));
    vec![
        ask("same, 2 and 1", "h(h(a)) = h(s(s(a)))", 9, same(3)),
        ask("different, 2 and 1", "h(h(a)) = h(b)", 9, different(3)),
        ask("21 after 2 and 1", "h(h(a)) = h(h(a))", 3, spent(3)),
        ask("22 after 2 and 1", &too_large, 9, large(3)),
        ask("22, the last unit", &too_large, 3, large(3)),
        ask("21, one unit less", &too_large, 2, spent(2)),
    ]
}

/// From the inside what is erased is normalised, from the outside what is
/// doubled is copied as it stands.
fn erased_and_doubled() -> Vec<Case> {
    let symbols = "0/0/0 s/1/1 t/2/2 d/1/3 k/2/4 h/1/5";
    let rules = [
        "k(x,y) = x",
        "d(0) = 0",
        "d(s(x)) = s(s(d(x)))",
        "h(x) = t(x,x)",
    ];
    let ask = |name, left: &str, right: &str, budget, answer| {
        let equation = format!("{left} = {right}");
        asked(symbols, name, &rules, &equation, budget, answer)
    };
    let [four, sixty] = [4, 60].map(|n| power("s", n, "0"));
    let doubled = |name, budget, outermost| {
        let right = format!("t({four},{four})");
        let case = ask(name, "h(d(d(s(0))))", &right, budget, same(6));
        case.by_outermost(outermost)
    };
    let erased = format!("k(0,{})", power("d", 7, "s(0)"));
    let copied = format!("h(k(0,{sixty}))");
    vec![
        ask("erased, 21", "k(0,d(d(d(s(0)))))", "0", 2, spent(2)).by_outermost(same(1)),
        // Six d in 2 + 3 + 5 + 9 + 17 + 33 steps make 68 nodes.
        ask("erased, 22", &erased, "0", 1000, large(69 + 53)).by_outermost(same(1)),
        doubled("doubled", 11, same(11)),
        doubled("doubled, 21", 10, spent(10)),
        ask("doubled, 22", &copied, "t(0,0)", 9, same(2)).by_outermost(large(1)),
    ]
}

/// The ten rules of 002: the inverse of a product goes first.
fn groups() -> Vec<Case> {
    let record = Kept::of_theory(&group_rules()).bytes();
    let ask = |name, budget, outermost| {
        let theory = Theory::new(GROUP).equation("i(*(e,*(e,x))) = i(x)");
        let case = case(name, &theory, budget, record.clone(), same(2));
        case.by_outermost(outermost)
    };
    vec![
        ask("inverse first", 7, same(7)),
        ask("inverse first, one unit less", 6, spent(6)),
    ]
}
