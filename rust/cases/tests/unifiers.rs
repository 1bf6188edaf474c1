//! Unifiers that double with each variable, and the polynomial path order.

mod common;

use common::{compared, unified};
use kb_cases::notation::Theory;
use kb_cases::theories::power;
use kb_engine::UnifyAnswer;

const SYMBOLS: &str = "c/0/0 d/0/1 t/2/2 f/2/3";

/// t(l1, t(l2, .. c)).
fn tuple(list: &[String]) -> String {
    list.iter()
        .rfold("c".to_string(), |rest, term| format!("t({term},{rest})"))
}

/// v1 = f(v0,v0), .., vn = f(vn-1,vn-1), then the extra pairs.
fn chain(names: &[&str], n: usize, extra: &[(&str, &str)]) -> Theory {
    let (mut left, mut right) = (Vec::new(), Vec::new());
    for v in names {
        for i in 1..=n {
            left.push(format!("{v}{i}"));
            right.push(format!("f({v}{0},{v}{0})", i - 1));
        }
    }
    for (l, r) in extra {
        left.push(l.to_string());
        right.push(r.to_string());
    }
    Theory::new(SYMBOLS).equation(&format!("{} = {}", tuple(&left), tuple(&right)))
}

/// Nodes of the common instance of a single chain without extras.
fn chain_size(n: usize) -> usize {
    n + 1 + (1..=n).map(|i| (2 << i) - 1).sum::<usize>()
}

#[test]
fn chains_are_written_or_too_large() {
    for n in [1, 2, 3, 4, 5, 8, 12, 15] {
        let (answer, _) = unified(&chain(&["x"], n, &[]));
        let size = chain_size(n);
        if size <= 120 {
            assert_eq!(answer, UnifyAnswer::Written(size + 3));
        } else {
            assert_eq!(answer, UnifyAnswer::TooLarge);
        }
    }
}

#[test]
fn chains_with_a_clash_or_a_cycle_have_no_instance() {
    for n in [2, 4, 8, 15] {
        let last = format!("x{n}");
        for extra in [
            ("c", "d"),
            (&last, "x0"),
            ("x0", &last),
            (&last, "c"),
            ("t(x0,x0)", &last),
        ] {
            let (answer, _) = unified(&chain(&["x"], n, &[extra]));
            assert_eq!(answer, UnifyAnswer::None, "{n} {extra:?}");
        }
    }
}

#[test]
fn two_chains_that_meet() {
    for n in 2..=7 {
        let (x, y) = (format!("x{n}"), format!("y{n}"));
        let meet = (x.as_str(), y.as_str());
        let (answer, _) = unified(&chain(&["x", "y"], n, &[meet]));
        assert_ne!(answer, UnifyAnswer::None);
        let clash = [meet, ("x0", "c"), ("y0", "d")];
        assert_eq!(unified(&chain(&["x", "y"], n, &clash)).0, UnifyAnswer::None);
        let cycle = [meet, ("x0", "f(y0,c)")];
        assert_eq!(unified(&chain(&["x", "y"], n, &cycle)).0, UnifyAnswer::None);
        let same = [meet, ("x0", "y0")];
        assert_ne!(unified(&chain(&["x", "y"], n, &same)).0, UnifyAnswer::None);
    }
}

#[test]
fn instance_of_120_and_121_nodes() {
    // f(X,g^k(X)) with X of n + 1 nodes has 2n + k + 3.
    let theory = |n: usize, k: usize| {
        let (left, right) = (power("g", k, "x"), power("g", n, "z"));
        Theory::new("g/1/0 f/2/1").equation(&format!("f(x,{left}) = f({right},y)"))
    };
    assert_eq!(unified(&theory(58, 0)).0, UnifyAnswer::Written(122));
    assert_eq!(unified(&theory(58, 1)).0, UnifyAnswer::Written(123));
    assert_eq!(unified(&theory(58, 2)).0, UnifyAnswer::TooLarge);
    assert_eq!(unified(&theory(59, 0)).0, UnifyAnswer::TooLarge);
}

#[test]
fn deep_chains_compare_at_once() {
    let theory = |left: &str, right: &str| {
        Theory::new("c/0/0 j/1/1 i/1/2").equation(&format!("{left} = {right}"))
    };
    let (is, js) = (power("i", 119, "x"), power("j", 119, "y"));
    assert_eq!(compared(&theory(&is, &js)), 4);
    assert_eq!(compared(&theory(&is, &power("j", 119, "x"))), 1);
    assert_eq!(
        compared(&theory(&power("j", 119, "x"), &power("i", 2, "x"))),
        2
    );
    assert_eq!(compared(&theory(&is, &power("i", 118, "x"))), 1);
    assert_eq!(
        compared(&theory(&power("i", 119, "c"), &power("i", 119, "c"))),
        3
    );
}

/// A full binary tree of the depth with the leaves in turn.
fn tree(depth: usize, leaves: &mut dyn Iterator<Item = &'static str>) -> String {
    if depth == 0 {
        return leaves.next().unwrap().to_string();
    }
    let left = tree(depth - 1, leaves);
    format!("f({left},{})", tree(depth - 1, leaves))
}

#[test]
fn full_trees_compare_at_once() {
    let same = tree(5, &mut std::iter::repeat("x"));
    let last = tree(5, &mut std::iter::repeat_n("x", 31).chain(["y"]));
    let upper = tree(5, &mut std::iter::repeat_n("x", 31).chain(["g(x)"]));
    let theory =
        |left: &str, right: &str| Theory::new("g/1/1 f/2/2").equation(&format!("{left} = {right}"));
    assert_eq!(compared(&theory(&same, &same)), 3);
    assert_eq!(compared(&theory(&same, &last)), 4);
    assert_eq!(compared(&theory(&upper, &same)), 1);
    assert_eq!(compared(&theory(&same, &upper)), 2);
}

#[test]
fn clause_3_needs_every_argument() {
    let symbols = "g/1/0 f/2/1 h/1/2";
    let theory = |equation: &str| Theory::new(symbols).equation(equation);
    assert_eq!(compared(&theory("f(g(x),y) = f(x,h(y))")), 4);
    assert_eq!(compared(&theory("f(g(x),h(y)) = f(x,h(y))")), 1);
}
