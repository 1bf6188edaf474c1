//! Theories whose log fills up together with something else that ends a run
//! or settles a pair. Each descends three chains of one length; when the last
//! one is down, a rule with P2(b) is removed, and what then follows is taken.

use crate::notation::Theory;
use crate::theories::{after_descents, power};

/// A number of turns that only add an entry.
fn padded(theory: Theory, entries: usize) -> Theory {
    (0..entries).fold(theory, |theory, _| theory.equation("x = x"))
}

/// Removed rules last, whose two sides are equal.
pub fn settled(length: usize, padding: usize) -> Theory {
    padded(after_descents(&[length; 3], "", &[]), padding)
}

/// An equation with neither side above; a removed rule that is settled waits
/// behind it.
pub fn neither_above(length: usize, padding: usize) -> Theory {
    let equations = ["k(P2(b),y,z) = m(y,z)", "k(a,y,z) = m(z,y)"];
    padded(
        after_descents(&[length; 3], "b/0 m/2 k/3", &equations),
        padding,
    )
}

/// Two equations with neither side above; a removed rule that is settled
/// waits behind them.
pub fn two_put_back(length: usize, padding: usize) -> Theory {
    let equations = [
        "k(P2(b),y,z) = m(y,z)",
        "k(a,y,z) = m(z,y)",
        "n(P2(b),y,z) = m(y,m(z,y))",
        "n(a,y,z) = m(z,m(y,z))",
    ];
    let theory = after_descents(&[length; 3], "b/0 m/2 k/3 n/3", &equations);
    padded(theory, padding)
}

/// A pair whose left side grows to 132 nodes.
pub fn too_large(length: usize, padding: usize) -> Theory {
    let waits = format!("g({}) = a", power("s", 30, "c(P2(b))"));
    let grows = format!("c(a) = {}", power("s", 100, "a"));
    let theory = after_descents(&[length; 3], "b/0 c/1 g/1", &[&waits, &grows]);
    padded(theory, padding)
}

/// An overlap with 17 variables.
pub fn many_variables(length: usize, padding: usize) -> Theory {
    let variables = (0..13).map(|i| format!("z{i}"));
    let tuple = variables.rfold("b".to_string(), |rest, z| format!("t({z},{rest})"));
    let wide = format!("k(h(y),{tuple}) = q(y,{tuple})");
    let equations = ["v(P2(b),f(x,y,z,w)) = a", "v(a,x) = h(x)", &wide];
    let theory = after_descents(&[length; 3], "b/0 t/2 q/2 f/4 h/1 v/2 k/2", &equations);
    padded(theory, padding)
}

/// Rules without end, until there is no room for one.
pub fn endless_rules(length: usize, padding: usize) -> Theory {
    let equations = ["v(P2(b),x) = g(f(x))", "v(a,x) = f(g(f(x)))"];
    let theory = after_descents(&[length; 3], "b/0 g/1 f/1 v/2", &equations);
    padded(theory, padding)
}
