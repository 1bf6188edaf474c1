//! The lexicographic path order.
//!
//! The three clauses are decided by the two root symbols. The order is
//! transitive and has the subterm property, whichever symbols share a rank:
//! so clause 1 is needed only where another symbol is not lower, or where
//! the lexicographic part fails. Every call then splits one of the two terms
//! into disjoint parts: no pair of nodes is looked at twice.

use crate::problem::Signature;
use crate::term::Term;

/// How two terms stand in the path order; the discriminants are the answers.
#[derive(Clone, Copy, Debug, PartialEq, Eq)]
pub enum Order {
    LeftAbove = 1,
    RightAbove = 2,
    Identical = 3,
    Neither = 4,
}

/// Compares two terms over the same variables.
pub fn compare(left: &Term, right: &Term, signature: &Signature) -> Order {
    if left == right {
        Order::Identical
    } else if above(left, right, signature) {
        Order::LeftAbove
    } else if above(right, left, signature) {
        Order::RightAbove
    } else {
        Order::Neither
    }
}

/// Whether s is above t.
pub fn above(s: &Term, t: &Term, signature: &Signature) -> bool {
    let Some(f) = s.root() else {
        return false;
    };
    let g = match t {
        Term::Variable(v) => return s.contains(*v),
        Term::Application { symbol, .. } => *symbol,
    };
    if f == g {
        above_same_root(s, t, signature)
    } else if signature.rank(f) > signature.rank(g) {
        above_all(s, t.arguments(), signature)
    } else {
        some_reaches(s.arguments(), t, signature)
    }
}

/// Clause 2's and 3's "above every argument", over a list.
fn above_all(s: &Term, list: &[Term], signature: &Signature) -> bool {
    list.iter().all(|t| above(s, t, signature))
}

/// Clause 1, over a list of arguments.
fn some_reaches(list: &[Term], t: &Term, signature: &Signature) -> bool {
    list.iter().any(|s| s == t || above(s, t, signature))
}

/// Equal root symbols. Before the first difference both agree; an argument
/// of s up to there cannot reach t when the lexicographic part fails.
fn above_same_root(s: &Term, t: &Term, signature: &Signature) -> bool {
    let (a, b) = (s.arguments(), t.arguments());
    let Some(i) = (0..a.len()).find(|&i| a[i] != b[i]) else {
        return false;
    };
    if above(&a[i], &b[i], signature) {
        above_all(s, &b[i + 1..], signature)
    } else {
        some_reaches(&a[i + 1..], t, signature)
    }
}
