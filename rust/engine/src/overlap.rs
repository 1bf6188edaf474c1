//! Overlaps of rules and their critical pairs.

use crate::rules::Rule;
use crate::term::Term;
use crate::unification::Unifier;
use crate::MAX_NODES;
use std::rc::Rc;

/// The outer rule keeps its variables, the inner one's are raised by this.
const INNER_SHIFT: u8 = 16;

/// What a position of the outer rule gives with the inner rule.
#[derive(Debug)]
pub enum Superposition {
    /// No overlap.
    None,
    /// The peak or a side of the pair is over 120 nodes.
    TooLarge,
    /// The critical pair: the inner step's term, then the outer step's.
    Pair(Term, Term),
}

/// Superposes the inner rule on the outer one at a preorder position.
pub fn superpose(
    inner: &Rule,
    outer: &Rule,
    position: usize,
    unifier: &mut Unifier,
) -> Superposition {
    let part = &outer.subterms[position];
    if part.root().is_none() || clash(&inner.left, part) {
        return Superposition::None;
    }
    unifier.clear();
    let a = unifier.add(&inner.left, INNER_SHIFT);
    let b = unifier.add(part, 0);
    if !unifier.unify(a, b) {
        return Superposition::None;
    }
    let peak = unifier.instance_size(&outer.left, 0);
    if peak > MAX_NODES {
        return Superposition::TooLarge;
    }
    let left =
        peak - unifier.instance_size(part, 0) + unifier.instance_size(&inner.right, INNER_SHIFT);
    let right = unifier.instance_size(&outer.right, 0);
    if left > MAX_NODES || right > MAX_NODES {
        return Superposition::TooLarge;
    }
    let replacement = unifier.instance(&inner.right, INNER_SHIFT);
    let left = replaced_instance(&outer.left, position, &replacement, unifier);
    Superposition::Pair(left, unifier.instance(&outer.right, 0))
}

/// Whether two symbols differ at one place of both: a cheap "not unifiable".
fn clash(a: &Term, b: &Term) -> bool {
    match (a.root(), b.root()) {
        (Some(f), Some(g)) => {
            let mut pairs = a.arguments().iter().zip(b.arguments());
            f != g || pairs.any(|(x, y)| clash(x, y))
        }
        _ => false,
    }
}

/// The term's instance with the part at the position replaced.
fn replaced_instance(term: &Term, position: usize, by: &Term, unifier: &mut Unifier) -> Term {
    if position == 0 {
        return by.clone();
    }
    let symbol = term.root().expect("the position lies inside the term");
    let mut start = 1;
    let arguments = term.arguments().iter().map(|argument| {
        let here = start;
        start += argument.size();
        if (here..start).contains(&position) {
            replaced_instance(argument, position - here, by, unifier)
        } else {
            unifier.instance(argument, 0)
        }
    });
    Term::application(symbol, arguments.collect::<Rc<[Term]>>())
}

/// One step of the scan: two rules by index and a position in the outer one.
#[derive(Clone, Copy, Debug, PartialEq, Eq)]
pub struct Place {
    pub inner: usize,
    pub outer: usize,
    pub position: usize,
}

/// All places in the scan's order; `sizes` are those of the left sides.
/// Ascending by the later rule, then the earlier; first the earlier rule as
/// inner; positions ascending; a rule with itself not at the root.
pub fn scan_order(sizes: &[usize]) -> impl Iterator<Item = Place> + '_ {
    (0..sizes.len()).flat_map(move |later| {
        (0..=later).flat_map(move |earlier| {
            let own = earlier == later;
            let first = positions(earlier, later, own as usize..sizes[later]);
            let second_end = if own { 0 } else { sizes[earlier] };
            first.chain(positions(later, earlier, 0..second_end))
        })
    })
}

fn positions(
    inner: usize,
    outer: usize,
    range: std::ops::Range<usize>,
) -> impl Iterator<Item = Place> {
    range.map(move |position| Place {
        inner,
        outer,
        position,
    })
}
