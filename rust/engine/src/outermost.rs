//! Leftmost-outermost normalising, and the question answered by it.
//!
//! A step is made at the earliest matched node in preorder, by the lowest
//! numbered rule there. A subterm that ends before the node of the last step
//! is as it was when no rule matched in it, so the search passes over it: it
//! tries the ancestors of that node, then what stands there and behind.

use crate::decide::{answer, DecideAnswer};
use crate::matching::{instance, instance_size};
use crate::normalise::{Steps, Stop, Units};
use crate::rules::RuleSet;
use crate::term::Term;
use std::rc::Rc;

/// Asks of a record whether the problem's two sides are the same, as `decide`
/// does but for the strategy.
pub fn outermost(problem: &[u8], record: &[u8]) -> DecideAnswer {
    answer(problem, record, normalise)
}

/// The normal form of the term, or the stop on the way.
pub fn normalise(term: &Term, rules: &RuleSet, units: &mut Units) -> Result<Term, Stop> {
    let mut normaliser = Normaliser {
        rules,
        steps: Steps::new(term, units),
        last: 0,
    };
    let mut term = term.clone();
    while let Some(next) = normaliser.step(&term, 0)? {
        term = next;
    }
    Ok(term)
}

struct Normaliser<'r> {
    rules: &'r RuleSet,
    steps: Steps<'r>,
    /// Where the last step was made, at first 0.
    last: usize,
}

impl Normaliser<'_> {
    /// The subterm at a position after a step at the earliest matched node of
    /// it, none if no rule matches in it.
    fn step(&mut self, term: &Term, position: usize) -> Result<Option<Term>, Stop> {
        let Some(symbol) = term.root() else {
            return Ok(None);
        };
        if position + term.size() <= self.last {
            return Ok(None);
        }
        if let Some((rule, substitution)) = self.rules.find(symbol, term.arguments()) {
            let after = instance_size(&rule.right, &substitution);
            self.steps.pay(term.size(), after)?;
            self.last = position;
            return Ok(Some(instance(&rule.right, &substitution)));
        }
        let mut start = position + 1;
        for (i, argument) in term.arguments().iter().enumerate() {
            if let Some(changed) = self.step(argument, start)? {
                let mut arguments: Rc<[Term]> = term.arguments().into();
                Rc::make_mut(&mut arguments)[i] = changed;
                return Ok(Some(Term::application(symbol, arguments)));
            }
            start += argument.size();
        }
        Ok(None)
    }
}
