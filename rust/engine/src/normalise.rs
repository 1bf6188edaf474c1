//! Leftmost-innermost normalising, with units and the size limit.
//!
//! A term is normalised arguments first, left to right, then at its root.
//! A contractum holds normal terms in place of the rule's variables, so only
//! the nodes of the rule's right side are tried again. The order of the steps
//! is that of the definition: the redex taken is always the earliest in
//! preorder among those with no redex below.

use crate::matching::{bound, instance_size, Substitution};
use crate::rules::RuleSet;
use crate::term::Term;
use crate::MAX_NODES;

/// Why a turn stops early.
#[derive(Clone, Copy, Debug, PartialEq, Eq)]
pub enum Stop {
    /// A unit was due and the budget spent.
    Budget,
    /// A term over 120 nodes, or a taken pair over 16 variables.
    Size,
    /// A 33rd live rule.
    RulesFull,
    /// A 513th log entry is due.
    LogFull,
}

impl Stop {
    /// The number in a result or an answer.
    pub fn number(self) -> u8 {
        match self {
            Stop::Budget => 21,
            Stop::Size => 22,
            Stop::RulesFull => 23,
            Stop::LogFull => 24,
        }
    }
}

/// Units paid against the budget.
#[derive(Clone, Copy, Debug)]
pub struct Units {
    pub paid: u32,
    budget: u32,
}

impl Units {
    pub fn new(budget: u32) -> Units {
        Units { paid: 0, budget }
    }

    /// Pays one unit.
    pub fn pay(&mut self) -> Result<(), Stop> {
        if self.paid == self.budget {
            return Err(Stop::Budget);
        }
        self.paid += 1;
        Ok(())
    }
}

/// The steps of one term: what they cost, and how large it is.
pub(crate) struct Steps<'u> {
    units: &'u mut Units,
    /// Nodes of the whole term as it stands.
    size: usize,
}

impl<'u> Steps<'u> {
    pub fn new(term: &Term, units: &'u mut Units) -> Steps<'u> {
        let size = term.size();
        Steps { units, size }
    }

    /// Pays a step that puts so many nodes in place of so many, then tests the
    /// size of its term.
    pub fn pay(&mut self, before: usize, after: usize) -> Result<(), Stop> {
        self.units.pay()?;
        self.size = self.size - before + after;
        if self.size > MAX_NODES {
            return Err(Stop::Size);
        }
        Ok(())
    }
}

/// The normal form of the term, or the stop on the way.
pub fn normalise(term: &Term, rules: &RuleSet, units: &mut Units) -> Result<Term, Stop> {
    let steps = Steps::new(term, units);
    Normaliser { rules, steps }.term(term)
}

struct Normaliser<'r> {
    rules: &'r RuleSet,
    steps: Steps<'r>,
}

impl Normaliser<'_> {
    /// Normalises a subterm of which nothing is known.
    fn term(&mut self, term: &Term) -> Result<Term, Stop> {
        let Term::Application {
            symbol, arguments, ..
        } = term
        else {
            return Ok(term.clone());
        };
        match self.changed_arguments(arguments)? {
            Some(changed) => self.root(*symbol, changed),
            None if self.rules.find(*symbol, arguments).is_none() => Ok(term.clone()),
            None => self.root(*symbol, arguments.to_vec()),
        }
    }

    /// The normal forms of the arguments, none if all are normal already.
    fn changed_arguments(&mut self, arguments: &[Term]) -> Result<Option<Vec<Term>>, Stop> {
        let mut changed: Option<Vec<Term>> = None;
        for (i, argument) in arguments.iter().enumerate() {
            let normal = self.term(argument)?;
            if let Some(list) = &mut changed {
                list.push(normal);
            } else if !normal.shares(argument) {
                let mut list = arguments[..i].to_vec();
                list.push(normal);
                changed = Some(list);
            }
        }
        Ok(changed)
    }

    /// Rewrites at the root, all arguments being normal.
    fn root(&mut self, mut symbol: u8, mut arguments: Vec<Term>) -> Result<Term, Stop> {
        loop {
            let Some((rule, substitution)) = self.rules.find(symbol, &arguments) else {
                return Ok(Term::application(symbol, arguments));
            };
            let before = 1 + arguments.iter().map(Term::size).sum::<usize>();
            let after = instance_size(&rule.right, &substitution);
            self.steps.pay(before, after)?;
            match &rule.right {
                Term::Variable(v) => return Ok(bound(&substitution, *v)),
                Term::Application {
                    symbol: g,
                    arguments: list,
                    ..
                } => {
                    let contracted = self.contracta(list, &substitution)?;
                    (symbol, arguments) = (*g, contracted);
                }
            }
        }
    }

    /// Normal forms of instances whose variables stand for normal terms.
    fn contracta(&mut self, list: &[Term], substitution: &Substitution) -> Result<Vec<Term>, Stop> {
        list.iter()
            .map(|right| match right {
                Term::Variable(v) => Ok(bound(substitution, *v)),
                Term::Application {
                    symbol, arguments, ..
                } => {
                    let arguments = self.contracta(arguments, substitution)?;
                    self.root(*symbol, arguments)
                }
            })
            .collect()
    }
}
