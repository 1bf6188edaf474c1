//! The question asked of a kept result: are two terms the same.
//!
//! The sides of the problem's only equation are normalised by the rules of
//! the record, left first, one budget serving both, and compared as they
//! stand. All but the strategy is the same for `decide`, which normalises from
//! the inside out, and for `outermost`.

use crate::calls::read_only_sides;
use crate::normalise::{normalise, Stop, Units};
use crate::order::above;
use crate::problem::{Problem, Refusal, Signature};
use crate::record::{Record, RecordRule};
use crate::rules::{Rule, RuleSet};
use crate::run::END_COMPLETE;
use crate::term::Term;
use std::rc::Rc;

/// The number of "the record's end is not 0".
pub const NOT_COMPLETE: u8 = 14;
/// The number of "a rule's left side is not above its right side".
pub const NOT_ABOVE: u8 = 15;

/// Answer of `decide` and of `outermost`.
#[derive(Clone, Copy, Debug, PartialEq, Eq)]
pub enum DecideAnswer {
    Refused(Refusal),
    /// What the question came to, and the units paid.
    Decided(Verdict, u32),
}

/// What an accepted question comes to.
#[derive(Clone, Copy, Debug, PartialEq, Eq)]
pub enum Verdict {
    /// Both sides have one normal form.
    Same,
    /// The normal forms differ.
    Different,
    /// 21, a step was due and the budget spent, or 22, a term over 120 nodes.
    Ended(u8),
}

/// Normalises a term, or stops on the way.
pub(crate) type Strategy = fn(&Term, &RuleSet, &mut Units) -> Result<Term, Stop>;

/// Asks of a record whether the problem's two sides are the same.
pub fn decide(problem: &[u8], record: &[u8]) -> DecideAnswer {
    answer(problem, record, normalise)
}

/// The answer by a strategy.
pub(crate) fn answer(problem: &[u8], record: &[u8], strategy: Strategy) -> DecideAnswer {
    let question = match Question::read(problem, record) {
        Ok(question) => question,
        Err(refusal) => return DecideAnswer::Refused(refusal),
    };
    let mut units = Units::new(question.budget);
    let verdict = match question.same(strategy, &mut units) {
        Ok(true) => Verdict::Same,
        Ok(false) => Verdict::Different,
        Err(stop) => Verdict::Ended(stop.number()),
    };
    DecideAnswer::Decided(verdict, units.paid)
}

/// An accepted question.
struct Question {
    left: Term,
    right: Term,
    rules: RuleSet,
    budget: u32,
}

impl Question {
    /// Reads the problem, then the record.
    fn read(problem: &[u8], record: &[u8]) -> Result<Question, Refusal> {
        let (problem, left, right) = read_only_sides(problem)?;
        Ok(Question {
            left,
            right,
            rules: usable_rules(record, &problem)?,
            budget: problem.budget,
        })
    }

    /// Whether the normal forms are equal, the left one made first.
    fn same(&self, strategy: Strategy, units: &mut Units) -> Result<bool, Stop> {
        let left = strategy(&self.left, &self.rules, units)?;
        let right = strategy(&self.right, &self.rules, units)?;
        Ok(left == right)
    }
}

/// The record's rules, refused with 13, 14 or 15.
fn usable_rules(record: &[u8], problem: &Problem) -> Result<RuleSet, Refusal> {
    let record = Record::read(record, &problem.signature)?;
    if record.end != END_COMPLETE {
        let (number, place) = (NOT_COMPLETE, 0);
        return Err(Refusal { number, place });
    }
    let rules = record.rules.into_iter();
    let rules = rules.map(|rule| oriented(rule, &problem.signature));
    Ok(RuleSet::new(rules.collect::<Result<_, _>>()?))
}

fn oriented(rule: RecordRule, signature: &Signature) -> Result<Rc<Rule>, Refusal> {
    if !above(&rule.left, &rule.right, signature) {
        let (number, place) = (NOT_ABOVE, rule.place);
        return Err(Refusal { number, place });
    }
    Ok(Rc::new(Rule::new(rule.number, rule.left, rule.right)))
}
