//! Terms asked beside their normal forms by delivered rules: whatever the
//! strategy, the last term must be that one.

use super::{results, strategies, Complete, Source};
use crate::generate::random::Random;
use crate::generate::terms::assemble;
use crate::questions::Question;
use kb_engine::normalise::{normalise, Units};
use kb_engine::problem::Problem;
use kb_engine::record::Record;
use kb_engine::rules::{Rule, RuleSet};
use kb_engine::run::END_COMPLETE;
use kb_engine::term::Term;
use kb_engine::MAX_NODES;
use std::rc::Rc;

/// Units for the normal form.
const UNITS: u32 = 2000;

/// A term and its normal form, or any two terms if none is reached.
pub fn normal(random: &mut Random, complete: Complete) -> Question {
    let (source, term) = match random.once_in(2) {
        true => {
            let source = results::source(random, complete);
            let term = source.asked(random).start();
            (source, term)
        }
        false => {
            let source = strategies::completed(random, complete);
            let term = strategies::term(random, &source.symbols);
            (source, term)
        }
    };
    let question = match normal_form(&source, &term) {
        Some(form) => source.question(random, [term, form].concat()),
        None => source.ask(random),
    };
    Question {
        delivered: true,
        ..question
    }
}

/// The normal form from the inside, if the rules are complete and the form is
/// reached.
fn normal_form(source: &Source, term: &[u8]) -> Option<Vec<u8>> {
    let problem = assemble(&source.symbols, 0, &[]);
    let signature = Problem::read(&problem).ok()?.signature;
    let record = Record::read(&source.record, &signature).ok()?;
    if record.end != END_COMPLETE || term.len() > MAX_NODES {
        return None;
    }
    let rules = record.rules.into_iter();
    let rules = rules.map(|rule| Rc::new(Rule::new(rule.number, rule.left, rule.right)));
    let rules = RuleSet::new(rules.collect());
    let term = Term::read(&mut &*term, &|symbol| signature.arity(symbol));
    let form = normalise(&term, &rules, &mut Units::new(UNITS)).ok()?;
    let mut bytes = Vec::new();
    form.write(&mut bytes);
    Some(bytes)
}
