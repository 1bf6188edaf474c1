//! Matching: is a term an instance of a left side, and if so the instance of
//! the right side.

use crate::term::Term;
use std::rc::Rc;

/// Most variables a rule can have.
pub const RULE_VARIABLES: usize = 16;

/// What each variable of a rule stands for.
pub type Substitution<'t> = [Option<&'t Term>; RULE_VARIABLES];

/// Matches lists of equal length; a repeated variable gets one term only.
pub fn match_arguments<'t>(
    patterns: &[Term],
    terms: &'t [Term],
    substitution: &mut Substitution<'t>,
) -> bool {
    let mut pairs = patterns.iter().zip(terms);
    pairs.all(|(pattern, term)| match_term(pattern, term, substitution))
}

fn match_term<'t>(pattern: &Term, term: &'t Term, substitution: &mut Substitution<'t>) -> bool {
    match pattern {
        Term::Variable(v) => match substitution[*v as usize] {
            Some(bound) => bound == term,
            None => {
                substitution[*v as usize] = Some(term);
                true
            }
        },
        Term::Application {
            symbol,
            size,
            arguments,
        } => {
            term.root() == Some(*symbol)
                && *size as usize <= term.size()
                && match_arguments(arguments, term.arguments(), substitution)
        }
    }
}

/// Whether some node of the term is an instance of the left side.
pub fn matches_somewhere(left: &Term, term: &Term) -> bool {
    let here = match_term(left, term, &mut Default::default());
    here || term.arguments().iter().any(|a| matches_somewhere(left, a))
}

/// The term that a variable of a right side stands for.
pub fn bound(substitution: &Substitution, variable: u8) -> Term {
    let term = substitution[variable as usize];
    term.expect("a right side has no variables of its own")
        .clone()
}

/// The instance of a right side.
pub fn instance(right: &Term, substitution: &Substitution) -> Term {
    match right {
        Term::Variable(v) => bound(substitution, *v),
        Term::Application {
            symbol, arguments, ..
        } => {
            let arguments = arguments.iter().map(|a| instance(a, substitution));
            Term::application(*symbol, arguments.collect::<Rc<[Term]>>())
        }
    }
}

/// The size of that instance, which can be more than a term may have.
pub fn instance_size(right: &Term, substitution: &Substitution) -> usize {
    match right {
        Term::Variable(v) => substitution[*v as usize].map_or(1, Term::size),
        Term::Application { arguments, .. } => {
            let sizes = arguments.iter().map(|a| instance_size(a, substitution));
            1 + sizes.sum::<usize>()
        }
    }
}
