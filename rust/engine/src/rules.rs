//! Rules and the set of live rules.

use crate::matching::{match_arguments, Substitution};
use crate::term::Term;
use std::rc::Rc;

/// Most symbols of a signature.
const SYMBOLS: usize = 16;

/// A rule, its left side above its right side, renamed left first.
#[derive(Clone, Debug)]
pub struct Rule {
    pub number: u16,
    pub left: Term,
    pub right: Term,
    /// Subterms of the left side in preorder.
    pub subterms: Rc<[Term]>,
}

impl Rule {
    pub fn new(number: u16, left: Term, right: Term) -> Rule {
        let mut subterms = Vec::with_capacity(left.size());
        left.preorder(&mut subterms);
        Rule {
            number,
            left,
            right,
            subterms: subterms.into(),
        }
    }

    fn root(&self) -> usize {
        self.left.root().expect("a variable is above nothing") as usize
    }
}

/// The live rules, ascending by number.
#[derive(Clone, Debug, Default)]
pub struct RuleSet {
    rules: Vec<Rc<Rule>>,
    by_root: [Vec<u8>; SYMBOLS],
}

impl RuleSet {
    /// The set of these rules, which must ascend by number.
    pub fn new(rules: Vec<Rc<Rule>>) -> RuleSet {
        let mut by_root: [Vec<u8>; SYMBOLS] = Default::default();
        for (index, rule) in rules.iter().enumerate() {
            by_root[rule.root()].push(index as u8);
        }
        RuleSet { rules, by_root }
    }

    pub fn len(&self) -> usize {
        self.rules.len()
    }

    pub fn is_empty(&self) -> bool {
        self.rules.is_empty()
    }

    pub fn get(&self, index: usize) -> &Rc<Rule> {
        &self.rules[index]
    }

    pub fn iter(&self) -> impl Iterator<Item = &Rc<Rule>> {
        self.rules.iter()
    }

    /// Puts a new right side in the rule at the index.
    pub fn set_right(&mut self, index: usize, right: Term) {
        let rule = &mut self.rules[index];
        *rule = Rc::new(Rule {
            right,
            ..Rule::clone(rule)
        });
    }

    /// The lowest numbered rule whose left side matches symbol(arguments).
    pub fn find<'t>(
        &self,
        symbol: u8,
        arguments: &'t [Term],
    ) -> Option<(&Rc<Rule>, Substitution<'t>)> {
        for &index in &self.by_root[symbol as usize] {
            let rule = &self.rules[index as usize];
            let mut substitution = Substitution::default();
            if match_arguments(rule.left.arguments(), arguments, &mut substitution) {
                return Some((rule, substitution));
            }
        }
        None
    }
}
