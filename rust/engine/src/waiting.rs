//! The waiting list: equations with their origins, oldest first.
//!
//! An equation with neither side above is put back at the end. The list counts
//! how many were put back since the last change, a rule made or an equation
//! settled. The counted ones are the last of the list: when as many are counted
//! as wait, each one waiting was put back since, and the run ends before one of
//! them is taken again.

use crate::rules::Rule;
use crate::term::{rename_pair, Term};
use std::collections::VecDeque;
use std::rc::Rc;

/// Where a taken equation comes from.
#[derive(Clone, Copy, Debug, PartialEq, Eq)]
pub enum Origin {
    WaitingInput {
        equation: u16,
    },
    WaitingRule {
        rule: u16,
    },
    ScannedInput {
        equation: u16,
    },
    Overlap {
        inner: u16,
        outer: u16,
        position: u8,
    },
}

/// A pair of terms and where it comes from.
#[derive(Clone, Debug)]
pub struct Equation {
    pub left: Term,
    pub right: Term,
    pub origin: Origin,
}

#[derive(Debug)]
pub struct Waiting {
    list: VecDeque<Equation>,
    /// Equations put back since a rule was last made or an equation settled.
    put_back: usize,
}

impl Waiting {
    /// The renamed input equations in order.
    pub fn new(inputs: &[(Term, Term)]) -> Waiting {
        let list = (1..).zip(inputs).map(|(equation, (left, right))| Equation {
            left: left.clone(),
            right: right.clone(),
            origin: Origin::WaitingInput { equation },
        });
        Waiting {
            list: list.collect(),
            put_back: 0,
        }
    }

    /// These equations, of which the last so many were put back since the last
    /// change.
    pub fn resumed(list: Vec<Equation>, put_back: u8) -> Waiting {
        Waiting {
            list: list.into(),
            put_back: put_back.into(),
        }
    }

    /// The equations, oldest first.
    pub fn iter(&self) -> impl Iterator<Item = &Equation> {
        self.list.iter()
    }

    /// How many were put back since the last change: at most as many as wait.
    pub fn put_back_since(&self) -> usize {
        self.put_back
    }

    /// The oldest equation, if all that wait were put back since the last
    /// change: then no turn can orient one of them.
    pub fn stuck(&self) -> Option<&Equation> {
        let oldest = self.list.front()?;
        (self.put_back >= self.list.len()).then_some(oldest)
    }

    /// The oldest equation, which stays until its turn can no longer stop.
    pub fn oldest(&self) -> Option<&Equation> {
        self.list.front()
    }

    /// The oldest equation leaves, if one waits.
    pub fn leave(&mut self) {
        self.list.pop_front();
    }

    /// Puts the normal forms of a taken pair at the end, with its origin.
    pub fn put_back(&mut self, forms: Equation) {
        let (left, right) = rename_pair(&forms.left, &forms.right);
        let origin = forms.origin;
        self.list.push_back(Equation {
            left,
            right,
            origin,
        });
        self.put_back += 1;
    }

    /// The two sides of removed rules join the end.
    pub fn join(&mut self, removed: &[Rc<Rule>]) {
        self.list.extend(removed.iter().map(|rule| Equation {
            left: rule.left.clone(),
            right: rule.right.clone(),
            origin: Origin::WaitingRule { rule: rule.number },
        }));
    }

    /// A rule was made or an equation settled.
    pub fn changed(&mut self) {
        self.put_back = 0;
    }
}
