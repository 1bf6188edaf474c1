//! The two terms of a question, often equal by the pairs at hand, and its
//! budget.

use crate::generate::random::Random;
use crate::generate::terms::{assemble, mutated, push_term, renumbered, term_end};
use crate::generate::terms::{Symbols, VARIABLES};
use kb_engine::term::VARIABLE_BASE;
use kb_engine::{decide, outermost, DecideAnswer, Verdict};
use kb_engine::{MAX_BUDGET, MAX_NODES};

/// Two terms, either of which may replace the other.
pub type Pair = (Vec<u8>, Vec<u8>);

/// What each variable stands for.
type Bindings = [Option<Vec<u8>>; VARIABLES];

/// Variables of random terms.
const FEW: usize = 3;
/// A side with more nodes gets variables only in place of its own.
const LARGE_SIDE: usize = 25;

/// Makes the terms of a question.
pub struct Asked<'a> {
    pub random: &'a mut Random,
    pub symbols: &'a Symbols,
    pub equal: &'a [Pair],
}

impl<'a> Asked<'a> {
    /// Both sides in one byte string.
    pub fn sides(&mut self) -> Vec<u8> {
        let start = self.start();
        let (left, right) = match self.random.below(12) {
            0..=3 => (self.walked(&start), self.walked(&start)),
            4 | 5 => (start.clone(), self.walked(&start)),
            6 => self.instances(),
            7 => {
                let walked = self.walked(&start);
                let changed = mutated(&walked, self.random, self.symbols, FEW);
                (start, changed)
            }
            8 => {
                let order = self.random.permutation(VARIABLES);
                let renumbered = renumbered(&start, &order);
                (start, renumbered)
            }
            9 => (start.clone(), start),
            _ => (start, self.start()),
        };
        let mut sides = [left, right].concat();
        if self.random.once_in(2) {
            sides = renumbered(&sides, &self.random.permutation(VARIABLES));
        }
        sides
    }

    /// A random term, mostly with instances of sides in it.
    pub fn start(&mut self) -> Vec<u8> {
        let top = *self.random.pick(&[3, 8, 8, 20, 20, 40, 120]);
        let mut term = self.term(top);
        let planted = if self.random.once_in(8) { 0 } else { 3 };
        for _ in 0..planted {
            term = self.planted(term);
        }
        term
    }

    fn term(&mut self, top: usize) -> Vec<u8> {
        let size = self.random.between(1, top);
        let mut out = Vec::new();
        push_term(&mut out, self.random, self.symbols, size, FEW);
        out
    }

    /// A pair, turned one way or the other.
    fn pair(&mut self) -> Option<(&'a [u8], &'a [u8])> {
        if self.equal.is_empty() {
            return None;
        }
        let (left, right) = self.random.pick(self.equal);
        Some(match self.random.once_in(3) {
            true => (right, left),
            false => (left, right),
        })
    }

    /// The term with an instance of a side in place of a random subterm.
    fn planted(&mut self, term: Vec<u8>) -> Vec<u8> {
        let Some((side, _)) = self.pair() else {
            return term;
        };
        let inside = self.instance(side, &mut Bindings::default());
        let place = self.random.below(term.len());
        self.with(&term, place, &inside).unwrap_or(term)
    }

    /// The term with another in place of a subterm, if it is not too large.
    fn with(&self, term: &[u8], place: usize, inside: &[u8]) -> Option<Vec<u8>> {
        let end = term_end(term, place, self.symbols);
        let next = [&term[..place], inside, &term[end..]].concat();
        (next.len() <= MAX_NODES).then_some(next)
    }

    /// An instance of both sides of a pair.
    fn instances(&mut self) -> (Vec<u8>, Vec<u8>) {
        let mut bindings = Bindings::default();
        let found = self.pair().map(|(left, right)| {
            let left = self.instance(left, &mut bindings);
            (left, self.instance(right, &mut bindings))
        });
        match found {
            Some((left, right)) if left.len().max(right.len()) <= MAX_NODES => (left, right),
            _ => (self.term(FEW), self.term(FEW)),
        }
    }

    /// The instance; variables without a value get one.
    fn instance(&mut self, side: &[u8], bindings: &mut Bindings) -> Vec<u8> {
        let top = if side.len() > LARGE_SIDE { 1 } else { 5 };
        let mut out = Vec::new();
        for byte in side {
            match byte.checked_sub(VARIABLE_BASE) {
                None => out.push(*byte),
                Some(variable) => {
                    let bound = &mut bindings[variable as usize];
                    out.extend(bound.get_or_insert_with(|| self.term(top)).iter());
                }
            }
        }
        out
    }

    /// The term after some replacements of equals by equals.
    pub fn walked(&mut self, term: &[u8]) -> Vec<u8> {
        let mut term = term.to_vec();
        for _ in 0..self.random.between(1, 6) {
            if let Some(next) = self.replaced(&term) {
                term = next;
            }
        }
        term
    }

    fn replaced(&mut self, term: &[u8]) -> Option<Vec<u8>> {
        let (from, to) = self.pair()?;
        let start = self.random.below(term.len());
        let places = (start..term.len()).chain(0..start);
        let matching = |place| Some((place, matched(from, &term[place..], self.symbols)?));
        let (place, mut bindings) = places.into_iter().find_map(matching)?;
        let inside = self.instance(to, &mut bindings);
        self.with(term, place, &inside)
    }
}

/// What the variables stand for if the pattern matches the term that begins
/// here.
fn matched(pattern: &[u8], term: &[u8], symbols: &Symbols) -> Option<Bindings> {
    let mut bindings = Bindings::default();
    let mut place = 0;
    for byte in pattern {
        let Some(variable) = byte.checked_sub(VARIABLE_BASE) else {
            if *byte != term[place] {
                return None;
            }
            place += 1;
            continue;
        };
        let end = term_end(term, place, symbols);
        let part = &term[place..end];
        let bound = bindings[variable as usize].get_or_insert_with(|| part.to_vec());
        if bound != part {
            return None;
        }
        place = end;
    }
    Some(bindings)
}

/// A call that answers questions.
pub type Ask = fn(&[u8], &[u8]) -> DecideAnswer;

/// Both of them.
pub const CALLS: [Ask; 2] = [decide, outermost];

/// Longer rewriting gets a small budget.
const MOST_UNITS: u32 = 2000;

/// Around what the question needs by one of the calls, small, or the highest.
pub fn budget(random: &mut Random, symbols: &Symbols, sides: &[u8], record: &[u8]) -> u32 {
    let problem = assemble(symbols, MOST_UNITS, &[sides.to_vec()]);
    let needs = CALLS.map(|call| match call(&problem, record) {
        DecideAnswer::Decided(Verdict::Ended(21), _) | DecideAnswer::Refused(_) => None,
        DecideAnswer::Decided(_, units) => Some(units),
    });
    let Some(needed) = *random.pick(&needs) else {
        return random.budget();
    };
    match random.below(10) {
        0 => needed.saturating_sub(1),
        1..=3 => needed,
        4 | 5 => needed + 1,
        6 | 7 if !needs.contains(&None) => MAX_BUDGET,
        8 => random.below(needed as usize + 1) as u32,
        _ => random.budget(),
    }
}
