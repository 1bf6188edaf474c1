//! The turns word for word, on the literal definitions.

use super::literal::{apply, rename, Bytes, Rule, Symbols};
use super::Fields;
use std::collections::{BTreeSet, HashMap};

/// How a turn breaks off.
enum Break {
    End(u8),
    Pair(Bytes, Bytes),
    /// The slow unification cannot say.
    Unknown,
}

/// An equation that waits.
#[derive(Clone)]
pub struct Waiting {
    pub left: Bytes,
    pub right: Bytes,
    /// Kind, numbers and position, as its entries have them.
    pub origin: Bytes,
    /// Since a rule was last made or an equation settled.
    pub put_back: bool,
}

/// A pair as it stood, its two normal forms, and its origin.
pub struct Taken {
    pub before: [Bytes; 2],
    pub forms: [Bytes; 2],
    pub origin: Bytes,
}

/// What the definitions say of equations with neither side above. The tests of
/// the comparison make one of them wrong.
#[derive(Clone, Copy)]
pub struct Rounds {
    pub put_back: fn(&mut Vec<Waiting>, &Taken),
    /// The rule made, in the entry of a pair put back.
    pub made: u16,
    /// The equation that field 14 shows, if the end is 20.
    pub stuck: fn(&[Waiting]) -> Option<&Waiting>,
    pub after_a_rule: fn(&mut [Waiting]),
    pub after_settling: fn(&mut [Waiting]),
}

pub const ROUNDS: Rounds = Rounds {
    put_back,
    made: 0xffff,
    stuck,
    after_a_rule: none_put_back_since,
    after_settling: none_put_back_since,
};

/// To the end, as its two normal forms.
fn put_back(waiting: &mut Vec<Waiting>, taken: &Taken) {
    let [left, right] = &taken.forms;
    let (left, right) = rename(left, right);
    waiting.push(Waiting {
        left,
        right,
        origin: taken.origin.clone(),
        put_back: true,
    });
}

/// Some equation waits and every one waiting has been put back: the oldest.
fn stuck(waiting: &[Waiting]) -> Option<&Waiting> {
    let every_one = waiting.iter().all(|equation| equation.put_back);
    waiting.first().filter(|_| every_one)
}

fn none_put_back_since(waiting: &mut [Waiting]) {
    for equation in waiting {
        equation.put_back = false;
    }
}

/// What a run keeps from turn to turn.
#[derive(Clone, Default)]
pub struct State {
    pub rules: Vec<Rule>,
    pub waiting: Vec<Waiting>,
    pub log: Vec<Bytes>,
    /// The number of the last rule made.
    pub made: u16,
}

struct Run {
    symbols: Symbols,
    rounds: Rounds,
    inputs: Vec<(Bytes, Bytes)>,
    state: State,
    budget: u32,
    units: u32,
}

/// The fields that complete should write, `None` where this cannot say.
pub fn run(symbols: Symbols, budget: u32, equations: &[(Bytes, Bytes)]) -> Option<Fields> {
    run_with(ROUNDS, symbols, budget, equations)
}

/// The same with other rounds.
pub fn run_with(
    rounds: Rounds,
    symbols: Symbols,
    budget: u32,
    equations: &[(Bytes, Bytes)],
) -> Option<Fields> {
    let inputs = equations.iter().map(|(l, r)| rename(l, r));
    let first = State {
        waiting: (1..).zip(inputs).map(input).collect(),
        ..State::default()
    };
    let (fields, _) = run_from(rounds, symbols, budget, equations, first)?;
    Some(fields)
}

/// The same from a state, with the state as at the beginning of the last turn.
pub fn run_from(
    rounds: Rounds,
    symbols: Symbols,
    budget: u32,
    equations: &[(Bytes, Bytes)],
    state: State,
) -> Option<(Fields, State)> {
    let mut run = Run {
        symbols,
        rounds,
        inputs: equations.iter().map(|(l, r)| rename(l, r)).collect(),
        state,
        budget,
        units: 0,
    };
    loop {
        let state = run.state.clone();
        let (end, pair) = match run.turn() {
            Ok(()) => continue,
            Err(Break::Unknown) => return None,
            Err(Break::End(number)) => (number, None),
            Err(Break::Pair(l, r)) => (20, Some([l, r].concat())),
        };
        let rule = |r: &Rule| (r.number as u16, [&r.left[..], &r.right].concat());
        let fields = Fields {
            count: 0,
            end,
            units: run.units,
            rules: state.rules.iter().map(rule).collect(),
            log: state.log.clone(),
            pair,
        };
        return Some((fields, state));
    }
}

fn input((number, (left, right)): (usize, (Bytes, Bytes))) -> Waiting {
    Waiting {
        left,
        right,
        origin: origin(1, number, 0, 0),
        put_back: false,
    }
}

impl Run {
    fn pay(&mut self) -> Result<(), Break> {
        if self.units >= self.budget {
            return Err(Break::End(21));
        }
        self.units += 1;
        Ok(())
    }

    fn normalise(&mut self, mut term: Bytes) -> Result<Bytes, Break> {
        while let Some(next) = self.symbols.step(&self.state.rules, &term) {
            self.pay()?;
            if next.len() > 120 {
                return Err(Break::End(22));
            }
            term = next;
        }
        Ok(term)
    }

    fn turn(&mut self) -> Result<(), Break> {
        self.pay()?;
        if let Some(shown) = (self.rounds.stuck)(&self.state.waiting) {
            return Err(Break::Pair(shown.left.clone(), shown.right.clone()));
        }
        let taken = self.take()?;
        if self.state.log.len() == 512 {
            return Err(Break::End(24));
        }
        let made = if taken.forms[0] == taken.forms[1] {
            (self.rounds.after_settling)(&mut self.state.waiting);
            0
        } else if let Some(rule) = self.orient(&taken.forms)? {
            self.add(rule)?;
            (self.rounds.after_a_rule)(&mut self.state.waiting);
            self.state.made += 1;
            self.state.made
        } else {
            (self.rounds.put_back)(&mut self.state.waiting, &taken);
            self.rounds.made
        };
        let made = made.to_be_bytes();
        self.state.log.push([&taken.origin[..], &made].concat());
        Ok(())
    }

    fn forms(&mut self, before: [Bytes; 2], origin: Bytes) -> Result<Taken, Break> {
        let [left, right] = before.clone();
        let forms = [self.normalise(left)?, self.normalise(right)?];
        Ok(Taken {
            before,
            forms,
            origin,
        })
    }

    fn take(&mut self) -> Result<Taken, Break> {
        if !self.state.waiting.is_empty() {
            let oldest = self.state.waiting.remove(0);
            return self.forms([oldest.left, oldest.right], oldest.origin);
        }
        for (inner, outer, p) in self.places() {
            let Some((left, right)) = self.critical_pair(&inner, &outer, p)? else {
                continue;
            };
            let taken = self.forms([left, right], origin(4, inner.number, outer.number, p))?;
            if taken.forms[0] != taken.forms[1] {
                return Ok(taken);
            }
        }
        for (i, (left, right)) in self.inputs.clone().into_iter().enumerate() {
            let taken = self.forms([left, right], origin(3, i + 1, 0, 0))?;
            if taken.forms[0] != taken.forms[1] {
                return Ok(taken);
            }
        }
        Err(Break::End(0))
    }

    /// Rules with a position, in the scan's order, by sorting.
    fn places(&self) -> Vec<(Rule, Rule, usize)> {
        let mut list = Vec::new();
        for inner in &self.state.rules {
            for outer in &self.state.rules {
                for p in 0..outer.left.len() {
                    if inner.number != outer.number || p > 0 {
                        list.push((inner.clone(), outer.clone(), p));
                    }
                }
            }
        }
        list.sort_by_key(|(inner, outer, p)| {
            let (i, o) = (inner.number, outer.number);
            (i.max(o), i.min(o), i > o, *p)
        });
        list
    }

    fn critical_pair(
        &self,
        inner: &Rule,
        outer: &Rule,
        p: usize,
    ) -> Result<Option<(Bytes, Bytes)>, Break> {
        if outer.left[p] >= 0x80 {
            return Ok(None);
        }
        let apart = |term: &[u8]| -> Bytes {
            term.iter()
                .map(|b| if *b >= 0x80 { b + 16 } else { *b })
                .collect()
        };
        let (l1, r1) = (apart(&inner.left), apart(&inner.right));
        let end = self.symbols.end(&outer.left, p);
        let found = self.symbols.unifier(&l1, &outer.left[p..end]);
        let Some(m) = found.map_err(|()| Break::Unknown)? else {
            return Ok(None);
        };
        let peak = apply(&m, &outer.left);
        let left = [&outer.left[..p], &r1, &outer.left[end..]].concat();
        let (left, right) = (apply(&m, &left), apply(&m, &outer.right));
        if peak.len() > 120 || left.len() > 120 || right.len() > 120 {
            return Err(Break::End(22));
        }
        Ok(Some((left, right)))
    }

    /// The rule that the pair becomes, none if neither side is above.
    fn orient(&self, [left, right]: &[Bytes; 2]) -> Result<Option<Rule>, Break> {
        let both = left.iter().chain(right).filter(|b| **b >= 0x80);
        if both.collect::<BTreeSet<_>>().len() > 16 {
            return Err(Break::End(22));
        }
        let mut memo = HashMap::new();
        let (left, right) = if self.symbols.above(left, right, &mut memo) {
            rename(left, right)
        } else if self.symbols.above(right, left, &mut memo) {
            rename(right, left)
        } else {
            return Ok(None);
        };
        let number = self.state.made as usize + 1;
        Ok(Some(Rule {
            number,
            left,
            right,
        }))
    }

    fn add(&mut self, new: Rule) -> Result<(), Break> {
        let mut kept = Vec::new();
        for old in std::mem::take(&mut self.state.rules) {
            if self.symbols.rewrites(&new, &old.left) {
                self.state.waiting.push(Waiting {
                    left: old.left,
                    right: old.right,
                    origin: origin(2, old.number, 0, 0),
                    put_back: false,
                });
            } else {
                kept.push(old);
            }
        }
        kept.push(new);
        self.state.rules = kept;
        if self.state.rules.len() > 32 {
            return Err(Break::End(23));
        }
        for i in 0..self.state.rules.len() - 1 {
            let right = self.state.rules[i].right.clone();
            self.state.rules[i].right = self.normalise(right)?;
        }
        Ok(())
    }
}

fn origin(kind: u8, first: usize, second: usize, position: usize) -> Bytes {
    let mut out = vec![kind];
    out.extend((first as u16).to_be_bytes());
    out.extend((second as u16).to_be_bytes());
    out.push(position as u8);
    out
}
