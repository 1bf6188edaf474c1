//! The run: turns until an end.
//!
//! A turn takes an equation (waiting, or from the scan), orients its normal
//! forms into a rule, collapses older left sides and composes older right
//! sides; or it puts the forms back to wait, if neither is above. It changes
//! the state only when nothing can stop it any more, so that a run can go on
//! with the unfinished turn; units stay paid either way.

use crate::matching::matches_somewhere;
use crate::normalise::{normalise, Stop, Units};
use crate::order::{compare, Order};
use crate::overlap::{scan_order, superpose, Place, Superposition};
use crate::problem::{Problem, Signature};
use crate::rules::{Rule, RuleSet};
use crate::term::{rename_pair, Term};
use crate::unification::Unifier;
use crate::waiting::{Equation, Origin, Waiting};
use crate::{MAX_LOG, MAX_NODES, MAX_RULES, MAX_VARIABLES};
use std::rc::Rc;

/// The end of a run that is complete.
pub const END_COMPLETE: u8 = 0;
/// The end where every equation that waits was put back.
pub const END_UNORIENTABLE: u8 = 20;
/// All ends.
pub const ENDS: [u8; 6] = [END_COMPLETE, END_UNORIENTABLE, 21, 22, 23, 24];

/// The rule made, in the log entry of a pair that was put back.
pub const PUT_BACK: u16 = 0xffff;

/// What became of a taken pair.
#[derive(Clone, Copy, Debug, PartialEq, Eq)]
pub enum Made {
    /// Its two normal forms were equal.
    Settled,
    /// The rule of this number.
    Rule(u16),
    /// Neither form was above: they wait.
    PutBack,
}

impl Made {
    /// What a log entry with this rule made says.
    pub fn of_number(number: u16) -> Made {
        match number {
            0 => Made::Settled,
            PUT_BACK => Made::PutBack,
            number => Made::Rule(number),
        }
    }

    /// The rule made as a log entry has it.
    pub fn number(self) -> u16 {
        match self {
            Made::Settled => 0,
            Made::Rule(number) => number,
            Made::PutBack => PUT_BACK,
        }
    }
}

/// A log entry: where a taken pair came from and what became of it.
#[derive(Clone, Copy, Debug, PartialEq, Eq)]
pub struct Entry {
    pub origin: Origin,
    pub made: Made,
}

/// How a run ends.
#[derive(Clone, Debug, PartialEq, Eq)]
pub enum End {
    Complete,
    /// The two sides of the oldest equation waiting, as it is held.
    Unorientable(Term, Term),
    Stopped(Stop),
}

impl From<Stop> for End {
    fn from(stop: Stop) -> End {
        End::Stopped(stop)
    }
}

impl End {
    /// The number in the result.
    pub fn number(&self) -> u8 {
        match self {
            End::Complete => END_COMPLETE,
            End::Unorientable(..) => END_UNORIENTABLE,
            End::Stopped(stop) => stop.number(),
        }
    }
}

/// What a run keeps from turn to turn.
#[derive(Debug)]
pub struct State {
    pub rules: RuleSet,
    pub waiting: Waiting,
    pub log: Vec<Entry>,
    /// Number of the next rule.
    pub next: u16,
}

/// What becomes of a taken pair.
enum Change {
    Settled,
    /// The live rules, the new one last, and those it removes.
    Rule(Box<RuleSet>, Vec<Rc<Rule>>),
    PutBack(Equation),
}

impl State {
    /// The first state: these equations wait.
    fn new(inputs: &[(Term, Term)]) -> State {
        State {
            rules: RuleSet::default(),
            waiting: Waiting::new(inputs),
            log: Vec::new(),
            next: 1,
        }
    }

    /// Keeps what a turn has made of the pair of this origin. If one waits,
    /// the pair is that of the oldest, which leaves.
    fn keep(&mut self, origin: Origin, change: Change) {
        self.waiting.leave();
        let made = match change {
            Change::Settled => {
                self.waiting.changed();
                Made::Settled
            }
            Change::Rule(rules, removed) => {
                self.rules = *rules;
                self.waiting.join(&removed);
                self.waiting.changed();
                self.next += 1;
                Made::Rule(self.next - 1)
            }
            Change::PutBack(forms) => {
                self.waiting.put_back(forms);
                Made::PutBack
            }
        };
        self.log.push(Entry { origin, made });
    }
}

/// What a run leaves: its state is that at the beginning of the last turn.
#[derive(Debug)]
pub struct Outcome {
    pub end: End,
    pub units: u32,
    pub state: State,
}

/// Runs the turns of an accepted problem.
pub fn run(problem: &Problem) -> Outcome {
    let inputs = problem.renamed_equations();
    turns(problem, &inputs, State::new(&inputs))
}

/// Goes on with a run of the problem from a state.
pub fn run_from(problem: &Problem, state: State) -> Outcome {
    turns(problem, &problem.renamed_equations(), state)
}

fn turns(problem: &Problem, inputs: &[(Term, Term)], state: State) -> Outcome {
    let mut run = Run {
        signature: &problem.signature,
        inputs,
        state,
        units: Units::new(problem.budget),
        unifier: Unifier::default(),
    };
    let end = loop {
        if let Err(end) = run.turn() {
            break end;
        }
    };
    Outcome {
        end,
        units: run.units.paid,
        state: run.state,
    }
}

struct Run<'p> {
    signature: &'p Signature,
    inputs: &'p [(Term, Term)],
    state: State,
    units: Units,
    unifier: Unifier,
}

impl Run<'_> {
    /// One turn; if it stops, the state is as at its beginning.
    fn turn(&mut self) -> Result<(), End> {
        self.units.pay()?;
        if let Some(oldest) = self.state.waiting.stuck() {
            let (left, right) = (oldest.left.clone(), oldest.right.clone());
            return Err(End::Unorientable(left, right));
        }
        let taken = self.take()?;
        if self.state.log.len() == MAX_LOG {
            return Err(Stop::LogFull.into());
        }
        let origin = taken.origin;
        let change = self.change(taken)?;
        self.state.keep(origin, change);
        Ok(())
    }

    /// Whether the taken pair is settled, a rule or put back.
    fn change(&mut self, taken: Equation) -> Result<Change, Stop> {
        if taken.left == taken.right {
            return Ok(Change::Settled);
        }
        match self.orient(&taken)? {
            Some((left, right)) => self.add_rule(left, right),
            None => Ok(Change::PutBack(taken)),
        }
    }

    /// The pair of normal forms the turn is about.
    fn take(&mut self) -> Result<Equation, End> {
        if let Some(oldest) = self.state.waiting.oldest().cloned() {
            let (left, right) = self.normal_forms(&oldest.left, &oldest.right)?;
            let origin = oldest.origin;
            return Ok(Equation {
                left,
                right,
                origin,
            });
        }
        if let Some(found) = self.scan_overlaps()? {
            return Ok(found);
        }
        self.scan_inputs()?.ok_or(End::Complete)
    }

    fn normal_forms(&mut self, left: &Term, right: &Term) -> Result<(Term, Term), Stop> {
        let left = normalise(left, &self.state.rules, &mut self.units)?;
        let right = normalise(right, &self.state.rules, &mut self.units)?;
        Ok((left, right))
    }

    /// The first overlap with two different normal forms.
    fn scan_overlaps(&mut self) -> Result<Option<Equation>, Stop> {
        let rules = self.state.rules.iter();
        let sizes: Vec<usize> = rules.map(|rule| rule.left.size()).collect();
        for place in scan_order(&sizes) {
            let inner = self.state.rules.get(place.inner);
            let outer = self.state.rules.get(place.outer);
            let found = superpose(inner, outer, place.position, &mut self.unifier);
            let (left, right) = match found {
                Superposition::None => continue,
                Superposition::TooLarge => return Err(Stop::Size),
                Superposition::Pair(left, right) => self.normal_forms(&left, &right)?,
            };
            if left != right {
                let origin = self.overlap_origin(place);
                return Ok(Some(Equation {
                    left,
                    right,
                    origin,
                }));
            }
        }
        Ok(None)
    }

    fn overlap_origin(&self, place: Place) -> Origin {
        Origin::Overlap {
            inner: self.state.rules.get(place.inner).number,
            outer: self.state.rules.get(place.outer).number,
            position: place.position as u8,
        }
    }

    /// The first input equation with two different normal forms.
    fn scan_inputs(&mut self) -> Result<Option<Equation>, Stop> {
        for (equation, (left, right)) in (1..).zip(self.inputs) {
            let (left, right) = self.normal_forms(left, right)?;
            if left != right {
                let origin = Origin::ScannedInput { equation };
                return Ok(Some(Equation {
                    left,
                    right,
                    origin,
                }));
            }
        }
        Ok(None)
    }

    /// The pair with its upper side first, renamed; none if neither is above.
    fn orient(&self, taken: &Equation) -> Result<Option<(Term, Term)>, Stop> {
        let (left, right) = (&taken.left, &taken.right);
        let variables = left.variables() | right.variables();
        if variables.count_ones() > MAX_VARIABLES {
            return Err(Stop::Size);
        }
        Ok(match compare(left, right, self.signature) {
            Order::LeftAbove => Some(rename_pair(left, right)),
            Order::RightAbove => Some(rename_pair(right, left)),
            Order::Identical | Order::Neither => None,
        })
    }

    /// A rule more: collapses, then composes.
    fn add_rule(&mut self, left: Term, right: Term) -> Result<Change, Stop> {
        debug_assert!(left.size() <= MAX_NODES && right.size() <= MAX_NODES);
        let new = Rc::new(Rule::new(self.state.next, left, right));
        let (removed, mut live) = self.collapse(&new);
        live.push(new);
        if live.len() > MAX_RULES {
            return Err(Stop::RulesFull);
        }
        let rules = self.compose(RuleSet::new(live))?;
        Ok(Change::Rule(Box::new(rules), removed))
    }

    /// Older rules parted in those whose left side the new rule rewrites and
    /// the others, both ascending.
    fn collapse(&self, new: &Rule) -> (Vec<Rc<Rule>>, Vec<Rc<Rule>>) {
        let older = self.state.rules.iter().cloned();
        older.partition(|rule| matches_somewhere(&new.left, &rule.left))
    }

    /// Normalises the right sides of all but the last rule, ascending, each
    /// by the rules as they then read.
    fn compose(&mut self, mut rules: RuleSet) -> Result<RuleSet, Stop> {
        for index in 0..rules.len() - 1 {
            let right = &rules.get(index).right;
            let normal = normalise(right, &rules, &mut self.units)?;
            if !normal.shares(right) {
                rules.set_right(index, normal);
            }
        }
        Ok(rules)
    }
}
