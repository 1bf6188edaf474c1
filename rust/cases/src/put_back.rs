//! Theories in which equations with neither side above wait, with the answers
//! due at every budget.
//!
//! A run is written turn by turn, so that what it leaves with a smaller budget
//! follows: the log and the rules of the turns that were paid.

pub mod limits;
pub mod rounds;
pub mod simplified;

use crate::fixed::{refused, Case, Ended};
use crate::notation::Theory;

/// The highest, written out like the answers.
const BUDGET: u32 = 1_000_000;
/// The end of a run whose budget is spent.
const SPENT: u8 = 21;
/// What an entry has as the rule made where there is none.
const SETTLED: u16 = 0;
const BACK: u16 = 0xffff;
/// Bytes of the budget field, and of a field's head.
const BUDGET_FIELD: usize = 7;
const HEAD: usize = 3;

/// A turn that goes on: the units paid in all at its end, the first six bytes
/// of its entry, the rule made, and how many rules then live.
type Turn = (u32, [u8; 6], u16, usize);

const fn input(number: u8) -> [u8; 6] {
    [1, 0, number, 0, 0, 0]
}

const fn removed(number: u8) -> [u8; 6] {
    [2, 0, number, 0, 0, 0]
}

const fn overlap(inner: u8, outer: u8, position: u8) -> [u8; 6] {
    [4, 0, inner, 0, outer, position]
}

/// A theory and its run.
pub struct Run {
    pub name: String,
    pub theory: Theory,
    pub end: u8,
    pub units: u32,
    turns: Vec<Turn>,
    /// The rules at the end, in byte form.
    rules: Vec<Vec<u8>>,
    /// Field 14.
    shown: Option<Vec<u8>>,
}

impl Run {
    /// A run to the end 0 that leaves these rules.
    fn complete(name: &str, theory: Theory, units: u32, rules: Theory) -> Run {
        Run {
            name: name.to_string(),
            theory,
            end: 0,
            units,
            turns: Vec::new(),
            rules: rules.all_sides(),
            shown: None,
        }
    }

    /// A run to the end 20 that leaves all these but the last, which it shows.
    fn stuck(name: &str, theory: Theory, units: u32, rules: Theory) -> Run {
        let mut rules = rules.all_sides();
        Run {
            name: name.to_string(),
            theory,
            end: 20,
            units,
            turns: Vec::new(),
            shown: rules.pop(),
            rules,
        }
    }

    fn with_turns(mut self, turns: &[Turn]) -> Run {
        self.turns = turns.to_vec();
        self
    }

    /// What the result must hold with this budget.
    pub fn ended(&self, budget: u32) -> Ended {
        let count = self.turns.partition_point(|turn| turn.0 <= budget);
        let paid = &self.turns[..count];
        let entry = |turn: &Turn| [&turn.1[..], &turn.2.to_be_bytes()].concat();
        let entries = paid.iter().map(entry).collect();
        let live = paid.last().map_or(0, |turn| turn.3);
        if budget < self.units {
            return Ended::new(SPENT, budget, live).with_log(entries, None);
        }
        let whole = Ended {
            end: self.end,
            ..Ended::complete(self.units, &self.rules)
        };
        whole.with_log(entries, self.shown.clone())
    }

    /// What a run resumed with this budget must leave, after one that was
    /// stopped by the other: it begins with the unfinished turn.
    pub fn resumed(&self, stopped: u32, budget: u32) -> Ended {
        let finished = self.turns.iter().rfind(|turn| turn.0 <= stopped);
        let before = finished.map_or(0, |turn| turn.0);
        let ended = self.ended(before + budget);
        Ended {
            units: ended.units - before,
            ..ended
        }
    }

    /// The run with every budget up to one unit more than it needs, and with
    /// the highest.
    fn cases(&self) -> impl Iterator<Item = Case> + '_ {
        let budgets = (0..=self.units + 1).chain([BUDGET]);
        budgets.map(|budget| {
            let name = format!("{}, budget {budget}", self.name);
            case(&name, &self.theory, budget, self.ended(budget))
        })
    }
}

/// Complete runs; the calls on one equation refuse at the second.
fn case(name: &str, theory: &Theory, budget: u32, ended: Ended) -> Case {
    let first = theory.sides(&[1])[0].len();
    let second = theory.symbol_field().len() + BUDGET_FIELD + HEAD + first;
    Case {
        complete: Ok(ended),
        ..refused(name, theory.problem(budget), 12, second)
    }
}

/// The runs that are written turn by turn.
pub fn runs() -> Vec<Run> {
    let mut list = simplified::runs();
    list.extend(rounds::runs());
    list.push(limits::grown());
    list
}

/// All cases.
pub fn cases() -> Vec<Case> {
    let runs = runs();
    let mut list: Vec<Case> = runs.iter().flat_map(Run::cases).collect();
    list.extend([simplified::groups(), rounds::alone()]);
    list.extend(limits::cases());
    list
}
