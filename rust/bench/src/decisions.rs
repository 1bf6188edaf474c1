//! The questions of the benchmark: some rewriting; a record that is long to
//! read, refused behind it or with its rules compared; and much rewriting. They
//! are asked of decide and of outermost.

use crate::cases::{made, Case};
use kb_cases::kept::Kept;
use kb_cases::notation::Theory;
use kb_cases::questions::{counted, five_digits};
use kb_cases::theories::{countdown, digits, group_rules, GROUP};
use kb_compare::call::{result_of, Bytes, Call};
use kb_compare::RustEngine;
use kb_engine::run::END_COMPLETE;
use kb_engine::{MAX_BUDGET, MAX_LOG, MAX_RULES};

/// Two products with one normal form, 26 steps away.
const PRODUCTS: &str = "*(i(*(*(x,y),*(z,w))),*(*(*(x,y),*(z,w)),*(i(*(v,u)),*(v,x)))) \
                        = *(i(u),*(*(e,i(i(x))),i(*(y,i(y)))))";
/// Ranks ascend; f and g make the sides of the long rules.
const LONG: &str = "c/0/0 s/1/1 g/2/2 f/2/3";
/// A record with this end is read and then refused.
const OTHER_END: u8 = 24;
/// Digits from here pay 1,000,000 units by either call, counters by decide.
const DIGITS: usize = 15;
const COUNTED: usize = 16;

/// A question under a name.
struct Question {
    name: &'static str,
    theory: Theory,
    record: Vec<u8>,
}

impl Question {
    fn by(&self, call: fn(Bytes<'static>, Bytes<'static>) -> Call<'static>) -> Case {
        let problem = self.theory.problem(MAX_BUDGET);
        let call = call(problem.into(), self.record.clone().into());
        made(&format!("{}, {}", call.name(), self.name), call)
    }

    /// By outermost, related to decide.
    fn by_outermost(&self) -> Case {
        Case {
            against: Some(self.by(Call::Decide).name),
            ..self.by(Call::Outermost)
        }
    }
}

pub fn all() -> Vec<Case> {
    let questions = questions();
    let mut list: Vec<Case> = questions.iter().map(|q| q.by(Call::Decide)).collect();
    list.push(counters().by(Call::Decide));
    list.extend(questions.iter().map(Question::by_outermost));
    list
}

fn questions() -> [Question; 4] {
    let no_step = Theory::new(LONG).equation("s(g(x,c)) = s(g(x,c))");
    [
        Question {
            name: "ten rules",
            theory: Theory::new(GROUP).equation(PRODUCTS),
            record: ten_rules(),
        },
        Question {
            name: "read 13,000 bytes",
            theory: no_step.clone(),
            record: long_record(OTHER_END),
        },
        Question {
            name: "13,000 bytes, 32 rules",
            theory: no_step,
            record: long_record(END_COMPLETE),
        },
        Question {
            name: "digits",
            theory: five_digits(DIGITS),
            record: Kept::of_theory(&digits()).bytes(),
        },
    ]
}

/// By outermost a term is over 120 nodes after two steps.
fn counters() -> Question {
    Question {
        name: "1,000,000 units",
        theory: counted(COUNTED),
        record: Kept::of_theory(&countdown(0, 0)).bytes(),
    }
}

/// The result of completing 002's ten rules.
fn ten_rules() -> Vec<u8> {
    let problem = group_rules().problem(MAX_BUDGET);
    result_of(&RustEngine, &problem).expect("the rules are accepted")
}

/// As many rules as there can be, 120 nodes on each side.
pub fn long_rules() -> Theory {
    let rule = |k| format!("{} = {}", comb("f", k), comb("g", k));
    (0..MAX_RULES).fold(Theory::new(LONG), |theory, k| theory.equation(&rule(k)))
}

/// As many entries and rules as a record can have.
fn long_record(end: u8) -> Vec<u8> {
    Kept {
        end,
        entries: vec![vec![4, 0, 1, 0, 2, 3, 0, 0]; MAX_LOG],
        ..Kept::of_theory(&long_rules())
    }
    .bytes()
}

/// h(x0,h(x1,.. )) of 59 h over eight variables, with an s before one h.
fn comb(h: &str, place: usize) -> String {
    let mut out = String::new();
    for i in 0..59 {
        let before = if i == place { "s(" } else { "" };
        out += &format!("{before}{h}(x{},", i % 8);
    }
    out + "x0" + &")".repeat(60)
}
