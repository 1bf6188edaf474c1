//! Document 01's fixed problems, the papers' theories and the edges, with
//! what the four calls must answer.
//!
//! The answers are written out, so that every engine can be held to them.

use crate::notation::Theory;
use crate::put_back;
use crate::theories::{self, power, GROUP, PAPERS};
use kb_engine::calls::{CompareAnswer, UnifyAnswer};
use kb_engine::fields::{split_fields, TAG_ENTRY, TAG_PAIR, TAG_RULE};
use kb_engine::order::Order;
use kb_engine::problem::Refusal;
use std::ops::Range;

/// The highest, written out like the answers.
const BUDGET: u32 = 1_000_000;

/// A problem and what each call must answer.
pub struct Case {
    pub name: String,
    pub problem: Vec<u8>,
    pub complete: Result<Ended, Refusal>,
    pub compare: CompareAnswer,
    pub unify: UnifyAnswer,
    /// Positions, and where the part that subterm hands back at each stands
    /// in the problem.
    pub parts: Vec<(usize, Range<usize>)>,
}

/// What the result of a run must hold.
pub struct Ended {
    pub end: u8,
    pub units: u32,
    /// Number of rules.
    pub rules: usize,
    /// Rules that must be among them, both sides in one byte string.
    pub printed: Vec<Vec<u8>>,
    /// The whole log and field 14, where they are given.
    pub logged: Option<Logged>,
}

/// The entries of a result, and its field 14.
#[derive(Clone, Debug, Default, PartialEq, Eq)]
pub struct Logged {
    pub entries: Vec<Vec<u8>>,
    pub pair: Option<Vec<u8>>,
}

impl Logged {
    fn fits(&self, result: &[u8]) -> bool {
        contents(result, TAG_ENTRY).eq(&self.entries) && contents(result, TAG_PAIR).eq(&self.pair)
    }
}

/// The contents of a result's fields of a tag.
fn contents(result: &[u8], tag: u8) -> impl Iterator<Item = &[u8]> {
    let fields = split_fields(result).filter(move |(found, _)| *found == tag);
    fields.map(|(_, contents)| contents)
}

impl Ended {
    pub(crate) fn new(end: u8, units: u32, rules: usize) -> Ended {
        Ended {
            end,
            units,
            rules,
            printed: Vec::new(),
            logged: None,
        }
    }

    /// End 0 with these rules and no others.
    pub(crate) fn complete(units: u32, printed: &[Vec<u8>]) -> Ended {
        Ended {
            printed: printed.to_vec(),
            ..Ended::new(0, units, printed.len())
        }
    }

    /// The same with this log and this field 14.
    pub(crate) fn with_log(self, entries: Vec<Vec<u8>>, pair: Option<Vec<u8>>) -> Ended {
        Ended {
            logged: Some(Logged { entries, pair }),
            ..self
        }
    }

    /// Whether a result holds this.
    pub fn fits(&self, result: &[u8]) -> bool {
        let rules = contents(result, TAG_RULE);
        let sides: Vec<&[u8]> = rules.map(|contents| &contents[2..]).collect();
        result[3] == self.end
            && result[7..11] == self.units.to_be_bytes()
            && sides.len() == self.rules
            && self.printed.iter().all(|rule| sides.contains(&&rule[..]))
            && self.logged.iter().all(|logged| logged.fits(result))
    }
}

/// All cases.
pub fn cases() -> Vec<Case> {
    let mut list = papers();
    list.extend(sides());
    list.extend(terms_of_runs());
    list.extend(instances());
    list.extend(equal_ranks());
    list.extend(put_back::cases());
    list.extend(counts());
    list.extend(budgets());
    list.push(refused("empty problem", Vec::new(), 4, 0));
    list
}

/// All four calls refuse.
pub(crate) fn refused(name: &str, problem: Vec<u8>, number: u8, place: usize) -> Case {
    let refusal = Refusal { number, place };
    Case {
        name: name.to_string(),
        problem,
        complete: Err(refusal),
        compare: CompareAnswer::Refused(refusal),
        unify: UnifyAnswer::Refused(refusal),
        parts: vec![(0, 0..0)],
    }
}

/// Complete runs, the others refuse at the second equation.
fn run(name: &str, theory: &Theory, ended: Ended, second: usize) -> Case {
    let problem = theory.problem(BUDGET);
    Case {
        complete: Ok(ended),
        ..refused(name, problem, 12, second)
    }
}

/// One equation over three symbols, with the nodes of its left side.
pub(crate) fn single(
    name: &str,
    theory: &Theory,
    ended: Ended,
    (order, unify): (Order, UnifyAnswer),
    nodes: usize,
) -> Case {
    Case {
        name: name.to_string(),
        problem: theory.problem(BUDGET),
        complete: Ok(ended),
        compare: CompareAnswer::Compared(order),
        unify,
        parts: vec![
            (0, 19..19 + nodes),
            (nodes - 1, 18 + nodes..19 + nodes),
            (nodes, 0..0),
        ],
    }
}

fn papers() -> Vec<Case> {
    let fragment = theories::fragment_rules().sides(&[1, 2, 3, 4, 5, 7, 8, 9]);
    let group = theories::group_rules().sides(&[1, 2, 3, 4, 5, 6, 7, 8, 9, 10]);
    let arithmetic = theories::arithmetic_rules().sides(&[1, 2, 3, 4, 5, 6, 9, 10]);
    // In the order of the list of papers.
    let expected = [
        (Ended::complete(86, &fragment), 23),
        (Ended::complete(51, &fragment), 23),
        (Ended::new(20, 1102, 21), 23),
        (Ended::complete(126, &group), 23),
        (Ended::complete(55, &arithmetic), 27),
        (Ended::complete(37, &arithmetic), 27),
    ];
    let cases = PAPERS.into_iter().zip(expected);
    cases
        .map(|((name, theory), (ended, second))| run(name, &theory(), ended, second))
        .collect()
}

/// i^left(x) = i^right(x): one node more on each side.
pub fn chains(left: usize, right: usize) -> Theory {
    let (left, right) = (power("i", left, "x"), power("i", right, "x"));
    Theory::new(GROUP).equation(&format!("{left} = {right}"))
}

/// Sides of 120 and 121 nodes.
fn sides() -> Vec<Case> {
    let problem = |left, right| chains(left, right).problem(BUDGET);
    let identical = (Order::Identical, UnifyAnswer::Written(123));
    let ended = Ended::new(0, 2, 0);
    vec![
        single("120 nodes", &chains(119, 119), ended, identical, 120),
        refused("121 nodes on the left", problem(120, 0), 11, 19),
        refused("121 nodes on the right", problem(0, 120), 11, 20),
        refused("121 nodes after 120", problem(119, 120), 11, 139),
    ]
}

/// Peaks and rewritten terms of 120 and 121 nodes.
fn terms_of_runs() -> Vec<Case> {
    let step = theories::long_step;
    let above = (Order::LeftAbove, UnifyAnswer::None);
    let (joined, large) = (Ended::new(0, 3, 1), Ended::new(22, 2, 1));
    vec![
        single("a peak of 120 nodes", &chains(60, 0), joined, above, 61),
        single("a peak of 121 nodes", &chains(61, 0), large, above, 62),
        run("a step to 120 nodes", &step(116), Ended::new(0, 7, 2), 24),
        run("a step to 121 nodes", &step(117), Ended::new(22, 3, 1), 24),
    ]
}

/// Common instances of 120 and 121 nodes.
fn instances() -> Vec<Case> {
    let theory = |n: usize| {
        let (left, right) = (power("i", n, "x"), power("i", 58, "e"));
        Theory::new(GROUP).equation(&format!("*({left},x) = *(y,{right})"))
    };
    let ended = || Ended::new(20, 2, 0);
    let written = (Order::Neither, UnifyAnswer::Written(123));
    let large = (Order::Neither, UnifyAnswer::TooLarge);
    vec![
        single("an instance of 120 nodes", &theory(1), ended(), written, 4),
        single("an instance of 121 nodes", &theory(2), ended(), large, 5),
    ]
}

/// Symbols of one rank.
fn equal_ranks() -> Vec<Case> {
    let (arithmetic, one) = (theories::unranked_arithmetic(), theories::one_rank);
    let (equal, higher) = (theories::difference(1), theories::difference(2));
    let rules = theories::arithmetic_rules().sides(&[1, 2, 3, 4, 5, 6, 9, 10]);
    let delivered = Ended::complete(55, &rules);
    let (stuck, made) = (|| Ended::new(20, 2, 0), || Ended::new(0, 3, 1));
    let neither = (Order::Neither, UnifyAnswer::None);
    let above = (Order::LeftAbove, UnifyAnswer::None);
    let (first, third) = (one("f(g(x)) = g(x)"), one("f(f(x)) = g(x)"));
    vec![
        run("one rank for + and -", &arithmetic, delivered, 27),
        single("- and + of one rank", &equal, stuck(), neither, 3),
        single("- of a higher rank", &higher, made(), above, 3),
        single("no clause", &one("f(x) = g(x)"), stuck(), neither, 2),
        single("clause 1", &first, made(), above, 3),
        single("clause 3 over two symbols", &third, stuck(), neither, 3),
    ]
}

/// x = x so many times.
pub fn trivial(count: usize) -> Theory {
    Theory::new(GROUP).equations(&vec!["x = x"; count])
}

fn counts() -> Vec<Case> {
    let seventeen = trivial(17).problem(BUDGET);
    vec![
        run("16 equations", &trivial(16), Ended::new(0, 17, 0), 21),
        refused("17 equations", seventeen, 9, 96),
    ]
}

fn budgets() -> Vec<Case> {
    let identical = (Order::Identical, UnifyAnswer::Written(4));
    let above = trivial(1).problem(BUDGET + 1);
    let (settled, spent) = (Ended::new(0, 2, 0), Ended::new(21, BUDGET, 7));
    vec![
        single("budget 1,000,000", &trivial(1), settled, identical, 1),
        refused("budget 1,000,001", above, 8, 9),
        run("1,000,000 units", &theories::countdown(15, 1), spent, 34),
    ]
}
