//! Long chains of i, whole and damaged at every place, with what the calls
//! must answer: as sides of an equation, as sides of a record's rule, and by
//! themselves.
//!
//! The answers follow from where the damage is, so that every engine can be
//! held to them. The symbols are those of groups: e, i and *.

use crate::fixed::{refused, Case, Ended};
use crate::kept::Kept;
use crate::notation::Theory;
use crate::pairs::{self, Pair};
use crate::questions::{self, Question};
use crate::theories::GROUP;
use kb_engine::calls::{CompareAnswer, UnifyAnswer};
use kb_engine::lower::Which;
use kb_engine::order::Order;
use kb_engine::problem::Refusal;
use kb_engine::{DecideAnswer, Verdict};
use std::cmp::Ordering;
use std::fmt;

/// Most nodes of a side, written out like the answers.
const MOST: usize = 120;
const BUDGET: u32 = 9;
/// Where the equation's field begins, and its nodes.
const FIELD: usize = 16;
const NODES: usize = FIELD + 3;
/// Where the rule's field begins in a record, and its nodes.
const RULE: usize = 11;
const RULE_NODES: usize = RULE + 5;

const I: u8 = 1;
const X: u8 = 0x80;
/// A constant, and another variable.
const LEAVES: [u8; 2] = [0, 0x81];
const BINARY: u8 = 2;
/// The byte behind the last symbol, and those around the variables.
const NO_NODES: [u8; 4] = [3, 0x7f, 0x90, 0xff];

/// Nodes of the two sides.
#[derive(Clone, Copy, Debug)]
struct Sides {
    left: usize,
    right: usize,
}

/// Long chains in both sides, in one of them, and two of 120 nodes together.
const ALL_SIDES: [Sides; 4] = [
    sides(MOST, MOST),
    sides(MOST, 1),
    sides(1, MOST),
    sides(MOST / 2, MOST / 2),
];

const fn sides(left: usize, right: usize) -> Sides {
    Sides { left, right }
}

/// i over x, so many nodes.
fn chain(nodes: usize) -> Vec<u8> {
    [vec![I; nodes - 1], vec![X]].concat()
}

impl Sides {
    fn nodes(self) -> Vec<u8> {
        [chain(self.left), chain(self.right)].concat()
    }
}

impl fmt::Display for Sides {
    fn fmt(&self, f: &mut fmt::Formatter) -> fmt::Result {
        write!(f, "chains of {} and {} nodes", self.left, self.right)
    }
}

/// A change of some nodes at one place.
#[derive(Clone, Copy, Debug)]
enum Change {
    Cut(usize),
    Other(usize, u8),
}

impl Change {
    fn of(self, mut nodes: Vec<u8>) -> Vec<u8> {
        match self {
            Change::Cut(place) => nodes.truncate(place),
            Change::Other(place, byte) => nodes[place] = byte,
        }
        nodes
    }
}

impl fmt::Display for Change {
    fn fmt(&self, f: &mut fmt::Formatter) -> fmt::Result {
        match self {
            Change::Cut(place) => write!(f, "cut before {place}"),
            Change::Other(place, byte) => write!(f, "{byte:02x} at {place}"),
        }
    }
}

/// Each place: cut before it, a node of another arity there, and no node.
fn changes(nodes: &[u8]) -> Vec<Change> {
    let at = |(place, node): (usize, &u8)| {
        let leaves: &[u8] = match *node {
            I => &LEAVES,
            _ => &[],
        };
        let bytes = [leaves, &[BINARY], &NO_NODES].concat();
        let others = bytes.into_iter().map(move |b| Change::Other(place, b));
        std::iter::once(Change::Cut(place)).chain(others)
    };
    nodes.iter().enumerate().flat_map(at).collect()
}

/// The problems, with what the four calls must answer.
pub fn cases() -> Vec<Case> {
    let mut list: Vec<Case> = ALL_SIDES.into_iter().map(whole).collect();
    for sides in ALL_SIDES {
        let changes = changes(&sides.nodes()).into_iter();
        list.extend(changes.map(|change| damaged(sides, change)));
        let places = 0..sides.left + sides.right;
        list.extend(places.map(|place| cut_problem(sides, place)));
    }
    list
}

fn problem(nodes: Vec<u8>) -> Vec<u8> {
    Theory::new(GROUP).raw_equation(nodes).problem(BUDGET)
}

/// The part at a position of the left side goes to the chain's end; at the
/// positions behind there is none.
fn whole(sides: Sides) -> Case {
    let Sides { left, right } = sides;
    let part = |position| match position < left {
        true => (position, NODES + position..NODES + left),
        false => (position, 0..0),
    };
    let (order, unify) = match left.cmp(&right) {
        Ordering::Less => (Order::RightAbove, UnifyAnswer::None),
        Ordering::Equal => (Order::Identical, UnifyAnswer::Written(3 + left)),
        Ordering::Greater => (Order::LeftAbove, UnifyAnswer::None),
    };
    // Settled, or made a rule whose first overlap has a peak of 121 nodes.
    let ended = match order {
        Order::Identical => Ended::new(0, 2, 0),
        _ => Ended::new(22, 2, 1),
    };
    Case {
        name: sides.to_string(),
        problem: problem(sides.nodes()),
        complete: Ok(ended),
        compare: CompareAnswer::Compared(order),
        unify,
        parts: (0..=MOST + 1).map(part).collect(),
    }
}

/// The refusal of a field whose nodes are changed: its number, and its place
/// counted from the first node.
fn refusal(Sides { left, right }: Sides, change: Change) -> (u8, usize) {
    match change {
        // The field ends inside a term, or where the right side is due.
        Change::Cut(place) => (10, place),
        Change::Other(place, byte) if NO_NODES.contains(&byte) => (10, place),
        // A binary node in the left side takes the right side as an argument.
        Change::Other(place, BINARY) if place + 1 < left && left + right > MOST => (11, 0),
        Change::Other(_, BINARY) => (10, left + right),
        // A leaf in the left side: the rest of the chain is the right side.
        Change::Other(place, _) if place < left => (10, left),
        Change::Other(place, _) => (10, place + 1),
    }
}

fn damaged(sides: Sides, change: Change) -> Case {
    let (number, place) = refusal(sides, change);
    let problem = problem(change.of(sides.nodes()));
    let parts = (0..=MOST)
        .step_by(MOST / 8)
        .map(|position| (position, 0..0));
    Case {
        parts: parts.collect(),
        ..refused(
            &format!("{sides}, {change}"),
            problem,
            number,
            NODES + place,
        )
    }
}

/// The problem ends at the place, the field's length is as before.
fn cut_problem(sides: Sides, place: usize) -> Case {
    let mut problem = problem(sides.nodes());
    problem.truncate(NODES + place);
    let name = format!("{sides}, the problem cut before {place}");
    refused(&name, problem, 3, FIELD)
}

/// Records with a rule between two chains, asked about x and x: the left side
/// of a whole one must be above, and a damaged one is a bad field.
pub fn questions() -> Vec<questions::Case> {
    let (falling, rising) = (sides(MOST, 1), sides(1, MOST));
    let same = DecideAnswer::Decided(Verdict::Same, 0);
    let mut list = vec![
        question(falling, "", record(falling.nodes()), same),
        question(rising, "", record(rising.nodes()), refused_at_rule(15)),
    ];
    for sides in [falling, rising] {
        let bad = |what: &str, record| question(sides, what, record, refused_at_rule(13));
        for change in changes(&sides.nodes()) {
            let nodes = change.of(sides.nodes());
            list.push(bad(&format!(", {change}"), record(nodes)));
        }
        for place in 0..sides.left + sides.right {
            let mut record = record(sides.nodes());
            record.truncate(RULE_NODES + place);
            list.push(bad(&format!(", the record cut before {place}"), record));
        }
    }
    list
}

/// End 0 with one rule of these nodes.
fn record(nodes: Vec<u8>) -> Vec<u8> {
    Kept::complete(vec![nodes]).bytes()
}

fn refused_at_rule(number: u8) -> DecideAnswer {
    let place = RULE;
    DecideAnswer::Refused(Refusal { number, place })
}

fn question(sides: Sides, what: &str, record: Vec<u8>, answer: DecideAnswer) -> questions::Case {
    let question = Question::new(problem(vec![X, X]), record);
    questions::Case::new(&format!("a rule of {sides}{what}"), question, answer)
}

/// A damaged chain and a whole one: lower refuses.
pub fn pairs() -> Vec<pairs::Case> {
    let pair = |name: String, first, second| pairs::Case {
        name,
        pair: Pair {
            symbols: Theory::new(GROUP).symbol_field(),
            first,
            second,
        },
        answer: Which::Refused,
    };
    let nodes = chain(MOST);
    let both_ways = |change: Change| {
        let bad = change.of(nodes.clone());
        let first = pair(format!("first chain, {change}"), bad.clone(), nodes.clone());
        let second = pair(format!("second chain, {change}"), nodes.clone(), bad);
        [first, second]
    };
    changes(&nodes).into_iter().flat_map(both_ways).collect()
}
