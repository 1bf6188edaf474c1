//! The saved record of a run that was stopped by its budget: what a run goes on
//! from.
//!
//! Its fields are the problem's symbols and equations, the next rule number,
//! the live rules, the waiting equations with their origins, the log, and how
//! many equations were put back since the last change. Every limit of a field
//! is tested when the field is read.

use crate::fields::{entry_bytes, origin_bytes, push_field, rule_bytes};
use crate::fields::{TAG_ENTRY, TAG_RULE};
use crate::order::above;
use crate::problem::{read_equation, read_symbols, EquationField, Problem, Refusal, Signature};
use crate::problem::{TAG_EQUATION, TAG_SYMBOLS};
use crate::reader::Reader;
use crate::record;
use crate::rules::{Rule, RuleSet};
use crate::run::{Entry, Made, State};
use crate::waiting::{Equation, Origin, Waiting};
use crate::{MAX_EQUATIONS, MAX_LOG, MAX_RULES, MAX_RULE_NUMBER, MAX_SAVED, MAX_TOGETHER};
use std::ops::Range;
use std::rc::Rc;

/// The tag of the next rule number.
pub const TAG_NEXT: u8 = 0x20;
/// The tag of a waiting equation.
pub const TAG_WAITING: u8 = 0x21;
/// The tag of the number of equations put back.
pub const TAG_PUT_BACK: u8 = 0x22;

/// The number of "against the form and limits of a saved record".
pub const MALFORMED: u8 = 16;

/// The saved record of a run of the problem that stopped in this state.
pub fn write(problem: &Problem, state: &State) -> Vec<u8> {
    let mut out = Vec::new();
    push_field(&mut out, TAG_SYMBOLS, &problem.signature.bytes());
    for equation in &problem.equations {
        let sides = equation.left.start..equation.right.end;
        push_field(&mut out, TAG_EQUATION, &problem.bytes[sides]);
    }
    push_field(&mut out, TAG_NEXT, &state.next.to_be_bytes());
    for rule in state.rules.iter() {
        push_field(&mut out, TAG_RULE, &rule_bytes(rule));
    }
    for equation in state.waiting.iter() {
        push_field(&mut out, TAG_WAITING, &waiting_bytes(equation));
    }
    for entry in &state.log {
        push_field(&mut out, TAG_ENTRY, &entry_bytes(entry));
    }
    let put_back = state.waiting.put_back_since() as u8;
    push_field(&mut out, TAG_PUT_BACK, &[put_back]);
    out
}

/// Origin, left side, right side.
fn waiting_bytes(equation: &Equation) -> Vec<u8> {
    let mut contents = origin_bytes(equation.origin).to_vec();
    equation.left.write(&mut contents);
    equation.right.write(&mut contents);
    contents
}

/// Reads a saved record, or refuses it with 2 or 16: the problem, its budget
/// still 0, and the state.
pub fn read(bytes: &[u8]) -> Result<(Problem<'_>, State), Refusal> {
    if bytes.len() > MAX_SAVED {
        let (number, place) = (2, MAX_SAVED);
        return Err(Refusal { number, place });
    }
    Reader::whole(bytes, MALFORMED, |reader| {
        let problem = problem(reader)?;
        let state = state(reader, &problem.signature)?;
        Some((problem, state))
    })
}

fn problem<'r>(reader: &mut Reader<'r>) -> Option<Problem<'r>> {
    let (signature, next) = read_symbols(reader.bytes).ok()?;
    reader.place = next;
    let equations = equations(reader, &signature)?;
    Some(Problem {
        bytes: reader.bytes,
        signature,
        budget: 0,
        equations,
    })
}

fn equations(reader: &mut Reader, signature: &Signature) -> Option<Vec<EquationField>> {
    reader.fields(TAG_EQUATION, MAX_EQUATIONS, |reader, contents, _| {
        read_equation(reader.bytes, reader.place, &contents, signature).ok()
    })
}

fn state(reader: &mut Reader, signature: &Signature) -> Option<State> {
    let next = reader.field(TAG_NEXT, next_number)?;
    let rules = rules(reader, next, signature)?;
    let waiting = waiting(reader, MAX_TOGETHER - rules.len(), signature)?;
    let log = log(reader, next)?;
    let put_back = reader.field(TAG_PUT_BACK, |reader, contents| {
        match reader.bytes[contents] {
            [count] if usize::from(count) <= waiting.len() => Some(count),
            _ => None,
        }
    })?;
    Some(State {
        rules: RuleSet::new(rules),
        waiting: Waiting::resumed(waiting, put_back),
        log,
        next,
    })
}

fn next_number(reader: &Reader, contents: Range<usize>) -> Option<u16> {
    let (next, behind) = reader.number(contents)?;
    let good = (1..=MAX_RULE_NUMBER + 1).contains(&next) && behind.is_empty();
    good.then_some(next)
}

/// The live rules: their numbers ascend and are below the next one.
fn rules(reader: &mut Reader, next: u16, signature: &Signature) -> Option<Vec<Rc<Rule>>> {
    reader.fields(TAG_RULE, MAX_RULES, |reader, contents, before| {
        let before = before.last().map_or(0, |rule: &Rc<Rule>| rule.number);
        let rule = record::rule(reader, contents, before + 1..=next - 1, signature)?;
        let good = above(&rule.left, &rule.right, signature);
        good.then(|| Rc::new(Rule::new(rule.number, rule.left, rule.right)))
    })
}

fn waiting(reader: &mut Reader, most: usize, signature: &Signature) -> Option<Vec<Equation>> {
    reader.fields(TAG_WAITING, most, |reader, contents, _| {
        let (six, _) = reader.bytes[contents.clone()].split_first_chunk()?;
        let origin = origin(*six)?;
        let sides = contents.start + six.len()..contents.end;
        let (left, right) = reader.pair(sides, signature)?;
        Some(Equation {
            left,
            right,
            origin,
        })
    })
}

/// The log. Each rule made has an entry: further ones are due where fewer
/// stand.
fn log(reader: &mut Reader, next: u16) -> Option<Vec<Entry>> {
    let log = reader.fields(TAG_ENTRY, MAX_LOG, |reader, contents, _| {
        entry(&reader.bytes[contents])
    })?;
    (log.len() + 1 >= next.into()).then_some(log)
}

/// A log entry: its origin, then the rule made, which may be any.
fn entry(contents: &[u8]) -> Option<Entry> {
    let (six, made) = contents.split_first_chunk()?;
    let made = u16::from_be_bytes(made.try_into().ok()?);
    Some(Entry {
        origin: origin(*six)?,
        made: Made::of_number(made),
    })
}

/// The first number may be any; the second and the position are 0 unless the
/// kind is 4.
fn origin([kind, a, b, c, d, position]: [u8; 6]) -> Option<Origin> {
    let (first, second) = (u16::from_be_bytes([a, b]), u16::from_be_bytes([c, d]));
    match (kind, second, position) {
        (1, 0, 0) => Some(Origin::WaitingInput { equation: first }),
        (2, 0, 0) => Some(Origin::WaitingRule { rule: first }),
        (3, 0, 0) => Some(Origin::ScannedInput { equation: first }),
        (4, outer, position) => Some(Origin::Overlap {
            inner: first,
            outer,
            position,
        }),
        _ => None,
    }
}
