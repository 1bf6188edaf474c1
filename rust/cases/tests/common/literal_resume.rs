//! The form of a saved record and the run from it word for word, on the literal
//! definitions.

use super::literal::{Bytes, Rule, Symbols};
use super::literal_decide::{fields, number, Field};
use super::literal_run::{run_from, State, Waiting, ROUNDS};
use super::Fields;
use kb_engine::Refusal;
use std::collections::HashMap;

/// The fields that a resumed run should leave, and its saved record, empty if
/// there is none.
pub type Resumed = (Fields, Bytes);

/// What resume_saving must leave or answer, `None` where this cannot say.
pub fn resume(record: &[u8], budget: u64) -> Option<Result<Resumed, Refusal>> {
    let refused = |number, place| Some(Err(Refusal { number, place }));
    if record.len() > 49_152 {
        return refused(2, 49_152);
    }
    let fields = fields(record);
    let symbols = fields.first().and_then(symbols);
    let symbols = symbols.unwrap_or(Symbols(Vec::new()));
    for (i, field) in fields.iter().enumerate() {
        if !symbols.may_follow(&fields[..i], field) {
            return refused(16, field.start);
        }
    }
    if fields.last().is_none_or(|field| field.tag != 0x22) {
        return refused(16, record.len());
    }
    if budget > 1_000_000 {
        return refused(17, 0);
    }
    let equations = contents(&fields, 0x03).map(|sides| symbols.two_terms(sides).unwrap());
    let equations: Vec<(Bytes, Bytes)> = equations.collect();
    let state = state(&symbols, &fields);
    let problem = fields.iter().take_while(|field| field.tag < 0x20);
    let problem = record[..problem.map(|field| 3 + whole(field).len()).sum()].to_vec();
    let (left, state) = run_from(ROUNDS, symbols, budget as u32, &equations, state)?;
    let saved = match left.end {
        21 => saved(problem, &state),
        _ => Vec::new(),
    };
    Some(Ok((left, saved)))
}

fn whole<'r>(field: &Field<'r>) -> &'r [u8] {
    field.contents.expect("a good field is whole")
}

/// The contents of the fields of a tag.
fn contents<'f>(fields: &'f [Field], tag: u8) -> impl Iterator<Item = &'f [u8]> {
    fields.iter().filter(move |f| f.tag == tag).map(whole)
}

/// 1 to 16 symbols, arity 0 to 4 and rank 0 to 15 each.
fn symbols(field: &Field) -> Option<Symbols> {
    let table = field.contents?;
    let limits = |(place, byte): (usize, &u8)| *byte <= [4, 15][place % 2];
    let good = (1..=16).any(|count| table.len() == 2 * count);
    let good = good && field.tag == 0x01 && table.iter().enumerate().all(limits);
    good.then(|| Symbols(table.chunks(2).map(|s| (s[0], s[1])).collect()))
}

/// Kind 1 to 4, and the second number and the position 0 but for kind 4.
fn is_origin(six: &[u8]) -> bool {
    (1..=3).contains(&six[0]) && six[3..6] == [0, 0, 0] || six[0] == 4
}

/// The next rule number that good fields give.
fn next(fields: &[Field]) -> usize {
    contents(fields, 0x20).next().map_or(1, number)
}

impl Symbols {
    /// Two terms and nothing behind, of at most 120 nodes.
    fn two_terms(&self, bytes: &[u8]) -> Option<(Bytes, Bytes)> {
        let left = self.read(bytes, 0)?;
        let right = self.read(bytes, left)?;
        let good = left <= 120 && right - left <= 120 && right == bytes.len();
        good.then(|| (bytes[..left].to_vec(), bytes[left..].to_vec()))
    }

    /// Whether a field may stand behind these, which are good.
    fn may_follow(&self, before: &[Field], field: &Field) -> bool {
        let Some(bytes) = field.contents else {
            return false;
        };
        let count = |tag| contents(before, tag).count();
        let follows = |tags: &[u8]| tags.contains(&before.last().map_or(0, |f| f.tag));
        match field.tag {
            0x01 => follows(&[0]) && symbols(field).is_some(),
            0x03 => follows(&[1, 3]) && count(0x03) < 16 && self.two_terms(bytes).is_some(),
            0x20 => follows(&[1, 3]) && bytes.len() == 2 && (1..=513).contains(&number(bytes)),
            0x12 => follows(&[0x20, 0x12]) && count(0x12) < 32 && self.is_rule(before, bytes),
            0x21 => {
                let together = count(0x12) + count(0x21);
                follows(&[0x20, 0x12, 0x21]) && together < 33 && self.may_wait(bytes)
            }
            0x13 => {
                let good = bytes.len() == 8 && is_origin(bytes);
                follows(&[0x20, 0x12, 0x21, 0x13]) && count(0x13) < 512 && good
            }
            0x22 => {
                let enough = count(0x13) + 1 >= next(before);
                let good = bytes.len() == 1 && number(bytes) <= count(0x21);
                follows(&[0x20, 0x12, 0x21, 0x13]) && enough && good
            }
            _ => false,
        }
    }

    fn is_rule(&self, before: &[Field], bytes: &[u8]) -> bool {
        let of = |bytes: &[u8]| number(&bytes[..2]);
        let last = contents(before, 0x12).last().map_or(0, of);
        let numbers = last + 1..next(before);
        let above = |(l, r): (Bytes, Bytes)| self.above(&l, &r, &mut HashMap::new());
        bytes.len() > 2 && numbers.contains(&of(bytes)) && self.pair(&bytes[2..]).is_some_and(above)
    }

    fn may_wait(&self, bytes: &[u8]) -> bool {
        bytes.len() > 6 && is_origin(bytes) && self.pair(&bytes[6..]).is_some()
    }
}

/// The state that good fields hold: the last of those that wait were put back.
fn state(symbols: &Symbols, fields: &[Field]) -> State {
    let rules = contents(fields, 0x12).map(|bytes| {
        let (left, right) = symbols.pair(&bytes[2..]).unwrap();
        let number = number(&bytes[..2]);
        Rule {
            number,
            left,
            right,
        }
    });
    let waits = contents(fields, 0x21).count();
    let put_back = contents(fields, 0x22).next().map_or(0, number);
    let waiting = contents(fields, 0x21).enumerate().map(|(place, bytes)| {
        let (left, right) = symbols.pair(&bytes[6..]).unwrap();
        Waiting {
            left,
            right,
            origin: bytes[..6].to_vec(),
            put_back: place + put_back >= waits,
        }
    });
    State {
        rules: rules.collect(),
        waiting: waiting.collect(),
        log: contents(fields, 0x13).map(<[u8]>::to_vec).collect(),
        made: next(fields) as u16 - 1,
    }
}

/// The record of a run with these first fields that stopped in this state.
fn saved(problem: Bytes, state: &State) -> Bytes {
    let mut out = problem;
    let mut put = |tag: u8, parts: &[&[u8]]| {
        let contents = parts.concat();
        let (high, low) = (contents.len() / 256, contents.len() % 256);
        out.extend([tag, high as u8, low as u8]);
        out.extend(contents);
    };
    put(0x20, &[&(state.made + 1).to_be_bytes()]);
    for rule in &state.rules {
        let number = (rule.number as u16).to_be_bytes();
        put(0x12, &[&number, &rule.left, &rule.right]);
    }
    for equation in &state.waiting {
        put(0x21, &[&equation.origin, &equation.left, &equation.right]);
    }
    for entry in &state.log {
        put(0x13, &[entry]);
    }
    let put_back = state.waiting.iter().filter(|equation| equation.put_back);
    put(0x22, &[&[put_back.count() as u8]]);
    out
}
