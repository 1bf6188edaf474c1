//! Fields, written and taken apart, and the fields of a result.

use crate::rules::Rule;
use crate::run::{End, Entry, Outcome, PUT_BACK};
use crate::term::Term;
use crate::waiting::Origin;

/// The tag of the end.
pub const TAG_END: u8 = 0x10;
/// The tag of the units.
pub const TAG_UNITS: u8 = 0x11;
/// The tag of a rule.
pub const TAG_RULE: u8 = 0x12;
/// The tag of a log entry.
pub const TAG_ENTRY: u8 = 0x13;
/// The tag of the equation shown with end 20.
pub const TAG_PAIR: u8 = 0x14;
/// The tag of a common instance.
pub const TAG_INSTANCE: u8 = 0x15;

/// Appends a field: tag, length in two bytes, contents.
pub fn push_field(out: &mut Vec<u8>, tag: u8, contents: &[u8]) {
    out.push(tag);
    out.extend((contents.len() as u16).to_be_bytes());
    out.extend(contents);
}

/// The tag and the contents of each field, of bytes that are whole fields.
pub fn split_fields(mut bytes: &[u8]) -> impl Iterator<Item = (u8, &[u8])> {
    std::iter::from_fn(move || {
        let tag = *bytes.first()?;
        let length = u16::from_be_bytes([bytes[1], bytes[2]]) as usize;
        let (contents, next) = bytes[3..].split_at(length);
        bytes = next;
        Some((tag, contents))
    })
}

/// The entries of a result whose pair was put back: kind, numbers, position.
pub fn put_back_entries(result: &[u8]) -> impl Iterator<Item = &[u8]> {
    let entries = split_fields(result).filter(|(tag, _)| *tag == TAG_ENTRY);
    let put_back = entries.map(|(_, entry)| entry.strip_suffix(&PUT_BACK.to_be_bytes()));
    put_back.flatten()
}

/// The result bytes of a run.
pub fn outcome_bytes(outcome: &Outcome) -> Vec<u8> {
    let mut out = Vec::new();
    push_field(&mut out, TAG_END, &[outcome.end.number()]);
    push_field(&mut out, TAG_UNITS, &outcome.units.to_be_bytes());
    for rule in outcome.state.rules.iter() {
        push_field(&mut out, TAG_RULE, &rule_bytes(rule));
    }
    for entry in &outcome.state.log {
        push_field(&mut out, TAG_ENTRY, &entry_bytes(entry));
    }
    if let End::Unorientable(left, right) = &outcome.end {
        let mut contents = Vec::new();
        left.write(&mut contents);
        right.write(&mut contents);
        push_field(&mut out, TAG_PAIR, &contents);
    }
    out
}

/// The result bytes of a unification.
pub fn instance_bytes(instance: &Term) -> Vec<u8> {
    let mut contents = Vec::new();
    instance.write(&mut contents);
    let mut out = Vec::new();
    push_field(&mut out, TAG_INSTANCE, &contents);
    out
}

/// Number, left side, right side.
pub fn rule_bytes(rule: &Rule) -> Vec<u8> {
    let mut contents = rule.number.to_be_bytes().to_vec();
    rule.left.write(&mut contents);
    rule.right.write(&mut contents);
    contents
}

/// Kind, two numbers, position.
pub fn origin_bytes(origin: Origin) -> [u8; 6] {
    let (kind, first, second, position) = match origin {
        Origin::WaitingInput { equation } => (1, equation, 0, 0),
        Origin::WaitingRule { rule } => (2, rule, 0, 0),
        Origin::ScannedInput { equation } => (3, equation, 0, 0),
        Origin::Overlap {
            inner,
            outer,
            position,
        } => (4, inner, outer, position),
    };
    let [a, b] = u16::to_be_bytes(first);
    let [c, d] = u16::to_be_bytes(second);
    [kind, a, b, c, d, position]
}

/// The origin, then the rule made.
pub fn entry_bytes(entry: &Entry) -> [u8; 8] {
    let [kind, a, b, c, d, position] = origin_bytes(entry.origin);
    let [high, low] = entry.made.number().to_be_bytes();
    [kind, a, b, c, d, position, high, low]
}
