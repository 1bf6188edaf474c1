//! Whole fields of a record exchanged, doubled, dropped or under another tag.

use super::{made, saved_record, with_units, Save};
use crate::generate::random::Random;
use crate::resumptions::Resumption;
use kb_engine::fields::{push_field, split_fields};

/// The tags of a saved record, and some others.
const TAGS: [u8; 11] = [
    0x01, 0x02, 0x03, 0x04, 0x10, 0x12, 0x13, 0x14, 0x20, 0x21, 0x22,
];

pub fn fields(random: &mut Random, save: Save) -> Resumption {
    let record = match random.once_in(3) {
        true => made::checkpoint(random).bytes(),
        false => saved_record(random, save),
    };
    let mut fields: Vec<(u8, &[u8])> = split_fields(&record).collect();
    let (chosen, other) = (random.below(fields.len()), random.below(fields.len()));
    match random.below(6) {
        0 | 1 => fields.swap(chosen, other),
        2 => fields.insert(other, fields[chosen]),
        3 => fields.push(fields[chosen]),
        4 => drop(fields.remove(chosen)),
        _ => fields[chosen].0 = *random.pick(&TAGS),
    }
    let bytes = joined(&fields);
    with_units(random, bytes)
}

/// The bytes of these fields.
pub fn joined(fields: &[(u8, &[u8])]) -> Vec<u8> {
    let mut out = Vec::new();
    for (tag, contents) in fields {
        push_field(&mut out, *tag, contents);
    }
    out
}
