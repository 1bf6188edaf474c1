//! Records put together field by field, for tests, benchmarks and generators.
//!
//! Nothing is checked here: the reader of records refuses what is wrong.

use crate::notation::Theory;
use kb_engine::fields::{push_field, split_fields};
use kb_engine::fields::{TAG_END, TAG_ENTRY, TAG_PAIR, TAG_RULE, TAG_UNITS};
use kb_engine::run::END_COMPLETE;

/// The fields of a record.
#[derive(Clone, Debug, Default, PartialEq, Eq)]
pub struct Kept {
    pub end: u8,
    pub units: u32,
    /// Number, then both sides in one byte string.
    pub rules: Vec<(u16, Vec<u8>)>,
    pub entries: Vec<Vec<u8>>,
    /// Both sides of field 14.
    pub pair: Option<Vec<u8>>,
}

impl Kept {
    /// End 0 with these rules, numbered from 1, and no log.
    pub fn complete(rules: Vec<Vec<u8>>) -> Kept {
        Kept {
            end: END_COMPLETE,
            rules: (1..).zip(rules).collect(),
            ..Kept::default()
        }
    }

    /// End 0 with the equations of a theory as rules.
    pub fn of_theory(theory: &Theory) -> Kept {
        Kept::complete(theory.all_sides())
    }

    /// The fields of a result.
    pub fn of_result(result: &[u8]) -> Kept {
        let mut kept = Kept::default();
        for (tag, contents) in split_fields(result) {
            match (tag, contents) {
                (TAG_END, [end]) => kept.end = *end,
                (TAG_UNITS, [a, b, c, d]) => kept.units = u32::from_be_bytes([*a, *b, *c, *d]),
                (TAG_RULE, [high, low, sides @ ..]) => {
                    let number = u16::from_be_bytes([*high, *low]);
                    kept.rules.push((number, sides.to_vec()));
                }
                (TAG_ENTRY, entry) => kept.entries.push(entry.to_vec()),
                (TAG_PAIR, sides) => kept.pair = Some(sides.to_vec()),
                (other, _) => unreachable!("a result has no such field {other:02x}"),
            }
        }
        kept
    }

    /// The record's bytes.
    pub fn bytes(&self) -> Vec<u8> {
        let mut out = Vec::new();
        push_field(&mut out, TAG_END, &[self.end]);
        push_field(&mut out, TAG_UNITS, &self.units.to_be_bytes());
        for (number, sides) in &self.rules {
            let contents = [&number.to_be_bytes(), sides.as_slice()].concat();
            push_field(&mut out, TAG_RULE, &contents);
        }
        for entry in &self.entries {
            push_field(&mut out, TAG_ENTRY, entry);
        }
        if let Some(sides) = &self.pair {
            push_field(&mut out, TAG_PAIR, sides);
        }
        out
    }
}
