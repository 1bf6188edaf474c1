//! Saved records put together field by field, for tests, benchmarks and
//! generators.
//!
//! Nothing is checked here: the reader of saved records refuses what is wrong.

use crate::notation::Theory;
use kb_engine::checkpoint::{TAG_NEXT, TAG_PUT_BACK, TAG_WAITING};
use kb_engine::fields::{push_field, TAG_ENTRY, TAG_RULE};
use kb_engine::problem::{TAG_EQUATION, TAG_SYMBOLS};

/// The fields of a saved record.
#[derive(Clone, Debug, Default, PartialEq, Eq)]
pub struct Checkpoint {
    /// Arity and rank of each symbol.
    pub symbols: Vec<u8>,
    /// Both sides in one byte string.
    pub equations: Vec<Vec<u8>>,
    pub next: u16,
    /// Number, then both sides in one byte string.
    pub rules: Vec<(u16, Vec<u8>)>,
    /// Origin and both sides in one byte string.
    pub waiting: Vec<Vec<u8>>,
    pub entries: Vec<Vec<u8>>,
    pub put_back: u8,
}

impl Checkpoint {
    /// The first state of a theory whose equations are renamed.
    pub fn of_theory(theory: &Theory) -> Checkpoint {
        let waits = |(number, sides): (u8, &Vec<u8>)| waiting([1, 0, number, 0, 0, 0], sides);
        let equations = theory.all_sides();
        Checkpoint {
            symbols: theory.symbol_field()[3..].to_vec(),
            next: 1,
            waiting: (1..).zip(&equations).map(waits).collect(),
            equations,
            ..Checkpoint::default()
        }
    }

    /// The fields of a record, none if it is not made of such fields in their
    /// order.
    pub fn of_record(record: &[u8]) -> Option<Checkpoint> {
        let (mut checkpoint, mut rest) = (Checkpoint::default(), record);
        while let Some((&[tag, high, low], behind)) = rest.split_first_chunk() {
            let length = u16::from_be_bytes([high, low]);
            let (contents, behind) = behind.split_at_checked(length.into())?;
            checkpoint.add(tag, contents)?;
            rest = behind;
        }
        (checkpoint.bytes() == record).then_some(checkpoint)
    }

    fn add(&mut self, tag: u8, contents: &[u8]) -> Option<()> {
        match (tag, contents) {
            (TAG_SYMBOLS, symbols) => self.symbols = symbols.to_vec(),
            (TAG_EQUATION, sides) => self.equations.push(sides.to_vec()),
            (TAG_NEXT, [high, low]) => self.next = u16::from_be_bytes([*high, *low]),
            (TAG_RULE, [high, low, sides @ ..]) => {
                let number = u16::from_be_bytes([*high, *low]);
                self.rules.push((number, sides.to_vec()));
            }
            (TAG_WAITING, equation) => self.waiting.push(equation.to_vec()),
            (TAG_ENTRY, entry) => self.entries.push(entry.to_vec()),
            (TAG_PUT_BACK, [count]) => self.put_back = *count,
            _ => return None,
        }
        Some(())
    }

    /// The record's bytes.
    pub fn bytes(&self) -> Vec<u8> {
        let mut out = Vec::new();
        push_field(&mut out, TAG_SYMBOLS, &self.symbols);
        for sides in &self.equations {
            push_field(&mut out, TAG_EQUATION, sides);
        }
        push_field(&mut out, TAG_NEXT, &self.next.to_be_bytes());
        for (number, sides) in &self.rules {
            let contents = [&number.to_be_bytes(), sides.as_slice()].concat();
            push_field(&mut out, TAG_RULE, &contents);
        }
        for equation in &self.waiting {
            push_field(&mut out, TAG_WAITING, equation);
        }
        for entry in &self.entries {
            push_field(&mut out, TAG_ENTRY, entry);
        }
        push_field(&mut out, TAG_PUT_BACK, &[self.put_back]);
        out
    }
}

/// A waiting equation of this origin.
pub fn waiting(origin: [u8; 6], sides: &[u8]) -> Vec<u8> {
    [&origin[..], sides].concat()
}
