//! Reading a kept result, a record, over the symbols of a problem.

use crate::fields::{TAG_END, TAG_ENTRY, TAG_PAIR, TAG_RULE, TAG_UNITS};
use crate::problem::{Refusal, Signature};
use crate::reader::Reader;
use crate::run::{ENDS, END_UNORIENTABLE};
use crate::term::Term;
use crate::{MAX_BUDGET, MAX_LOG, MAX_RECORD, MAX_RULES, MAX_RULE_NUMBER};
use std::ops::{Range, RangeInclusive};

/// The number of "against the layout of a record".
pub const MALFORMED: u8 = 13;
const ENTRY_BYTES: usize = 8;
/// Kinds of log entries.
const KINDS: RangeInclusive<u8> = 1..=4;

/// A rule of a record, renamed.
#[derive(Debug)]
pub struct RecordRule {
    /// Where its field begins.
    pub place: usize,
    pub number: u16,
    pub left: Term,
    pub right: Term,
}

/// What a record says, without its log.
#[derive(Debug)]
pub struct Record {
    pub end: u8,
    pub units: u32,
    /// Ascending by number.
    pub rules: Vec<RecordRule>,
}

impl Record {
    /// Reads the record or refuses it with 13.
    pub fn read(bytes: &[u8], signature: &Signature) -> Result<Record, Refusal> {
        if bytes.len() > MAX_RECORD {
            let (number, place) = (MALFORMED, MAX_RECORD);
            return Err(Refusal { number, place });
        }
        Reader::whole(bytes, MALFORMED, |reader| record(reader, signature))
    }
}

fn record(reader: &mut Reader, signature: &Signature) -> Option<Record> {
    let end = reader.field(TAG_END, |reader, contents| end(&reader.bytes[contents]))?;
    let units = reader.field(TAG_UNITS, |reader, contents| units(&reader.bytes[contents]))?;
    let rules = reader.fields(TAG_RULE, MAX_RULES, |reader, contents, before| {
        let before = before.last().map_or(0, |rule: &RecordRule| rule.number);
        rule(reader, contents, before + 1..=MAX_RULE_NUMBER, signature)
    })?;
    reader.fields(TAG_ENTRY, MAX_LOG, |reader, contents, _| {
        entry(&reader.bytes[contents])
    })?;
    if end == END_UNORIENTABLE {
        reader.field(TAG_PAIR, |reader, contents| {
            reader.pair(contents, signature)
        })?;
    }
    Some(Record { end, units, rules })
}

/// A rule whose number is in the range.
pub(crate) fn rule(
    reader: &Reader,
    contents: Range<usize>,
    numbers: RangeInclusive<u16>,
    signature: &Signature,
) -> Option<RecordRule> {
    let (number, sides) = reader.number(contents)?;
    if !numbers.contains(&number) {
        return None;
    }
    let (left, right) = reader.pair(sides, signature)?;
    Some(RecordRule {
        place: reader.place,
        number,
        left,
        right,
    })
}

fn end(contents: &[u8]) -> Option<u8> {
    match contents {
        [end] if ENDS.contains(end) => Some(*end),
        _ => None,
    }
}

fn units(contents: &[u8]) -> Option<u32> {
    let units = u32::from_be_bytes(contents.try_into().ok()?);
    (units <= MAX_BUDGET).then_some(units)
}

/// Of an entry only length and kind are read.
fn entry(contents: &[u8]) -> Option<()> {
    let good = contents.len() == ENTRY_BYTES && KINDS.contains(&contents[0]);
    good.then_some(())
}
