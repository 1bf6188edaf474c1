//! The text settle prints: a line a field, or the refusal.

use crate::calls::{complete, CompleteAnswer};
use crate::fields::split_fields;
use crate::MIN_RESULT;
use std::fmt::Write;

/// What settle prints for a problem.
pub fn settle_text(problem: &[u8]) -> Vec<u8> {
    let mut result = vec![0; MIN_RESULT];
    let mut text = String::new();
    match complete(problem, &mut result) {
        CompleteAnswer::Refused(refusal) => {
            let (number, place) = (refusal.number, refusal.place);
            writeln!(text, "refused {number} at {place}").expect("a string takes all");
        }
        CompleteAnswer::Written(count) => {
            for (tag, contents) in split_fields(&result[..count]) {
                write_field(&mut text, tag, contents);
            }
        }
    }
    text.into_bytes()
}

fn write_field(text: &mut String, tag: u8, contents: &[u8]) {
    write!(text, "{tag:02x} {} ", contents.len()).expect("a string takes all");
    for byte in contents {
        write!(text, "{byte:02x}").expect("a string takes all");
    }
    text.push('\n');
}
