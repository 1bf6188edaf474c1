//! Reading a record field by field.
//!
//! Whatever is wrong with a field, the refusal's place is its first byte; where
//! a field is due and the record ends, that is the record's length. So the
//! reader's place, which moves behind a field only when all of it is right, is
//! the place of the refusal.

use crate::problem::{open_field, read_equation, Refusal, Signature};
use crate::term::{Term, VARIABLE_BASE};
use std::ops::Range;

pub struct Reader<'r> {
    pub bytes: &'r [u8],
    /// First byte of the field that is read next.
    pub place: usize,
}

impl<'r> Reader<'r> {
    /// What the given function reads of the whole record, or the refusal.
    pub fn whole<T>(
        bytes: &'r [u8],
        number: u8,
        read: impl FnOnce(&mut Reader<'r>) -> Option<T>,
    ) -> Result<T, Refusal> {
        let mut reader = Reader { bytes, place: 0 };
        let value = read(&mut reader);
        let value = value.filter(|_| reader.place == bytes.len());
        let place = reader.place;
        value.ok_or(Refusal { number, place })
    }

    /// Reads the field that is due here, the range of its contents by the
    /// given function.
    pub fn field<T>(
        &mut self,
        tag: u8,
        read: impl FnOnce(&Self, Range<usize>) -> Option<T>,
    ) -> Option<T> {
        let contents = open_field(self.bytes, self.place, tag).ok()?;
        let next = contents.end;
        let value = read(self, contents)?;
        self.place = next;
        Some(value)
    }

    /// Reads the fields of a tag that stand here, up to the most there may
    /// be; a further one is not due. The function is given those before.
    pub fn fields<T>(
        &mut self,
        tag: u8,
        most: usize,
        read: impl Fn(&Self, Range<usize>, &[T]) -> Option<T>,
    ) -> Option<Vec<T>> {
        let mut list = Vec::new();
        while list.len() < most && self.bytes.get(self.place) == Some(&tag) {
            let value = self.field(tag, |reader, contents| read(reader, contents, &list))?;
            list.push(value);
        }
        Some(list)
    }

    /// Two terms that fill the range, renamed as a pair.
    pub fn pair(&self, range: Range<usize>, signature: &Signature) -> Option<(Term, Term)> {
        let sides = read_equation(self.bytes, self.place, &range, signature).ok()?;
        let renamed = is_renamed(&self.bytes[range]);
        renamed.then(|| sides.sides(self.bytes, signature))
    }

    /// A number in two bytes, and what is behind it.
    pub fn number(&self, range: Range<usize>) -> Option<(u16, Range<usize>)> {
        let (two, _) = self.bytes[range.clone()].split_first_chunk()?;
        Some((u16::from_be_bytes(*two), range.start + 2..range.end))
    }
}

/// Whether the variables of well-formed terms are numbered 0, 1, 2 .. by
/// first occurrence.
fn is_renamed(terms: &[u8]) -> bool {
    let mut used = 0;
    for variable in terms.iter().filter_map(|b| b.checked_sub(VARIABLE_BASE)) {
        if variable > used {
            return false;
        }
        used = used.max(variable + 1);
    }
    true
}
