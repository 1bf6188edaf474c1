//! The layout of a record and the question of it word for word, on the
//! literal definitions.

use super::literal::{rename, Bytes, Rule, Symbols};
use kb_engine::{DecideAnswer, Refusal, Verdict};
use std::collections::HashMap;

/// A term to the next one by some rules, none if none matches.
pub type Step<'s> = &'s mut dyn FnMut(&Symbols, &[Rule], &[u8]) -> Option<Bytes>;

/// A field of a record, its contents none if the record ends before it does.
pub struct Field<'r> {
    pub start: usize,
    pub tag: u8,
    pub contents: Option<&'r [u8]>,
}

/// All fields up to the first that is cut.
pub fn fields(record: &[u8]) -> Vec<Field<'_>> {
    let (mut list, mut start) = (Vec::new(), 0);
    while start < record.len() {
        let header = record.get(start..start + 3);
        let length = header.map(|h| h[1] as usize * 256 + h[2] as usize);
        let contents = length.and_then(|n| record.get(start + 3..start + 3 + n));
        list.push(Field {
            start,
            tag: record[start],
            contents,
        });
        start += contents.map_or(record.len(), |c| 3 + c.len());
    }
    list
}

pub fn number(bytes: &[u8]) -> usize {
    bytes.iter().fold(0, |n, b| 256 * n + *b as usize)
}

fn refused(number: u8, place: usize) -> DecideAnswer {
    DecideAnswer::Refused(Refusal { number, place })
}

impl Symbols {
    /// The end of the term that begins at p, if one does.
    pub fn read(&self, bytes: &[u8], p: usize) -> Option<usize> {
        let byte = *bytes.get(p)?;
        if (0x80..=0x8f).contains(&byte) {
            return Some(p + 1);
        }
        let (arity, _) = self.0.get(byte as usize)?;
        (0..*arity).try_fold(p + 1, |p, _| self.read(bytes, p))
    }

    /// Two terms and nothing behind, of at most 120 nodes, renamed as a pair.
    pub fn pair(&self, bytes: &[u8]) -> Option<(Bytes, Bytes)> {
        let left = self.read(bytes, 0)?;
        let right = self.read(bytes, left)?;
        let pair = (bytes[..left].to_vec(), bytes[left..right].to_vec());
        let short = left <= 120 && right - left <= 120;
        let good = short && right == bytes.len() && rename(&pair.0, &pair.1) == pair;
        good.then_some(pair)
    }

    /// Whether a field may stand behind these, which are good.
    fn good(&self, before: &[Field], field: &Field) -> bool {
        let Some(contents) = field.contents else {
            return false;
        };
        let count = |tag| before.iter().filter(|f| f.tag == tag).count();
        let last = before.last().map_or(0, |f| f.tag);
        match field.tag {
            0x10 => last == 0 && contents.len() == 1 && is_end(contents[0]),
            0x11 => last == 0x10 && contents.len() == 4 && number(contents) <= 1_000_000,
            0x12 => [0x11, 0x12].contains(&last) && count(0x12) < 32 && self.rule(before, contents),
            0x13 => {
                let kind = contents.len() == 8 && (1..=4).contains(&contents[0]);
                [0x11, 0x12, 0x13].contains(&last) && count(0x13) < 512 && kind
            }
            0x14 => {
                let due = end(before) == 20 && [0x11, 0x12, 0x13].contains(&last);
                due && self.pair(contents).is_some()
            }
            _ => false,
        }
    }

    fn rule(&self, before: &[Field], contents: &[u8]) -> bool {
        let of = |c: &[u8]| number(&c[..2]);
        let last = before.iter().rfind(|f| f.tag == 0x12);
        let last = last.and_then(|f| f.contents).map_or(0, of);
        contents.len() > 2
            && (last + 1..=512).contains(&of(contents))
            && self.pair(&contents[2..]).is_some()
    }

    /// The rules with their fields' places, or 13.
    fn record(&self, record: &[u8]) -> Result<(u8, Vec<(usize, Rule)>), DecideAnswer> {
        if record.len() > 16384 {
            return Err(refused(13, 16384));
        }
        let fields = fields(record);
        for (i, field) in fields.iter().enumerate() {
            if !self.good(&fields[..i], field) {
                return Err(refused(13, field.start));
            }
        }
        let last = fields.last().map_or(0, |f| f.tag);
        if [0, 0x10].contains(&last) || end(&fields) == 20 && last != 0x14 {
            return Err(refused(13, record.len()));
        }
        let rules = fields.iter().filter(|f| f.tag == 0x12).map(|f| {
            let contents = f.contents.expect("a good field is whole");
            let (left, right) = self.pair(&contents[2..]).expect("and holds a pair");
            let number = number(&contents[..2]);
            let rule = Rule {
                number,
                left,
                right,
            };
            (f.start, rule)
        });
        Ok((end(&fields), rules.collect()))
    }

    /// What the question must be answered, the problem being accepted, if a
    /// term's next one is given so.
    pub fn question(
        &self,
        budget: u32,
        sides: [&[u8]; 2],
        record: &[u8],
        step: Step,
    ) -> DecideAnswer {
        let (end, placed) = match self.record(record) {
            Ok(read) => read,
            Err(answer) => return answer,
        };
        if end != 0 {
            return refused(14, 0);
        }
        let above = |rule: &Rule| self.above(&rule.left, &rule.right, &mut HashMap::new());
        if let Some((place, _)) = placed.iter().find(|(_, rule)| !above(rule)) {
            return refused(15, *place);
        }
        let rules: Vec<Rule> = placed.into_iter().map(|(_, rule)| rule).collect();
        let mut units = 0;
        let mut forms = sides.map(<[u8]>::to_vec);
        for term in &mut forms {
            while let Some(next) = step(self, &rules, term) {
                if units == budget {
                    return DecideAnswer::Decided(Verdict::Ended(21), units);
                }
                units += 1;
                if next.len() > 120 {
                    return DecideAnswer::Decided(Verdict::Ended(22), units);
                }
                *term = next;
            }
        }
        let verdict = match forms[0] == forms[1] {
            true => Verdict::Same,
            false => Verdict::Different,
        };
        DecideAnswer::Decided(verdict, units)
    }
}

fn is_end(byte: u8) -> bool {
    [0, 20, 21, 22, 23, 24].contains(&byte)
}

/// The end that good fields begin with.
fn end(fields: &[Field]) -> u8 {
    let first = fields.first().and_then(|f| f.contents);
    first.map_or(0, |contents| contents[0])
}
