//! Damaged records: fields moved, doubled, dropped or changed, then bytes.

use super::{made, results, Complete, Source};
use crate::generate::damage::damage;
use crate::generate::random::Random;
use crate::questions::Question;
use kb_engine::fields::{push_field, split_fields, TAG_RULE};
use kb_engine::{MAX_BUDGET, MAX_RULE_NUMBER};

/// A damaged result of an engine.
pub fn result(random: &mut Random, complete: Complete) -> Question {
    let source = results::completed(random, complete);
    damaged(random, source)
}

/// A damaged record that no engine wrote.
pub fn rules(random: &mut Random, _: Complete) -> Question {
    let (source, _) = made::source(random);
    damaged(random, source)
}

/// The terms are asked of the record as it was, then it is damaged.
fn damaged(random: &mut Random, source: Source) -> Question {
    let mut question = source.ask(random);
    let record = &mut question.record;
    let how = random.below(6);
    if how > 1 {
        *record = moved(random, record);
    }
    if how < 3 {
        changed(random, record);
    }
    question
}

type Fields = Vec<(u8, Vec<u8>)>;

/// The record after a change of whole fields.
fn moved(random: &mut Random, record: &[u8]) -> Vec<u8> {
    let fields = split_fields(record);
    let mut fields: Fields = fields.map(|(tag, c)| (tag, c.to_vec())).collect();
    match random.below(3) {
        _ if fields.is_empty() => {}
        0 => move_one(random, &mut fields),
        1 => change_one(random, &mut fields),
        _ => change_number(random, &mut fields),
    }
    let mut out = Vec::new();
    for (tag, contents) in fields {
        push_field(&mut out, tag, &contents);
    }
    out
}

/// A field exchanged with another, doubled, dropped, or under another tag.
fn move_one(random: &mut Random, fields: &mut Fields) {
    let (chosen, other) = (random.below(fields.len()), random.below(fields.len()));
    match random.below(5) {
        0 => fields.swap(chosen, other),
        1 => fields.insert(other, fields[chosen].clone()),
        2 => fields.push(fields[chosen].clone()),
        3 => {
            fields.remove(chosen);
        }
        _ => fields[chosen].0 = *random.pick(&[0x0f, 0x10, 0x11, 0x12, 0x13, 0x14, 0x15]),
    }
}

/// A field with a byte more, less or another.
fn change_one(random: &mut Random, fields: &mut Fields) {
    let chosen = random.below(fields.len());
    let contents = &mut fields[chosen].1;
    let place = random.below(contents.len());
    match random.below(3) {
        0 => contents.push(*random.pick(&[0, 1, 2, 0x80, 0x81])),
        _ if contents.is_empty() => {}
        1 => {
            contents.pop();
        }
        _ => contents[place] = *random.pick(&[0, 1, 2, 3, 4, 5, 0x80, 0x81, 0x82, 0x90]),
    }
}

/// Another end, other units, or a rule with another number.
fn change_number(random: &mut Random, fields: &mut Fields) {
    let rules = fields.iter_mut().filter(|(tag, _)| *tag == TAG_RULE);
    let mut rules: Vec<&mut Vec<u8>> = rules.map(|(_, contents)| contents).collect();
    if rules.is_empty() || random.once_in(2) {
        let ends = [0, 1, 19, 20, 21, 22, 23, 24, 25];
        let units = *random.pick(&[0, MAX_BUDGET, MAX_BUDGET + 1, u32::MAX]);
        return match random.once_in(2) {
            true => fields[0].1 = vec![*random.pick(&ends)],
            false => fields[1].1 = units.to_be_bytes().to_vec(),
        };
    }
    let chosen = random.below(rules.len());
    let highest = [MAX_RULE_NUMBER, MAX_RULE_NUMBER + 1];
    let number = match random.once_in(2) {
        true => *random.pick(&highest),
        false => random.below(rules.len() + 2) as u16,
    };
    rules[chosen][..2].copy_from_slice(&number.to_be_bytes());
}

/// One to three changes of bytes, at times some behind the last.
fn changed(random: &mut Random, record: &mut Vec<u8>) {
    if random.once_in(5) {
        let more = random.between(1, 12);
        record.extend((0..more).map(|_| *random.pick(&[0, 1, 0x10, 0x12, 0x13, 0x14])));
        return;
    }
    for _ in 0..random.between(1, 3) {
        damage(record, random);
    }
}
