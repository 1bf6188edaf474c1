//! Records of the largest sizes, and around the most bytes.

use super::made::{entry, origin};
use super::Save;
use crate::checkpoints::Checkpoint;
use crate::generate::damage::damage;
use crate::generate::random::Random;
use crate::generate::records::long::{rule, SYMBOLS};
use crate::resumptions::Resumption;
use kb_engine::fields::push_field;
use kb_engine::{MAX_EQUATIONS, MAX_LOG, MAX_RULES, MAX_SAVED, MAX_TOGETHER};

/// Different sides of a record.
const DIFFERENT: usize = 4;

/// About as many rules, waiting equations, entries and nodes as there may be.
pub fn record(random: &mut Random, _: Save) -> Resumption {
    let mut record = checkpoint(random).bytes();
    match random.below(8) {
        0 => pad(random, &mut record),
        1 => record.truncate(random.below(record.len())),
        2 => damage(&mut record, random),
        _ => {}
    }
    let budget = random.below(4) as u64;
    Resumption { record, budget }
}

fn checkpoint(random: &mut Random) -> Checkpoint {
    let rule = |random: &mut Random| {
        let (left, right) = rule(random);
        [left, right].concat()
    };
    let some: Vec<Vec<u8>> = (0..DIFFERENT).map(|_| rule(random)).collect();
    let sides = |random: &mut Random| random.pick(&some).clone();
    let rules = *random.pick(&[0, 0, 1, MAX_RULES / 2, MAX_RULES]);
    let more = random.once_in(8) as usize;
    let waiting = MAX_TOGETHER - rules + more;
    let logged = MAX_LOG + random.once_in(8) as usize;
    let waits = |random: &mut Random| [origin(random), sides(random)].concat();
    let rules = (1..=rules as u16).map(|number| (number, sides(random)));
    let rules: Vec<(u16, Vec<u8>)> = rules.collect();
    Checkpoint {
        symbols: SYMBOLS.iter().flat_map(|(a, r)| [*a, *r]).collect(),
        equations: (0..MAX_EQUATIONS).map(|_| sides(random)).collect(),
        next: *random.pick(&[rules.len() as u16 + 1, MAX_LOG as u16 + 1]),
        rules,
        waiting: (0..waiting).map(|_| waits(random)).collect(),
        entries: (0..logged).map(|_| entry(random)).collect(),
        put_back: random.between(0, waiting) as u8,
    }
}

/// One more field, up to about the most bytes.
fn pad(random: &mut Random, record: &mut Vec<u8>) {
    let total = random.between(MAX_SAVED - 1, MAX_SAVED + 1);
    let contents = vec![1; total - record.len() - 3];
    push_field(record, *random.pick(&[0x03, 0x13, 0x22]), &contents);
}
