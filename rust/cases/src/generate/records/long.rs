//! Records of the largest sizes, and around the most bytes.

use super::asked::Pair;
use super::made::{entries, numbered, renamed};
use super::{Complete, Source};
use crate::generate::damage::damage;
use crate::generate::random::Random;
use crate::kept::Kept;
use crate::questions::Question;
use kb_engine::fields::{push_field, TAG_ENTRY, TAG_RULE};
use kb_engine::run::END_UNORIENTABLE;
use kb_engine::{MAX_LOG, MAX_NODES, MAX_RECORD, MAX_RULES};

/// A constant, then unary, binary, unary and binary symbols, each above those
/// before it.
pub const SYMBOLS: [(u8, u8); 5] = [(0, 0), (1, 1), (2, 2), (1, 3), (2, 4)];
/// The symbols by arity: those of right sides, and those of left sides.
const LOWER: Shape = Shape {
    unary: &[1],
    binary: &[2],
};
const UPPER: Shape = Shape {
    unary: &[1, 3],
    binary: &[2, 4],
};

/// Different rules of a record.
const DIFFERENT: usize = 4;

/// Symbols of a term with an exact number of nodes.
struct Shape {
    unary: &'static [u8],
    binary: &'static [u8],
}

/// About as many rules, entries and nodes as a record can have.
pub fn record(random: &mut Random, _: Complete) -> Question {
    let count = *random.pick(&[
        MAX_RULES - 1,
        MAX_RULES,
        MAX_RULES,
        MAX_RULES,
        MAX_RULES + 1,
    ]);
    let some: Vec<Pair> = (0..DIFFERENT).map(|_| rule(random)).collect();
    let equal: Vec<Pair> = (0..count).map(|_| random.pick(&some).clone()).collect();
    let logged = *random.pick(&[0, MAX_LOG - 1, MAX_LOG, MAX_LOG, MAX_LOG, MAX_LOG + 1]);
    let mut kept = Kept {
        units: random.budget(),
        rules: numbered(random, &equal),
        entries: entries(random, logged),
        ..Kept::default()
    };
    if random.once_in(8) {
        kept.end = END_UNORIENTABLE;
        kept.pair = Some(kept.rules[0].1.clone());
    }
    let mut record = kept.bytes();
    match random.below(8) {
        0 => pad(random, &mut record),
        1 => record.truncate(random.below(record.len())),
        2 => damage(&mut record, random),
        _ => {}
    }
    let source = Source {
        symbols: SYMBOLS.to_vec(),
        equal,
        record,
    };
    source.ask(random)
}

/// A rule of 120 nodes on each side, at times one more, left above right.
pub fn rule(random: &mut Random) -> Pair {
    let nodes = MAX_NODES + random.once_in(1000) as usize;
    let mut left = vec![*random.pick(&[3, 4])];
    let leaves = [0x80, 0x81, 0x82, 0];
    if left[0] == 4 {
        left.push(*random.pick(&leaves));
    }
    let rest = nodes - left.len();
    push_exact(&mut left, random, &UPPER, rest, &leaves);
    let known: Vec<u8> = left.iter().copied().filter(|b| *b >= 0x80).collect();
    let leaves = [known, vec![0]].concat();
    let mut right = Vec::new();
    push_exact(&mut right, random, &LOWER, MAX_NODES, &leaves);
    renamed(&left, &right)
}

/// Appends a term of exactly so many nodes.
fn push_exact(out: &mut Vec<u8>, random: &mut Random, shape: &Shape, nodes: usize, leaves: &[u8]) {
    match nodes {
        1 => out.push(*random.pick(leaves)),
        2 => {
            out.push(*random.pick(shape.unary));
            push_exact(out, random, shape, 1, leaves);
        }
        _ if random.once_in(3) => {
            out.push(*random.pick(shape.unary));
            push_exact(out, random, shape, nodes - 1, leaves);
        }
        _ => {
            let first = random.between(1, nodes - 2);
            out.push(*random.pick(shape.binary));
            push_exact(out, random, shape, first, leaves);
            push_exact(out, random, shape, nodes - 1 - first, leaves);
        }
    }
}

/// One more field, up to about the most bytes.
fn pad(random: &mut Random, record: &mut Vec<u8>) {
    let total = random.between(MAX_RECORD - 1, MAX_RECORD + 1);
    let contents = vec![1; total - record.len() - 3];
    push_field(record, *random.pick(&[TAG_RULE, TAG_ENTRY]), &contents);
}
