//! Slices over 120 bytes, some of them far over 65,536: lengths that a byte
//! or two cannot count.

use super::related;
use crate::generate::random::Random;
use crate::pairs::Pair;
use kb_engine::term::VARIABLE_BASE;

/// Bytes more; the last three are for the counters of two bytes.
const OVER: [usize; 16] = [
    121, 121, 255, 256, 256, 256, 257, 512, 1024, 4096, 4096, 8192, 8193, 65_536, 65_536, 131_072,
];

/// A pair with one slice, at times two, of a great length.
pub fn slices(random: &mut Random) -> Pair {
    let mut pair = related::terms(random);
    let chosen = random.below(4);
    if chosen == 0 {
        lengthen_field(random, &mut pair.symbols);
        return pair;
    }
    let arities: Vec<u8> = pair.symbols[3..].iter().copied().step_by(2).collect();
    if chosen != 2 {
        lengthen_term(random, &mut pair.first, &arities);
    }
    if chosen != 1 {
        lengthen_term(random, &mut pair.second, &arities);
    }
    pair
}

/// Bytes behind a field, at times counted by its length.
fn lengthen_field(random: &mut Random, field: &mut Vec<u8>) {
    let more = *random.pick(&OVER);
    let byte = *random.pick(&[0, 1, 0x80]);
    field.resize(field.len() + more, byte);
    if let Ok(length) = u16::try_from(field.len() - 3) {
        if random.once_in(2) {
            field[1..3].copy_from_slice(&length.to_be_bytes());
        }
    }
}

/// Bytes behind a term, or in place of it a larger term, whole or cut.
fn lengthen_term(random: &mut Random, term: &mut Vec<u8>, arities: &[u8]) {
    let more = *random.pick(&OVER);
    let inner = arities.iter().position(|arity| *arity > 0);
    match (random.below(3), inner) {
        (0, _) | (_, None) => {
            let byte = *random.pick(&[0, VARIABLE_BASE]);
            term.resize(term.len() + more, byte);
        }
        (1, Some(symbol)) => *term = vec![symbol as u8; more],
        (_, Some(symbol)) => {
            let arity = arities[symbol] as usize;
            let leaves = more * (arity - 1) + 1;
            *term = vec![symbol as u8; more];
            term.resize(more + leaves, VARIABLE_BASE);
        }
    }
}
