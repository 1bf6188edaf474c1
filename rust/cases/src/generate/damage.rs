//! Damaged problems: truncations, changed bytes, random bytes.

use super::random::Random;
use super::{problem, FAMILY_COUNT};
use crate::notation::Theory;

/// Families of well-formed problems, from which damage starts.
const WHOLE_FAMILIES: u64 = 9;

/// Changes of one generated problem.
pub fn random(random: &mut Random) -> Vec<u8> {
    let index = random.below(1 << 20) as u64 * FAMILY_COUNT + random.bits() % WHOLE_FAMILIES;
    let mut bytes = problem(random.bits(), index);
    for _ in 0..random.between(1, 3) {
        damage(&mut bytes, random);
    }
    bytes
}

/// One change: a cut, or a byte more, less or another.
pub fn damage(bytes: &mut Vec<u8>, random: &mut Random) {
    let place = random.below(bytes.len());
    match random.below(6) {
        0 => bytes.truncate(place),
        1 => bytes.insert(place, random.byte()),
        2 => bytes.push(*random.pick(&[0, 1, 2, 3, 0x80])),
        _ if bytes.is_empty() => {}
        3 => {
            bytes.remove(place);
        }
        4 => bytes[place] = random.byte(),
        _ => bytes[place] = *random.pick(&[0, 1, 2, 3, 4, 5, 15, 16, 0x80, 0x8f, 0x90, 0xff]),
    }
}

/// Random bytes, and random contents in fields that are due.
pub fn bytes(random: &mut Random) -> Vec<u8> {
    if random.once_in(4) {
        let length = *random.pick(&[0, 1, 2, 3, 4, 10, 50, 300]);
        return (0..length).map(|_| random.byte()).collect();
    }
    let mut out = Vec::new();
    let good: [&[u8]; 2] = [&[1, 0, 6, 0, 0, 1, 1, 2, 2], &[2, 0, 4, 0, 0, 0, 30]];
    for (i, field) in good.iter().enumerate() {
        if random.once_in(5) {
            push_random_field(&mut out, random, i as u8 + 1);
        } else {
            out.extend(*field);
        }
    }
    for _ in 0..random.below(4) {
        push_random_field(&mut out, random, 3);
    }
    out
}

fn push_random_field(out: &mut Vec<u8>, random: &mut Random, tag: u8) {
    let tag = if random.once_in(9) {
        random.below(5) as u8
    } else {
        tag
    };
    let length = random.between(0, 9);
    let claimed = if random.once_in(9) {
        random.below(20)
    } else {
        length
    };
    out.extend([tag, 0, claimed as u8]);
    for _ in 0..length {
        let likely = *random.pick(&[0, 0, 1, 1, 2, 2, 3, 0x80, 0x80, 0x81, 0x8f, 0x90]);
        out.push(if random.once_in(30) {
            random.byte()
        } else {
            likely
        });
    }
}

/// The problems that are damaged in every way.
fn bases() -> [Vec<u8>; 4] {
    let unary = Theory::new("c/0/0 f/1/1");
    let group = Theory::new("e/0/0 i/1/2 */2/1");
    let shared = group.clone().with_ranks(&[0, 1, 1]);
    let equal = unary.clone().with_ranks(&[1, 1]);
    [
        unary.equation("f(f(x)) = x").problem(100),
        shared.equation("*(i(x),x) = e").problem(7),
        group.equations(&["*(x,e) = x", "i(i(x)) = x"]).problem(9),
        equal.equation("f(c) = c").problem(1_000_000),
    ]
}

fn exhaustive_of(base: &[u8]) -> usize {
    base.len() * 257
}

/// Number of problems in `exhaustive`.
pub fn exhaustive_count() -> usize {
    bases().iter().map(|base| exhaustive_of(base)).sum()
}

/// Every truncation and every value of every byte of the base problems.
pub fn exhaustive(mut number: usize) -> Vec<u8> {
    for mut base in bases() {
        let count = exhaustive_of(&base);
        if number < count {
            let (place, value) = (number / 257, number % 257);
            match u8::try_from(value) {
                Ok(value) => base[place] = value,
                Err(_) => base.truncate(place),
            }
            return base;
        }
        number -= count;
    }
    Vec::new()
}
