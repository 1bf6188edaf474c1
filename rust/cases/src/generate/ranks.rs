//! Symbols that share a rank.

use super::random::Random;

/// How many of eight problems get shared ranks: with the tables of one
/// symbol and the damaged ones taken off, a third of all are left.
const SHARED_IN_EIGHT: usize = 3;

/// Which symbols of a table have one rank.
#[derive(Clone, Copy, Debug, PartialEq, Eq)]
pub enum Ranks {
    Distinct,
    SomeEqual,
    AllEqual,
}

/// The ranks of a problem, if it begins with a whole table.
pub fn ranks(problem: &[u8]) -> Option<Ranks> {
    let list: Vec<u8> = table(problem)?.chunks(2).map(|s| s[1]).collect();
    let equal = |i: usize| list[..i].contains(&list[i]);
    if list.len() > 1 && list.iter().all(|rank| *rank == list[0]) {
        return Some(Ranks::AllEqual);
    }
    let some = (0..list.len()).any(equal);
    Some(if some {
        Ranks::SomeEqual
    } else {
        Ranks::Distinct
    })
}

/// The bytes of the symbols: two each, 1 to 16 of them.
fn table(problem: &[u8]) -> Option<&[u8]> {
    let length = match problem {
        [1, 0, length @ 2..=32, ..] if length % 2 == 0 => *length as usize,
        _ => return None,
    };
    problem.get(3..3 + length)
}

/// Lets symbols of some problems share a rank: two of them, all, or each
/// with others.
pub fn share(problem: &mut [u8], random: &mut Random) {
    let Some(count) = table(problem).map(|table| table.len() / 2) else {
        return;
    };
    if random.below(8) >= SHARED_IN_EIGHT {
        return;
    }
    match random.below(4) {
        0 => {
            let rank = random.below(16) as u8;
            set_all(problem, count, || rank);
        }
        1 => {
            let (from, to) = (random.below(count), random.below(count));
            problem[4 + 2 * to] = problem[4 + 2 * from];
        }
        _ => {
            let different = random.between(1, count.div_ceil(2));
            set_all(problem, count, || 2 * random.below(different) as u8);
        }
    }
}

fn set_all(problem: &mut [u8], count: usize, mut rank: impl FnMut() -> u8) {
    for i in 0..count {
        problem[4 + 2 * i] = rank();
    }
}
