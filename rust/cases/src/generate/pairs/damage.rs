//! Symbol fields and terms with a fault, and tables about the limits.

use super::{either_way, related};
use crate::generate::damage::damage;
use crate::generate::random::Random;
use crate::generate::terms::term_end;
use crate::pairs::Pair;
use kb_engine::fields::push_field;

/// A pair with one to three faults in the symbol field.
pub fn field(random: &mut Random) -> Pair {
    let mut pair = related::terms(random);
    for _ in 0..*random.pick(&[1, 1, 1, 2, 3]) {
        damage_field(random, &mut pair.symbols);
    }
    pair
}

/// One fault in a field: in a symbol, the tag, the length or any byte.
fn damage_field(random: &mut Random, field: &mut Vec<u8>) {
    let symbols = field.len().saturating_sub(3) / 2;
    let chosen = 3 + 2 * random.below(symbols);
    match random.below(10) {
        0 if symbols > 0 => field[chosen] = *random.pick(&[0, 3, 4, 5, 6, 255]),
        1 if symbols > 0 => field[chosen + 1] = *random.pick(&[0, 14, 15, 16, 17, 255]),
        2 if symbols > 0 => field[0] = *random.pick(&[0, 1, 2, 3, 0x10, 0x81, 0xff]),
        3 if symbols > 0 => field[1] = *random.pick(&[0, 0, 1, 0x80, 0xff]),
        4 if symbols > 0 => change_length(random, field),
        5 => flip(random, field),
        6 => field.clear(),
        7 => {
            let more = [&[0][..], &[1], &[0x80], &[2, 0, 4, 0, 0, 0, 9]];
            field.extend(*random.pick(&more));
        }
        8 => field.truncate(field.len().saturating_sub(random.between(1, 2))),
        _ => damage(field, random),
    }
}

/// Another low byte of the length, at times with as many contents.
fn change_length(random: &mut Random, field: &mut Vec<u8>) {
    let length = field[2];
    let near = [length ^ 1, length.wrapping_add(2), length.wrapping_sub(2)];
    let edges = [0, 1, 2, 31, 32, 33, 34, 64];
    let chosen = match random.once_in(2) {
        true => *random.pick(&near),
        false => *random.pick(&edges),
    };
    field[2] = chosen;
    if random.once_in(2) {
        field.resize(3 + chosen as usize, 0);
    }
}

/// Flips a bit.
fn flip(random: &mut Random, bytes: &mut [u8]) {
    let place = random.below(bytes.len());
    if let Some(byte) = bytes.get_mut(place) {
        *byte ^= 1 << random.below(8);
    }
}

/// A pair with one to three faults in a term, at times in both.
pub fn term(random: &mut Random) -> Pair {
    let mut pair = related::terms(random);
    let symbols = pair.symbols[2] / 2;
    let both = random.once_in(6);
    if both || random.once_in(2) {
        damage_term(random, &mut pair.first, symbols);
    }
    if both || random.once_in(2) {
        damage_term(random, &mut pair.second, symbols);
    }
    pair
}

/// One to three faults in a term over so many symbols.
fn damage_term(random: &mut Random, term: &mut Vec<u8>, symbols: u8) {
    let edges = [symbols - 1, symbols, 15, 16, 0x7f, 0x80, 0x8f, 0x90, 0xff];
    for _ in 0..*random.pick(&[1, 1, 1, 2, 3]) {
        let place = random.below(term.len());
        match random.below(8) {
            0 | 1 if !term.is_empty() => term[place] = *random.pick(&edges),
            2 => flip(random, term),
            3 => term.push(*random.pick(&edges)),
            4 => {
                term.pop();
            }
            5 => term.clear(),
            6 => {
                let again = term.clone();
                term.extend(again);
            }
            _ => damage(term, random),
        }
    }
}

/// Tables of about 1 and 16 symbols, of arities and ranks about their limits,
/// and short terms of any nodes.
pub fn tables(random: &mut Random) -> Pair {
    let count = *random.pick(&[0, 1, 1, 1, 2, 15, 16, 16, 17]);
    let mut contents = Vec::new();
    for _ in 0..count {
        contents.extend([random.below(5) as u8, random.below(16) as u8]);
    }
    if random.once_in(3) && count > 0 {
        let place = random.below(contents.len());
        contents[place] = random.below(18) as u8;
    }
    let symbols = contents.chunks(2).map(|s| (s[0], s[1])).collect();
    let mut side = || {
        let nodes = [0, 0, 1, 2, 14, 15, 16, 0x7f, 0x80, 0x80, 0x81, 0x8f, 0x90];
        let mut out = vec![*random.pick(&nodes)];
        // As many leaves as are due.
        out.resize(1000, *random.pick(&[0x80, 0x8f]));
        out.truncate(term_end(&out, 0, &symbols));
        out
    };
    let terms = [side(), side()];
    let pair = either_way(random, &symbols, terms);
    let mut field = Vec::new();
    push_field(&mut field, 1, &contents);
    Pair {
        symbols: field,
        ..pair
    }
}
