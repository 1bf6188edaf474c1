//! Problems at the edges of what is accepted.

use super::random::Random;
use kb_engine::fields::push_field;

/// c/0, f/1, g/2, with room for one more field each time.
const SYMBOLS: [u8; 6] = [0, 0, 1, 1, 2, 2];

/// Sizes, counts and budgets around their limits.
pub fn edges(random: &mut Random) -> Vec<u8> {
    match random.below(5) {
        0 => budgets(random),
        1 => sizes(random),
        2 => counts(random),
        3 => long_problems(random),
        _ => symbol_tables(random),
    }
}

fn start(budget: u32) -> Vec<u8> {
    let mut out = Vec::new();
    push_field(&mut out, 1, &SYMBOLS);
    push_field(&mut out, 2, &budget.to_be_bytes());
    out
}

fn budgets(random: &mut Random) -> Vec<u8> {
    let list = [
        0,
        1,
        2,
        3,
        255,
        256,
        65536,
        999_999,
        1_000_000,
        1_000_001,
        1 << 24,
        u32::MAX,
    ];
    let mut out = start(*random.pick(&list));
    if random.once_in(2) {
        push_field(&mut out, 3, &[1, 1, 0x80, 0x80]);
    }
    out
}

/// A chain or a comb of so many nodes (a comb has an odd number).
fn push_side(out: &mut Vec<u8>, random: &mut Random, nodes: usize) {
    let leaf = *random.pick(&[0, 0x80, 0x8f]);
    if random.once_in(2) {
        out.extend(vec![1; nodes - 1]);
        out.push(leaf);
        return;
    }
    let mut left = nodes;
    while left > 2 {
        out.extend([2, 0x81]);
        left -= 2;
    }
    out.extend(vec![1; left - 1]);
    out.push(leaf);
}

fn sizes(random: &mut Random) -> Vec<u8> {
    let list = [1, 60, 119, 120, 121, 122, 300];
    let mut contents = Vec::new();
    for _ in 0..2 {
        let nodes = *random.pick(&list);
        push_side(&mut contents, random, nodes);
        if random.once_in(12) {
            contents.pop();
        }
    }
    if random.once_in(8) {
        contents.push(random.byte());
    }
    let mut out = start(random.budget());
    push_field(&mut out, 3, &contents);
    out
}

fn counts(random: &mut Random) -> Vec<u8> {
    let mut out = start(random.budget());
    for _ in 0..*random.pick(&[0, 1, 2, 3, 15, 16, 17, 18]) {
        let list: [&[u8]; 6] = [
            &[0x80, 0x80],
            &[0, 0],
            &[1, 0, 0],
            &[2, 0, 0x80, 0x80],
            &[1, 1, 0x82, 0x82],
            &[],
        ];
        let last = if random.once_in(16) { 6 } else { 5 };
        push_field(&mut out, 3, list[random.below(last)]);
    }
    out
}

fn long_problems(random: &mut Random) -> Vec<u8> {
    let mut out = start(3);
    push_field(&mut out, 3, &[0x80, 0x80]);
    let total = *random.pick(&[8190, 8191, 8192, 8193, 9000]);
    let mut contents = vec![*random.pick(&[0, 1, 1, 2, 0x80]); total - out.len() - 3];
    let last = contents.len() - 1;
    contents[last] = *random.pick(&[0, 0x80, 3]);
    push_field(&mut out, *random.pick(&[3, 3, 3, 2, 4]), &contents);
    out
}

fn symbol_tables(random: &mut Random) -> Vec<u8> {
    let count = *random.pick(&[0, 1, 2, 15, 16, 17]);
    let mut table = Vec::new();
    for _ in 0..count {
        table.extend([random.below(5) as u8, random.below(16) as u8]);
    }
    if random.once_in(6) && !table.is_empty() {
        let place = random.below(table.len());
        table[place] = random.below(18) as u8;
    }
    if random.once_in(8) {
        table.pop();
    }
    let mut out = Vec::new();
    push_field(&mut out, 1, &table);
    push_field(&mut out, 2, &[0, 0, 0, 9]);
    push_field(&mut out, 3, &[0x80, 0x80]);
    out
}
