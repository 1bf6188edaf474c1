//! Problems that are refused, and those beside them that are not.

use super::Cases;
use crate::fixed;

pub fn terms(cases: &mut Cases) {
    cases.contents("no symbol", &[5, 0x80]);
    cases.contents("no variable", &[0x80, 0x90]);
    cases.contents("left cut", &[2, 0x80]);
    cases.contents("right missing", &[0x80]);
    cases.contents("byte behind", &[0x80, 0x80, 0x80]);
    cases.contents("no contents", &[]);
}

pub fn headers(cases: &mut Cases) {
    cases.bytes("empty", Vec::new());
    cases.bytes("one byte", vec![1]);
    cases.bytes("table cut", vec![1, 0, 6, 0]);
    cases.bytes("wrong first tag", vec![2, 0, 0]);
    cases.after_symbols("no budget", &[]);
    cases.after_symbols("budget cut", &[2, 0]);
    cases.after_symbols("wrong second tag", &[3, 0, 0]);
    cases.after_symbols("wrong third tag", &[2, 0, 4, 0, 0, 0, 9, 4, 0, 0]);
    cases.after_symbols("equation cut", &[2, 0, 4, 0, 0, 0, 9, 3, 0, 5, 0x80]);
}

pub fn tables(cases: &mut Cases) {
    let constants = (0..17).flat_map(|rank| [0, rank % 16]);
    cases.symbols("empty table", &[]);
    cases.symbols("odd table", &[0, 0, 1]);
    cases.symbols("17 symbols", &constants.collect::<Vec<u8>>());
    cases.symbols("arity 5", &[5, 0]);
    cases.symbols("rank 16", &[4, 16]);
    cases.symbols("second arity 5", &[4, 0, 5, 0]);
    cases.symbols("rank twice", &[0, 1, 0, 1]);
    cases.symbols("16 symbols of one rank", &[4, 15].repeat(16));
}

fn budget(cases: &mut Cases, name: &str, budget: u32) {
    cases.bytes(name, fixed::trivial(1).problem(budget));
}

pub fn budgets(cases: &mut Cases) {
    cases.after_symbols("budget of 3 bytes", &[2, 0, 3, 0, 0, 0]);
    budget(cases, "budget 1,000,000", 1_000_000);
    budget(cases, "budget 1,000,001", 1_000_001);
    budget(cases, "budget 0", 0);
}

pub fn counts(cases: &mut Cases) {
    for count in [0, 1, 2, 16, 17] {
        let name = format!("{count} equation{}", if count == 1 { "" } else { "s" });
        cases.bytes(&name, fixed::trivial(count).problem(9));
    }
}

fn chains(cases: &mut Cases, name: &str, left: usize, right: usize) {
    cases.bytes(name, fixed::chains(left, right).problem(9));
}

pub fn long_sides(cases: &mut Cases) {
    chains(cases, "120 nodes", 119, 119);
    chains(cases, "121 nodes on the left", 120, 0);
    chains(cases, "121 nodes on the right", 0, 120);
}

pub fn long_problems(cases: &mut Cases) {
    cases.bytes("8,192 bytes", vec![0; 8192]);
    cases.bytes("8,193 bytes", vec![0; 8193]);
}

/// Where two tests would refuse, the earlier one does.
pub fn order(cases: &mut Cases) {
    cases.bytes("cut before the tag", vec![2]);
    cases.bytes("contents cut before the tag", vec![2, 0, 1]);
    cases.symbols("length before the symbols", &[9; 34]);
    cases.symbols("arity before the rank", &[4, 15, 5, 16]);
    cases.symbols("rank before the next arity", &[4, 15, 4, 16, 5, 0]);
    cases.symbols("rank twice, then arity 5", &[4, 15, 4, 15, 5, 0]);
    let sixteen = fixed::trivial(16).problem(9);
    let fields: [(&str, &[u8]); 3] = [
        ("a seventeenth equation, unread", &[3, 0, 0]),
        ("tag before the seventeenth", &[4, 0, 0]),
        ("cut before the seventeenth", &[3, 0]),
    ];
    for (name, field) in fields {
        cases.bytes(name, [&sixteen, field].concat());
    }
    let long = vec![1; 120];
    let sides: [(&str, &[u8], &[u8]); 4] = [
        ("a long side that is no term", &[], &[0x90]),
        ("left size before the right term", &[], &[0x80, 0x90]),
        ("right size before the byte behind", &[0x80], &[0x80, 0x80]),
        ("a long side that is cut", &[], &[]),
    ];
    for (name, before, behind) in sides {
        cases.contents(name, &[before, &long, behind].concat());
    }
}
