//! Records and budgets that are refused: 2, 16 and 17, with their places.

use super::{case, first_turn, second_turn, Case};
use crate::checkpoints::{waiting, Checkpoint};
use kb_engine::Refusal;

/// Most bytes of a saved record, written out like the answers.
const MOST: usize = 49_152;
/// Where fields begin in the record of f(f(x)) = x after its first turn: behind
/// the symbols the equation, and so on. Where a waiting equation would begin,
/// the entry does.
const EQUATION: usize = 7;
const NEXT: usize = EQUATION + 7;
const RULE: usize = NEXT + 5;
const ENTRY: usize = RULE + 9;
const COUNT: usize = ENTRY + 11;

pub(super) fn cases() -> Vec<Case> {
    let mut list = symbols_and_equations();
    list.extend(numbers());
    list.extend(rules());
    list.extend(waits());
    list.extend(entries());
    list.extend(counts());
    list.extend(cut());
    list.extend(not_due());
    list.extend(budgets());
    list
}

fn refused(name: &str, record: Vec<u8>, place: usize) -> Case {
    let number = 16;
    case(name, record, 9, Err(Refusal { number, place }))
}

/// A change of the record after the first turn, refused at the place.
fn changed(name: &str, place: usize, change: impl FnOnce(&mut Checkpoint)) -> Case {
    let mut checkpoint = second_turn();
    change(&mut checkpoint);
    refused(name, checkpoint.bytes(), place)
}

fn symbols_and_equations() -> Vec<Case> {
    let equation = |name: &str, sides: &[u8]| {
        let sides = sides.to_vec();
        changed(name, EQUATION, |c| c.equations[0] = sides)
    };
    let long = [vec![1; 120], vec![0, 0]].concat();
    vec![
        changed("no symbol", 0, |c| c.symbols.clear()),
        changed("half a symbol", 0, |c| c.symbols.truncate(3)),
        changed("17 symbols", 0, |c| c.symbols = vec![0; 34]),
        changed("arity 5", 0, |c| c.symbols[0] = 5),
        changed("rank 16", 0, |c| c.symbols[3] = 16),
        equation("an equation cut", &[1, 0x80, 1]),
        equation("a byte behind an equation", &[0x80, 0x80, 0]),
        equation("no such symbol", &[2, 0x80]),
        equation("no such variable", &[0x90, 0x90]),
        equation("121 nodes of an equation", &long),
        changed("17 equations", EQUATION + 16 * 7, |c| {
            c.equations = vec![c.equations[0].clone(); 17];
        }),
    ]
}

fn numbers() -> Vec<Case> {
    let mut three = second_turn().bytes();
    three.splice(NEXT..RULE, [0x20, 0, 3, 0, 2, 0]);
    let mut one = second_turn().bytes();
    one.splice(NEXT..RULE, [0x20, 0, 1, 2]);
    vec![
        changed("next number 0", NEXT, |c| c.next = 0),
        changed("next number 514", NEXT, |c| c.next = 514),
        changed("next number 65,535", NEXT, |c| c.next = 65_535),
        refused("next number in three bytes", three, NEXT),
        refused("next number in one byte", one, NEXT),
        // An entry is due where field 22 stands.
        changed("next number 3, one entry", COUNT, |c| c.next = 3),
        changed("next number 513, one entry", COUNT, |c| c.next = 513),
        changed("no entry", ENTRY, |c| c.entries.clear()),
    ]
}

fn rules() -> Vec<Case> {
    let rule = |name: &str, sides: &[u8]| {
        let sides = sides.to_vec();
        changed(name, RULE, |c| c.rules[0].1 = sides)
    };
    let number = |name: &str, number: u16| changed(name, RULE, |c| c.rules[0].0 = number);
    let twice = |c: &mut Checkpoint| c.rules.push(c.rules[0].clone());
    let descending = |c: &mut Checkpoint| {
        c.next = 4;
        c.rules = vec![(3, c.rules[0].1.clone()), (2, c.rules[0].1.clone())];
    };
    let many = |c: &mut Checkpoint| {
        c.next = 34;
        c.rules = (1..=33).map(|n| (n, vec![1, 0, 0])).collect();
    };
    let long = [vec![1; 120], vec![0, 0]].concat();
    vec![
        number("rule 0", 0),
        number("rule 2 of next 2", 2),
        number("rule 513", 513),
        changed("a rule twice", ENTRY, twice),
        changed("rules descending", ENTRY, descending),
        changed("33 rules", RULE + 32 * 8, many),
        rule("a rule upwards", &[0x80, 1, 1, 0x80]),
        rule("a rule with equal sides", &[0, 0]),
        rule("a rule with a variable more", &[1, 0x80, 0x81]),
        rule("a rule not renamed", &[1, 1, 0x81, 0x81]),
        rule("a rule cut", &[1, 1, 0x80]),
        rule("a byte behind a rule", &[1, 1, 0x80, 0x80, 0]),
        rule("a rule with no such symbol", &[2, 0]),
        rule("121 nodes of a rule", &long),
        rule("only a number", &[]),
    ]
}

fn waits() -> Vec<Case> {
    let waits = |name: &str, origin: [u8; 6], sides: &[u8]| {
        let equation = waiting(origin, sides);
        changed(name, ENTRY, |c| c.waiting.push(equation))
    };
    let input = [1, 0, 1, 0, 0, 0];
    let long = [vec![1; 120], vec![0, 0]].concat();
    vec![
        waits("kind 0 waits", [0, 0, 1, 0, 0, 0], &[0x80, 0]),
        waits("kind 5 waits", [5, 0, 1, 0, 0, 0], &[0x80, 0]),
        waits("kind 1, a second number", [1, 0, 1, 0, 1, 0], &[0x80, 0]),
        waits("kind 2, a second number", [2, 0, 1, 1, 0, 0], &[0x80, 0]),
        waits("kind 3, a position", [3, 0, 1, 0, 0, 1], &[0x80, 0]),
        waits("one not renamed waits", input, &[0x81, 0]),
        waits("one with a gap waits", input, &[0x80, 0x82]),
        waits("one side waits", input, &[0x80]),
        waits("a byte behind one that waits", input, &[0x80, 0, 0]),
        waits("121 nodes wait", input, &long),
        waits("no term waits", input, &[]),
        changed("half an origin", ENTRY, |c| c.waiting.push(vec![1, 0, 1])),
        changed("nothing waits", ENTRY, |c| c.waiting.push(Vec::new())),
    ]
}

fn entries() -> Vec<Case> {
    let entry = |name: &str, entry: &[u8]| {
        let entry = entry.to_vec();
        changed(name, ENTRY, |c| c.entries[0] = entry)
    };
    vec![
        entry("entry of kind 0", &[0, 0, 1, 0, 0, 0, 0, 1]),
        entry("entry of kind 5", &[5, 0, 1, 0, 0, 0, 0, 1]),
        entry("entry with a second number", &[2, 0, 1, 1, 0, 0, 0, 1]),
        entry("entry with a position", &[3, 0, 1, 0, 0, 9, 0, 1]),
        entry("an entry of 7", &[1, 0, 1, 0, 0, 0, 0]),
        entry("an entry of 9", &[1, 0, 1, 0, 0, 0, 0, 1, 0]),
        entry("an empty entry", &[]),
    ]
}

/// One more than there may be.
fn counts() -> Vec<Case> {
    let waits = waiting([1, 0, 1, 0, 0, 0], &[0x80, 0]);
    let many = |rules: bool, count: usize| Checkpoint {
        waiting: vec![waits.clone(); count],
        ..match rules {
            true => second_turn(),
            false => first_turn(),
        }
    };
    let entries = Checkpoint {
        entries: vec![vec![4, 9, 9, 9, 9, 255, 0, 1]; 513],
        ..second_turn()
    };
    let back = |put_back| Checkpoint {
        put_back,
        ..many(true, 2)
    };
    let behind = ENTRY + 2 * 11 + 11;
    vec![
        refused("34 wait", many(false, 34).bytes(), RULE + 33 * 11),
        refused(
            "a rule and 33 wait",
            many(true, 33).bytes(),
            ENTRY + 32 * 11,
        ),
        refused("513 entries", entries.bytes(), ENTRY + 512 * 11),
        changed("one put back, none waits", COUNT, |c| c.put_back = 1),
        refused("3 put back of 2", back(3).bytes(), behind),
        refused("255 put back of 2", back(255).bytes(), behind),
    ]
}

/// Fields that are missing or cut.
fn cut() -> Vec<Case> {
    let record = second_turn().bytes();
    let cut = |name: &str, length: usize, place| refused(name, record[..length].to_vec(), place);
    vec![
        cut("empty", 0, 0),
        cut("a header cut", 2, 0),
        cut("symbols only", EQUATION, EQUATION),
        cut("no next number", NEXT, NEXT),
        cut("the next number cut", RULE - 1, NEXT),
        cut("next number only", RULE, RULE),
        cut("a header of a rule", RULE + 3, RULE),
        cut("no log", ENTRY, ENTRY),
        cut("no count", COUNT, COUNT),
        cut("the count cut", COUNT + 3, COUNT),
    ]
}

/// Fields that are not due where they stand, or behind the last one.
fn not_due() -> Vec<Case> {
    let record = second_turn().bytes();
    let joined = |name: &str, parts: &[&[u8]], place| refused(name, parts.concat(), place);
    let budget = [2, 0, 4, 0, 0, 0, 9];
    let (symbols, behind) = record.split_at(EQUATION);
    let (before, count) = record.split_at(COUNT);
    let (next, rule) = (&record[..RULE], &record[RULE..ENTRY]);
    let entry = &record[ENTRY..COUNT];
    let end = record.len();
    vec![
        joined("a byte behind", &[&record, &[0]], end),
        joined("the count twice", &[&record, count], end),
        joined("a budget", &[symbols, &budget, behind], EQUATION),
        joined("no symbols", &[behind], 0),
        joined("no problem", &[&record[NEXT..]], 0),
        joined("an entry first", &[next, entry, rule, count], RULE + 11),
        joined("a count of no byte", &[before, &[0x22, 0, 0]], COUNT),
        joined("a count of two", &[before, &[0x22, 0, 2, 0, 0]], COUNT),
    ]
}

/// The length of a record, and the new budget after all of the record.
fn budgets() -> Vec<Case> {
    let (first, bad) = (
        first_turn().bytes(),
        second_turn().bytes()[..COUNT].to_vec(),
    );
    let answer = |number, place| Err(Refusal { number, place });
    let padded = |length| {
        let mut record = first_turn().bytes();
        record.resize(length, 0);
        record
    };
    let length = first.len();
    vec![
        case("49,152 bytes", padded(MOST), 9, answer(16, length)),
        case("49,153 bytes", padded(MOST + 1), 9, answer(2, MOST)),
        case("2 before 17", vec![0; 60_000], 1 << 40, answer(2, MOST)),
        case("1,000,001 units", first.clone(), 1_000_001, answer(17, 0)),
        case("2^32 units", first.clone(), 1 << 32, answer(17, 0)),
        case("2^64 - 1 units", first, u64::MAX, answer(17, 0)),
        case("16 before 17", bad, 1_000_001, answer(16, COUNT)),
    ]
}
