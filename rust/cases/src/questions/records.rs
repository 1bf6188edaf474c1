//! Records that are refused, or just not, and problems that are.

use super::{case, different, refused, same, settle_record, Case, Question, ENTRY, SETTLE};
use crate::kept::Kept;
use crate::notation::Theory;
use kb_engine::fields::push_field;
use kb_engine::fields::{TAG_END, TAG_ENTRY, TAG_INSTANCE, TAG_PAIR, TAG_RULE, TAG_UNITS};
use kb_engine::DecideAnswer;

pub(super) fn cases() -> Vec<Case> {
    let lists = [
        first_fields(),
        rules(),
        entries(),
        pairs(),
        not_due(),
        lengths(),
        ends_and_order(),
        problems(),
    ];
    lists.into_iter().flatten().collect()
}

/// f(f(f(c))) = f(c) with budget 9, asked of a record: one step by the rule of
/// the settle input.
fn of_record(name: &str, record: &[u8], answer: DecideAnswer) -> Case {
    let theory = Theory::new(SETTLE).equation("f(f(f(c))) = f(c)");
    case(name, &theory, 9, record.to_vec(), answer)
}

/// Fields 10 and 11: missing, cut, of a wrong length or value.
fn first_fields() -> Vec<Case> {
    let whole = settle_record();
    let with_end = |end| Kept {
        end,
        ..whole.clone()
    };
    let with_units = |units| Kept {
        units,
        ..whole.clone()
    };
    let record = whole.bytes();
    let mut short_units = record[..4].to_vec();
    push_field(&mut short_units, TAG_UNITS, &[0, 0, 3]);
    vec![
        of_record("empty record", &[], refused(13, 0)),
        of_record("header cut", &record[..2], refused(13, 0)),
        of_record("end cut", &record[..3], refused(13, 0)),
        of_record("no units", &record[..4], refused(13, 4)),
        of_record("units cut", &record[..10], refused(13, 4)),
        of_record("no rule", &record[..11], different(0)),
        of_record("unlisted end", &with_end(25).bytes(), refused(13, 0)),
        of_record("end 7", &with_end(7).bytes(), refused(13, 0)),
        of_record("units at most", &with_units(1_000_000).bytes(), same(1)),
        of_record(
            "units above",
            &with_units(1_000_001).bytes(),
            refused(13, 4),
        ),
        of_record("three bytes of units", &short_units, refused(13, 4)),
        of_record("units first", &record[4..], refused(13, 0)),
    ]
}

/// A record of these rules, numbered so.
fn numbered(rules: &[(u16, &[u8])]) -> Vec<u8> {
    let rules = rules
        .iter()
        .map(|(number, sides)| (*number, sides.to_vec()));
    Kept {
        rules: rules.collect(),
        ..Kept::default()
    }
    .bytes()
}

fn rules() -> Vec<Case> {
    let twice: &[u8] = &[1, 1, 0x80, 0x80];
    let chain = |n: usize| [vec![1; n], vec![0x80, 0x80]].concat();
    let ask = |name, rules: &[(u16, &[u8])], answer| of_record(name, &numbered(rules), answer);
    vec![
        ask("number 512", &[(512, twice)], same(1)),
        ask("number 513", &[(513, twice)], refused(13, 11)),
        ask("number 0", &[(0, twice)], refused(13, 11)),
        ask("one number twice", &[(7, twice); 2], refused(13, 20)),
        ask("descending", &[(7, twice), (6, twice)], refused(13, 20)),
        ask("not renamed", &[(1, &[1, 0x81, 0x81])], refused(13, 11)),
        ask("a gap", &[(1, &[1, 0x80, 0x82])], refused(13, 11)),
        ask("a variable more", &[(1, &[1, 0x80, 0x81])], refused(15, 11)),
        ask("left a variable", &[(1, &[0x80, 1, 0x80])], refused(15, 11)),
        ask("equal sides", &[(1, &[0, 0])], refused(15, 11)),
        ask(
            "second upwards",
            &[(1, twice), (2, &[0, 1, 0])],
            refused(15, 20),
        ),
        ask("no such symbol", &[(1, &[2, 0])], refused(13, 11)),
        ask("byte behind", &[(1, &[1, 0, 0, 0])], refused(13, 11)),
        ask("one side", &[(1, &[1, 0])], refused(13, 11)),
        ask("only a number", &[(1, &[])], refused(13, 11)),
        ask("120 nodes", &[(1, &chain(119))], different(0)),
        ask("121 nodes", &[(1, &chain(120))], refused(13, 11)),
    ]
}

fn entries() -> Vec<Case> {
    let ask = |name, entry: &[u8], count, answer| {
        let kept = Kept {
            entries: vec![entry.to_vec(); count],
            ..settle_record()
        };
        of_record(name, &kept.bytes(), answer)
    };
    let other_kind = [4, 9, 9, 9, 9, 9, 9, 9];
    vec![
        ask("512 entries", &ENTRY, 512, same(1)),
        ask("513 entries", &ENTRY, 513, refused(13, 5652)),
        ask("only the kind is read", &other_kind, 2, same(1)),
        ask("put back", &[1, 0, 1, 0, 0, 0, 0xff, 0xff], 1, same(1)),
        ask("kind 0", &[0; 8], 1, refused(13, 20)),
        ask("kind 5", &[5; 8], 1, refused(13, 20)),
        ask("entry of 7", &[1; 7], 1, refused(13, 20)),
        ask("entry of 9", &[1; 9], 1, refused(13, 20)),
    ]
}

/// Field 14 with end 20 and with another.
fn pairs() -> Vec<Case> {
    let ask = |name, end, pairs: &[&[u8]], answer| {
        let mut record = Kept {
            end,
            ..settle_record()
        }
        .bytes();
        for pair in pairs {
            push_field(&mut record, TAG_PAIR, pair);
        }
        of_record(name, &record, answer)
    };
    let pair: &[u8] = &[0x80, 0x81];
    vec![
        ask("14 after end 20", 20, &[pair], refused(14, 0)),
        ask("14 after end 0", 0, &[pair], refused(13, 31)),
        ask("14 after end 21", 21, &[pair], refused(13, 31)),
        ask("no 14 after end 20", 20, &[], refused(13, 31)),
        ask("14 not renamed", 20, &[&[0x81, 0x80]], refused(13, 31)),
        ask("14 of one term", 20, &[&[0x80]], refused(13, 31)),
        ask("14 twice", 20, &[pair, pair], refused(13, 36)),
    ]
}

/// Fields behind the last one due.
fn not_due() -> Vec<Case> {
    let ask = |name, tag, contents: &[u8]| {
        let mut record = settle_record().bytes();
        push_field(&mut record, tag, contents);
        of_record(name, &record, refused(13, 31))
    };
    vec![
        ask("a rule after the log", TAG_RULE, &[0, 2, 1, 0, 0]),
        ask("an empty entry", TAG_ENTRY, &[]),
        ask("a second end", TAG_END, &[0]),
        ask("field 15", TAG_INSTANCE, &[0]),
    ]
}

/// The numbers of rules and bytes.
fn lengths() -> Vec<Case> {
    let rules = |count| Kept::complete(vec![vec![1, 1, 0x80, 0x80]; count]);
    let padded = |length: usize| {
        let mut record = settle_record().bytes();
        record.resize(length, 0);
        record
    };
    vec![
        of_record("32 rules", &rules(32).bytes(), same(1)),
        of_record("33 rules", &rules(33).bytes(), refused(13, 299)),
        of_record("a byte behind", &padded(32), refused(13, 31)),
        of_record("16,384 bytes", &padded(16_384), refused(13, 31)),
        of_record("16,385 bytes", &padded(16_385), refused(13, 16_384)),
        of_record("20,000 bytes", &[0x10; 20_000], refused(13, 16_384)),
    ]
}

/// 13 before 14, 14 before 15.
fn ends_and_order() -> Vec<Case> {
    let rule = |end, sides: &[u8]| Kept {
        end,
        ..Kept::complete(vec![sides.to_vec()])
    };
    let ask = |name, kept: Kept, answer| of_record(name, &kept.bytes(), answer);
    vec![
        ask("end 21", rule(21, &[1, 0, 0]), refused(14, 0)),
        ask("end 22", rule(22, &[1, 0, 0]), refused(14, 0)),
        ask("end 23", rule(23, &[1, 0, 0]), refused(14, 0)),
        ask("end 24", rule(24, &[1, 0, 0]), refused(14, 0)),
        ask("end 21, upwards", rule(21, &[0, 1, 0]), refused(14, 0)),
        ask("end 21, malformed", rule(21, &[0, 1]), refused(13, 11)),
    ]
}

/// The problem is read before the record.
fn problems() -> Vec<Case> {
    let none = Theory::new(SETTLE);
    let two = none.clone().equations(&["f(x) = x", "x = x"]);
    let long = none
        .clone()
        .raw_equation([vec![1; 120], vec![0, 0]].concat());
    let of_bytes = |name: &str, problem: Vec<u8>, answer| {
        let question = Question::new(problem, Vec::new());
        Case::new(name, question, answer)
    };
    vec![
        of_bytes("no equation", none.problem(9), refused(12, 14)),
        of_bytes("two equations", two.problem(9), refused(12, 20)),
        of_bytes("a side of 121 nodes", long.problem(9), refused(11, 17)),
        of_bytes("empty problem", Vec::new(), refused(4, 0)),
        of_bytes("8,193 bytes", vec![1; 8193], refused(2, 8192)),
    ]
}
