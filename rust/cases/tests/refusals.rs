//! Every refusal number, at its places and in the order of the tests.

mod common;

use common::{assert_only_refused, assert_refused, bytes, refusal};
use kb_cases::notation::Theory;
use kb_engine::fields::push_field;
use kb_engine::{compare, complete, subterm, unify};
use kb_engine::{CompareAnswer, CompleteAnswer, Order, Refusal, UnifyAnswer, MIN_RESULT};

/// c/0, f/1, g/2.
const SYMBOLS: &[u8] = &[0, 0, 1, 1, 2, 2];
const EQUATION_AT: usize = 3 + 6 + 7;

/// A problem with the given equation contents.
fn with_equations(list: &[&[u8]]) -> Vec<u8> {
    let mut out = Vec::new();
    push_field(&mut out, 1, SYMBOLS);
    push_field(&mut out, 2, &[0, 0, 0, 50]);
    list.iter()
        .for_each(|contents| push_field(&mut out, 3, contents));
    out
}

fn symbols_only(contents: &[u8]) -> Vec<u8> {
    let mut out = Vec::new();
    push_field(&mut out, 1, contents);
    out
}

/// f^n(c): n + 1 nodes.
fn chain(n: usize) -> Vec<u8> {
    let mut out = vec![1; n];
    out.push(0);
    out
}

#[test]
fn number_1_short_buffer() {
    let refused = Refusal {
        number: 1,
        place: 0,
    };
    let good = with_equations(&[&[0x80, 0x80]]);
    for problem in [good.as_slice(), &[], &[9; 9000]] {
        for length in [0, 1, MIN_RESULT - 1] {
            let mut result = vec![7; length];
            assert_eq!(
                complete(problem, &mut result),
                CompleteAnswer::Refused(refused)
            );
            assert_eq!(unify(problem, &mut result), UnifyAnswer::Refused(refused));
            assert!(result.iter().all(|b| *b == 7));
        }
    }
    let mut result = vec![7; MIN_RESULT];
    assert!(matches!(
        complete(&good, &mut result),
        CompleteAnswer::Written(_)
    ));
    assert_eq!(unify(&good, &mut result), UnifyAnswer::Written(4));
    assert_eq!(compare(&good), CompareAnswer::Compared(Order::Identical));
}

#[test]
fn number_2_long_problem() {
    assert_refused(&vec![1; 8193], 2, 8192);
    assert_refused(&vec![0; 20000], 2, 8192);
    // At 8,192 bytes the fields decide.
    let mut problem = with_equations(&[&[0x80, 0x80]]);
    let start = problem.len();
    problem.resize(8192, 0x80);
    problem[start] = 3;
    let length = (8192 - start - 3) as u16;
    problem[start + 1..start + 3].copy_from_slice(&length.to_be_bytes());
    assert_refused(&problem, 10, start + 5);
    problem.push(0);
    assert_refused(&problem, 2, 8192);
}

#[test]
fn number_3_past_the_end() {
    assert_refused(&[1], 3, 0);
    assert_refused(&[9, 0], 3, 0);
    assert_refused(&bytes("01 0002 00"), 3, 0);
    assert_refused(&bytes("ff ffff 00"), 3, 0);
    assert_refused(&bytes("01 0002 0000 02"), 3, 5);
    assert_refused(&bytes("01 0002 0000 ff 00"), 3, 5);
    assert_refused(&bytes("01 0002 0000 02 0004 000000"), 3, 5);
    let whole = with_equations(&[&[0x80, 0x80]]);
    for cut in EQUATION_AT + 1..whole.len() {
        assert_refused(&whole[..cut], 3, EQUATION_AT);
    }
    // Symbols are read before the budget field's bounds are tested.
    assert_refused(&bytes("01 0002 0500 02"), 6, 3);
}

#[test]
fn number_4_tags() {
    assert_refused(&[], 4, 0);
    assert_refused(&bytes("02 0000"), 4, 0);
    assert_refused(&bytes("00 0001 00"), 4, 0);
    assert_refused(&bytes("01 0002 0000"), 4, 5);
    assert_refused(&bytes("01 0002 0000 01 0002 0000"), 4, 5);
    assert_refused(&bytes("01 0002 0000 03 0002 8080"), 4, 5);
    let mut problem = with_equations(&[&[0x80, 0x80]]);
    problem.extend(bytes("02 0004 00000000"));
    assert_refused(&problem, 4, EQUATION_AT + 5);
    problem[EQUATION_AT + 5] = 4;
    assert_refused(&problem, 4, EQUATION_AT + 5);
}

#[test]
fn number_5_symbol_field_length() {
    assert_refused(&symbols_only(&[]), 5, 0);
    assert_refused(&symbols_only(&[0]), 5, 0);
    assert_refused(&symbols_only(&[0, 0, 9]), 5, 0);
    assert_refused(&symbols_only(&[9; 33]), 5, 0);
    assert_refused(&symbols_only(&[9; 34]), 5, 0);
    let sixteen: Vec<u8> = (0..16).flat_map(|rank| [rank % 5, rank]).collect();
    assert_refused(&symbols_only(&sixteen), 4, 35);
}

#[test]
fn number_6_arity_and_rank() {
    assert_refused(&symbols_only(&[5, 16]), 6, 3);
    assert_refused(&symbols_only(&[4, 16]), 6, 4);
    assert_refused(&symbols_only(&[255, 0]), 6, 3);
    assert_refused(&symbols_only(&[0, 3, 5, 3]), 6, 5);
    assert_refused(&symbols_only(&[0, 3, 1, 16]), 6, 6);
    assert_refused(&symbols_only(&[4, 15]), 4, 5);
}

#[test]
fn number_7_no_longer_occurs() {
    assert_refused(&symbols_only(&[0, 3, 1, 3]), 4, 7);
    assert_refused(&symbols_only(&[0, 3, 1, 3, 9, 9]), 6, 7);
    assert_refused(&symbols_only(&[0, 3, 1, 2, 2, 3]), 4, 9);
    let theory = Theory::new("f/1/3 g/1/3").equation("f(g(x)) = g(x)");
    assert_eq!(refusal(&theory.problem(9)), None);
}

#[test]
fn number_8_budget() {
    let with_budget = |contents: &[u8]| {
        let mut out = symbols_only(&[0, 0]);
        push_field(&mut out, 2, contents);
        out
    };
    for contents in [
        &[][..],
        &[0; 3],
        &[0; 5],
        &[0, 15, 66, 65],
        &[255; 4],
        &[1, 0, 0, 0],
    ] {
        assert_refused(&with_budget(contents), 8, 5);
    }
    let million = 1_000_000u32.to_be_bytes();
    assert_eq!(refusal(&with_budget(&million)), None);
    assert_only_refused(&with_budget(&million), 12, 12);
}

#[test]
fn number_9_seventeenth_equation() {
    let mut problem = with_equations(&[&[0x80, 0x80][..]; 16]);
    assert_eq!(refusal(&problem), None);
    let seventeenth = problem.len();
    problem.extend(bytes("03 0001 ff"));
    assert_refused(&problem, 9, seventeenth);
    problem[seventeenth] = 2;
    assert_refused(&problem, 4, seventeenth);
    problem.pop();
    assert_refused(&problem, 3, seventeenth);
    // A bad sixteenth comes first.
    let mut list = [&[0x80, 0x80][..]; 17];
    list[15] = &[0x80, 3];
    assert_refused(&with_equations(&list), 10, EQUATION_AT + 15 * 5 + 4);
}

#[test]
fn number_10_terms() {
    let at = EQUATION_AT + 3;
    let cases: &[(&[u8], usize)] = &[
        (&[], 0),
        (&[1], 1),
        (&[2, 0x80], 2),
        (&[0], 1),
        (&[0x80], 1),
        (&[0x80, 2, 0], 3),
        (&[3, 0], 0),
        (&[16, 0], 0),
        (&[0x7f, 0], 0),
        (&[0x90, 0], 0),
        (&[0xff, 0], 0),
        (&[1, 3, 0], 1),
        (&[0, 1, 0x90], 2),
        (&[0x80, 0x80, 0x80], 2),
        (&[0, 0, 0xff], 2),
        (&[0x8f, 0x8f, 0, 0], 2),
    ];
    for (contents, offset) in cases {
        assert_refused(&with_equations(&[contents]), 10, at + offset);
    }
    // The field's end is not the problem's.
    assert_refused(&with_equations(&[&[1], &[0, 0]]), 10, at + 1);
}

#[test]
fn number_11_sizes() {
    let at = EQUATION_AT + 3;
    let sides = |left: Vec<u8>, right: Vec<u8>| with_equations(&[&[left, right].concat()]);
    assert_eq!(refusal(&sides(chain(119), chain(119))), None);
    assert_refused(&sides(chain(120), chain(119)), 11, at);
    assert_refused(&sides(chain(119), chain(120)), 11, at + 120);
    assert_refused(&sides(chain(120), vec![]), 11, at);
    assert_refused(&sides(chain(120), vec![9]), 11, at);
    assert_refused(&sides(chain(7000), vec![9]), 11, at);
    // A long side with a bad byte or a cut is 10.
    assert_refused(&sides(vec![1; 200], vec![]), 10, at + 200);
    assert_refused(&sides(vec![1; 200], vec![9]), 10, at + 200);
    assert_refused(&sides(chain(5), vec![1; 7000]), 10, at + 7006);
    // The right side's 11 comes before the extra byte's 10.
    assert_refused(&sides(chain(2), [chain(120), vec![0]].concat()), 11, at + 3);
    assert_refused(
        &sides(chain(2), [chain(119), vec![0]].concat()),
        10,
        at + 123,
    );
}

#[test]
fn number_12_comes_last() {
    let none = with_equations(&[]);
    assert_eq!(refusal(&none), None);
    assert_only_refused(&none, 12, EQUATION_AT);
    let three = with_equations(&[&[0, 0], &[0x80, 0x80], &[1, 0, 0]]);
    assert_eq!(refusal(&three), None);
    assert_only_refused(&three, 12, EQUATION_AT + 5);
    let bad_third = with_equations(&[&[0, 0], &[0x80, 0x80], &[1, 0]]);
    assert_refused(&bad_third, 10, EQUATION_AT + 15);
    let seventeen = with_equations(&[&[0x80, 0x80][..]; 17]);
    assert_refused(&seventeen, 9, EQUATION_AT + 16 * 5);
}

#[test]
fn no_constant_is_needed() {
    let theory = Theory::new("f/1/3 g/2/1");
    assert_eq!(refusal(&theory.equation("f(x) = g(x,x)").problem(5)), None);
}

#[test]
fn subterm_hands_back_the_lent_bytes() {
    let problem = with_equations(&[&[2, 1, 2, 0, 0x81, 0x80, 0][..]]);
    let left = EQUATION_AT + 3;
    let expected = [6, 4, 3, 1, 1, 1];
    for (position, length) in expected.iter().enumerate() {
        let part = subterm(&problem, position);
        let offset = part.as_ptr() as usize - problem.as_ptr() as usize;
        assert_eq!((offset, part.len()), (left + position, *length));
    }
    for position in [6, 7, 120, usize::MAX] {
        assert!(subterm(&problem, position).is_empty());
    }
}
