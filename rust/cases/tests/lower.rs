//! The lower of two lent terms: which one, whole and as it was lent, and what
//! is refused.

mod common;

use common::literal_lower;
use kb_cases::generate::pairs::{self as generated, exhaustive};
use kb_cases::notation::Theory;
use kb_cases::pairs::{cases, product, Pair};
use kb_cases::theories::GROUP;
use kb_engine::fields::push_field;
use kb_engine::problem::Problem;
use kb_engine::{compare, lower, CompareAnswer, Order, Which, MAX_PROBLEM};
use std::collections::BTreeSet;

const SEED: u64 = 30;

/// So many generated pairs, more with optimisation.
fn pairs() -> impl Iterator<Item = Pair> {
    let count = if cfg!(debug_assertions) { 6000 } else { 20_000 };
    (0..count).map(|index| generated::pair(SEED, index))
}

/// Whether two slices are one: the same bytes at the same place.
fn is_slice(answer: &[u8], lent: &[u8]) -> bool {
    std::ptr::eq(answer.as_ptr(), lent.as_ptr()) && answer.len() == lent.len()
}

/// Which term is handed back; it must be the whole of one, or empty.
fn handed_back(symbols: &[u8], first: &[u8], second: &[u8]) -> Which {
    let answer = lower(symbols, first, second);
    if answer.is_empty() {
        return Which::Refused;
    }
    if is_slice(answer, first) {
        return Which::First;
    }
    assert!(is_slice(answer, second), "neither term");
    Which::Second
}

fn handed_back_of(pair: &Pair) -> Which {
    handed_back(&pair.symbols, &pair.first, &pair.second)
}

/// The field of e, i and *, and i above * above e.
fn group() -> Vec<u8> {
    Theory::new(GROUP).symbol_field()
}

#[test]
fn fixed_pairs_are_answered_as_they_must() {
    let cases = cases();
    for case in &cases {
        assert_eq!(handed_back_of(&case.pair), case.answer, "{}", case.name);
    }
    let names: BTreeSet<&str> = cases.iter().map(|case| case.name.as_str()).collect();
    assert_eq!(names.len(), cases.len(), "a name stands twice");
}

/// The field by hand: e, i and * with arity and rank each.
#[test]
fn the_field_of_groups_is_this() {
    assert_eq!(group(), [1, 0, 6, 0, 0, 1, 2, 2, 1]);
    let inverse = [1, 2, 0x80, 0x81];
    let product = [2, 1, 0x81, 1, 0x80];
    assert_eq!(handed_back(&group(), &inverse, &product), Which::Second);
    assert_eq!(handed_back(&group(), &product, &inverse), Which::First);
}

/// Equal bytes in two buffers, or in one: the first.
#[test]
fn of_equal_terms_the_first() {
    let (first, second) = (vec![2, 0, 1, 0x83], vec![2, 0, 1, 0x83]);
    for (a, b) in [(&first, &second), (&second, &first)] {
        let answer = lower(&group(), a, b);
        assert!(is_slice(answer, a) && !is_slice(answer, b));
    }
    assert!(is_slice(lower(&group(), &first, &first), &first));
}

/// The second term is a part of the first, in one buffer.
#[test]
fn terms_may_overlap() {
    let buffer = [2, 1, 1, 0x80, 0x81];
    let (whole, part) = (&buffer[..], &buffer[1..4]);
    assert!(is_slice(lower(&group(), whole, part), part));
    assert!(is_slice(lower(&group(), part, whole), part));
    // i(i(x)) and the i(x) in it.
    assert!(is_slice(
        lower(&group(), &buffer[1..4], &buffer[2..4]),
        &buffer[2..4]
    ));
    // Beside each other.
    assert!(is_slice(
        lower(&group(), &buffer[4..], &buffer[1..4]),
        &buffer[4..]
    ));
    // Cut in the buffer, though its bytes go on.
    assert!(lower(&group(), &buffer[..4], part).is_empty());
    assert!(lower(&group(), part, &buffer[..4]).is_empty());
}

/// The terms may be parts of the field: a constant and a unary f.
#[test]
fn the_field_may_overlap_the_terms() {
    let field = [1, 0, 4, 0, 0, 1, 5];
    let (applied, constant) = (&field[..2], &field[1..2]);
    assert!(is_slice(lower(&field, applied, constant), constant));
    assert!(is_slice(lower(&field, constant, applied), constant));
    // The same f with nothing behind it.
    assert!(lower(&field, &field[..1], constant).is_empty());
}

/// What is handed back outlives the symbol field.
#[test]
fn the_field_is_not_kept() {
    let (first, second) = ([1, 0x80], [0x80]);
    let answer = {
        let symbols = group();
        lower(&symbols, &first, &second)
    };
    assert!(is_slice(answer, &second));
}

#[test]
fn empty_slices() {
    let (x, field) = ([0x80], group());
    assert!(is_slice(lower(&field, &x, &x), &x));
    for number in 1..8 {
        let part = |bit: usize, bytes| match number >> bit & 1 {
            0 => bytes,
            _ => &[][..],
        };
        let answer = lower(part(0, &field), part(1, &x), part(2, &x));
        assert!(answer.is_empty(), "{number}");
    }
}

/// Every cut of each of the three, and every byte behind it.
#[test]
fn cuts_and_bytes_behind() {
    let (field, first, second) = (group(), [2, 1, 0x80, 0], [1, 1, 0x80]);
    assert_eq!(handed_back(&field, &first, &second), Which::First);
    for cut in 0..field.len() {
        assert!(lower(&field[..cut], &first, &second).is_empty(), "{cut}");
    }
    for cut in 0..first.len() {
        assert!(lower(&field, &first[..cut], &second).is_empty(), "{cut}");
    }
    for cut in 0..second.len() {
        assert!(lower(&field, &first, &second[..cut]).is_empty(), "{cut}");
    }
    for byte in 0..=255 {
        let behind = |bytes: &[u8]| [bytes, &[byte]].concat();
        let (long_field, long_first) = (behind(&field), behind(&first));
        assert!(lower(&long_field, &first, &second).is_empty(), "{byte:02x}");
        assert!(lower(&field, &long_first, &second).is_empty(), "{byte:02x}");
        assert!(
            lower(&field, &first, &behind(&second)).is_empty(),
            "{byte:02x}"
        );
    }
}

/// Each byte as a term of one node.
#[test]
fn terms_of_one_byte() {
    let field = group();
    for byte in 0..=255 {
        let expected = match byte {
            0 | 0x80..=0x8f => Which::First,
            _ => Which::Refused,
        };
        assert_eq!(
            handed_back(&field, &[byte], &[0x80]),
            expected,
            "{byte:02x}"
        );
        assert_eq!(handed_back(&field, &[0], &[byte]), expected, "{byte:02x}");
    }
}

/// Each arity and rank, and each length of a field.
#[test]
fn fields_of_every_value_and_length() {
    let answer = |field: &[u8]| handed_back(field, &[0x80], &[0x81]);
    let accepted = |good| match good {
        true => Which::First,
        false => Which::Refused,
    };
    for value in 0..=255 {
        assert_eq!(answer(&[1, 0, 2, value, 0]), accepted(value <= 4));
        assert_eq!(answer(&[1, 0, 2, 0, value]), accepted(value <= 15));
        assert_eq!(answer(&[value, 0, 2, 0, 0]), accepted(value == 1));
        assert_eq!(answer(&[1, value, 2, 0, 0]), accepted(value == 0));
        assert_eq!(answer(&[1, 0, value, 0, 0]), accepted(value == 2));
    }
    for length in (0..600).chain(65_500..65_536) {
        let mut field = Vec::new();
        push_field(&mut field, 1, &vec![0; length]);
        let good = length % 2 == 0 && (2..=32).contains(&length);
        assert_eq!(answer(&field), accepted(good), "{length}");
    }
}

/// Up to 120 nodes, over symbols of each arity.
#[test]
fn nodes_up_to_120() {
    for arity in 1..=4 {
        let field = [1, 0, 2, arity, 0];
        for times in 0..150 {
            let leaves = times * (arity as usize - 1) + 1;
            let term = [vec![0; times], vec![0x80; leaves]].concat();
            let [expected, below] = match term.len() {
                1 => [Which::First, Which::First],
                2..=120 => [Which::Second, Which::First],
                _ => [Which::Refused; 2],
            };
            assert_eq!(handed_back(&field, &term, &[0x80]), expected, "{times}");
            assert_eq!(handed_back(&field, &[0x80], &term), below, "{times}");
            // A leaf less.
            let cut = &term[..term.len() - 1];
            assert!(lower(&field, cut, &[0x80]).is_empty(), "{times}");
            assert!(lower(&field, &[0x80], cut).is_empty(), "{times}");
        }
    }
}

/// Every leaf of the comb goes down the whole chain in vain; the chain on h
/// is above the comb, since it is above each of its leaves.
#[test]
fn a_product_of_comparisons() {
    let mut pair = product();
    assert_eq!((pair.first.len(), pair.second.len()), (120, 120));
    assert_eq!(handed_back_of(&pair), Which::First);
    assert_eq!(handed_back_of(&pair.clone().exchanged()), Which::First);
    let h = 2;
    pair.second[119] = h;
    assert_eq!(handed_back_of(&pair), Which::First);
    assert_eq!(handed_back_of(&pair.exchanged()), Which::Second);
}

/// The problem of the field, a budget and the one equation of the terms; none
/// if it is too long.
fn problem(pair: &Pair) -> Option<Vec<u8>> {
    let sides = [pair.first.as_slice(), &pair.second].concat();
    if pair.symbols.len() + 10 + sides.len() > MAX_PROBLEM {
        return None;
    }
    let mut out = pair.symbols.clone();
    push_field(&mut out, 2, &[0, 0, 0, 9]);
    push_field(&mut out, 3, &sides);
    Some(out)
}

/// How the terms compare in their problem, none if it is refused or divides
/// the bytes in another way.
fn order_in_problem(pair: &Pair) -> Option<Order> {
    let bytes = problem(pair)?;
    let problem = Problem::read(&bytes).ok()?;
    let equation = problem.only_equation().ok()?;
    let divided = equation.start == pair.symbols.len() + 7
        && equation.left.len() == pair.first.len()
        && equation.right.len() == pair.second.len();
    match compare(&bytes) {
        CompareAnswer::Compared(order) if divided => Some(order),
        _ => None,
    }
}

/// Refused exactly where the problem is refused or divides the bytes in
/// another way; else the second exactly where compare answers 1.
#[test]
fn lower_agrees_with_compare() {
    let mut seen = BTreeSet::new();
    for pair in pairs().chain(exhaustive::all()) {
        let order = order_in_problem(&pair);
        let expected = match order {
            None => Which::Refused,
            Some(Order::LeftAbove) => Which::Second,
            Some(_) => Which::First,
        };
        assert_eq!(handed_back_of(&pair), expected, "{pair:?}");
        seen.insert(order.map(|order| order as u8));
    }
    assert!(seen
        .into_iter()
        .eq([None, Some(1), Some(2), Some(3), Some(4)]));
}

/// What is handed back is not above the other. Where one is above the other,
/// exchanging them changes nothing; else the first is handed back.
#[test]
fn exchanged_terms() {
    let (mut ordered, mut unordered) = (0, 0);
    for pair in pairs() {
        let exchanged = pair.clone().exchanged();
        let answers = [handed_back_of(&pair), handed_back_of(&exchanged)];
        match answers {
            [Which::Refused, Which::Refused] => continue,
            [Which::Second, Which::First] | [Which::First, Which::Second] => {
                let back = lower(&exchanged.symbols, &exchanged.first, &exchanged.second);
                assert_eq!(lower(&pair.symbols, &pair.first, &pair.second), back);
                ordered += 1;
            }
            [Which::First, Which::First] => unordered += 1,
            _ => panic!("{answers:?} {pair:?}"),
        }
        let chosen = match answers[0] {
            Which::First => &pair,
            _ => &exchanged,
        };
        assert_ne!(order_in_problem(chosen), Some(Order::LeftAbove));
    }
    assert!(ordered > 1000 && unordered > 1000, "{ordered} {unordered}");
}

/// A term is above its last leaf, and so is every term above it.
#[test]
fn what_is_above_a_term_is_above_its_leaf() {
    let mut found = 0;
    for pair in pairs() {
        let (symbols, second) = (&pair.symbols, &pair.second);
        if second.len() == 1 || handed_back_of(&pair) != Which::Second {
            continue;
        }
        let leaf = &second[second.len() - 1..];
        for term in [&pair.first, second] {
            assert_eq!(handed_back(symbols, term, leaf), Which::Second, "{pair:?}");
            assert_eq!(handed_back(symbols, leaf, term), Which::First, "{pair:?}");
        }
        found += 1;
    }
    assert!(found > 500, "only {found}");
}

/// Terms made lower by the clauses are found lower.
#[test]
fn lowered_terms_are_lower() {
    let mut found = 0;
    for index in (0..20_000).filter(|index| generated::family(*index) == "lowered term") {
        let pair = generated::pair(SEED, index);
        let answers = [
            handed_back_of(&pair),
            handed_back_of(&pair.clone().exchanged()),
        ];
        if pair.first != pair.second {
            assert!(
                answers == [Which::Second, Which::First]
                    || answers == [Which::First, Which::Second],
                "{answers:?} {pair:?}"
            );
            found += 1;
        }
    }
    assert!(found > 1000, "only {found}");
}

#[test]
fn pairs_follow_the_definition() {
    let fixed = cases().into_iter().map(|case| case.pair);
    let count = if cfg!(debug_assertions) { 1500 } else { 6000 };
    let all = pairs().take(count).chain(fixed).chain(exhaustive::all());
    let mut counts = [0; 3];
    for pair in all {
        let answer = handed_back_of(&pair);
        assert_eq!(answer, literal_lower::which(&pair), "{pair:?}");
        counts[answer as usize] += 1;
    }
    assert!(counts.iter().all(|count| *count > 300), "{counts:?}");
}
