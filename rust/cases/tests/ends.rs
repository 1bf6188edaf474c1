//! The ends 20 to 24 and the edges of budget, sizes, rules and log.

mod common;

use common::{bytes, completed, hex, refusal, rule_sides, run, Fields};
use kb_cases::full_log;
use kb_cases::notation::Theory;
use kb_cases::programs;
use kb_cases::put_back::simplified::groups_with_unit;
use kb_cases::theories::{self, GROUP, PAPERS};

const BUDGET: u32 = 1_000_000;

fn end_and_units(theory: &Theory) -> (u8, u32) {
    let fields = run(theory, BUDGET);
    (fields.end, fields.units)
}

#[test]
fn end_20_keeps_the_state_and_shows_the_pair() {
    let theory = Theory::new(GROUP).equations(&["*(x,e) = x", "*(*(x,e),y) = *(y,*(x,e))"]);
    let fields = run(&theory, BUDGET);
    assert_eq!((fields.end, fields.units), (20, 5));
    assert_eq!(rule_sides(&fields), ["02800080"]);
    let put_back = bytes("01 0002 0000 00 ffff");
    assert_eq!(fields.log, [bytes("01 0001 0000 00 0001"), put_back]);
    assert_eq!(hex(&fields.pair.unwrap()), "028081028180");
}

#[test]
fn field_14_is_in_taken_order() {
    let fields = run(&Theory::new(GROUP).equation("i(y) = *(x,y)"), 9);
    assert_eq!(hex(&fields.pair.unwrap()), "0180028180");
}

/// Units of the whole run, and its result at every smaller budget.
fn assert_21_at_every_unit(theory: &Theory) {
    let whole = run(theory, BUDGET);
    let mut log_length = 0;
    for budget in 0..whole.units {
        let fields = run(theory, budget);
        assert_eq!((fields.end, fields.units), (21, budget));
        assert!(fields.pair.is_none());
        assert!(fields.log.len() >= log_length && fields.log.len() <= whole.log.len());
        log_length = fields.log.len();
        assert_eq!(fields.log, whole.log[..log_length]);
        assert_numbers_follow(&fields);
    }
    assert_eq!(run(theory, whole.units), whole);
    assert_eq!(run(theory, whole.units + 1), whole);
}

/// Live rules are among those the log says were made.
fn assert_numbers_follow(fields: &Fields) {
    let made = fields.log.iter().map(|e| u16::from_be_bytes([e[6], e[7]]));
    let made: Vec<u16> = made.filter(|n| ![0, 0xffff].contains(n)).collect();
    assert!(made.iter().copied().eq(1..=made.len() as u16));
    assert!(fields.rules.iter().all(|(n, _)| made.contains(n)));
    assert!(fields.rules.windows(2).all(|w| w[0].0 < w[1].0));
}

#[test]
fn end_21_at_every_unit() {
    for (_, theory) in PAPERS {
        assert_21_at_every_unit(&theory());
    }
    let list = [
        theories::descents(&[3, 2]),
        theories::many_variables(13),
        theories::monoid("ab", &["aaa=", "bb=", "abab="]),
        Theory::new(GROUP),
        Theory::new(GROUP).equation("x = x"),
    ];
    list.iter().for_each(assert_21_at_every_unit);
    assert_21_at_every_unit(&groups_with_unit());
}

#[test]
fn budget_0_ends_21() {
    let fields = run(&Theory::new(GROUP), 0);
    assert_eq!((fields.end, fields.units, fields.count), (21, 0, 11));
}

#[test]
fn end_22_by_a_step() {
    let grow = |n: usize| theories::growing(n, 1);
    assert_eq!(run(&grow(6), BUDGET).end, 0);
    let fields = run(&grow(7), BUDGET);
    assert_eq!(
        (fields.end, fields.rules.len(), fields.log.len()),
        (22, 2, 2)
    );
    // The step that overflows is paid; one unit less is 21.
    assert_eq!(run(&grow(7), fields.units).end, 22);
    let less = run(&grow(7), fields.units - 1);
    assert_eq!((less.end, less.units), (21, fields.units - 1));
}

#[test]
fn end_22_by_the_left_of_a_pair() {
    let theory = theories::large_left;
    // k(t(X,X),0) has 2n + 5 nodes.
    let fields = run(&theory(57), BUDGET);
    assert_eq!(
        (fields.end, fields.rules.len(), fields.log.len()),
        (0, 3, 3)
    );
    let fields = run(&theory(58), BUDGET);
    assert_eq!((fields.end, fields.units, fields.rules.len()), (22, 3, 2));
}

#[test]
fn end_22_by_the_right_of_a_pair() {
    let theory = theories::large_right;
    // t(X,X) has 2n + 3 nodes.
    let fields = run(&theory(58), BUDGET);
    assert_eq!((fields.end, fields.rules.len()), (0, 3));
    let fields = run(&theory(59), BUDGET);
    assert_eq!((fields.end, fields.units, fields.rules.len()), (22, 3, 2));
}

#[test]
fn end_22_by_an_astronomic_peak() {
    let theory = theories::large_peak(12);
    let fields = run(&theory, BUDGET);
    assert_eq!((fields.end, fields.units, fields.rules.len()), (22, 3, 2));
}

#[test]
fn end_22_by_17_variables() {
    assert_eq!(end_and_units(&theories::many_variables(12)), (20, 4));
    assert_eq!(end_and_units(&theories::many_variables(13)), (22, 3));
    let fields = run(&theories::many_variables_oriented(12), BUDGET);
    assert_eq!((fields.end, fields.rules.len()), (0, 3));
    assert_eq!(
        end_and_units(&theories::many_variables_oriented(13)),
        (22, 3)
    );
}

#[test]
fn end_23_by_the_33rd_rule() {
    let fields = run(&theories::endless_rules(), BUDGET);
    assert_eq!((fields.end, fields.units), (23, 6497));
    assert_eq!((fields.rules.len(), fields.log.len()), (32, 32));
    assert_eq!(run(&theories::endless_rules(), 6497).end, 23);
    assert_eq!(run(&theories::endless_rules(), 6496).end, 21);
}

#[test]
fn end_0_with_32_rules() {
    let fields = run(&theories::products(2, 10), BUDGET);
    assert_eq!(
        (fields.end, fields.rules.len(), fields.log.len()),
        (0, 32, 32)
    );
    let fields = run(&theories::products(3, 8), BUDGET);
    assert_eq!(
        (fields.end, fields.rules.len(), fields.log.len()),
        (23, 32, 32)
    );
}

#[test]
fn end_24_by_the_513th_entry() {
    let end_and_entries = |theory| {
        let fields = run(&theory, BUDGET);
        (fields.end, fields.log.len())
    };
    assert_eq!(end_and_entries(full_log::settled(84, 0)), (0, 511));
    assert_eq!(end_and_entries(full_log::settled(84, 1)), (0, 512));
    assert_eq!(end_and_entries(full_log::settled(84, 2)), (24, 512));
    assert_eq!(end_and_entries(full_log::neither_above(83, 2)), (20, 511));
    assert_eq!(end_and_entries(full_log::neither_above(83, 3)), (20, 512));
    assert_eq!(end_and_entries(full_log::neither_above(83, 4)), (24, 512));
    assert_eq!(end_and_entries(full_log::neither_above(84, 0)), (24, 512));
    assert_eq!(end_and_entries(full_log::many_variables(83, 2)), (22, 511));
    assert_eq!(end_and_entries(full_log::many_variables(83, 3)), (24, 512));
    assert_eq!(end_and_entries(full_log::endless_rules(79, 1)), (23, 511));
    assert_eq!(end_and_entries(full_log::endless_rules(79, 2)), (24, 512));
}

/// The turn's unit and its rewriting come before the test of the log.
#[test]
fn ends_of_step_1_before_24() {
    let theory = full_log::settled(84, 2);
    let fields = run(&theory, BUDGET);
    assert_eq!(run(&theory, fields.units - 1).end, 21);
    let fields = run(&full_log::too_large(84, 0), BUDGET);
    assert_eq!((fields.end, fields.log.len()), (22, 512));
}

/// A stored run whose name begins with a number ends with it.
#[test]
fn stored_runs_end_as_their_names_say() {
    let (mut named, mut found) = (0, Vec::new());
    for case in programs::complete::cases().list() {
        if refusal(&case.problem).is_some() || case.asked > 0 {
            continue;
        }
        let end = completed(&case.problem).end;
        found.push(end);
        let number = case.name.split([':', ' ']).next();
        if let Some(Ok(number @ (0 | 20..=24))) = number.map(str::parse::<u8>) {
            assert_eq!(end, number, "{}", case.name);
            named += 1;
        }
    }
    assert!(named > 15, "only {named}");
    assert!([0, 20, 21, 22, 23, 24]
        .iter()
        .all(|end| found.contains(end)));
}

#[test]
fn removed_rules_wait_at_the_end() {
    // Rule 3 removes rules 1 and 2; both come after the waiting input 4.
    let theory = Theory::new("a/0/0 b/0/1 c/0/2 f/1/3 g/1/4").equations(&[
        "g(f(x)) = a",
        "f(f(x)) = x",
        "f(x) = x",
        "c = b",
    ]);
    let fields = run(&theory, BUDGET);
    let kinds: Vec<(u8, u8)> = fields.log.iter().map(|e| (e[0], e[2])).collect();
    assert_eq!(kinds, [(1, 1), (1, 2), (1, 3), (1, 4), (2, 1), (2, 2)]);
    assert_eq!(fields.end, 0);
}
