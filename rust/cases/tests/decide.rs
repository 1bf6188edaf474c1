//! The question asked of a kept result: every answer and every refusal.

mod common;

use common::{bytes, result_of};
use kb_cases::full_log;
use kb_cases::generate;
use kb_cases::kept::Kept;
use kb_cases::notation::Theory;
use kb_cases::questions::{cases, long_cases, settle_record, SETTLE};
use kb_cases::theories::{self, ARITHMETIC, GROUP};
use kb_engine::fields::{push_field, split_fields, TAG_RULE};
use kb_engine::problem::Problem;
use kb_engine::{decide, outermost, DecideAnswer, Refusal, Verdict};

const BUDGET: u32 = 1_000_000;

/// What complete writes for a theory.
fn completed(theory: &Theory, budget: u32) -> Vec<u8> {
    result_of(&theory.problem(budget)).expect("the theory is accepted")
}

/// A verdict, whatever it cost.
type Answer = Result<Verdict, Refusal>;

const SAME: Answer = Ok(Verdict::Same);
const DIFFERENT: Answer = Ok(Verdict::Different);

fn refused(number: u8, place: usize) -> Answer {
    Err(Refusal { number, place })
}

fn verdict(answer: DecideAnswer) -> Answer {
    match answer {
        DecideAnswer::Decided(verdict, _) => Ok(verdict),
        DecideAnswer::Refused(refusal) => Err(refusal),
    }
}

/// Asks over these symbols.
fn ask(symbols: &str, equation: &str, budget: u32, record: &[u8]) -> Answer {
    let theory = Theory::new(symbols).equation(equation);
    verdict(decide(&theory.problem(budget), record))
}

/// A question that rewrites once under the record of the settle input.
fn ask_settle(record: &[u8]) -> Answer {
    ask(SETTLE, "f(f(f(c))) = f(c)", 9, record)
}

/// By both calls, with the units.
#[test]
fn fixed_questions_are_answered_as_they_must() {
    for case in cases().into_iter().chain(long_cases()) {
        let (problem, record) = (&case.question.problem, &case.question.record);
        assert_eq!(decide(problem, record), case.decide, "{}", case.name);
        assert_eq!(outermost(problem, record), case.outermost, "{}", case.name);
    }
}

#[test]
fn the_settle_input_leaves_this_record() {
    let record = completed(&Theory::new(SETTLE).equation("f(f(x)) = x"), 100);
    assert_eq!(record, settle_record().bytes());
    let text = "10000100 110004 00000003 120006 000101018080 130008 0100010000000001";
    assert_eq!(record, bytes(text));
    assert_eq!(ask_settle(&record), SAME);
}

/// The first byte of the cut field, or the end where a field is due.
#[test]
fn every_truncation() {
    let record = settle_record().bytes();
    for length in 0..=record.len() {
        let expected = match length {
            0..=3 => refused(13, 0),
            4..=10 => refused(13, 4),
            // No rule: both sides are as they were.
            11 => DIFFERENT,
            12..=19 => refused(13, 11),
            20 | 31 => SAME,
            _ => refused(13, 20),
        };
        assert_eq!(ask_settle(&record[..length]), expected, "{length}");
    }
}

#[test]
fn every_truncation_after_end_20() {
    let equations = ["*(x,e) = x", "*(*(x,e),y) = *(y,*(x,e))"];
    let record = completed(&Theory::new(GROUP).equations(&equations), 9);
    assert_eq!(record.len(), 51);
    for length in 0..=record.len() {
        let expected = match length {
            0..=3 => refused(13, 0),
            4..=10 => refused(13, 4),
            11..=19 => refused(13, 11),
            20..=30 => refused(13, 20),
            31..=41 => refused(13, 31),
            42..=50 => refused(13, 42),
            _ => refused(14, 0),
        };
        let found = ask(GROUP, "x = x", 9, &record[..length]);
        assert_eq!(found, expected, "{length}");
    }
}

/// The record with two neighbouring fields exchanged.
fn exchanged(record: &[u8], first: usize) -> Vec<u8> {
    let mut fields: Vec<(u8, &[u8])> = split_fields(record).collect();
    fields.swap(first, first + 1);
    let mut out = Vec::new();
    for (tag, contents) in fields {
        push_field(&mut out, tag, contents);
    }
    out
}

#[test]
fn fields_out_of_order() {
    // Rules at 11 and 20, an entry at 30, field 14 at 41.
    let record = Kept {
        end: 20,
        rules: vec![(3, vec![1, 1, 0x80, 0x80]), (9, vec![1, 1, 1, 0, 0])],
        pair: Some(vec![0x80, 0x81]),
        ..settle_record()
    };
    let record = record.bytes();
    assert_eq!(ask_settle(&record), refused(14, 0));
    // The field that comes too early is bad, or the one that comes too late.
    let places = [0, 4, 21, 31, 35];
    for (first, place) in places.into_iter().enumerate() {
        let found = ask_settle(&exchanged(&record, first));
        assert_eq!(found, refused(13, place), "fields {first}");
    }
}

/// Each end that a run writes, but 0.
#[test]
fn other_ends_are_refused() {
    let ended = |theory: &Theory, budget, end| {
        let record = completed(theory, budget);
        assert_eq!(record[3], end);
        let table = Problem::read(&theory.problem(0)).unwrap().equations[0].start - 7;
        let mut problem = theory.problem(9)[..table + 7].to_vec();
        push_field(&mut problem, 3, &[0x80, 0x80]);
        let found = verdict(decide(&problem, &record));
        assert_eq!(found, refused(14, 0), "end {end}");
    };
    ended(&theories::group_axioms(), BUDGET, 20);
    ended(&theories::group_axioms(), 30, 21);
    ended(&theories::growing(7, 1), BUDGET, 22);
    ended(&theories::endless_rules(), BUDGET, 23);
    ended(&full_log::settled(84, 2), BUDGET, 24);
}

/// 002's ten rules: which products are equal in every group.
#[test]
fn groups() {
    let record = completed(&theories::group_rules(), BUDGET);
    let same = [
        "*(x,*(y,*(i(y),i(x)))) = e",
        "i(*(i(x),*(y,x))) = *(i(x),*(i(y),x))",
        "*(*(*(x,y),i(y)),z) = *(x,*(e,z))",
        "i(i(*(x,i(e)))) = *(e,*(x,e))",
    ];
    let different = [
        "*(x,*(y,*(i(x),i(y)))) = e",
        "i(*(x,y)) = *(i(x),i(y))",
        "*(x,x) = x",
        "x = y",
        "i(x) = e",
    ];
    for equation in same {
        let found = ask(GROUP, equation, 99, &record);
        assert_eq!(found, SAME, "{equation}");
    }
    for equation in different {
        let found = ask(GROUP, equation, 99, &record);
        assert_eq!(found, DIFFERENT, "{equation}");
    }
}

/// Another table: a symbol less, another arity, another rank.
#[test]
fn records_over_other_symbols() {
    let record = Kept::of_theory(&theories::group_rules()).bytes();
    let ask = |symbols| ask(symbols, "x = x", 9, &record);
    assert_eq!(ask("e/0/0 i/1/2 */2/1 a/0/3"), SAME);
    assert_eq!(ask("e/0/0 i/1/2"), refused(13, 11));
    assert_eq!(ask("e/0/0 i/2/2 */2/1"), refused(13, 20));
    // i(x*y) to i(y)*i(x), the last, needs i above *.
    let last = record.len() - 14;
    assert_eq!(record[last], TAG_RULE);
    assert_eq!(ask("e/0/0 i/1/1 */2/1"), refused(15, last));
    assert_eq!(ask("e/0/0 i/1/1 */2/2"), refused(15, last));
}

/// The units of each question, and 21 with every smaller budget.
#[test]
fn one_unit_less_is_21() {
    let rules = [theories::group_rules(), theories::arithmetic_rules()];
    let [groups, arithmetic] = rules.map(|theory| completed(&theory, BUDGET));
    let asked = [
        (GROUP, "i(*(x,*(y,z))) = *(i(z),*(i(y),i(x)))", 3, &groups),
        (GROUP, "*(*(*(x,y),z),e) = *(*(e,x),*(y,z))", 5, &groups),
        (GROUP, "*(i(e),i(i(x))) = i(i(y))", 4, &groups),
        (
            ARITHMETIC,
            "+(s(0),s(s(0))) = -(s(s(s(s(0)))),s(0))",
            6,
            &arithmetic,
        ),
    ];
    for (symbols, equation, units, record) in asked {
        let theory = Theory::new(symbols).equation(equation);
        let whole = decide(&theory.problem(BUDGET), record);
        let DecideAnswer::Decided(_, paid) = whole else {
            panic!("{equation}: {whole:?}");
        };
        assert_eq!(paid, units, "{equation}");
        for budget in 0..units {
            let less = decide(&theory.problem(budget), record);
            let spent = DecideAnswer::Decided(Verdict::Ended(21), budget);
            assert_eq!(less, spent, "{equation}");
        }
        assert_eq!(decide(&theory.problem(units), record), whole);
    }
}

/// Rules that do not join: the innermost node and the lowest number decide.
#[test]
fn the_order_of_steps() {
    let symbols = "a/0/0 b/0/1 c/0/2 g/1/3 f/1/4";
    let rules = |list: &[&str]| Kept::of_theory(&Theory::new(symbols).equations(list)).bytes();
    let lowest = |list: &[&str]| ask(symbols, "f(c) = a", 1, &rules(list));
    assert_eq!(lowest(&["f(c) = a", "f(x) = b"]), SAME);
    assert_eq!(lowest(&["f(x) = b", "f(c) = a"]), DIFFERENT);
    let inner = rules(&["f(g(x)) = a", "g(x) = b", "f(b) = c"]);
    assert_eq!(ask(symbols, "f(g(c)) = c", 2, &inner), SAME);
}

/// As many variables as a rule can have, and a byte that is none.
#[test]
fn sixteen_variables() {
    let rule = |last: u8| {
        let variables = (0..16).flat_map(|v| [1, 0x80 + v]);
        let mut sides: Vec<u8> = variables.collect();
        sides.extend([0, 0x80 + last]);
        Kept::complete(vec![sides]).bytes()
    };
    let theory = Theory::new("c/0/0 f/2/1").equation("x = x");
    let ask = |record: &[u8]| verdict(decide(&theory.problem(9), record));
    assert_eq!(ask(&rule(15)), SAME);
    assert_eq!(ask(&rule(16)), refused(13, 11));
}

/// No depth of a malformed term matters.
#[test]
fn deep_terms_are_refused() {
    for symbol in [1, 2] {
        let mut record = Kept::default().bytes();
        push_field(&mut record, TAG_RULE, &vec![symbol; 16_384 - 11 - 3]);
        assert_eq!(record.len(), 16_384);
        assert_eq!(ask(GROUP, "x = x", 9, &record), refused(13, 11));
        let filled = vec![symbol; 16_384];
        assert_eq!(ask(GROUP, "x = x", 9, &filled), refused(13, 0));
    }
}

/// The equations that a run began with are never found different.
#[test]
fn input_equations_are_the_same() {
    let (mut same, mut different) = (0, 0);
    for index in 0..4000 {
        let problem = generate::problem(8, index);
        let Some(record) = result_of(&problem).filter(|record| record[3] == 0) else {
            continue;
        };
        let read = Problem::read(&problem).unwrap();
        let table = &problem[..3 + problem[2] as usize];
        for equation in &read.equations {
            let mut question = table.to_vec();
            push_field(&mut question, 2, &BUDGET.to_be_bytes());
            push_field(
                &mut question,
                3,
                &problem[equation.left.start..equation.right.end],
            );
            match verdict(decide(&question, &record)) {
                SAME => same += 1,
                _ => different += 1,
            }
        }
    }
    assert_eq!(different, 0);
    assert!(same > 1500, "only {same}");
}
