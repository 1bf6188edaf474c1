//! The thirteen worked instances.

mod common;

use common::{compared, completed, hex, run, unified};
use kb_cases::notation::Theory;
use kb_cases::theories::GROUP;
use kb_engine::overlap::{superpose, Superposition};
use kb_engine::problem::Problem;
use kb_engine::rules::Rule;
use kb_engine::term::rename_pair;
use kb_engine::unification::Unifier;
use kb_engine::{settle_text, UnifyAnswer};

fn group(equation: &str) -> Theory {
    Theory::new(GROUP).equation(equation)
}

/// The critical pair of the first rule inside the second, renamed, in hex.
fn critical_pair(theory: &Theory, position: usize) -> (String, String) {
    let bytes = theory.problem(0);
    let problem = Problem::read(&bytes).unwrap();
    let mut rules = problem.renamed_equations().into_iter();
    let mut rule = |number| rules.next().map(|(l, r)| Rule::new(number, l, r)).unwrap();
    let (inner, outer) = (rule(1), rule(2));
    let found = superpose(&inner, &outer, position, &mut Unifier::default());
    let Superposition::Pair(left, right) = found else {
        panic!("no overlap");
    };
    let (left, right) = rename_pair(&left, &right);
    let text = |term: &kb_engine::term::Term| {
        let mut out = Vec::new();
        term.write(&mut out);
        hex(&out)
    };
    (text(&left), text(&right))
}

#[test]
fn instance_1_to_4_compare() {
    assert_eq!(compared(&group("*(x,y) = *(y,x)")), 4);
    assert_eq!(compared(&group("i(*(x,y)) = *(i(y),i(x))")), 1);
    assert_eq!(compared(&group("*(*(x,y),z) = *(x,*(y,z))")), 1);
    assert_eq!(compared(&group("i(x) = y")), 4);
    assert_eq!(compared(&group("*(i(y),i(x)) = i(*(x,y))")), 2);
    assert_eq!(compared(&group("i(x) = i(x)")), 3);
}

#[test]
fn instance_5_critical_pair() {
    let theory = group("*(i(u),u) = e").equation("*(*(x,y),z) = *(x,*(y,z))");
    let (left, right) = critical_pair(&theory, 1);
    // e*z and i(u)*(u*z), z first.
    assert_eq!((left.as_str(), right.as_str()), ("020080", "020181028180"));
}

#[test]
fn instance_6_self_overlap() {
    let theory = group("i(i(x)) = x").equation("i(i(x)) = x");
    let (left, right) = critical_pair(&theory, 1);
    assert_eq!((left.as_str(), right.as_str()), ("0180", "0180"));
}

#[test]
fn instance_7_occurs_check() {
    assert_eq!(unified(&group("x = i(x)")).0, UnifyAnswer::None);
    assert_eq!(unified(&group("i(x) = x")).0, UnifyAnswer::None);
}

#[test]
fn instance_8_common_instance() {
    let theory = Theory::new("0/0/0 s/1/1 +/2/2").equation("+(x,+(0,s(y))) = +(s(z),+(0,x))");
    let (answer, bytes) = unified(&theory);
    assert_eq!(answer, UnifyAnswer::Written(10));
    assert_eq!(hex(&bytes), "15000702018002000180");
}

const SETTLE_INPUT: &str = "01000400000101 02000400000064 03000401018080";

#[test]
fn instance_9_settle() {
    let problem = common::bytes(SETTLE_INPUT);
    assert_eq!(completed(&problem).count, 31);
    let text = String::from_utf8(settle_text(&problem)).unwrap();
    let expected = "10 1 00\n11 4 00000003\n12 6 000101018080\n13 8 0100010000000001\n";
    assert_eq!(text, expected);
    assert_eq!(settle_text(&[]), b"refused 4 at 0\n");
}

#[test]
fn instance_10_budget_2() {
    let problem = common::bytes(&SETTLE_INPUT.replace("64", "02"));
    let fields = completed(&problem);
    assert_eq!((fields.end, fields.units), (21, 2));
    assert_eq!(fields.rules.len(), 1);
    assert_eq!(fields.rules[0].0, 1);
}

#[test]
fn instance_11_no_equation() {
    let fields = run(&Theory::new(GROUP), 9);
    assert_eq!((fields.end, fields.units, fields.count), (0, 1, 11));
}

#[test]
fn instance_12_commutativity() {
    let fields = run(&group("*(x,y) = *(y,x)"), 9);
    assert_eq!((fields.end, fields.units), (20, 2));
    assert_eq!(hex(&fields.pair.unwrap()), "028081028180");
    assert!(fields.rules.is_empty());
    assert_eq!(fields.log, [common::bytes("01 0001 0000 00 ffff")]);
}

#[test]
fn instance_13_settled() {
    let fields = run(&group("x = x"), 9);
    assert_eq!((fields.end, fields.units), (0, 2));
    assert_eq!(fields.log, [common::bytes("01 0001 0000 00 0000")]);
}
