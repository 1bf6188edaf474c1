//! The cases of calls_run: compare, unify, subterm and lower on the worked
//! instances and the edges.

use super::{hex, refusals, refused, Case, Cases};
use crate::notation::Theory;
use kb_engine::calls::TOO_LARGE;
use kb_engine::{compare, lower, subterm, unify, CompareAnswer, UnifyAnswer, MIN_RESULT};

/// subterm at 2, 3, 4 and 5; what is asked first is compare, unify, subterm
/// at 0 and 1, and lower of the two sides.
const LATER_PARTS: u8 = 1;
/// The bytes of a field's head, and of the budget field.
const HEAD: usize = 3;
const BUDGET_FIELD: usize = HEAD + 4;
/// unify with a result buffer of 16,383 bytes.
const SHORT_BUFFER: u8 = 2;

pub fn cases() -> Cases {
    let mut cases = Cases(Vec::new());
    instances(&mut cases);
    super::equal_ranks(&mut cases);
    refusals::terms(&mut cases);
    positions(&mut cases);
    refusals::headers(&mut cases);
    refusals::tables(&mut cases);
    refusals::budgets(&mut cases);
    refusals::counts(&mut cases);
    refusals::long_sides(&mut cases);
    refusals::long_problems(&mut cases);
    cases.ask(SHORT_BUFFER, "a buffer of 16,383 bytes", Vec::new());
    doublings(&mut cases);
    cases
}

fn instances(cases: &mut Cases) {
    cases.equation("instance 1", "*(x,y) = *(y,x)");
    cases.equation("instance 2", "i(*(x,y)) = *(i(y),i(x))");
    cases.equation("instance 3", "*(*(x,y),z) = *(x,*(y,z))");
    cases.equation("instance 4", "i(x) = y");
    cases.equation("instance 7", "x = i(x)");
    cases.equation("instance 8", "*(x,*(e,i(y))) = *(i(z),*(e,x))");
    cases.equation("right above", "x = i(x)");
    cases.equation("identical", "*(x,y) = *(x,y)");
    cases.equation("arguments", "*(i(x),y) = *(x,i(y))");
    cases.contents("renamed", &[2, 0x8f, 0x83, 2, 0x83, 0x8e]);
}

fn positions(cases: &mut Cases) {
    let theory = Theory::new("f/2/0").equation("f(f(x,y),z) = x");
    cases.ask(LATER_PARTS, "positions", theory.problem(9));
}

/// x1 * (x2 * .. (xn * left)) against (x0 * x0) * ((x1 * x1) * .. * right).
fn doubling(cases: &mut Cases, name: &str, n: u8, left: &[u8], right: &[u8]) {
    let mut contents: Vec<u8> = (1..=n).flat_map(|x| [2, 0x80 + x]).collect();
    contents.extend(left);
    contents.extend((0..n).flat_map(|x| [2, 2, 0x80 + x, 0x80 + x]));
    contents.extend(right);
    cases.contents(name, &contents);
}

/// Unifiable but large; a clash at the end; a cycle from the last variable to
/// the first.
fn doublings(cases: &mut Cases) {
    let sizes = [2, 4, 8, 15];
    for n in sizes {
        doubling(cases, &format!("doubling {n}"), n, &[0], &[0]);
    }
    for n in sizes {
        doubling(cases, &format!("doubling {n}, clash"), n, &[0], &[1, 0]);
    }
    for n in sizes {
        let last = 0x80 + n;
        let name = format!("doubling {n}, cycle");
        doubling(cases, &name, n, &[0x80], &[2, last, last]);
    }
}

/// What calls_run must print for a case.
pub fn text(case: &Case) -> String {
    let (name, problem) = (&case.name, case.problem.as_slice());
    let parts = |from: usize, to: usize| -> String {
        let part = |at| format!(", subterm {at} {}", hex(subterm(problem, at)));
        (from..=to).map(part).collect()
    };
    match case.asked {
        LATER_PARTS => format!("{name}{}\n", parts(2, 5)),
        SHORT_BUFFER => format!("{name}: unify {}\n", unified(problem, MIN_RESULT - 1)),
        _ => {
            let (compared, unified) = (compared(problem), unified(problem, MIN_RESULT));
            let (parts, lower) = (parts(0, 1), lower_side(problem));
            format!("{name}: compare {compared}, unify {unified}{parts}, lower {lower}\n")
        }
    }
}

fn compared(problem: &[u8]) -> String {
    match compare(problem) {
        CompareAnswer::Refused(refusal) => refused(refusal),
        CompareAnswer::Compared(order) => (order as u8).to_string(),
    }
}

/// The lower of the two sides, which fill the last field; of a problem that is
/// refused, over itself, it and itself.
fn lower_side(problem: &[u8]) -> String {
    let left = subterm(problem, 0);
    if left.is_empty() {
        return hex(lower(problem, problem, problem));
    }
    let table_end = HEAD + usize::from(problem[2]);
    let right = table_end + BUDGET_FIELD + HEAD + left.len();
    hex(lower(&problem[..table_end], left, &problem[right..]))
}

fn unified(problem: &[u8], buffer: usize) -> String {
    let mut result = vec![0; buffer];
    match unify(problem, &mut result) {
        UnifyAnswer::Refused(refusal) => refused(refusal),
        UnifyAnswer::Written(count) => hex(&result[..count]),
        UnifyAnswer::None => "none".to_string(),
        UnifyAnswer::TooLarge => format!("refused {TOO_LARGE}"),
    }
}
