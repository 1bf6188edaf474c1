//! The cases of complete_run: the papers' theories, the worked instances, the
//! edges, every end by each of its causes, and every refusal with its place.

use super::{groups, hex, put_back, refusals, refused, Case, Cases};
use crate::notation::Theory;
use crate::theories::{self, power, PAPERS};
use crate::{fixed, full_log};
use kb_engine::fields::split_fields;
use kb_engine::{complete, CompleteAnswer, MAX_BUDGET, MIN_RESULT};

/// complete with a result buffer of 16,383 bytes.
const SHORT_BUFFER: u8 = 1;
/// What the buffer holds before the call.
const BEFORE: u8 = 0xa5;

pub fn cases() -> Cases {
    let mut cases = Cases(Vec::new());
    papers(&mut cases);
    instances(&mut cases);
    equal_ranks(&mut cases);
    turns(&mut cases);
    sizes(&mut cases);
    counts(&mut cases);
    budgets(&mut cases);
    neither_above(&mut cases);
    put_back::cases(&mut cases);
    spent(&mut cases);
    too_large(&mut cases);
    full(&mut cases);
    full_log(&mut cases);
    refusals(&mut cases);
    cases
}

fn run(cases: &mut Cases, name: &str, theory: Theory) {
    cases.bytes(name, theory.problem(MAX_BUDGET));
}

fn papers(cases: &mut Cases) {
    for (name, theory) in PAPERS {
        run(cases, name, theory());
    }
}

/// The instances of compare, unify and overlap as problems of their terms.
fn instances(cases: &mut Cases) {
    let mut of_groups = |name, budget, equations: &[&str]| {
        cases.bytes(name, groups().equations(equations).problem(budget));
    };
    of_groups("instance 1", 9, &["*(x,y) = *(y,x)"]);
    of_groups("instance 2", 9, &["i(*(x,y)) = *(i(y),i(x))"]);
    of_groups("instance 3", 9, &["*(*(x,y),z) = *(x,*(y,z))"]);
    of_groups("instance 4", 9, &["i(x) = y"]);
    let inside = ["*(i(u),u) = e", "*(*(x,y),z) = *(x,*(y,z))"];
    of_groups("instance 5", 3, &inside);
    of_groups("instance 6", 9, &["i(i(x)) = x"]);
    of_groups("instance 7", 9, &["x = i(x)"]);
    of_groups("instance 8", 9, &["*(x,*(e,i(y))) = *(i(z),*(e,x))"]);
    let settle = Theory::new("0/0/0 f/1/1").equation("f(f(x)) = x");
    cases.bytes("instance 9", settle.problem(100));
    cases.bytes("instance 10", settle.problem(2));
    cases.bytes("instance 11", groups().problem(9));
    cases.equation("instance 12", "*(x,y) = *(y,x)");
    cases.equation("instance 13", "x = x");
}

/// Two symbols of one rank: a theory that completes, one that ends 20 and
/// would not with another rank, and each clause alone.
fn equal_ranks(cases: &mut Cases) {
    let arithmetic = theories::unranked_arithmetic();
    run(cases, "one rank for + and -", arithmetic);
    run(cases, "20: one rank", theories::difference(1));
    run(cases, "0: two ranks", theories::difference(2));
    super::equal_ranks(cases);
}

/// Right sides are normalised by the live rules as they then read: b to c
/// turns g(c) to h(b) into g(c) to h(c), and then k to g(b) into k to h(c).
fn rights() -> Theory {
    Theory::new("c/0/0 b/0/1 h/1/2 g/1/3 k/0/4").equations(&["g(c) = h(b)", "k = g(b)", "b = c"])
}

/// What each step of a turn shows in the result.
fn turns(cases: &mut Cases) {
    run(cases, "right sides as they then read", rights());
    let removed = ["g(f(x)) = a", "f(f(x)) = x", "f(x) = x", "c = b"];
    let theory = Theory::new("a/0/0 b/0/1 c/0/2 f/1/3 g/1/4").equations(&removed);
    run(cases, "removed rules wait at the end", theory);
    run(
        cases,
        "places reused, numbers not",
        theories::descents(&[3, 2]),
    );
    let theory = groups().equation("*(x,y) = i(*(y,x))");
    run(cases, "renamed by the upper side", theory);
    let repeated = ["*(x,x) = e", "*(e,i(e)) = i(e)", "i(*(i(x),i(x))) = i(e)"];
    run(cases, "a repeated variable", groups().equations(&repeated));
    let theory = Theory::new("f/1/3 g/2/1").equation("f(x) = g(x,x)");
    run(cases, "no constant", theory);
}

/// Sides, peaks, steps and the two sides of a pair at 120 nodes and above.
fn sizes(cases: &mut Cases) {
    run(cases, "a rule of 120 nodes", fixed::chains(119, 0));
    run(cases, "a peak of 120 nodes", fixed::chains(60, 0));
    run(cases, "a peak of 121 nodes", fixed::chains(61, 0));
    run(cases, "a step to 120 nodes", theories::long_step(116));
    run(cases, "a step to 121 nodes", theories::long_step(117));
    run(cases, "a left of 119 nodes", theories::large_left(57));
    run(cases, "a left of 121 nodes", theories::large_left(58));
    run(cases, "a right of 119 nodes", theories::large_right(58));
    run(cases, "a right of 121 nodes", theories::large_right(59));
    run(
        cases,
        "a peak that doubles 12 times",
        theories::large_peak(12),
    );
}

/// The largest problem that is accepted: 16 symbols, 16 equations of 240 nodes.
fn largest() -> Theory {
    let symbols: Vec<String> = (0..16).map(|n| format!("f{n}/{}/{n}", n % 5)).collect();
    let chain = [vec![1; 119], vec![0x8f]].concat();
    let sides = [chain.clone(), chain].concat();
    let theory = Theory::new(&symbols.join(" "));
    (0..16).fold(theory, |theory, _| theory.raw_equation(sides.clone()))
}

fn counts(cases: &mut Cases) {
    run(cases, "16 equations with a rule each", distinct(16));
    run(cases, "3,930 bytes", largest());
    let variables = "f(x0,x1,f(x2,x3,x4,f(x5,x6,x7,f(x8,x9,x10,x11))),f(x12,x13,x14,x15))";
    let theory = Theory::new("f/4/0 g/1/1").equation(&format!("g({variables}) = {variables}"));
    run(cases, "16 variables in an equation", theory);
}

/// s^n(a) = s^n(b) for so many n, the longest first: each rule removes those
/// before it.
fn distinct(count: usize) -> Theory {
    let theory = Theory::new("a/0/0 b/0/1 s/1/2");
    (0..count).rev().fold(theory, |theory, n| {
        let (left, right) = (power("s", n, "a"), power("s", n, "b"));
        theory.equation(&format!("{left} = {right}"))
    })
}

fn budgets(cases: &mut Cases) {
    cases.bytes("no equation, budget 0", groups().problem(0));
    cases.bytes("no equation, budget 1", groups().problem(1));
    cases.bytes("budget 1", fixed::trivial(1).problem(1));
    run(cases, "1,000,000 units", theories::countdown(15, 1));
}

fn neither_above(cases: &mut Cases) {
    let theory = groups().equations(&["*(x,e) = x", "*(*(x,e),y) = *(y,*(x,e))"]);
    run(cases, "20: the state kept, the forms shown", theory);
    run(
        cases,
        "20: forms in taken order",
        groups().equation("i(y) = *(x,y)"),
    );
    run(cases, "20: from an overlap", theories::many_variables(12));
}

/// A budget that ends at every unit: at a turn's beginning, at a step of a
/// waiting pair, of an overlap, of an input at the scan, of a right side.
fn spent(cases: &mut Cases) {
    let symmetric = theories::monoid("ab", &["aaa=", "bb=", "abab="]);
    for (name, theory, units) in [("right sides", rights(), 13), ("S3", symmetric, 25)] {
        for budget in 0..=units + 1 {
            cases.bytes(&format!("{name}, budget {budget}"), theory.problem(budget));
        }
    }
    // The step would be too large, and no unit is left for it.
    let large = theories::long_step(117);
    cases.bytes("21 before 22", large.problem(2));
}

fn too_large(cases: &mut Cases) {
    let doubling = "i(i(i(i(i(i(i(x))))))) = e";
    let theory = groups().equations(&["i(x) = *(x,x)", doubling]);
    run(cases, "22: a waiting pair's step", theory);
    let (s, t) = (theories::growing(6, 1), theories::growing(7, 1));
    run(cases, "0: doubled to 64", s);
    run(cases, "22: doubled to 128", t);
    let theory = Theory::new("e/0/0 0/0/1 s/1/2 d/1/3 q/1/4 w/1/5").equations(&[
        "d(0) = 0",
        "d(s(x)) = s(s(d(x)))",
        "q(s(0)) = e",
    ]);
    let overlap = theory.equation(&format!("w(q(x)) = {}", power("d", 7, "x")));
    run(cases, "22: an overlap's step", overlap);
    let theory = Theory::new("a/0/0 t/2/1 g/1/2 k/0/3");
    let right = theory.equations(&[&format!("k = {}", power("g", 7, "a")), "g(x) = t(x,x)"]);
    run(cases, "22: a right side's step", right);
    run(cases, "22: an input's step at the scan", large_input());
    many_variables(cases);
}

/// Pairs of 16 and 17 variables.
fn many_variables(cases: &mut Cases) {
    run(
        cases,
        "22: 17 variables",
        theories::many_variables_oriented(13),
    );
    run(
        cases,
        "0: 16 variables",
        theories::many_variables_oriented(12),
    );
    run(
        cases,
        "22 before put back: 17 variables",
        theories::many_variables(13),
    );
    let tuples = [
        vec![1, 0, 0x80, 0x81, 0x82, 0x83, 0, 0x84, 0x85, 0x86, 0x87],
        vec![0, 0x88, 0x89, 0x8a, 0x8b, 2, 0x8c, 0x8c],
    ];
    let theory = Theory::new("f/4/0 g/4/3 h/1/2 k/4/1")
        .raw_equation(tuples.concat())
        .raw_equation(vec![
            2, 3, 0x80, 0x81, 0x82, 3, 0x83, 0x84, 0x85, 0x86, 0x80,
        ]);
    cases.bytes("22: 17 variables by their bytes", theory.problem(1000));
}

/// An overlap makes h(x) to s^119(x) when no equation waits any more; by it
/// the first input's left side, that had another normal form, grows to 121.
fn large_input() -> Theory {
    Theory::new("b/0/0 c/0/1 a/0/2 s/1/3 h/1/4 g/1/5 w/1/6 r/2/7 p/1/8").equations(&[
        "g(h(a)) = b",
        "h(a) = c",
        "p(r(x,y)) = h(x)",
        "r(x,a) = w(x)",
        &format!("p(w(x)) = {}", power("s", 119, "x")),
    ])
}

fn full(cases: &mut Cases) {
    run(cases, "0: 32 rules", theories::products(2, 10));
    run(cases, "23: a 33rd rule", theories::products(3, 8));
    run(cases, "23: rules without end", theories::endless_rules());
}

/// 512 entries, and what else is due when a 513th is.
fn full_log(cases: &mut Cases) {
    run(cases, "0: 512 entries", full_log::settled(84, 1));
    run(cases, "24 before settled", full_log::settled(84, 2));
    let theory = full_log::settled(84, 2);
    cases.bytes("21 before 24", theory.problem(1019));
    run(cases, "24 before put back", full_log::neither_above(84, 0));
    run(cases, "22 before 24: a step", full_log::too_large(84, 0));
    let theory = full_log::many_variables(83, 3);
    run(cases, "24 before 22: 17 variables", theory);
    let theory = full_log::endless_rules(79, 1);
    run(cases, "23: a 33rd rule, 511 entries", theory);
    let theory = full_log::endless_rules(79, 2);
    run(cases, "24 before 23: a 33rd rule, 512 entries", theory);
}

fn refusals(cases: &mut Cases) {
    refusals::terms(cases);
    refusals::headers(cases);
    refusals::tables(cases);
    refusals::budgets(cases);
    refusals::counts(cases);
    refusals::long_sides(cases);
    refusals::long_problems(cases);
    refusals::order(cases);
    cases.ask(SHORT_BUFFER, "a buffer of 16,383 bytes", Vec::new());
    let fine = fixed::trivial(1).problem(9);
    cases.ask(SHORT_BUFFER, "the buffer before the problem", fine);
}

/// What complete_run must print for a case.
pub fn text(case: &Case) -> String {
    let size = match case.asked {
        SHORT_BUFFER => MIN_RESULT - 1,
        _ => MIN_RESULT,
    };
    let mut result = vec![BEFORE; size];
    let (answer, count) = match complete(&case.problem, &mut result) {
        CompleteAnswer::Refused(refusal) => (refused(refusal), 0),
        CompleteAnswer::Written(count) => (format!("{count} bytes"), count),
    };
    let mut text = format!("{}: {answer}\n", case.name);
    for (tag, contents) in split_fields(&result[..count]) {
        text += &format!("{tag:02x} {} {}\n", contents.len(), hex(contents));
    }
    if result[count..].iter().any(|byte| *byte != BEFORE) {
        text += "changed behind\n";
    }
    text
}
