//! The fixed problems of the benchmark. The questions, the pairs of terms of
//! lower and the saved records stand apart.

use crate::{decisions, pairs, resumed};
use kb_cases::full_log;
use kb_cases::notation::Theory;
use kb_cases::put_back::rounds::ladder;
use kb_cases::put_back::simplified::groups_with_unit;
use kb_cases::theories::{self, monoid, power, PAPERS};
use kb_compare::call::{Bytes, Call};

/// What is timed, under a name.
pub struct Case {
    pub name: String,
    pub work: Work,
    /// The case to which its times are related.
    pub against: Option<String>,
}

pub enum Work {
    Call(Call<'static>),
    Slices(Slices),
}

/// A run from a saved record, resumed in slices until it ends or so many are
/// done.
pub struct Slices {
    pub record: Vec<u8>,
    pub units: u32,
    pub most: u32,
}

const BUDGET: u32 = 1_000_000;

/// A call on the problem of a theory.
pub fn case(name: &str, call: fn(Bytes<'static>) -> Call<'static>, theory: Theory) -> Case {
    made(name, call(theory.problem(BUDGET).into()))
}

pub fn made(name: &str, call: Call<'static>) -> Case {
    Case {
        name: name.to_string(),
        work: Work::Call(call),
        against: None,
    }
}

/// All cases in the order of the table.
pub fn all() -> Vec<Case> {
    let mut list = papers();
    list.extend(groups());
    list.extend(limits());
    list.extend(waiting());
    list.extend(compared());
    list.extend(unified());
    list.extend(read());
    list.extend(decisions::all());
    list.extend(pairs::all());
    list.extend(resumed::all());
    list
}

fn papers() -> Vec<Case> {
    PAPERS
        .map(|(name, theory)| case(name, Call::Complete, theory()))
        .into()
}

fn groups() -> Vec<Case> {
    let list: [(&str, &str, &[&str]); 7] = [
        ("symmetric group S3", "ab", &["aaa=", "bb=", "abab="]),
        ("dihedral group D4", "ab", &["aaaa=", "bb=", "abab="]),
        ("dihedral group D8", "ab", &["aaaaaaaa=", "bb=", "abab="]),
        ("alternating group A4", "ab", &["aaa=", "bbb=", "abab="]),
        (
            "symmetric group S4",
            "abc",
            &["aa=", "bb=", "cc=", "aba=bab", "bcb=cbc", "ac=ca"],
        ),
        ("quaternion group Q8", "ab", &["aaaa=", "aa=bb", "aba=b"]),
        (
            "free abelian group",
            "aAbB",
            &["aA=", "Aa=", "bB=", "Bb=", "ba=ab", "bA=Ab"],
        ),
    ];
    let complete = |(name, generators, relations): (&str, &str, &[&str])| {
        case(name, Call::Complete, monoid(generators, relations))
    };
    list.into_iter().map(complete).collect()
}

fn limits() -> Vec<Case> {
    let complete = |name, theory| case(name, Call::Complete, theory);
    vec![
        complete("1,000,000 units", theories::countdown(15, 1)),
        complete("32 rules, end 0", theories::products(2, 10)),
        complete("33rd rule, end 23", theories::endless_rules()),
        complete("512 entries, end 0", full_log::settled(84, 1)),
        complete("513th entry, end 24", full_log::settled(84, 2)),
        complete("no equation", Theory::new(theories::GROUP)),
    ]
}

/// Equations with neither side above: until a rule simplifies them, or to the
/// end 20.
fn waiting() -> Vec<Case> {
    let complete = |name, theory| case(name, Call::Complete, theory);
    vec![
        complete("002 axioms behind x*e = e*x", groups_with_unit()),
        complete("14 equations wait in rounds", ladder(15)),
        complete("8 long equations wait, end 20", long_waiting()),
    ]
}

/// Eight equations of 210 to 238 nodes that stay, each of two trees with x and
/// y exchanged, and a ladder of eight constants: nine rounds.
fn long_waiting() -> Theory {
    let constants = (1..=8).map(|k| format!(" a{k}/0/1"));
    let theory = Theory::new(&format!("0/0/0 f/2/2{}", constants.collect::<String>()));
    let theory = (53..=60).fold(theory, |theory, count| {
        let side = |first: [&'static str; 2]| {
            let leaves: Vec<&str> = first.into_iter().cycle().take(count).collect();
            tree(&leaves)
        };
        theory.equation(&format!("{} = {}", side(["x", "y"]), side(["y", "x"])))
    });
    let rungs = (1..8).map(|k| format!("a{k} = a{}", k + 1));
    let theory = rungs.fold(theory, |theory, rung| theory.equation(&rung));
    theory.equation("a8 = 0")
}

fn compared() -> Vec<Case> {
    let (is, js) = (power("i", 119, "x"), power("j", 119, "y"));
    let compare = |name, theory| case(name, Call::Compare, theory);
    let one_rank = chains(&mixed("i", "j"), &mixed("j", "i")).with_ranks(&[1, 1]);
    vec![
        compare("compare i^119(x), j^119(y)", chains(&is, &js)),
        compare(
            "compare i^119(x), j^119(x)",
            chains(&is, &power("j", 119, "x")),
        ),
        compare("compare two chains of one rank", one_rank),
        compare("compare full binary trees", trees()),
    ]
}

fn unified() -> Vec<Case> {
    let unify = |name, theory| case(name, Call::Unify, theory);
    let (cycle, clash) = ([("x0", "x15")], [("c", "d")]);
    vec![
        unify("unify full binary trees", trees()),
        unify("unify doubling, 4 variables", doubling(4, &[])),
        unify("unify doubling, 15 variables", doubling(15, &[])),
        unify("unify doubling, 15, cycle", doubling(15, &cycle)),
        unify("unify doubling, 15, clash", doubling(15, &clash)),
    ]
}

fn read() -> Vec<Case> {
    let chains = chains(&power("i", 119, "x"), &power("j", 119, "y"));
    vec![
        case(
            "subterm of i^119(x) at 60",
            |p| Call::Subterm(p, 60),
            chains,
        ),
        case("read 16 equations of 240", Call::Compare, sixteen_long()),
    ]
}

/// 119 symbols in turn, the first one at both ends.
fn mixed(first: &str, second: &str) -> String {
    let inside = format!("{first}(x)");
    let open = format!("{first}({second}(").repeat(59);
    format!("{open}{inside}{}", "))".repeat(59))
}

/// One equation over unary i above j.
fn chains(left: &str, right: &str) -> Theory {
    Theory::new("j/1/0 i/1/1").equation(&format!("{left} = {right}"))
}

/// Two full binary trees of 63 nodes that differ in the last leaf.
fn trees() -> Theory {
    let mut leaves = ["x"; 32];
    let same = tree(&leaves);
    leaves[31] = "y";
    Theory::new("f/2/0").equation(&format!("{same} = {}", tree(&leaves)))
}

/// As many and as large equations as a problem can have.
fn sixteen_long() -> Theory {
    let side = [vec![1; 119], vec![0x80]].concat();
    let long = [side.clone(), side].concat();
    (0..16).fold(Theory::new("c/0/0 f/1/1"), |theory, _| {
        theory.raw_equation(long.clone())
    })
}

/// A balanced binary tree with the given leaves.
pub fn tree(leaves: &[&str]) -> String {
    if let [leaf] = leaves {
        return leaf.to_string();
    }
    let (left, right) = leaves.split_at(leaves.len() / 2);
    format!("f({},{})", tree(left), tree(right))
}

/// x1 = f(x0,x0), x2 = f(x1,x1), .. and the extra pairs, as one equation.
fn doubling(n: usize, extra: &[(&str, &str)]) -> Theory {
    let (mut left, mut right) = ("c".to_string(), "c".to_string());
    for (l, r) in extra {
        (left, right) = (format!("t({l},{left})"), format!("t({r},{right})"));
    }
    for i in (1..=n).rev() {
        left = format!("t(x{i},{left})");
        right = format!("t(f(x{0},x{0}),{right})", i - 1);
    }
    Theory::new("c/0/0 d/0/1 t/2/2 f/2/3").equation(&format!("{left} = {right}"))
}
