//! The calls whose stack is measured, on chains of unary symbols.
//!
//! A chain of n nodes is a unary symbol n - 1 times over a leaf. Each case is
//! given for any n from 2 to 120, with the answer due. Those of questions, and
//! of runs that are saved and resumed, stand apart.

use super::{checkpoints, questions};
use crate::call::{chosen, compared, encode, handed_back, refused, unified, Bytes, Call};
use kb_cases::notation::Theory;
use kb_cases::pairs::Pair;
use kb_cases::theories::power;
use kb_engine::{CompareAnswer, Order, Refusal, UnifyAnswer, Which};

/// i is above j and below k, and has one rank with l.
pub(super) const SYMBOLS: &str = "e/0/0 i/1/2 j/1/1 k/1/3 l/1/2";
/// Where the left side of the first equation begins.
pub(super) const LEFT: usize = 23;
/// The nodes i and x.
pub(super) const I: u8 = 1;
const X: u8 = 0x80;
/// More than the units of any case.
const BUDGET: u32 = 1000;
/// About as many nodes as a problem has room for.
const LONG: usize = 8000;

/// A call on chains of so many nodes, and its answer.
pub(super) type Prepared = fn(usize) -> (Call<'static>, u64);

/// What a case does with its chains.
#[derive(Clone, Copy, Debug, PartialEq)]
pub enum Kind {
    /// It only walks to their ends.
    Walk,
    /// It does more, by loops in the proved library.
    Loop,
    /// It goes down them by calls.
    Deep,
}

/// A row of the table.
pub struct Case {
    pub name: &'static str,
    pub kind: Kind,
    pub prepared: Prepared,
}

/// All cases.
pub fn cases() -> Vec<Case> {
    let walks = [subterms(), readings(), other_readings()];
    let deep = [
        comparisons(),
        lowers(),
        unifiers(),
        questions::cases(),
        completions(),
        checkpoints::cases(),
    ];
    walks.into_iter().chain(deep).flatten().collect()
}

pub(super) fn walk(name: &'static str, prepared: Prepared) -> Case {
    Case {
        name,
        kind: Kind::Walk,
        prepared,
    }
}

pub(super) fn looped(name: &'static str, prepared: Prepared) -> Case {
    Case {
        kind: Kind::Loop,
        ..walk(name, prepared)
    }
}

pub(super) fn deep(name: &'static str, prepared: Prepared) -> Case {
    Case {
        kind: Kind::Deep,
        ..walk(name, prepared)
    }
}

/// The symbol n - 1 times over the leaf.
pub(super) fn chain(symbol: &str, n: usize, leaf: &str) -> String {
    power(symbol, n - 1, leaf)
}

/// i n - 2 times over k(x), a chain that has no overlap with itself.
pub(super) fn alone(n: usize) -> String {
    power("i", n - 2, "k(x)")
}

/// The problem of these equations.
pub(super) fn problem(equations: &[[&str; 2]]) -> Bytes<'static> {
    let texts = equations.iter().map(|sides| sides.join(" = "));
    let theory = Theory::new(SYMBOLS);
    let theory = texts.fold(theory, |theory, text| theory.equation(&text));
    theory.problem(BUDGET).into()
}

/// Both sides are walked to their ends, then the part to its own.
fn subterms() -> Vec<Case> {
    fn part(n: usize, position: usize) -> (Call<'static>, u64) {
        let lent = problem(&[[&chain("i", n, "x"), "x"]]);
        let answer = handed_back(LEFT + position, n - position);
        (Call::Subterm(lent, position), answer)
    }
    vec![
        walk("subterm at a chain's root", |n| part(n, 0)),
        walk("subterm in a chain's middle", |n| part(n, n / 2)),
        walk("subterm at a chain's leaf", |n| part(n, n - 1)),
        walk("subterm behind a chain", |n| part(n, n)),
        walk("subterm beside a right chain", |n| {
            let lent = problem(&[["x", &chain("i", n, "x")]]);
            (Call::Subterm(lent, 0), handed_back(LEFT, 1))
        }),
    ]
}

/// A problem whose equation has these nodes, and its refusal.
fn bad(nodes: Vec<u8>, number: u8, place: usize) -> (Bytes<'static>, u64) {
    let theory = Theory::new(SYMBOLS).raw_equation(nodes);
    (
        theory.problem(BUDGET).into(),
        refused(Refusal { number, place }),
    )
}

/// The left chain is cut: the walk ends with the field, a subterm owed.
pub(super) fn cut(n: usize) -> (Bytes<'static>, u64) {
    bad(vec![I; n], 10, LEFT + n)
}

/// Each call reads a problem by walking to the ends of its terms.
fn readings() -> Vec<Case> {
    type Made = fn(Bytes<'static>) -> Call<'static>;
    fn of(call: Made, (problem, answer): (Bytes<'static>, u64)) -> (Call<'static>, u64) {
        (call(problem), answer)
    }
    vec![
        walk("subterm, left chain cut", |n| {
            (Call::Subterm(cut(n).0, 0), handed_back(0, 0))
        }),
        walk("compare, left chain cut", |n| of(Call::Compare, cut(n))),
        walk("compare, right chain cut", |n| {
            let sides = [vec![I; n - 1], vec![X], vec![I; n]].concat();
            of(Call::Compare, bad(sides, 10, LEFT + 2 * n))
        }),
        walk("compare, a chain 8,000 longer", |n| {
            let side = [vec![I; LONG + n - 1], vec![X]].concat();
            of(Call::Compare, bad(side, 11, LEFT))
        }),
        walk("unify, left chain cut", |n| of(Call::Unify, cut(n))),
        walk("complete, left chain cut", |n| of(Call::Complete, cut(n))),
    ]
}

/// Terms that stand by themselves.
fn other_readings() -> Vec<Case> {
    fn lower(first: Vec<u8>, second: Vec<u8>) -> (Call<'static>, u64) {
        let symbols = Theory::new(SYMBOLS).symbol_field();
        let pair = Pair {
            symbols,
            first,
            second,
        };
        (Call::from(pair), chosen(Which::Refused))
    }
    vec![
        walk("lower, first chain cut", |n| lower(vec![I; n], vec![X])),
        walk("lower, second chain cut", |n| lower(vec![X], vec![I; n])),
    ]
}

/// The symbols and the leaves of two chains.
type Chains = [[&'static str; 2]; 2];

const EQUAL: Chains = [["i", "x"], ["i", "x"]];
const ONE_SYMBOL: Chains = [["i", "x"], ["i", "y"]];
const ONE_RANK: Chains = [["i", "x"], ["l", "y"]];
const ABOVE: Chains = [["i", "x"], ["j", "x"]];
const HIGHER_FIRST: Chains = [["i", "x"], ["j", "y"]];
const HIGHER_SECOND: Chains = [["j", "x"], ["i", "y"]];

/// Both with n nodes.
fn texts(n: usize, chains: Chains) -> [String; 2] {
    chains.map(|[symbol, leaf]| chain(symbol, n, leaf))
}

/// Equal chains are walked over in step. The path order goes down both chains
/// at once where the symbols are the same, and down one of them where they have
/// one rank. Where that of the first is higher it goes down the second and
/// then, at the leaf, down the first: the deepest, in one direction or the
/// other.
fn comparisons() -> Vec<Case> {
    fn compare(n: usize, chains: Chains, order: Order) -> (Call<'static>, u64) {
        let [left, right] = texts(n, chains);
        let answer = compared(CompareAnswer::Compared(order));
        (Call::Compare(problem(&[[&left, &right]])), answer)
    }
    vec![
        looped("compare i..i(x), i..i(x)", |n| {
            compare(n, EQUAL, Order::Identical)
        }),
        deep("compare i..i(x), i..i(y)", |n| {
            compare(n, ONE_SYMBOL, Order::Neither)
        }),
        deep("compare i..i(x), l..l(y)", |n| {
            compare(n, ONE_RANK, Order::Neither)
        }),
        deep("compare i..i(x), j..j(x)", |n| {
            compare(n, ABOVE, Order::LeftAbove)
        }),
        deep("compare i..i(x), j..j(y)", |n| {
            compare(n, HIGHER_FIRST, Order::Neither)
        }),
    ]
}

/// As compare, in one direction: the deepest has the higher symbol first.
fn lowers() -> Vec<Case> {
    fn lower(n: usize, chains: Chains, which: Which) -> (Call<'static>, u64) {
        let [first, second] = texts(n, chains);
        let pair = Pair::of_texts(SYMBOLS, [&first, &second]);
        (Call::from(pair), chosen(which))
    }
    vec![
        deep("lower of i..i(x), i..i(y)", |n| {
            lower(n, ONE_SYMBOL, Which::First)
        }),
        deep("lower of i..i(x), j..j(x)", |n| {
            lower(n, ABOVE, Which::Second)
        }),
        deep("lower of i..i(x), j..j(y)", |n| {
            lower(n, HIGHER_FIRST, Which::First)
        }),
        deep("lower of j..j(x), i..i(y)", |n| {
            lower(n, HIGHER_SECOND, Which::First)
        }),
    ]
}

/// The instance is written by a loop, whether its nodes come from a side or
/// from the term of a variable.
fn unifiers() -> Vec<Case> {
    fn unify(left: &str, right: &str, answer: UnifyAnswer) -> (Call<'static>, u64) {
        (Call::Unify(problem(&[[left, right]])), unified(answer))
    }
    /// A field of so many nodes.
    fn written(n: usize) -> UnifyAnswer {
        UnifyAnswer::Written(3 + n)
    }
    vec![
        looped("unify i..i(x), i..i(y)", |n| {
            unify(&chain("i", n, "x"), &chain("i", n, "y"), written(n))
        }),
        looped("unify x, i..i(y)", |n| {
            unify("x", &chain("i", n, "y"), written(n))
        }),
        looped("unify half a chain, i..i(y)", |n| {
            unify(&chain("i", n / 2, "x"), &chain("i", n, "y"), written(n))
        }),
        looped("unify x, i..i(x)", |n| {
            unify("x", &chain("i", n, "x"), UnifyAnswer::None)
        }),
    ]
}

/// Bytes of a result: end and units, then the other fields' bytes.
fn written(fields: &[usize]) -> u64 {
    encode(1, 0, 4 + 7 + fields.iter().sum::<usize>())
}

/// Bytes of a log entry's field, and of one with a rule of so many nodes.
const ENTRY: usize = 3 + 8;

fn rule(nodes: usize) -> usize {
    3 + 2 + nodes
}

/// Orienting two chains by the path order is deepest, then normalising.
fn completions() -> Vec<Case> {
    vec![
        deep("complete, no orientation", |n| {
            let sides = [&*chain("i", n, "x"), &*chain("j", n, "y")];
            let pair = 3 + 2 * n;
            (Call::Complete(problem(&[sides])), written(&[ENTRY, pair]))
        }),
        deep("complete, a rule of two chains", |n| {
            let sides = [&*alone(n), &*chain("j", n, "x")];
            let fields = [rule(2 * n), ENTRY];
            (Call::Complete(problem(&[sides])), written(&fields))
        }),
        deep("complete, a step at each node", |n| {
            let sides = [&*chain("i", n, "x"), &*chain("j", n, "x")];
            let fields = [rule(4), ENTRY, ENTRY];
            let lent = problem(&[["i(x)", "j(x)"], sides]);
            (Call::Complete(lent), written(&fields))
        }),
        deep("complete, a chain as peak", |n| {
            let left = chain("i", n / 2 + 1, "x");
            let fields = [rule(n / 2 + 2), ENTRY];
            (Call::Complete(problem(&[[&left, "x"]])), written(&fields))
        }),
    ]
}
