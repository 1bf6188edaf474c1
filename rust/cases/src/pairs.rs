//! Fixed pairs of terms, with which of the two lower must hand back.
//!
//! The answers are written out, so that every engine can be held to them.

mod refusals;

use crate::notation::Theory;
use crate::theories::{power, GROUP};
use kb_engine::lower::Which;

/// A symbol field and two terms, each in a slice of its own.
#[derive(Clone, Debug, Default, PartialEq, Eq)]
pub struct Pair {
    pub symbols: Vec<u8>,
    pub first: Vec<u8>,
    pub second: Vec<u8>,
}

impl Pair {
    /// Two terms given as text, over the same variables.
    pub fn of_texts(symbols: &str, texts: [&str; 2]) -> Pair {
        let theory = Theory::new(symbols);
        let [first, second] = theory.terms(texts);
        Pair {
            symbols: theory.symbol_field(),
            first,
            second,
        }
    }

    /// The same with the terms exchanged.
    pub fn exchanged(self) -> Pair {
        Pair {
            first: self.second,
            second: self.first,
            ..self
        }
    }
}

/// A pair and what lower must hand back.
pub struct Case {
    pub name: String,
    pub pair: Pair,
    pub answer: Which,
}

const FIRST: Which = Which::First;
const SECOND: Which = Which::Second;
const REFUSED: Which = Which::Refused;

/// Symbols i above j, both unary.
const CHAINS: &str = "j/1/0 i/1/1";

/// All cases.
pub fn cases() -> Vec<Case> {
    let mut list = instances();
    list.extend(leaves());
    list.extend(ranks());
    list.extend(clauses());
    list.extend(chains());
    list.extend(sizes());
    list.extend(variables());
    list.extend(refusals::fields());
    list.extend(refusals::terms());
    list
}

fn flat<const N: usize, const M: usize>(cases: [[Case; N]; M]) -> Vec<Case> {
    cases.into_iter().flatten().collect()
}

/// A pair and the same exchanged, with both answers.
fn both_ways(name: &str, pair: Pair, answers: [Which; 2]) -> [Case; 2] {
    let [forth, back] = answers;
    let exchanged = pair.clone().exchanged();
    [("", pair, forth), (", exchanged", exchanged, back)].map(|(suffix, pair, answer)| Case {
        name: format!("{name}{suffix}"),
        pair,
        answer,
    })
}

/// The first is above the second.
fn above(symbols: &str, texts: [&str; 2]) -> [Case; 2] {
    let pair = Pair::of_texts(symbols, texts);
    both_ways(&texts.join(" above "), pair, [SECOND, FIRST])
}

/// Neither is above the other.
fn neither(symbols: &str, texts: [&str; 2]) -> [Case; 2] {
    let pair = Pair::of_texts(symbols, texts);
    both_ways(&texts.join(" and "), pair, [FIRST, FIRST])
}

/// Document 01's instances 1 to 4.
fn instances() -> Vec<Case> {
    flat([
        neither(GROUP, ["*(x,y)", "*(y,x)"]),
        above(GROUP, ["i(*(x,y))", "*(i(y),i(x))"]),
        above(GROUP, ["*(*(x,y),z)", "*(x,*(y,z))"]),
        neither(GROUP, ["i(x)", "y"]),
    ])
}

/// Variables, constants and equal terms.
fn leaves() -> Vec<Case> {
    flat([
        neither(GROUP, ["x", "x"]),
        neither(GROUP, ["x", "y"]),
        neither(GROUP, ["e", "e"]),
        neither(GROUP, ["e", "x"]),
        neither(GROUP, ["i(x)", "i(y)"]),
        neither(GROUP, ["*(i(x),y)", "*(i(x),y)"]),
        above(GROUP, ["i(x)", "x"]),
        above(GROUP, ["i(e)", "e"]),
        above(GROUP, ["*(x,y)", "y"]),
    ])
}

fn ranks() -> Vec<Case> {
    let one_rank = "f/1/1 g/1/1";
    flat([
        above("c/0/1 d/0/0", ["c", "d"]),
        neither("c/0/3 d/0/3", ["c", "d"]),
        above("f/1/15 g/1/0", ["f(x)", "g(g(g(x)))"]),
        above("q/4/0 c/0/15", ["q(c,c,c,c)", "c"]),
        neither(one_rank, ["f(x)", "g(x)"]),
        above(one_rank, ["f(g(x))", "g(x)"]),
        neither(one_rank, ["f(f(x))", "g(x)"]),
    ])
}

fn clauses() -> Vec<Case> {
    let (lower, upper) = ("f/2/1 g/1/0 h/1/2", "f/2/2 g/1/0 h/1/1");
    let constants = "f/2/1 c/0/0 d/0/2";
    flat([
        neither(lower, ["f(g(x),y)", "f(x,h(y))"]),
        above(upper, ["f(g(x),y)", "f(x,h(y))"]),
        above(constants, ["f(d,c)", "f(c,d)"]),
        above(constants, ["f(x,d)", "f(x,c)"]),
        above(constants, ["f(c,f(d,c))", "f(d,c)"]),
        above(CHAINS, ["j(i(i(x)))", "i(x)"]),
        above(GROUP, ["i(*(x,i(y)))", "i(y)"]),
        neither(GROUP, ["*(x,i(y))", "*(y,i(x))"]),
    ])
}

/// A comb of 60 leaves, 120 nodes, against a chain of 120 that each leaf
/// goes down in vain.
pub fn product() -> Pair {
    let comb = format!("{}m(h){}", "l(h,".repeat(59), ")".repeat(59));
    let chain = power("m", 119, "x");
    Pair::of_texts("l/2/0 m/1/1 h/0/2", [&comb, &chain])
}

/// Terms of 119 and 120 nodes.
fn chains() -> Vec<Case> {
    let bottoms = "i/1/2 c/0/0 d/0/1";
    let i = |n, bottom| power("i", n, bottom);
    let named = |name, symbols, texts: [String; 2], answers| {
        let pair = Pair::of_texts(symbols, texts.each_ref().map(String::as_str));
        both_ways(name, pair, answers)
    };
    let (above, neither) = ([SECOND, FIRST], [FIRST, FIRST]);
    let (ix, jx) = (i(119, "x"), power("j", 119, "x"));
    flat([
        named("one i more", CHAINS, [ix.clone(), i(118, "x")], above),
        named("119 i twice", CHAINS, [ix.clone(), ix.clone()], neither),
        named(
            "119 i on x and y",
            CHAINS,
            [ix.clone(), i(119, "y")],
            neither,
        ),
        named("119 i and 119 j", CHAINS, [ix, jx.clone()], above),
        named("119 i on y, 119 j on x", CHAINS, [i(119, "y"), jx], neither),
        named(
            "119 i on d and c",
            bottoms,
            [i(119, "d"), i(119, "c")],
            above,
        ),
        both_ways("a comb and a chain", product(), neither),
    ])
}

/// The nodes so many times, then a variable.
fn repeated(nodes: &[u8], times: usize) -> Vec<u8> {
    [nodes.repeat(times), vec![0x80]].concat()
}

/// Terms of 120 nodes and one more, as the first, the second and both.
fn sizes() -> Vec<Case> {
    let symbols = Theory::new("s/1/0 f/2/1 q/4/2").symbol_field();
    let case = |name: &str, first: Vec<u8>, second: Vec<u8>, answer| Case {
        name: name.to_string(),
        pair: Pair {
            symbols: symbols.clone(),
            first,
            second,
        },
        answer,
    };
    let chain = |n| repeated(&[0], n);
    let four = |n| repeated(&[2, 0x80, 0x80, 0x80], n);
    let (x, two) = (vec![0x80], |n| repeated(&[1, 0x80], n));
    vec![
        case("119 and 117", two(59), four(29), FIRST),
        case("117 and 119", four(29), two(59), SECOND),
        case("120 and 1", chain(119), x.clone(), SECOND),
        case("1 and 120", x.clone(), chain(119), FIRST),
        case("120 and 120", chain(119), chain(119), FIRST),
        case("121 and 1", chain(120), x.clone(), REFUSED),
        case("1 and 121", x.clone(), chain(120), REFUSED),
        case("121 and 120", chain(120), chain(119), REFUSED),
        case("121 and 121", chain(120), chain(120), REFUSED),
        case("binary, 121 and 1", two(60), x.clone(), REFUSED),
        case("four, 121 and 1", four(30), x.clone(), REFUSED),
        case("four, 1 and 121", x, four(30), REFUSED),
    ]
}

/// Two terms in bytes over the symbols of groups.
fn bytes(name: &str, first: &[u8], second: &[u8], answer: Which) -> Case {
    Case {
        name: name.to_string(),
        pair: Pair {
            symbols: Theory::new(GROUP).symbol_field(),
            first: first.to_vec(),
            second: second.to_vec(),
        },
        answer,
    }
}

/// The first and the last variable.
fn variables() -> Vec<Case> {
    vec![
        bytes("80 and 8f", &[0x80], &[0x8f], FIRST),
        bytes("i(8f) above 8f", &[1, 0x8f], &[0x8f], SECOND),
        bytes("i(8f) and 80", &[1, 0x8f], &[0x80], FIRST),
        bytes("8f and i(8f)", &[0x8f], &[1, 0x8f], FIRST),
    ]
}
