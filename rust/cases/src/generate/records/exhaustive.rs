//! Every truncation and every value of every byte of some records.

use crate::kept::Kept;
use crate::notation::Theory;
use crate::questions::{settle_record, Question, SETTLE};
use crate::theories::{arithmetic_axioms, ARITHMETIC, GROUP};
use kb_engine::run::END_UNORIENTABLE;

/// Changes of a byte: its 256 values and a cut before it.
const CHANGES: usize = 257;

/// The questions whose records are damaged in every way.
fn bases() -> [Question; 5] {
    [
        involution(),
        unorientable(),
        six_rules(),
        three_rules(),
        one_rank(),
    ]
}

fn question(theory: Theory, budget: u32, record: Kept) -> Question {
    Question::new(theory.problem(budget), record.bytes())
}

/// An entry of each kind.
fn entries() -> Vec<Vec<u8>> {
    (1..=4)
        .map(|kind| vec![kind, 0, 1, 0, 2, 1, 0, 0])
        .collect()
}

fn involution() -> Question {
    let theory = Theory::new(SETTLE).equation("f(f(f(c))) = f(c)");
    question(theory, 9, settle_record())
}

/// End 20: any change that is well-formed is refused with 14.
fn unorientable() -> Question {
    let rules = Theory::new(GROUP).equation("*(x,e) = x");
    let record = Kept {
        end: END_UNORIENTABLE,
        units: 4,
        entries: vec![vec![1, 0, 1, 0, 0, 0, 0, 1]],
        pair: Some(vec![2, 0x80, 0x81, 2, 0x81, 0x80]),
        ..Kept::of_theory(&rules)
    };
    question(rules, 9, record)
}

/// 003's first six rules, and 2 + 2 = 4 - 0.
fn six_rules() -> Question {
    let equation = "+(s(s(0)),s(s(0))) = -(s(s(s(s(0)))),0)";
    let record = Kept {
        units: 37,
        entries: entries(),
        ..Kept::of_theory(&arithmetic_axioms())
    };
    question(Theory::new(ARITHMETIC).equation(equation), 5, record)
}

/// Two rules match s(b) * s(b): which of them is taken shows in the answer.
fn three_rules() -> Question {
    let symbols = "a/0/0 b/0/1 s/1/2 */2/3 g/4/4";
    let rules = Theory::new(symbols).equations(&[
        "*(x,x) = a",
        "*(s(x),y) = s(b)",
        "g(x,y,x,z) = *(z,*(y,x))",
    ]);
    let equation = "g(b,s(b),b,*(s(b),s(b))) = *(a,*(s(a),b))";
    question(
        Theory::new(symbols).equation(equation),
        4,
        Kept::of_theory(&rules),
    )
}

/// Two symbols of one rank, and a question that grows over 120 nodes.
fn one_rank() -> Question {
    let symbols = "c/0/0 t/2/1 h/1/2 k/1/2";
    let rules = Theory::new(symbols).equations(&["h(x) = t(x,x)", "k(k(x)) = k(x)"]);
    let equation = "k(k(h(h(c)))) = h(k(h(h(h(h(h(c)))))))";
    question(
        Theory::new(symbols).equation(equation),
        30,
        Kept::of_theory(&rules),
    )
}

/// All the questions.
pub fn all() -> impl Iterator<Item = Question> {
    bases().into_iter().flat_map(|base| {
        let numbers = 0..base.record.len() * CHANGES;
        numbers.map(move |number| changed(&base, number / CHANGES, number % CHANGES))
    })
}

fn changed(base: &Question, place: usize, value: usize) -> Question {
    let mut question = base.clone();
    match u8::try_from(value) {
        Ok(value) => question.record[place] = value,
        Err(_) => question.record.truncate(place),
    }
    question
}
