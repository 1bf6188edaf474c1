//! Pairs of terms: lower.

use super::{fault, hex, Case, Cases, Due, Input, Kind, Notes, Plan};
use crate::call::{chosen, Call, Engine};
use crate::check::{Checker, Difference, NONE};
use crate::lent::{Lent, LAYOUTS};
use kb_cases::chains as of_chains;
use kb_cases::generate::pairs as generator;
use kb_cases::pairs::{self, Pair};
use std::hint::black_box;

pub const KIND: Kind = Kind {
    name: "pairs of terms",
    families: &[fixed, chains, damaged, generated],
};

/// The slices are lent as the number says.
pub fn check(checker: &mut Checker, pair: &Pair, number: u64) -> Result<Notes, Difference> {
    let lent = Lent::new(pair, number);
    let before = lent.clone();
    let answer = checker.call(&lower(&lent), [NONE; 2])?;
    if black_box(&lent) != &before {
        let changed = "lower, bytes around the lent ones changed";
        return Err(Difference::of_both(changed, answer));
    }
    Ok(vec![note(answer)])
}

fn lower(lent: &Lent) -> Call<'_> {
    let [symbols, first, second] = lent.slices();
    Call::Lower(symbols.into(), first.into(), second.into())
}

fn note(answer: u64) -> String {
    match answer {
        0 => "lower: refused".to_string(),
        1 => "lower: first".to_string(),
        2 => "lower: second".to_string(),
        other => format!("lower: {other}"),
    }
}

/// The symbol field and the two terms.
pub fn shown(pair: &Pair) -> String {
    let slices = [&pair.symbols, &pair.first, &pair.second];
    slices.map(|slice| hex(slice)).join(" ")
}

/// A pair with a known answer, lent in every way.
fn layouts(family: &'static str, case: pairs::Case) -> impl Iterator<Item = Case> {
    (0..LAYOUTS).map(move |number| {
        let (lent, due) = (Lent::new(&case.pair, number), chosen(case.answer));
        let given = move |engine: &dyn Engine| engine.run(&lower(&lent), Default::default());
        Case {
            family,
            number,
            input: Input::Pair(case.pair.clone()),
            due: Some(Due {
                name: case.name.clone(),
                faults: Box::new(move |engine| fault("lower", given(engine), due)),
            }),
        }
    })
}

fn known(family: &'static str, cases: Vec<pairs::Case>) -> Cases {
    let cases = cases.into_iter();
    Box::new(cases.flat_map(move |case| layouts(family, case)))
}

fn fixed(_: Plan) -> Cases {
    known("fixed pairs", pairs::cases())
}

fn chains(_: Plan) -> Cases {
    known("pairs of long chains", of_chains::pairs())
}

fn damaged(_: Plan) -> Cases {
    let inputs = generator::exhaustive::all().map(Input::Pair);
    super::listed("all damage of pairs", inputs)
}

fn generated(plan: Plan) -> Cases {
    super::generated(plan, generator::family, |seed, index| {
        Input::Pair(generator::pair(seed, index))
    })
}
