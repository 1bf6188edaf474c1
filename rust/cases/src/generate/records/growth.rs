//! Rules that make terms grow, and questions around 120 nodes.

use super::asked::{budget, Ask, CALLS};
use super::made::entries;
use super::Complete;
use crate::generate::random::Random;
use crate::generate::terms::{assemble, push_term, Symbols};
use crate::generate::theory::symbols_of;
use crate::kept::Kept;
use crate::notation::Theory;
use crate::questions::Question;
use kb_engine::problem::Problem;
use kb_engine::{DecideAnswer, Verdict, MAX_NODES};

const SYMBOLS: &str = "0/0/0 s/1/1 t/2/2 d/1/3 h/1/4 k/2/5 u/1/6";
/// The symbol s, which no rule has at the root of its left side.
const PADDING: u8 = 1;
const RULES: [&str; 10] = [
    "d(0) = 0",
    "d(s(x)) = s(s(d(x)))",
    "h(x) = t(x,x)",
    "k(x,y) = t(t(x,y),t(y,x))",
    "k(s(x),y) = k(x,h(y))",
    "k(0,y) = y",
    "t(x,x) = x",
    "t(s(x),y) = s(t(x,y))",
    "u(x) = s(s(s(x)))",
    "u(h(x)) = h(u(x))",
];
/// Budget with which the room is searched.
const UNITS: u32 = 200;

/// Some of the rules in any order, and terms that grow to about 120 nodes.
pub fn rules(random: &mut Random, _: Complete) -> Question {
    let order = random.permutation(RULES.len());
    let chosen = &order[..random.between(3, RULES.len())];
    let chosen: Vec<&str> = chosen.iter().map(|i| RULES[*i]).collect();
    let theory = Theory::new(SYMBOLS).equations(&chosen);
    let logged = random.below(3);
    let record = Kept {
        entries: entries(random, logged),
        ..Kept::of_theory(&theory)
    }
    .bytes();
    let problem = theory.problem(0);
    let symbols = symbols_of(&Problem::read(&problem).expect("all are terms"));
    let sides = sides(random, &symbols, &record);
    let budget = budget(random, &symbols, &sides, &record);
    Question::new(assemble(&symbols, budget, &[sides]), record)
}

/// A term with about as much on it as it has room for, and another.
fn sides(random: &mut Random, symbols: &Symbols, record: &[u8]) -> Vec<u8> {
    let inside = term(random, symbols);
    let most = MAX_NODES - inside.len();
    let room = room(&inside, symbols, record, *random.pick(&CALLS));
    let padding = (room + random.below(4)).saturating_sub(2).min(most);
    let padded = [vec![PADDING; padding], inside].concat();
    let other = match random.below(3) {
        0 => padded.clone(),
        1 => vec![0],
        _ => term(random, symbols),
    };
    match random.once_in(2) {
        true => [other, padded].concat(),
        false => [padded, other].concat(),
    }
}

fn term(random: &mut Random, symbols: &Symbols) -> Vec<u8> {
    let mut out = Vec::new();
    let size = random.between(2, 14);
    push_term(&mut out, random, symbols, size, 2);
    out
}

/// The least padding with which a call's term grows over 120 nodes.
fn room(inside: &[u8], symbols: &Symbols, record: &[u8], call: Ask) -> usize {
    let fits = |padding: &usize| {
        let padded = [&vec![PADDING; *padding], inside, &[0]].concat();
        let problem = assemble(symbols, UNITS, &[padded]);
        !matches!(
            call(&problem, record),
            DecideAnswer::Decided(Verdict::Ended(22), _)
        )
    };
    let paddings: Vec<usize> = (0..=MAX_NODES - inside.len()).collect();
    paddings.partition_point(fits)
}
