//! Equations with neither side above that wait for several rounds: each round
//! a rule is made, or an equation settled, until none is and the end is 20, or
//! until none waits.

use super::{input, removed, Run, BACK, SETTLED};
use crate::fixed::{single, Case, Ended};
use crate::notation::Theory;
use crate::theories::GROUP;
use kb_engine::calls::UnifyAnswer;
use kb_engine::order::Order;

/// Constants of one rank above 0, and a product.
const CONSTANTS: &str = "0/0/0 a/0/1 b/0/1 c/0/1 */2/2";
/// Two equations that no rule below simplifies.
const COMMUTES: &str = "*(x,y) = *(y,x)";
const REVERSED: &str = "*(x,*(y,z)) = *(z,*(y,x))";
/// Lengths of the ladders that are run with every budget.
const LADDERS: [u8; 2] = [4, 9];

/// The runs that are written turn by turn.
pub(super) fn runs() -> Vec<Run> {
    let mut list = vec![oldest(), settled_between(), settled_behind()];
    list.push(removed_and_stuck());
    list.extend(LADDERS.map(ladder_run));
    list
}

/// x*y = y*x and nothing else: put back, and the next turn ends the run.
pub(super) fn alone() -> Case {
    let theory = Theory::new(GROUP).equation(COMMUTES);
    let entry = vec![1, 0, 1, 0, 0, 0, 0xff, 0xff];
    let pair = vec![2, 0x80, 0x81, 2, 0x81, 0x80];
    let ended = Ended::new(20, 2, 0).with_log(vec![entry], Some(pair));
    let neither = (Order::Neither, UnifyAnswer::Written(6));
    single("x*y = y*x", &theory, ended, neither, 3)
}

/// a1 = a2, a2 = a3, .. and the last one 0, constants of one rank: at first
/// only the last equation can be oriented, and in each round the last of those
/// that wait, by the rule before.
pub fn ladder(length: u8) -> Theory {
    let constants = (1..=length).map(|k| format!(" a{k}/0/1"));
    let theory = Theory::new(&format!("0/0/0{}", constants.collect::<String>()));
    let rungs = (1..length).map(|k| format!("a{k} = a{}", k + 1));
    let theory = rungs.fold(theory, |theory, rung| theory.equation(&rung));
    theory.equation(&format!("a{length} = 0"))
}

fn ladder_run(length: u8) -> Run {
    let (mut turns, mut units) = (Vec::new(), 0);
    for made in 1..=length {
        let live = made as usize - 1;
        for waiting in 1..=length - made {
            units += 1;
            turns.push((units, input(waiting), BACK, live));
        }
        // One step to 0, but for the last equation.
        units += if made == 1 { 1 } else { 2 };
        turns.push((units, input(length + 1 - made), made as u16, live + 1));
    }
    // The scan's unit, and a step in each side but the last.
    let units = units + 2 * length as u32;
    let rule = |k: u8| vec![k, 0];
    let rules = (1..=length)
        .map(rule)
        .fold(Theory::default(), Theory::raw_equation);
    let name = format!("a ladder of {length} constants");
    Run::complete(&name, ladder(length), units, rules).with_turns(&turns)
}

/// Two equations that stay wait beside a ladder. After its last rule the one
/// behind that place is the oldest.
fn oldest() -> Run {
    let symbols = || Theory::new(CONSTANTS);
    let theory = symbols().equations(&[COMMUTES, "a = b", REVERSED, "b = c", "c = 0"]);
    let left = symbols().equations(&["c = 0", "b = 0", "a = 0", REVERSED]);
    Run::stuck("the oldest is shown", theory, 16, left).with_turns(&[
        (1, input(1), BACK, 0),
        (2, input(2), BACK, 0),
        (3, input(3), BACK, 0),
        (4, input(4), BACK, 0),
        (5, input(5), 1, 1),
        (6, input(1), BACK, 1),
        (7, input(2), BACK, 1),
        (8, input(3), BACK, 1),
        (10, input(4), 2, 2),
        (11, input(1), BACK, 2),
        (13, input(2), 3, 3),
        (14, input(3), BACK, 3),
        (15, input(1), BACK, 3),
    ])
}

/// a = b is put back, then settled: those put back before it are due again.
fn settled_between() -> Run {
    let symbols = || Theory::new(CONSTANTS);
    let theory = symbols().equations(&[COMMUTES, "a = b", REVERSED, "a = 0", "b = 0"]);
    let left = symbols().equations(&["a = 0", "b = 0", REVERSED]);
    Run::stuck("a further round after settling", theory, 12, left).with_turns(&[
        (1, input(1), BACK, 0),
        (2, input(2), BACK, 0),
        (3, input(3), BACK, 0),
        (4, input(4), 1, 1),
        (5, input(5), 2, 2),
        (6, input(1), BACK, 2),
        (9, input(2), SETTLED, 2),
        (10, input(3), BACK, 2),
        (11, input(1), BACK, 2),
    ])
}

/// An equation settled at once has the same effect.
fn settled_behind() -> Run {
    let symbols = || Theory::new(CONSTANTS);
    let theory = symbols().equations(&[COMMUTES, "x = x"]);
    let left = symbols().equation(COMMUTES);
    Run::stuck("put back, settled, put back", theory, 4, left).with_turns(&[
        (1, input(1), BACK, 0),
        (2, input(2), SETTLED, 0),
        (3, input(1), BACK, 0),
    ])
}

/// A removed rule is put back as m(x,f(y)) = m(y,x), its forms renamed, and
/// again in the next round.
pub fn removed_and_stuck() -> Run {
    let symbols = || Theory::new("0/0/0 a/0/1 b/0/1 f/1/2 m/2/3 k/2/4");
    let equations = ["k(f(x),y) = m(x,y)", "k(x,y) = m(y,x)", "a = b", "b = 0"];
    let left = ["k(x,y) = m(y,x)", "b = 0", "a = 0", "m(x,f(y)) = m(y,x)"];
    let (theory, left) = (symbols().equations(&equations), symbols().equations(&left));
    Run::stuck("a removed rule, put back twice", theory, 10, left).with_turns(&[
        (1, input(1), 1, 1),
        (2, input(2), 2, 1),
        (3, input(3), BACK, 1),
        (4, input(4), 3, 2),
        (6, removed(1), BACK, 2),
        (8, input(3), 4, 3),
        (9, removed(1), BACK, 3),
    ])
}
