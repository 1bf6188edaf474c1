//! Fixed saved records with a new budget, and what resuming them must answer.
//!
//! The answers are written out, so that every engine can be held to them. Many
//! of these records no engine writes.

mod refusals;

use crate::checkpoints::{waiting, Checkpoint};
use crate::fixed::Ended;
use crate::notation::Theory;
use crate::questions::SETTLE;
use crate::theories::{power, GROUP};
use kb_engine::Refusal;

/// A saved record and a new budget.
#[derive(Clone, Debug, PartialEq, Eq)]
pub struct Resumption {
    pub record: Vec<u8>,
    pub budget: u64,
}

/// A resumption, and its refusal or what it leaves.
pub struct Case {
    pub name: String,
    pub resumption: Resumption,
    pub answer: Result<Left, Refusal>,
}

/// What a resumed run must leave.
pub struct Left {
    pub ended: Ended,
    /// The new saved record, empty on another end than 21.
    pub saved: Vec<u8>,
}

impl Left {
    /// Whether a result and a saved record hold this.
    pub fn fits(&self, result: &[u8], saved: &[u8]) -> bool {
        self.ended.fits(result) && self.saved == saved
    }
}

/// All cases.
pub fn cases() -> Vec<Case> {
    let mut list = involution();
    list.extend(put_back());
    list.extend(origins());
    list.extend(numbers());
    list.extend(full());
    list.extend(refusals::cases());
    list
}

fn case(name: &str, record: Vec<u8>, budget: u64, answer: Result<Left, Refusal>) -> Case {
    Case {
        name: name.to_string(),
        resumption: Resumption { record, budget },
        answer,
    }
}

/// A run to another end than 21.
fn ends(name: &str, checkpoint: &Checkpoint, ended: Ended) -> Case {
    let saved = Vec::new();
    case(name, checkpoint.bytes(), 100, Ok(Left { ended, saved }))
}

/// A run whose budget is spent, after so many units, in the other state.
fn spent(name: &str, from: &Checkpoint, budget: u32, to: &Checkpoint) -> Case {
    let ended = Ended {
        printed: to.rules.iter().map(|(_, sides)| sides.clone()).collect(),
        ..Ended::new(21, budget, to.rules.len())
    };
    let left = Left {
        ended: ended.with_log(to.entries.clone(), None),
        saved: to.bytes(),
    };
    case(name, from.bytes(), budget.into(), Ok(left))
}

/// f(f(x)) = x before its first turn.
fn first_turn() -> Checkpoint {
    Checkpoint::of_theory(&Theory::new(SETTLE).equation("f(f(x)) = x"))
}

/// The same after it.
fn second_turn() -> Checkpoint {
    Checkpoint {
        next: 2,
        rules: vec![(1, vec![1, 1, 0x80, 0x80])],
        waiting: Vec::new(),
        entries: vec![vec![1, 0, 1, 0, 0, 0, 0, 1]],
        ..first_turn()
    }
}

/// Document 01's settle input: a turn of one unit, and one of two.
fn involution() -> Vec<Case> {
    let (first, second) = (first_turn(), second_turn());
    let ended = |units| {
        let rules = [second.rules[0].1.clone()];
        Ended::complete(units, &rules).with_log(second.entries.clone(), None)
    };
    let highest = case(
        "the highest budget",
        first.bytes(),
        1_000_000,
        Ok(Left {
            ended: ended(3),
            saved: Vec::new(),
        }),
    );
    vec![
        highest,
        ends("both turns", &first, ended(3)),
        ends("the second turn", &second, ended(2)),
        spent("no unit", &first, 0, &first),
        spent("the first turn", &first, 1, &second),
        spent("half of the second turn", &first, 2, &second),
        spent("no unit for the second turn", &second, 0, &second),
        spent("half of it alone", &second, 1, &second),
    ]
}

/// x*y = y*x waits with others, put back or not.
fn put_back() -> Vec<Case> {
    let commutes = Checkpoint::of_theory(&Theory::new(GROUP).equation("x*y = y*x"));
    let pair = commutes.equations[0].clone();
    let entry = vec![1, 0, 1, 0, 0, 0, 0xff, 0xff];
    let back = Checkpoint {
        entries: vec![entry.clone()],
        put_back: 1,
        ..commutes.clone()
    };
    // A second one, of which one alone was put back, or both.
    let two = |put_back| Checkpoint {
        waiting: vec![back.waiting[0].clone(), waiting([3, 0, 1, 0, 0, 0], &pair)],
        put_back,
        ..back.clone()
    };
    let ended = |units, log: &[&[u8]]| {
        let log = log.iter().map(|entry| entry.to_vec()).collect();
        Ended::new(20, units, 0).with_log(log, Some(pair.clone()))
    };
    let once = ended(1, &[&entry]);
    let twice = ended(2, &[&entry, &entry]);
    vec![
        ends("put back, then stuck", &commutes, ended(2, &[&entry])),
        ends("stuck", &back, once),
        spent("stuck, no unit", &back, 0, &back),
        ends("two stuck", &two(2), ended(1, &[&entry])),
        ends("one of two put back", &two(1), twice),
        spent("put back", &commutes, 1, &back),
        spent("two wait", &two_wait(), 0, &two_wait()),
    ]
}

/// The second equation waits before the first.
fn two_wait() -> Checkpoint {
    let theory = Theory::new(GROUP).equations(&["x*y = y*x", "i(x) = x"]);
    let mut checkpoint = Checkpoint::of_theory(&theory);
    checkpoint.waiting.reverse();
    checkpoint
}

/// Kinds, numbers and positions that no run of this problem gives.
fn origins() -> Vec<Case> {
    let origin = |name: &str, six: [u8; 6]| {
        let start = Checkpoint {
            waiting: vec![waiting(six, &[1, 1, 0x80, 0x80])],
            ..first_turn()
        };
        let made = Checkpoint {
            entries: vec![[&six[..], &[0, 1]].concat()],
            ..second_turn()
        };
        spent(name, &start, 1, &made)
    };
    let any_log = Checkpoint {
        entries: vec![
            vec![3, 255, 255, 0, 0, 0, 255, 255],
            vec![4, 0, 0, 0, 0, 255, 2, 1],
        ],
        ..second_turn()
    };
    vec![
        origin("input 65,535", [1, 255, 255, 0, 0, 0]),
        origin("input 0", [1, 0, 0, 0, 0, 0]),
        origin("removed rule 65,535", [2, 255, 255, 0, 0, 0]),
        origin("input at the scan", [3, 0, 1, 0, 0, 0]),
        origin("an overlap of others", [4, 255, 255, 255, 255, 255]),
        origin("an overlap of none", [4, 0, 0, 0, 0, 0]),
        spent("any log", &any_log, 1, &any_log),
    ]
}

/// A next rule number above that of all live rules.
fn numbers() -> Vec<Case> {
    let entries = |count| vec![vec![2, 0, 7, 0, 0, 0, 0, 0]; count];
    let start = Checkpoint {
        next: 300,
        entries: entries(299),
        ..first_turn()
    };
    let logged = [entries(299), vec![vec![1, 0, 1, 0, 0, 0, 1, 44]]].concat();
    let made = Checkpoint {
        next: 301,
        rules: vec![(300, vec![1, 1, 0x80, 0x80])],
        waiting: Vec::new(),
        entries: logged,
        ..first_turn()
    };
    let last = Checkpoint {
        next: 513,
        entries: entries(512),
        ..first_turn()
    };
    let log_full = Ended::new(24, 1, 0).with_log(entries(512), None);
    vec![
        spent("rule 300", &start, 1, &made),
        ends("no rule 513", &last, log_full),
        spent("no rule 513, no unit", &last, 0, &last),
    ]
}

/// As many rules and waiting equations as there may be.
fn full() -> Vec<Case> {
    let waits = |count| Checkpoint {
        waiting: vec![waiting([1, 0, 1, 0, 0, 0], &[0x80, 0x80]); count],
        ..first_turn()
    };
    let settled = |checkpoint: &Checkpoint| Checkpoint {
        waiting: checkpoint.waiting[1..].to_vec(),
        entries: vec![vec![1, 0, 1, 0, 0, 0, 0, 0]],
        ..checkpoint.clone()
    };
    let (many, longest) = (waits(33), longest());
    let beside = Checkpoint {
        rules: (1..=32).map(|number| (number, chain(number))).collect(),
        next: 33,
        waiting: vec![waiting([2, 0, 40, 0, 0, 0], &[0, 0])],
        entries: vec![vec![1, 0, 1, 0, 0, 0, 0, 1]; 32],
        ..first_turn()
    };
    vec![
        spent("33 wait", &many, 0, &many),
        spent("one of 33 is settled", &many, 1, &settled(&many)),
        spent("32 rules and one waits", &beside, 0, &beside),
        spent("17,781 bytes", &longest, 0, &longest),
    ]
}

/// f^n(c) to c.
fn chain(n: u16) -> Vec<u8> {
    [vec![1; n.into()], vec![0, 0]].concat()
}

/// The longest record that is accepted: 16 symbols, 16 equations and 33 that
/// wait, 240 nodes each, and 512 entries.
fn longest() -> Checkpoint {
    let names = (0..14).map(|n| format!("a{n}/0/0 ")).collect::<String>();
    let long = format!("{0} = {0}", power("f", 119, "x"));
    let theory = Theory::new(&format!("{names}c/0/0 f/1/1"));
    let theory = theory.equations(&[&*long; 16]);
    let sides = &theory.all_sides()[0];
    Checkpoint {
        waiting: vec![waiting([4, 1, 2, 3, 4, 5], sides); 33],
        entries: vec![vec![4, 1, 2, 3, 4, 5, 6, 7]; 512],
        put_back: 33,
        ..Checkpoint::of_theory(&theory)
    }
}
