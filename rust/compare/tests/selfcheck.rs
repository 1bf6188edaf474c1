//! The comparison finds differences. Runs with the feature `selfcheck`.
#![cfg(feature = "selfcheck")]

use kb_cases::fixed::{self, Case};
use kb_cases::generate::records::{self, exhaustive};
use kb_cases::{chains, generate, questions};
use kb_compare::call::{decided, encode, result_of, Call};
use kb_compare::check::Checker;
use kb_compare::fixed::faults;
use kb_compare::inputs::Input;
use kb_compare::{Engine, RustEngine};

/// Call, answer and result to the answer given instead.
type Fault = fn(&str, u64, &mut [u8]) -> u64;

/// The Rust engine with one fault.
struct Faulty(Fault);

impl Engine for Faulty {
    fn run(&self, call: &Call, [first, second]: [&mut [u8]; 2]) -> u64 {
        let answer = RustEngine.run(call, [first, second]);
        self.0(call.name(), answer, first)
    }
}

fn differences(fault: Fault) -> usize {
    let faulty = Faulty(fault);
    let mut checker = Checker::new(&faulty, &RustEngine);
    let problems = (0..600).map(|index| (index, generate::problem(5, index)));
    let inputs = problems.map(|(number, problem)| (number, Input::Problem(problem)));
    let different = inputs.filter(|(number, input)| checker.run(input, *number).is_err());
    different.count()
}

/// Questions on which the answers differ: generated, and of damaged records.
fn different_decisions(fault: Fault) -> [usize; 2] {
    let faulty = Faulty(fault);
    let mut checker = Checker::new(&faulty, &RustEngine);
    let mut differs = |question| checker.run(&Input::Question(question), 0).is_err();
    let complete = |problem: &[u8]| result_of(&RustEngine, problem);
    let generated = (0..1000).map(|index| records::question(5, index, &complete));
    let generated = generated
        .filter(|question| differs(question.clone()))
        .count();
    let damaged = exhaustive::all().step_by(7);
    let damaged = damaged.filter(|question| differs(question.clone())).count();
    [generated, damaged]
}

/// Fixed questions with a wrong answer.
fn wrong_decisions(cases: &[questions::Case], fault: Fault) -> usize {
    let wrong = cases.iter().filter(|case| {
        let question = &case.question;
        Faulty(fault).decide(&question.problem, &question.record) != decided(case.decide)
    });
    wrong.count()
}

/// Fixed cases with a wrong answer.
fn wrong(cases: &[Case], fault: Fault) -> usize {
    let wrong = cases
        .iter()
        .filter(|case| !faults(&Faulty(fault), case).is_empty());
    wrong.count()
}

#[test]
fn fixed_cases_find_faults() {
    let cases = fixed::cases();
    assert_eq!(wrong(&cases, |_, answer, _| answer), 0);
    let count = |call: &'static str, least: usize, fault| {
        let found = wrong(&cases, fault);
        assert!(found >= least, "{call}: {found}");
    };
    count("end", 16, |call, answer, result| {
        if call == "complete" {
            result[3] ^= 1;
        }
        answer
    });
    count("place", 6, |call, answer, _| {
        answer + (call == "complete" && answer >> 48 == 0) as u64
    });
    count("compare", 22, |call, answer, _| {
        answer ^ (call == "compare") as u64
    });
    count("unify", 22, |call, answer, _| {
        answer + (call == "unify") as u64
    });
    count("subterm", 6, |call, answer, _| {
        answer + (call == "subterm" && answer > 0) as u64
    });
}

/// Each damaged long chain shows a wrong refusal, each whole one a wrong part.
#[test]
fn long_chains_find_faults() {
    let (cases, rules) = (chains::cases(), chains::questions());
    let damaged = cases.iter().filter(|case| case.complete.is_err()).count();
    let all = |wanted: usize, fault: Fault| assert_eq!(wrong(&cases, fault), wanted);
    all(0, |_, answer, _| answer);
    for fault in [next_place, next_number] as [Fault; 2] {
        all(cases.len(), fault);
        assert_eq!(wrong_decisions(&rules, fault), rules.len() - 1);
    }
    // One call alone; a part that is a byte longer, and one where none is due.
    all(damaged, |call, answer, _| {
        answer + (call == "compare" && answer >> 48 == 0) as u64
    });
    all(damaged, |call, answer, _| {
        answer + (call == "decide") as u64
    });
    all(cases.len() - damaged, |call, answer, _| {
        answer + (call == "subterm" && answer > 0) as u64
    });
    all(cases.len(), |call, answer, _| {
        answer.max((call == "subterm") as u64)
    });
}

#[test]
fn equal_engines_agree() {
    assert_eq!(differences(|_, answer, _| answer), 0);
}

#[test]
fn each_fault_is_found() {
    let count = |name: &'static str, fault| {
        let found = differences(fault);
        assert!(found > 20, "{name}: {found}");
    };
    count("last byte", |call, answer, result| {
        if call == "complete" {
            if let Some(last) = result.last_mut() {
                *last ^= 1;
            }
        }
        answer
    });
    count("unify result", |call, answer, result| {
        if call == "unify" && answer >> 48 == 1 {
            result[3] ^= 0x40;
        }
        answer
    });
    count("place", |call, answer, _| {
        if call == "complete" && answer >> 48 == 0 {
            return answer + 1;
        }
        answer
    });
    count("compare", |call, answer, _| {
        if call == "compare" {
            answer ^ 1
        } else {
            answer
        }
    });
    count("subterm", |call, answer, _| {
        if call == "subterm" && answer > 0 {
            return answer + 1;
        }
        answer
    });
}

/// Same for different and different for same, by decide.
fn exchanged(call: &str, answer: u64, _: &mut [u8]) -> u64 {
    match (call, answer >> 48) {
        ("decide", 1) => answer ^ 3,
        _ => answer,
    }
}

/// 21 for 22 and 22 for 21.
fn other_stop(_: &str, answer: u64, _: &mut [u8]) -> u64 {
    let (spent, large) = (encode(3, 21, 0), encode(3, 22, 0));
    match answer {
        _ if answer == spent => large,
        _ if answer == large => spent,
        _ => answer,
    }
}

/// The place one byte on.
fn next_place(_: &str, answer: u64, _: &mut [u8]) -> u64 {
    match answer >> 48 {
        0 => answer + 1,
        _ => answer,
    }
}

/// The refusal with the next number at the same place.
fn next_number(_: &str, answer: u64, _: &mut [u8]) -> u64 {
    match answer >> 48 {
        0 => answer + encode(0, 1, 0),
        _ => answer,
    }
}

/// Same in place of different.
fn never_different(_: &str, answer: u64, _: &mut [u8]) -> u64 {
    match answer == encode(1, 0, 2) {
        true => encode(1, 0, 1),
        false => answer,
    }
}

#[test]
fn faults_in_decide_are_found() {
    let none: Fault = |_, answer, _| answer;
    assert_eq!(different_decisions(none), [0, 0]);
    let cases = questions::cases();
    assert_eq!(wrong_decisions(&cases, none), 0);
    let list: [(&str, Fault); 5] = [
        ("same and different", exchanged),
        ("21 and 22", other_stop),
        ("place", next_place),
        ("number", next_number),
        ("never different", never_different),
    ];
    for (name, fault) in list {
        let [generated, damaged] = different_decisions(fault);
        assert!(
            generated > 50 && damaged > 3,
            "{name}: {generated}, {damaged}"
        );
        let wrong = wrong_decisions(&cases, fault);
        assert!(wrong > 5, "{name}: {wrong}");
    }
}

/// The problems of the other calls are asked of their results as well.
#[test]
fn faults_in_decide_are_found_on_problems() {
    let found = differences(|call, answer, _| match (call, answer >> 48) {
        ("decide", 1) => answer + 1,
        _ => answer,
    });
    assert!(found > 20, "{found}");
}
