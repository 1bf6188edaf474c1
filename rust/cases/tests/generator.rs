//! The generator: a function of its numbers, and its reach.

mod common;

use common::result_of;
use kb_cases::generate::ranks::{ranks, Ranks};
use kb_cases::generate::{self, damage, pairs, records};
use kb_cases::pairs::Pair;
use kb_cases::questions::Question;
use kb_engine::fields::put_back_entries;
use kb_engine::lower::which;
use kb_engine::problem::Problem;
use kb_engine::run::END_COMPLETE;
use kb_engine::{compare, complete, decide, outermost, subterm, unify};
use kb_engine::{CompareAnswer, CompleteAnswer, DecideAnswer, UnifyAnswer, Which};
use kb_engine::{MAX_NODES, MAX_RECORD, MIN_RESULT};
use std::collections::BTreeSet;

const COUNT: u64 = 12_000;

fn question(seed: u64, index: u64) -> Question {
    records::question(seed, index, &result_of)
}

#[test]
fn problems_depend_on_seed_and_index_only() {
    for index in 0..400 {
        assert_eq!(generate::problem(3, index), generate::problem(3, index));
    }
    let differ = (0..400).filter(|i| generate::problem(3, *i) != generate::problem(4, *i));
    assert!(differ.count() > 300);
}

#[test]
fn problems_reach_every_answer() {
    let mut seen = BTreeSet::new();
    let mut result = vec![0; MIN_RESULT];
    for index in 0..COUNT {
        let problem = generate::problem(1, index);
        seen.insert(match complete(&problem, &mut result) {
            CompleteAnswer::Refused(refusal) => format!("refused {}", refusal.number),
            CompleteAnswer::Written(_) => format!("end {}", result[3]),
        });
        seen.insert(match unify(&problem, &mut result) {
            UnifyAnswer::Refused(refusal) => format!("refused {}", refusal.number),
            UnifyAnswer::Written(_) => "instance".to_string(),
            UnifyAnswer::None => "no instance".to_string(),
            UnifyAnswer::TooLarge => "large instance".to_string(),
        });
        if let CompareAnswer::Compared(order) = compare(&problem) {
            seen.insert(format!("{order:?}"));
        }
    }
    let refusals = [2, 3, 4, 5, 6, 8, 9, 10, 11, 12].map(|n| format!("refused {n}"));
    let ends = [0, 20, 21, 22, 23, 24].map(|n| format!("end {n}"));
    let unified = ["instance", "no instance", "large instance"].map(String::from);
    let compared = ["LeftAbove", "RightAbove", "Identical", "Neither"].map(String::from);
    let all = refusals.into_iter().chain(ends);
    let all = all.chain(unified).chain(compared);
    assert!(
        all.clone().eq(all.clone().filter(|a| seen.contains(a))),
        "{seen:?}"
    );
    assert!(!seen.contains("refused 7"));
}

#[test]
fn symbols_share_ranks_in_a_third() {
    let of = |kind| (0..COUNT).filter(move |i| ranks(&generate::problem(1, *i)) == Some(kind));
    let (some, all) = (of(Ranks::SomeEqual).count(), of(Ranks::AllEqual).count());
    assert!(3 * (some + all) as u64 >= COUNT, "{some} and {all}");
    assert!(20 * all as u64 >= COUNT, "{all}");
}

/// Equations with neither side above are put back in many results: in some
/// the run completes, in some one of them is put back again, also one from a
/// removed rule.
#[test]
fn equations_wait_in_many_problems() {
    let results = (0..COUNT).filter_map(|index| result_of(&generate::problem(1, index)));
    let (mut waited, mut completed, mut again, mut removed) = (0, 0, 0, 0);
    for result in results {
        let origins: Vec<&[u8]> = put_back_entries(&result).collect();
        let twice = |i: usize| origins[..i].contains(&origins[i]);
        let of_rules = |i: &usize| origins[*i][0] == 2;
        waited += !origins.is_empty() as u64;
        completed += (!origins.is_empty() && result[3] == END_COMPLETE) as u64;
        again += (0..origins.len()).any(twice) as u64;
        removed += (0..origins.len()).filter(of_rules).any(twice) as u64;
    }
    assert!(4 * waited > COUNT, "{waited}");
    assert!(60 * completed > COUNT, "{completed}");
    assert!(10 * again > COUNT, "{again}");
    assert!(240 * removed > COUNT, "{removed}");
}

#[test]
fn damaged_problems_are_answered() {
    let mut result = vec![0; MIN_RESULT];
    assert!(damage::exhaustive(damage::exhaustive_count()).is_empty());
    for number in (0..damage::exhaustive_count()).step_by(3) {
        let problem = damage::exhaustive(number);
        let refused = matches!(complete(&problem, &mut result), CompleteAnswer::Refused(_));
        let part = subterm(&problem, 0);
        assert!(!refused || part.is_empty());
        compare(&problem);
        unify(&problem, &mut result);
    }
}

#[test]
fn questions_depend_on_seed_and_index_only() {
    for index in 0..400 {
        assert_eq!(question(3, index), question(3, index));
    }
    let differ = (0..400).filter(|i| question(3, *i) != question(4, *i));
    assert!(differ.count() > 380);
}

#[test]
fn questions_reach_every_answer() {
    let refusals = [3, 4, 5, 6, 8, 10, 11, 12, 13, 14, 15].map(|n| format!("refused {n:2}"));
    let decided = ["Different", "Ended(21)", "Ended(22)", "Same"].map(String::from);
    for call in [decide, outermost] {
        let mut seen = BTreeSet::new();
        for index in 0..COUNT {
            let question = question(1, index);
            seen.insert(match call(&question.problem, &question.record) {
                DecideAnswer::Refused(refusal) => format!("refused {:2}", refusal.number),
                DecideAnswer::Decided(verdict, _) => format!("{verdict:?}"),
            });
        }
        assert!(seen.iter().eq(decided.iter().chain(&refusals)), "{seen:?}");
    }
}

#[test]
fn records_reach_every_family_and_length() {
    let families: BTreeSet<_> = (0..records::SHARES).map(records::family).collect();
    assert_eq!(families.len(), 13);
    let long = (0..2 * COUNT).filter(|i| records::family(*i) == "long record");
    let lengths: BTreeSet<usize> = long.map(|i| question(1, i).record.len()).collect();
    assert!(lengths.range(13_000..14_000).count() > 20);
    for length in [MAX_RECORD, MAX_RECORD + 1] {
        assert!(lengths.contains(&length), "{length}");
    }
}

/// In three families the records are results as they were written.
#[test]
fn delivered_records_are_results() {
    let whole = [
        "kept result",
        "erasing and doubling, delivered",
        "a term and its normal form",
    ];
    for index in 0..2000 {
        let delivered = whole.contains(&records::family(index));
        assert_eq!(question(1, index).delivered, delivered, "{index}");
    }
}

#[test]
fn erasing_and_doubling_rules_are_accepted() {
    let erasing = |index: &u64| records::family(*index).starts_with("erasing");
    for index in (0..COUNT).filter(erasing) {
        let question = question(1, index);
        let answer = outermost(&question.problem, &question.record);
        assert!(matches!(answer, DecideAnswer::Decided(..)), "{answer:?}");
    }
}

/// Pairs of a seed, with their families.
fn pairs_of(seed: u64) -> impl Iterator<Item = (&'static str, Pair)> {
    (0..COUNT).map(move |index| (pairs::family(index), pairs::pair(seed, index)))
}

fn accepted(pair: &Pair) -> bool {
    which(&pair.symbols, &pair.first, &pair.second) != Which::Refused
}

#[test]
fn pairs_depend_on_seed_and_index_only() {
    for index in 0..400 {
        assert_eq!(pairs::pair(3, index), pairs::pair(3, index));
    }
    let differ = (0..400).filter(|i| pairs::pair(3, *i) != pairs::pair(4, *i));
    assert!(differ.count() > 380);
}

/// Long slices are refused, other families accepted at times, and more than
/// half of all pairs.
#[test]
fn pairs_reach_every_family_and_answer() {
    let families: BTreeSet<_> = (0..pairs::SHARES).map(pairs::family).collect();
    assert_eq!(families.len(), 11);
    let mut seen = BTreeSet::new();
    for (family, pair) in pairs_of(1) {
        let answer = which(&pair.symbols, &pair.first, &pair.second);
        seen.insert((family, format!("{answer:?}")));
    }
    let answers = |family| seen.iter().filter(|(f, _)| *f == family).count();
    for family in families {
        let expected = match family {
            "long slices" => 1..=1,
            "lowered term" | "unrelated terms" => 2..=2,
            "related terms" | "sides of an equation" => 2..=3,
            _ => 3..=3,
        };
        assert!(expected.contains(&answers(family)), "{family}");
    }
    let count = pairs_of(1).filter(|(_, pair)| accepted(pair)).count();
    assert!(2 * count as u64 > COUNT, "{count}");
}

/// The numbers by which a symbol field by itself is refused; 4 at its end if
/// it is good.
#[test]
fn damaged_fields_reach_every_refusal() {
    let damaged = pairs_of(1).filter(|(family, _)| *family == "damaged field");
    let fields = damaged.map(|(_, pair)| pair.symbols);
    let refusals = fields.filter_map(|field| {
        let refusal = Problem::read(&field).err()?;
        Some((refusal.number, refusal.place == field.len()))
    });
    let seen: BTreeSet<(u8, bool)> = refusals.collect();
    let all = [(3, false), (4, false), (4, true), (5, false), (6, false)];
    assert!(all.iter().all(|refusal| seen.contains(refusal)), "{seen:?}");
}

#[test]
fn pairs_reach_every_length() {
    let mut accepted_lengths = BTreeSet::new();
    let mut longest = [0; 3];
    let mut over = 0;
    for (_, pair) in pairs_of(1) {
        let parts = [&pair.symbols, &pair.first, &pair.second];
        for (i, part) in parts.into_iter().enumerate() {
            longest[i] = longest[i].max(part.len());
        }
        let terms = [pair.first.len(), pair.second.len()];
        if accepted(&pair) {
            accepted_lengths.extend(terms);
        } else if terms.contains(&(MAX_NODES + 1)) {
            over += 1;
        }
    }
    assert!(accepted_lengths.into_iter().eq(1..=MAX_NODES));
    assert!(over > 100, "{over}");
    assert!(longest.iter().all(|length| *length > 65_536), "{longest:?}");
}

#[test]
fn symbols_of_pairs_share_ranks() {
    let shared = pairs_of(1).filter(|(_, pair)| {
        let kind = ranks(&pair.symbols);
        [Some(Ranks::SomeEqual), Some(Ranks::AllEqual)].contains(&kind)
    });
    let count = shared.count();
    assert!(4 * count as u64 > COUNT, "{count}");
}
