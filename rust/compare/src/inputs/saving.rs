//! Runs that are cut, saved and resumed in slices until they end:
//! complete_saving, resume and resume_saving; complete, whose run they must be;
//! and decide and outermost, asked of what they leave with end 0.

use super::{hex, question, Case, Cases, Due, Input, Kind, Notes, Plan};
use crate::call::{decode, encode, left_by, refused, Call, Engine};
use crate::check::{Checker, Difference, Start, NONE};
use kb_cases::generate::slices as generator;
use kb_cases::put_back::{self, Run};
use kb_cases::questions::Question;
use kb_cases::slices::{self, with_budget, Sliced, Slices};
use kb_cases::{fixed as of_papers, generate};
use kb_engine::problem::Problem;
use kb_engine::run::END_COMPLETE;
use kb_engine::{Verdict, MAX_BUDGET, MIN_RESULT, MIN_SAVED};

pub const KIND: Kind = Kind {
    name: "saved runs",
    families: &[fixed, turn_by_turn, corpus, generated],
};

/// The end of a run whose budget is spent.
const SPENT: u8 = 21;
/// Slices of a run that does not end in one piece.
const FEW_SLICES: usize = 8;
/// More slices than any run takes.
const MOST_SLICES: usize = 10_000;

/// The number varies the buffers.
pub fn check(checker: &mut Checker, sliced: &Sliced, number: u64) -> Result<Notes, Difference> {
    let mut saving = Saving {
        checker,
        buffers: buffers(number),
        notes: Vec::new(),
    };
    saving.run(sliced)?;
    Ok(saving.notes)
}

/// Two buffers, for a few numbers too short or longer than they must be.
pub fn buffers(number: u64) -> [Start; 2] {
    let lengths = match number % 101 {
        60 => [MIN_RESULT - 1, MIN_SAVED],
        61 => [MIN_RESULT, MIN_SAVED - 1],
        62 => [MIN_RESULT + 1, MIN_SAVED + 1],
        63 => [0, 0],
        64 => [MIN_RESULT + 1000, MIN_SAVED + 20_000],
        65 => [MIN_SAVED, MIN_RESULT],
        _ => [MIN_RESULT, MIN_SAVED],
    };
    lengths.map(|length| Start {
        length,
        pattern: number,
    })
}

/// An answer of a call that completes or resumes, for the summary.
pub fn note(call: &Call, answer: u64, result: &[u8]) -> String {
    let call = call.name();
    match (result.get(3), decode(answer)) {
        (Some(end), _) => format!("{call}: end {end:2}"),
        (None, (_, number, _)) => format!("{call}: refused {number:2}"),
    }
}

/// What a call that saves has left on both sides.
struct Left {
    answer: u64,
    result: Vec<u8>,
    saved: Vec<u8>,
}

/// Both engines on one run.
struct Saving<'c, 'e> {
    checker: &'c mut Checker<'e>,
    buffers: [Start; 2],
    notes: Notes,
}

impl Saving<'_, '_> {
    /// Each record is resumed in all slices.
    fn run(&mut self, sliced: &Sliced) -> Result<(), Difference> {
        let whole = self.saving(&Call::CompleteSaving((&sliced.problem).into()))?;
        for record in self.records(sliced)? {
            for slices in &sliced.slices {
                let last = self.in_slices(&record, *slices, &whole.result)?;
                self.ask(&sliced.problem, last)?;
            }
        }
        Ok(())
    }

    /// The records that the cuts leave, each once.
    fn records(&mut self, sliced: &Sliced) -> Result<Vec<Vec<u8>>, Difference> {
        let mut records = Vec::new();
        for cut in &sliced.cuts {
            let left = self.first(&with_budget(&sliced.problem, *cut))?;
            if !left.saved.is_empty() {
                records.push(left.saved);
            }
        }
        records.dedup();
        Ok(records)
    }

    /// The first piece of a run, with the result of complete.
    fn first(&mut self, problem: &[u8]) -> Result<Left, Difference> {
        let left = self.saving(&Call::CompleteSaving(problem.into()))?;
        let call = Call::Complete(problem.into());
        let answer = self.checker.call(&call, [self.buffers[0], NONE])?;
        if !left.result.is_empty() && left.result != self.checker.written(answer) {
            let what = "complete_saving, another result than that of complete";
            return Err(Difference::of_both(what, left.answer));
        }
        Ok(left)
    }

    /// A call that saves: there is a record exactly with end 21.
    fn saving(&mut self, call: &Call) -> Result<Left, Difference> {
        let answer = self.checker.call(call, self.buffers)?;
        let left = Left {
            answer,
            result: self.checker.written(answer).to_vec(),
            saved: self.checker.saved(answer).to_vec(),
        };
        let spent = left.result.get(3) == Some(&SPENT);
        if spent == left.saved.is_empty() {
            let what = format!("{call}, a saved record with another end than 21, or none with it");
            return Err(Difference::of_both(&what, answer));
        }
        self.notes.push(note(call, answer, &left.result));
        Ok(left)
    }

    /// The last result of a run from a record: but for the units that of the
    /// run in one piece, if that one ends by another cause than its budget.
    fn in_slices(
        &mut self,
        record: &[u8],
        slices: Slices,
        whole: &[u8],
    ) -> Result<Vec<u8>, Difference> {
        let ends = whole.get(3).is_some_and(|end| *end != SPENT);
        let most = if ends { MOST_SLICES } else { FEW_SLICES };
        let (mut units, mut record) = (slices.units(), record.to_vec());
        let (mut finished, mut result) = (true, Vec::new());
        for _ in 0..most {
            let budget = units.next(finished).into();
            let left = self.slice(&record, budget)?;
            result = left.result;
            if left.saved.is_empty() {
                self.resume(&record, budget, &result)?;
                break;
            }
            finished = left.saved != record;
            record = left.saved;
        }
        if ends && without_units(&result) != without_units(whole) {
            let what = format!("resume_saving in {slices:?}, not the run in one piece");
            return Err(Difference::of_both(&what, encode(1, 0, result.len())));
        }
        Ok(result)
    }

    /// A slice of a run: what was saved is never refused.
    fn slice(&mut self, record: &[u8], budget: u64) -> Result<Left, Difference> {
        let left = self.saving(&Call::ResumeSaving(record.into(), budget))?;
        match left.result.is_empty() {
            true => {
                let what = "resume_saving, a saved record is refused";
                Err(Difference::of_both(what, left.answer))
            }
            false => Ok(left),
        }
    }

    /// Resume, which leaves the result of resume_saving.
    fn resume(&mut self, record: &[u8], budget: u64, result: &[u8]) -> Result<(), Difference> {
        let call = Call::Resume(record.into(), budget);
        let answer = self.checker.call(&call, [self.buffers[0], NONE])?;
        if self.checker.written(answer) != result {
            let what = "resume, another result than that of resume_saving";
            return Err(Difference::of_both(what, answer));
        }
        self.notes.push(note(&call, answer, result));
        Ok(())
    }

    /// The first equation, asked of a result with end 0: its sides are not
    /// different.
    fn ask(&mut self, problem: &[u8], result: Vec<u8>) -> Result<(), Difference> {
        let asked = first_equation(problem).filter(|_| result[3] == END_COMPLETE);
        let Some(asked) = asked else {
            return Ok(());
        };
        let question = Question {
            problem: asked.to_vec(),
            record: result,
            delivered: true,
        };
        let answers = question::ask(self.checker, &question)?;
        if answers.verdicts().contains(&Some(Verdict::Different)) {
            let what = "decide or outermost, different sides of an equation by its own rules";
            return Err(Difference::of_both(what, answers.outermost));
        }
        self.notes.extend(answers.notes(&question));
        Ok(())
    }
}

/// The end, and what stands behind the units.
fn without_units(result: &[u8]) -> (&[u8], &[u8]) {
    (&result[..4], &result[11..])
}

/// The problem up to its first equation.
fn first_equation(problem: &[u8]) -> Option<&[u8]> {
    let read = Problem::read(problem).ok()?;
    let first = read.equations.first()?;
    Some(&problem[..first.right.end])
}

/// The problem, the cuts and the slices.
pub fn shown(sliced: &Sliced) -> String {
    let (cuts, slices) = (&sliced.cuts, &sliced.slices);
    format!("{}\n  cut {cuts:?}, {slices:?}", hex(&sliced.problem))
}

/// Complete_saving answers as complete must, and saves exactly with end 21.
fn saving_faults(engine: &dyn Engine, case: &of_papers::Case) -> Vec<(String, u64)> {
    let left = left_by(engine, &Call::CompleteSaving((&case.problem).into()));
    let right = match &case.complete {
        Err(refusal) => left.answer == refused(*refusal),
        Ok(ended) => {
            let saved = ended.end == SPENT;
            !left.result.is_empty() && ended.fits(&left.result) && left.saved.is_empty() != saved
        }
    };
    match right {
        true => Vec::new(),
        false => vec![("complete_saving".to_string(), left.answer)],
    }
}

/// The fixed problems, with their own budgets.
fn fixed(_: Plan) -> Cases {
    let case = |case: of_papers::Case| Case {
        family: "fixed, saved",
        number: 0,
        input: Input::Sliced(Sliced {
            problem: case.problem.clone(),
            cuts: Vec::new(),
            slices: Vec::new(),
        }),
        due: Some(Due {
            name: case.name.clone(),
            faults: Box::new(move |engine| saving_faults(engine, &case)),
        }),
    };
    Box::new(of_papers::cases().into_iter().map(case))
}

/// Budgets with which a cut run is resumed.
const BUDGETS: [u32; 6] = [0, 1, 2, 3, 7, 1000];

/// A run that is known turn by turn, cut at every budget and resumed.
fn run_faults(engine: &dyn Engine, run: &Run) -> Vec<(String, u64)> {
    let mut faults = Vec::new();
    for cut in 0..run.units {
        let problem = run.theory.problem(cut);
        let left = left_by(engine, &Call::CompleteSaving(problem.into()));
        for budget in BUDGETS {
            let ended = run.resumed(cut, budget);
            let record = || left.saved.as_slice().into();
            let calls = [
                Call::Resume(record(), budget.into()),
                Call::ResumeSaving(record(), budget.into()),
            ];
            for call in calls {
                let resumed = left_by(engine, &call);
                if resumed.result.is_empty() || !ended.fits(&resumed.result) {
                    faults.push((format!("{call} after {cut}"), resumed.answer));
                }
            }
        }
    }
    faults
}

/// The runs that are written turn by turn, cut at every budget.
fn turn_by_turn(_: Plan) -> Cases {
    let case = |run: Run| Case {
        family: "known turn by turn",
        number: 0,
        input: Input::Sliced(Sliced {
            problem: run.theory.problem(MAX_BUDGET),
            cuts: (0..=run.units).collect(),
            slices: vec![Slices::Of(3)],
        }),
        due: Some(Due {
            name: run.name.clone(),
            faults: Box::new(move |engine| run_faults(engine, &run)),
        }),
    };
    Box::new(put_back::runs().into_iter().map(case))
}

fn corpus(_: Plan) -> Cases {
    let case = |sliced| Case {
        family: "corpus",
        number: 0,
        input: Input::Sliced(sliced),
        due: None,
    };
    Box::new(slices::runs().map(case))
}

fn generated(plan: Plan) -> Cases {
    super::generated(plan, generate::family, |seed, index| {
        Input::Sliced(generator::sliced(seed, index))
    })
}
