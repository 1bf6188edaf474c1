//! Knuth-Bendix completion with the lexicographic path order, on heap trees.
//!
//! The calls are complete, compare, unify, subterm, decide, outermost, lower,
//! complete_saving, resume and resume_saving; beside them the text of settle.
//! The engine shares no code with the verified library, so that comparing
//! the two on many problems says something about both.

pub mod calls;
pub mod checkpoint;
pub mod decide;
pub mod fields;
pub mod lower;
pub mod matching;
pub mod normalise;
pub mod order;
pub mod outermost;
pub mod overlap;
pub mod problem;
pub mod reader;
pub mod record;
pub mod resume;
pub mod rules;
pub mod run;
pub mod settle;
pub mod term;
pub mod unification;
pub mod waiting;

pub use calls::{compare, complete, subterm, unify};
pub use calls::{CompareAnswer, CompleteAnswer, UnifyAnswer};
pub use decide::{decide, DecideAnswer, Verdict};
pub use lower::{lower, Which};
pub use order::Order;
pub use outermost::outermost;
pub use problem::Refusal;
pub use resume::{complete_saving, resume, resume_saving, Lengths, SavingAnswer};
pub use settle::settle_text;

/// Most nodes a term may have.
pub const MAX_NODES: usize = 120;
/// Most different variables a taken pair may have.
pub const MAX_VARIABLES: u32 = 16;
/// Most rules alive at once.
pub const MAX_RULES: usize = 32;
/// Most log entries.
pub const MAX_LOG: usize = 512;
/// Most bytes in a problem.
pub const MAX_PROBLEM: usize = 8192;
/// Fewest bytes a result buffer may have.
pub const MIN_RESULT: usize = 16384;
/// Most bytes in a record that is a kept result.
pub const MAX_RECORD: usize = 16384;
/// Fewest bytes a buffer for a saved record may have.
pub const MIN_SAVED: usize = 49_152;
/// Most bytes in a saved record.
pub const MAX_SAVED: usize = 49_152;
/// Most rules and waiting equations together.
pub const MAX_TOGETHER: usize = 33;
/// Highest number of a rule.
pub const MAX_RULE_NUMBER: u16 = 512;
/// Most equation fields in a problem.
pub const MAX_EQUATIONS: usize = 16;
/// Highest budget, and most units in a record.
pub const MAX_BUDGET: u32 = 1_000_000;
