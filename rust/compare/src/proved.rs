//! The C functions of the proved library, wrapped.

use crate::call::{Buffers, Call, Engine};

extern "C" {
    fn vb_complete(problem: *const u8, n: usize, result: *mut u8, m: usize) -> u64;
    fn vb_unify(problem: *const u8, n: usize, result: *mut u8, m: usize) -> u64;
    fn vb_compare(problem: *const u8, n: usize) -> u64;
    fn vb_subterm(problem: *const u8, n: usize, position: usize) -> u64;
    fn vb_decide(problem: *const u8, n: usize, record: *const u8, m: usize) -> u64;
    fn vb_outermost(problem: *const u8, n: usize, record: *const u8, m: usize) -> u64;
    fn vb_lower(
        symbols: *const u8,
        n: usize,
        first: *const u8,
        m: usize,
        second: *const u8,
        k: usize,
    ) -> u64;
    fn vb_complete_saving(
        problem: *const u8,
        n: usize,
        result: *mut u8,
        m: usize,
        saved: *mut u8,
        k: usize,
    ) -> u64;
    fn vb_resume(record: *const u8, n: usize, budget: u64, result: *mut u8, m: usize) -> u64;
    fn vb_resume_saving(
        record: *const u8,
        n: usize,
        budget: u64,
        result: *mut u8,
        m: usize,
        saved: *mut u8,
        k: usize,
    ) -> u64;
}

/// The proved library.
pub struct ProvedEngine;

impl Engine for ProvedEngine {
    fn run(&self, call: &Call, buffers: Buffers) -> u64 {
        let [a, b, c] = call.lent().map(|bytes| (bytes.as_ptr(), bytes.len()));
        let [r, s] = buffers.map(|buffer| (buffer.as_mut_ptr(), buffer.len()));
        // SAFETY: the pointers come with the lengths of live slices.
        unsafe {
            match call {
                Call::Complete(_) => vb_complete(a.0, a.1, r.0, r.1),
                Call::Unify(_) => vb_unify(a.0, a.1, r.0, r.1),
                Call::Compare(_) => vb_compare(a.0, a.1),
                Call::Subterm(_, position) => vb_subterm(a.0, a.1, *position),
                Call::Decide(..) => vb_decide(a.0, a.1, b.0, b.1),
                Call::Outermost(..) => vb_outermost(a.0, a.1, b.0, b.1),
                Call::Lower(..) => vb_lower(a.0, a.1, b.0, b.1, c.0, c.1),
                Call::CompleteSaving(_) => vb_complete_saving(a.0, a.1, r.0, r.1, s.0, s.1),
                Call::Resume(_, budget) => vb_resume(a.0, a.1, *budget, r.0, r.1),
                Call::ResumeSaving(_, budget) => {
                    vb_resume_saving(a.0, a.1, *budget, r.0, r.1, s.0, s.1)
                }
            }
        }
    }
}
