//! The stored cases are read as they were written, and a program that is no
//! settle is found.

use kb_cases::programs::{calls, complete, settle, Cases};
use std::path::Path;

#[test]
fn stored_cases_are_read_back() {
    for cases in [calls::cases(), complete::cases()] {
        let stored = cases.input();
        assert_eq!(Cases::read(&stored), Some(cases));
        for cut in [1, 3, 5, stored.len() - 1] {
            assert_eq!(Cases::read(&stored[..cut]), None, "{cut}");
        }
    }
    assert_eq!(Cases::read(&[]).map(|cases| cases.list().len()), Some(0));
}

/// Programs that print nothing or the problem are wrong about every problem.
#[test]
fn other_programs_are_found() {
    let cases = complete::cases();
    for program in ["true", "cat", "false"] {
        let faults = settle::faults(Path::new(program), &cases);
        let faults = faults.expect("programs of every system");
        assert_eq!(faults.len(), cases.list().len(), "{program}");
    }
    assert!(settle::faults(Path::new("no such program"), &cases).is_err());
}
