//! Writes crates/complete_run/stdin; with the argument `answers`, the stdout
//! that is due.

use kb_cases::programs::complete::{cases, text};
use std::io;

fn main() -> io::Result<()> {
    cases().write(text)
}
