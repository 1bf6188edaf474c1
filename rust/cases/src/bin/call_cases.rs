//! Writes crates/calls_run/stdin; with the argument `answers`, the stdout
//! that is due.

use kb_cases::programs::calls::{cases, text};
use std::io;

fn main() -> io::Result<()> {
    cases().write(text)
}
