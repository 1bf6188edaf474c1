//! A settle program, run on stored problems and held to what the Rust engine
//! prints for them.

use super::{Case, Cases};
use kb_engine::settle_text;
use std::io::{self, ErrorKind, Write};
use std::path::Path;
use std::process::{Command, Output, Stdio};

/// The cases whose problems the program does not settle as is due, with what
/// it printed. An error means that it could not be run.
pub fn faults<'c>(program: &Path, cases: &'c Cases) -> io::Result<Vec<(&'c Case, Output)>> {
    let mut faults = Vec::new();
    for case in cases.list() {
        let output = run(program, &case.problem)?;
        if !output.status.success() || output.stdout != settle_text(&case.problem) {
            faults.push((case, output));
        }
    }
    Ok(faults)
}

/// What a program does with a problem as its standard input.
fn run(program: &Path, problem: &[u8]) -> io::Result<Output> {
    let mut command = Command::new(program);
    command.stdin(Stdio::piped()).stdout(Stdio::piped());
    let mut child = command.spawn()?;
    let mut input = child.stdin.take().expect("a pipe");
    let written = input.write_all(problem);
    drop(input);
    // A program may end before it has read all: its output tells.
    match written {
        Err(error) if error.kind() != ErrorKind::BrokenPipe => Err(error),
        _ => child.wait_with_output(),
    }
}
