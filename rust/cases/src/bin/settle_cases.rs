//! Runs a settle program on stored problems and compares what it prints with
//! what the Rust engine does.
//!
//! settle_cases PROGRAM, with crates/complete_run/stdin as standard input.

use kb_cases::programs::{settle, Cases};
use std::env;
use std::error::Error;
use std::io::{self, Read};
use std::path::PathBuf;
use std::process::ExitCode;

fn main() -> Result<ExitCode, Box<dyn Error>> {
    let program = env::args_os().nth(1).ok_or("settle_cases PROGRAM")?;
    let mut stored = Vec::new();
    io::stdin().lock().read_to_end(&mut stored)?;
    let cases = Cases::read(&stored).ok_or("the stored cases are cut")?;
    let faults = settle::faults(&PathBuf::from(program), &cases)?;
    for (case, output) in &faults {
        println!("WRONG: {}, {}", case.name, output.status);
        println!("{}", String::from_utf8_lossy(&output.stdout));
    }
    let (problems, wrong) = (cases.list().len(), faults.len());
    println!("settle on {problems} stored problems, {wrong} wrong outputs");
    Ok(match (problems, wrong) {
        (1.., 0) => ExitCode::SUCCESS,
        _ => ExitCode::FAILURE,
    })
}
