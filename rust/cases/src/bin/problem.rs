//! Turns a problem written as text into its bytes.
//!
//! Standard input has a line "symbols name/arity/rank ..", a line "budget
//! number", then an equation a line, "*(e,x) = x" or "e*x = x"; every name
//! that is no symbol is a variable. Empty lines and lines that start with #
//! are skipped. A wrong line is told with its place.

use std::io::{self, Read, Write};
use std::process::ExitCode;

fn main() -> io::Result<ExitCode> {
    let mut text = String::new();
    io::stdin().lock().read_to_string(&mut text)?;
    match kb_cases::notation::read(&text) {
        Ok((theory, budget)) => {
            let problem = theory.problem(budget);
            io::stdout().lock().write_all(&problem)?;
            Ok(ExitCode::SUCCESS)
        }
        Err(error) => {
            eprintln!("{error}");
            Ok(ExitCode::FAILURE)
        }
    }
}
