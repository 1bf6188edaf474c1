//! A whole problem from text.

use super::signature::{number, symbols};
use super::terms::Parser;
use super::text::{Span, SyntaxError};
use super::Theory;
use kb_engine::MAX_BUDGET;

/// Reads a problem written as text: a line "symbols name/arity/rank ..", a
/// line "budget number", then an equation a line. Empty lines and lines that
/// start with # are skipped. How many equations there are and how long their
/// sides are is left to the engine, which refuses what is too much.
pub fn read(text: &str) -> Result<(Theory, u32), SyntaxError> {
    let lines = (1..).zip(text.lines());
    let lines = lines.map(|(number, line)| Span::line(line, number).trim());
    let mut lines = lines.filter(|line| !line.text.is_empty() && !line.text.starts_with('#'));
    let end = Span::line("", text.lines().count() + 1);

    let mut theory = Theory {
        symbols: symbols(behind("symbols", lines.next().unwrap_or(end))?)?,
        equations: Vec::new(),
    };
    let budget = behind("budget", lines.next().unwrap_or(end))?;
    let budget = number(budget, "a budget", MAX_BUDGET)?;
    for line in lines {
        let sides = Parser::new(&theory.symbols).equation(line)?;
        theory.equations.push(sides);
    }
    Ok((theory, budget))
}

/// What stands behind the word that a line begins with.
fn behind<'t>(word: &str, line: Span<'t>) -> Result<Span<'t>, SyntaxError> {
    let first = line.parts().first().map_or("", |part| part.text);
    if first != word {
        return Err(line.error(format!("a line '{word} ..'")));
    }
    Ok(line.split_at(word.len()).1.trim())
}
