//! Problems written in readable form, for tests, benchmarks and generators.
//!
//! A signature is "e/0/0 i/1/2 */2/1": name, arity, rank (`signature`).
//! Equations are "*(e,x) = x" or "e*x = x" (`terms`). Texts in code must be
//! right: a wrong one panics with the place. `read` is for texts that come
//! from outside.

mod file;
mod signature;
mod terms;
mod text;

pub use file::read;
pub use text::SyntaxError;

use kb_engine::fields::push_field;
use signature::{symbols, Symbol};
use terms::Parser;
use text::Span;

/// A named signature with equations in byte form.
#[derive(Clone, Debug, Default)]
pub struct Theory {
    symbols: Vec<Symbol>,
    equations: Vec<Vec<u8>>,
}

/// What a text in code is read as.
fn right<T>(read: Result<T, SyntaxError>, text: &str) -> T {
    read.unwrap_or_else(|error| panic!("{text}: {error}"))
}

impl Theory {
    /// A theory with no equations.
    pub fn new(signature: &str) -> Theory {
        Theory {
            symbols: right(symbols(Span::alone(signature)), signature),
            equations: Vec::new(),
        }
    }

    /// Adds an equation given as text.
    pub fn equation(mut self, text: &str) -> Theory {
        let sides = Parser::new(&self.symbols).equation(Span::alone(text));
        self.equations.push(right(sides, text));
        self
    }

    /// Adds several equations given as text.
    pub fn equations(self, texts: &[&str]) -> Theory {
        texts
            .iter()
            .fold(self, |theory, text| theory.equation(text))
    }

    /// Adds an equation's contents as bytes.
    pub fn raw_equation(mut self, contents: Vec<u8>) -> Theory {
        self.equations.push(contents);
        self
    }

    /// The same symbols with these ranks.
    pub fn with_ranks(mut self, ranks: &[u8]) -> Theory {
        for (symbol, rank) in self.symbols.iter_mut().zip(ranks) {
            symbol.rank = *rank;
        }
        self
    }

    /// Both sides of these equations, numbered from 1, in byte form.
    pub fn sides(&self, equations: &[usize]) -> Vec<Vec<u8>> {
        let chosen = equations.iter().map(|i| self.equations[i - 1].clone());
        chosen.collect()
    }

    /// Both sides of every equation, in byte form.
    pub fn all_sides(&self) -> Vec<Vec<u8>> {
        self.equations.clone()
    }

    /// Two terms over the same variables, given as text, in byte form.
    pub fn terms(&self, texts: [&str; 2]) -> [Vec<u8>; 2] {
        let mut parser = Parser::new(&self.symbols);
        texts.map(|text| right(parser.one_term(Span::alone(text)), text))
    }

    /// The bytes of the symbol field.
    pub fn symbol_field(&self) -> Vec<u8> {
        let symbols = self.symbols.iter();
        let symbols = symbols.flat_map(|symbol| [symbol.arity, symbol.rank]);
        let mut out = Vec::new();
        push_field(&mut out, 1, &symbols.collect::<Vec<u8>>());
        out
    }

    /// The problem's bytes.
    pub fn problem(&self, budget: u32) -> Vec<u8> {
        let mut out = self.symbol_field();
        push_field(&mut out, 2, &budget.to_be_bytes());
        for equation in &self.equations {
            push_field(&mut out, 3, equation);
        }
        out
    }
}
