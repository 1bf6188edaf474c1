//! Terms and equations from text.
//!
//! A symbol stands before its arguments in brackets, as many as its arity:
//! "i(*(x,y))". An operator, that is a sign of arity 2, may also stand between
//! its arguments: "i(x*y)". Where one of these has an operator between its own
//! arguments it is in brackets: no operator goes before another. Every
//! word that is no symbol is a variable, numbered by first occurrence.

use super::signature::Symbol;
use super::text::{is_word, Span, SyntaxError};
use kb_engine::term::VARIABLE_BASE;

/// Variables that have a byte.
const MOST_VARIABLES: usize = 16;
/// Most terms that stand in each other, redundant brackets counted.
const MOST_DEEP: usize = 500;

/// Reads terms over the symbols, and over the same variables.
pub struct Parser<'t> {
    symbols: &'t [Symbol],
    variables: Vec<&'t str>,
    /// Of the text that is read, up to an empty one.
    tokens: Vec<Span<'t>>,
    next: usize,
    deep: usize,
    /// Whether an operator may stand here.
    open: bool,
}

impl<'t> Parser<'t> {
    pub fn new(symbols: &'t [Symbol]) -> Parser<'t> {
        Parser {
            symbols,
            variables: Vec::new(),
            tokens: Vec::new(),
            next: 0,
            deep: 0,
            open: false,
        }
    }

    fn begin(&mut self, text: Span<'t>) {
        self.tokens = text.tokens();
        (self.next, self.deep, self.open) = (0, 0, false);
    }

    /// The nodes of a text that is two terms with = between them.
    pub fn equation(&mut self, text: Span<'t>) -> Result<Vec<u8>, SyntaxError> {
        self.begin(text);
        let mut nodes = self.term()?;
        self.pass("=", "'='")?;
        nodes.extend(self.last_term()?);
        Ok(nodes)
    }

    /// The nodes of a text that is one term.
    pub fn one_term(&mut self, text: Span<'t>) -> Result<Vec<u8>, SyntaxError> {
        self.begin(text);
        self.last_term()
    }

    fn last_term(&mut self) -> Result<Vec<u8>, SyntaxError> {
        let nodes = self.term()?;
        self.pass("", "the end of the line")?;
        Ok(nodes)
    }

    fn here(&self) -> Span<'t> {
        self.tokens[self.next]
    }

    /// Goes behind this token, which must stand here.
    fn pass(&mut self, token: &str, expected: &str) -> Result<(), SyntaxError> {
        if self.here().text != token {
            let further = if self.open { " or an operator" } else { "" };
            return Err(self.here().error(format!("{expected}{further}")));
        }
        // The empty token at the end is not passed.
        self.next += usize::from(!token.is_empty());
        self.open = false;
        Ok(())
    }

    /// The symbol of this name, with its byte.
    fn symbol(&self, name: &str) -> Option<(u8, &'t Symbol)> {
        let mut symbols = (0..).zip(self.symbols);
        symbols.find(|(_, symbol)| symbol.name == name)
    }

    fn operator(&self) -> Option<u8> {
        let (byte, symbol) = self.symbol(self.here().text)?;
        symbol.is_operator().then_some(byte)
    }

    /// A term by itself, or two of them with an operator between.
    fn term(&mut self) -> Result<Vec<u8>, SyntaxError> {
        if self.deep == MOST_DEEP {
            let expected = format!("at most {MOST_DEEP} terms in each other");
            return Err(self.here().error(expected));
        }
        self.deep += 1;
        let mut nodes = self.closed_term()?;
        self.open = true;
        if let Some(operator) = self.operator() {
            self.next += 1;
            nodes.insert(0, operator);
            nodes.extend(self.closed_term()?);
            self.open = false;
            if self.operator().is_some() {
                let expected = "brackets, since no operator goes before another";
                return Err(self.here().error(expected));
            }
        }
        self.deep -= 1;
        Ok(nodes)
    }

    /// A variable, a constant, a symbol with its arguments, or a term in
    /// brackets.
    fn closed_term(&mut self) -> Result<Vec<u8>, SyntaxError> {
        self.open = false;
        let first = self.here();
        if first.text == "(" {
            self.next += 1;
            let nodes = self.term()?;
            self.pass(")", "')'")?;
            return Ok(nodes);
        }
        if let Some((byte, symbol)) = self.symbol(first.text) {
            self.next += 1;
            let mut nodes = vec![byte];
            nodes.extend(self.arguments(symbol)?);
            return Ok(nodes);
        }
        if !is_word(first.text) {
            return Err(first.error("a term"));
        }
        self.next += 1;
        match self.here().text {
            "(" => Err(first.error("a symbol before '('")),
            _ => Ok(vec![self.variable(first)?]),
        }
    }

    /// The arguments of a symbol in brackets; of a constant nothing.
    fn arguments(&mut self, symbol: &Symbol) -> Result<Vec<u8>, SyntaxError> {
        let (name, arity) = (&symbol.name, symbol.arity);
        let mut nodes = Vec::new();
        for number in 1..=arity {
            let (token, expected) = match number {
                1 => ("(", format!("'(' before the arguments of {name}")),
                _ => (",", format!("',' and argument {number} of {name}")),
            };
            self.pass(token, &expected)?;
            nodes.extend(self.term()?);
        }
        match (arity, self.here().text) {
            (0, "(") => return Err(self.here().error(format!("no arguments of {name}"))),
            (0, _) => {}
            _ => self.pass(")", &format!("')' behind argument {arity} of {name}"))?,
        }
        Ok(nodes)
    }

    fn variable(&mut self, name: Span<'t>) -> Result<u8, SyntaxError> {
        let known = self.variables.iter().position(|known| *known == name.text);
        let number = known.unwrap_or(self.variables.len());
        if number == MOST_VARIABLES {
            let expected = format!("one of the {MOST_VARIABLES} variables before");
            return Err(name.error(expected));
        }
        if known.is_none() {
            self.variables.push(name.text);
        }
        Ok(VARIABLE_BASE + number as u8)
    }
}
