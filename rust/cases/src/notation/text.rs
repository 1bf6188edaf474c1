//! Lines of text taken apart, with the place of each part.
//!
//! A name is a word, that is letters, digits, _ and, but for the first place,
//! ', or it is one sign: any other character that can be seen, but for
//! ( ) , = # and '.

use std::fmt;

/// Signs that are no names.
const RESERVED: &str = "(),=#'";

/// Where a text is wrong, and what was expected there.
#[derive(Clone, Debug, PartialEq, Eq)]
pub struct SyntaxError {
    /// From 1.
    pub line: usize,
    /// From 1, in characters.
    pub column: usize,
    pub expected: String,
    pub found: String,
}

impl fmt::Display for SyntaxError {
    fn fmt(&self, f: &mut fmt::Formatter) -> fmt::Result {
        let (line, column) = (self.line, self.column);
        let (expected, found) = (&self.expected, &self.found);
        write!(f, "line {line}, column {column}: ")?;
        write!(f, "expected {expected}, found {found}")
    }
}

impl std::error::Error for SyntaxError {}

/// A part of a line, and where it begins.
#[derive(Clone, Copy, Debug)]
pub struct Span<'t> {
    pub text: &'t str,
    pub line: usize,
    pub column: usize,
}

impl<'t> Span<'t> {
    /// A whole line of this number.
    pub fn line(text: &'t str, line: usize) -> Span<'t> {
        let column = 1;
        Span { text, line, column }
    }

    /// A text of one line.
    pub fn alone(text: &'t str) -> Span<'t> {
        Span::line(text, 1)
    }

    /// That something else was expected here.
    pub fn error(self, expected: impl Into<String>) -> SyntaxError {
        let found = match self.text {
            "" => "nothing".to_string(),
            text => format!("'{text}'"),
        };
        SyntaxError {
            line: self.line,
            column: self.column,
            expected: expected.into(),
            found,
        }
    }

    /// The first bytes, and what is behind them.
    pub fn split_at(self, bytes: usize) -> (Span<'t>, Span<'t>) {
        let (first, text) = self.text.split_at(bytes);
        let column = self.column + first.chars().count();
        let behind = Span {
            text,
            column,
            ..self
        };
        (
            Span {
                text: first,
                ..self
            },
            behind,
        )
    }

    /// Without blanks before and behind.
    pub fn trim(self) -> Span<'t> {
        let blanks = self.text.len() - self.text.trim_start().len();
        let behind = self.split_at(blanks).1;
        let text = behind.text.trim_end();
        Span { text, ..behind }
    }

    /// The parts between blanks.
    pub fn parts(self) -> Vec<Span<'t>> {
        let mut parts = Vec::new();
        let mut rest = self.trim();
        while !rest.text.is_empty() {
            let end = rest.text.find(char::is_whitespace);
            let (part, behind) = rest.split_at(end.unwrap_or(rest.text.len()));
            parts.push(part);
            rest = behind.trim();
        }
        parts
    }

    /// The words and signs, last an empty part at the end.
    pub fn tokens(self) -> Vec<Span<'t>> {
        let mut tokens = Vec::new();
        let mut rest = self.trim();
        while let Some(first) = rest.text.chars().next() {
            let length = match word_length(rest.text) {
                0 => first.len_utf8(),
                word => word,
            };
            let (token, behind) = rest.split_at(length);
            tokens.push(token);
            rest = behind.trim();
        }
        tokens.push(rest);
        tokens
    }
}

fn begins_word(c: char) -> bool {
    c.is_alphanumeric() || c == '_'
}

/// Bytes of the word that the text begins with, 0 if it begins with none.
fn word_length(text: &str) -> usize {
    if !text.starts_with(begins_word) {
        return 0;
    }
    let end = text.find(|c| !begins_word(c) && c != '\'');
    end.unwrap_or(text.len())
}

/// Whether a text is one word.
pub fn is_word(text: &str) -> bool {
    !text.is_empty() && word_length(text) == text.len()
}

/// Whether a text is one sign.
pub fn is_sign(text: &str) -> bool {
    let mut chars = text.chars();
    let sign = |c: char| {
        let seen = !c.is_whitespace() && !c.is_control();
        seen && !begins_word(c) && !RESERVED.contains(c)
    };
    chars.next().is_some_and(sign) && chars.next().is_none()
}
