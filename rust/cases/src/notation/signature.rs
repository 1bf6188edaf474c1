//! Symbols from text: "e/0/0 i/1/2 */2/1", that is name, arity and rank.

use super::text::{is_sign, is_word, Span, SyntaxError};

/// Limits of a problem.
const MOST_SYMBOLS: usize = 16;
const MOST_ARITY: u8 = 4;
const MOST_RANK: u8 = 15;

/// A name with its arity and rank; its byte is its place in the list.
#[derive(Clone, Debug, PartialEq, Eq)]
pub struct Symbol {
    pub name: String,
    pub arity: u8,
    pub rank: u8,
}

impl Symbol {
    /// Whether it may stand between its arguments.
    pub fn is_operator(&self) -> bool {
        self.arity == 2 && is_sign(&self.name)
    }
}

/// The symbols of a text, at least one.
pub fn symbols(text: Span) -> Result<Vec<Symbol>, SyntaxError> {
    let mut list: Vec<Symbol> = Vec::new();
    for part in text.parts() {
        if list.len() == MOST_SYMBOLS {
            return Err(part.error(format!("at most {MOST_SYMBOLS} symbols")));
        }
        let symbol = symbol(part)?;
        if list.iter().any(|known| known.name == symbol.name) {
            return Err(part.error("a name that no symbol before has"));
        }
        list.push(symbol);
    }
    match list.is_empty() {
        true => Err(text.trim().error("symbols, each as name/arity/rank")),
        false => Ok(list),
    }
}

fn symbol(part: Span) -> Result<Symbol, SyntaxError> {
    let (rest, rank) = split_last(part)?;
    let (name, arity) = split_last(rest).map_err(|_| no_symbol(part))?;
    if !is_word(name.text) && !is_sign(name.text) {
        return Err(part.error("a word or one sign as a name, then /arity/rank"));
    }
    Ok(Symbol {
        name: name.text.to_string(),
        arity: number(arity, "an arity", MOST_ARITY.into())? as u8,
        rank: number(rank, "a rank", MOST_RANK.into())? as u8,
    })
}

fn no_symbol(part: Span) -> SyntaxError {
    part.error("a symbol as name/arity/rank")
}

/// What stands before and behind the last stroke.
fn split_last(part: Span) -> Result<(Span, Span), SyntaxError> {
    let place = part.text.rfind('/').ok_or_else(|| no_symbol(part))?;
    let (before, behind) = part.split_at(place);
    Ok((before, behind.split_at(1).1))
}

/// A whole number up to the most that it may be.
pub fn number(text: Span, what: &str, most: u32) -> Result<u32, SyntaxError> {
    let digits = text.text.bytes().all(|byte| byte.is_ascii_digit());
    let number = text.text.parse().ok();
    let number = number.filter(|number| digits && *number <= most);
    number.ok_or_else(|| text.error(format!("{what} from 0 to {most}")))
}
