//! The lower of two lent terms in the path order.
//!
//! The symbol field and the terms are lent each by itself, and each fills its
//! slice. They are refused as in a problem, but no number and no place is
//! told, and a problem's limit of bytes does not apply.

use crate::order::above;
use crate::problem::{read_side, read_symbols, Signature};
use crate::term::Term;
use crate::MAX_NODES;

/// Which of two terms is handed back.
#[derive(Clone, Copy, Debug, PartialEq, Eq)]
pub enum Which {
    /// Neither: the field or a term is refused, or bytes follow.
    Refused,
    First,
    Second,
}

/// The second term if the first is above it, else the first, as it was lent;
/// empty if refused.
pub fn lower<'a>(symbols: &[u8], first: &'a [u8], second: &'a [u8]) -> &'a [u8] {
    match which(symbols, first, second) {
        Which::Refused => &[],
        Which::First => first,
        Which::Second => second,
    }
}

/// Which term `lower` hands back.
pub fn which(symbols: &[u8], first: &[u8], second: &[u8]) -> Which {
    match first_is_above(symbols, first, second) {
        None => Which::Refused,
        Some(false) => Which::First,
        Some(true) => Which::Second,
    }
}

/// Whether the first term is above the second, none if one is refused.
fn first_is_above(symbols: &[u8], first: &[u8], second: &[u8]) -> Option<bool> {
    let signature = whole_field(symbols)?;
    let first = whole_term(first, &signature)?;
    let second = whole_term(second, &signature)?;
    Some(above(&first, &second, &signature))
}

/// The symbols of a field that fills the bytes.
fn whole_field(bytes: &[u8]) -> Option<Signature> {
    let (signature, end) = read_symbols(bytes).ok()?;
    (end == bytes.len()).then_some(signature)
}

/// The term that fills the bytes. A node is a byte: in more than 120 bytes no
/// term ends, or it is too large, or bytes follow it.
fn whole_term(bytes: &[u8], signature: &Signature) -> Option<Term> {
    if bytes.len() > MAX_NODES {
        return None;
    }
    let nodes = read_side(bytes, 0..bytes.len(), signature).ok()?;
    let arity = |symbol| signature.arity(symbol);
    (nodes.end == bytes.len()).then(|| Term::read(&mut &*bytes, &arity))
}
