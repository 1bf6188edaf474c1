//! The lower of two lent terms word for word, on the literal definitions.

use super::literal::Symbols;
use kb_cases::pairs::Pair;
use kb_engine::Which;
use std::collections::HashMap;

/// The symbols of a field that fills the bytes.
fn symbols(field: &[u8]) -> Option<Symbols> {
    let [1, high, low, contents @ ..] = field else {
        return None;
    };
    let length = *high as usize * 256 + *low as usize;
    let allowed = contents.len() == length && (1..=16).any(|count| length == 2 * count);
    let pairs: Vec<(u8, u8)> = contents.chunks_exact(2).map(|s| (s[0], s[1])).collect();
    let limits = pairs.iter().all(|(arity, rank)| *arity <= 4 && *rank <= 15);
    (allowed && limits).then_some(Symbols(pairs))
}

impl Symbols {
    /// How many terms the bytes are, one behind the other. From the back, each
    /// symbol takes its arguments from the terms that follow it.
    fn terms(&self, bytes: &[u8]) -> Option<usize> {
        bytes.iter().rev().try_fold(0usize, |terms, byte| {
            let arguments = match byte {
                0x80..=0x8f => 0,
                symbol => self.0.get(*symbol as usize)?.0 as usize,
            };
            Some(terms.checked_sub(arguments)? + 1)
        })
    }

    fn is_term(&self, bytes: &[u8]) -> bool {
        self.terms(bytes) == Some(1) && bytes.len() <= 120
    }
}

/// Which term must be handed back.
pub fn which(pair: &Pair) -> Which {
    let (first, second) = (&pair.first, &pair.second);
    match symbols(&pair.symbols) {
        Some(symbols) if symbols.is_term(first) && symbols.is_term(second) => {
            match symbols.above(first, second, &mut HashMap::new()) {
                true => Which::Second,
                false => Which::First,
            }
        }
        _ => Which::Refused,
    }
}
