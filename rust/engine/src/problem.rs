//! Reading a problem and refusing malformed ones.
//!
//! The tests come in one fixed order: the length of the whole, then front to
//! back; for each field its bounds, its tag, its number, then its contents.

use crate::term::{rename_pair, Term, VARIABLE_BASE};
use crate::{MAX_BUDGET, MAX_EQUATIONS, MAX_NODES, MAX_PROBLEM};
use std::ops::Range;

pub const TAG_SYMBOLS: u8 = 1;
const TAG_BUDGET: u8 = 2;
pub const TAG_EQUATION: u8 = 3;
const HEADER: usize = 3;
const MAX_SYMBOL_BYTES: usize = 32;
const MAX_ARITY: u8 = 4;
const MAX_RANK: u8 = 15;
const MAX_VARIABLE_BYTE: u8 = VARIABLE_BASE + 15;

/// Why and where a problem or a record is refused.
#[derive(Clone, Copy, Debug, PartialEq, Eq)]
pub struct Refusal {
    pub number: u8,
    pub place: usize,
}

fn refuse<T>(number: u8, place: usize) -> Result<T, Refusal> {
    Err(Refusal { number, place })
}

/// Arity and rank (precedence) of each symbol.
#[derive(Clone, Debug, Default)]
pub struct Signature {
    arity: Vec<u8>,
    rank: Vec<u8>,
}

impl Signature {
    pub fn arity(&self, symbol: u8) -> usize {
        self.arity[symbol as usize] as usize
    }

    pub fn rank(&self, symbol: u8) -> u8 {
        self.rank[symbol as usize]
    }

    /// The contents of a symbol field.
    pub fn bytes(&self) -> Vec<u8> {
        let symbols = self.arity.iter().zip(&self.rank);
        symbols.flat_map(|(arity, rank)| [*arity, *rank]).collect()
    }

    /// Nodes still due after this byte for one due node; none if it is no node.
    fn arguments_of(&self, byte: u8) -> Option<usize> {
        if (VARIABLE_BASE..=MAX_VARIABLE_BYTE).contains(&byte) {
            return Some(0);
        }
        self.arity.get(byte as usize).map(|&a| a as usize)
    }
}

/// Where an equation's field and its two sides stand in the problem.
#[derive(Clone, Debug)]
pub struct EquationField {
    pub start: usize,
    pub left: Range<usize>,
    pub right: Range<usize>,
}

impl EquationField {
    /// The two sides as trees, variables as in the bytes.
    pub fn sides(&self, bytes: &[u8], signature: &Signature) -> (Term, Term) {
        let arity = |symbol| signature.arity(symbol);
        let left = Term::read(&mut &bytes[self.left.clone()], &arity);
        let right = Term::read(&mut &bytes[self.right.clone()], &arity);
        (left, right)
    }
}

/// An accepted problem over the lent bytes, its own or those of a saved record.
#[derive(Debug)]
pub struct Problem<'a> {
    pub bytes: &'a [u8],
    pub signature: Signature,
    pub budget: u32,
    pub equations: Vec<EquationField>,
}

impl<'a> Problem<'a> {
    /// Reads the problem or refuses it.
    pub fn read(bytes: &'a [u8]) -> Result<Problem<'a>, Refusal> {
        if bytes.len() > MAX_PROBLEM {
            return refuse(2, MAX_PROBLEM);
        }
        let (signature, next) = read_symbols(bytes)?;
        let (budget, mut next) = read_budget(bytes, next)?;
        let mut equations = Vec::new();
        while next < bytes.len() {
            let contents = open_field(bytes, next, TAG_EQUATION)?;
            if equations.len() == MAX_EQUATIONS {
                return refuse(9, next);
            }
            equations.push(read_equation(bytes, next, &contents, &signature)?);
            next = contents.end;
        }
        Ok(Problem {
            bytes,
            signature,
            budget,
            equations,
        })
    }

    /// The only equation, refused if there are none or several.
    pub fn only_equation(&self) -> Result<&EquationField, Refusal> {
        match self.equations.as_slice() {
            [only] => Ok(only),
            [] => refuse(12, self.bytes.len()),
            [_, second, ..] => refuse(12, second.start),
        }
    }

    /// The end of the well-formed term that begins at the place.
    pub fn term_end(&self, mut place: usize) -> usize {
        let mut due = 1;
        while due > 0 {
            let arguments = self.signature.arguments_of(self.bytes[place]);
            due = due - 1 + arguments.expect("the term was read before");
            place += 1;
        }
        place
    }

    /// The two sides as trees, variables as in the bytes.
    pub fn sides(&self, equation: &EquationField) -> (Term, Term) {
        equation.sides(self.bytes, &self.signature)
    }

    /// All equations in order, each renamed.
    pub fn renamed_equations(&self) -> Vec<(Term, Term)> {
        let sides = self.equations.iter().map(|e| self.sides(e));
        sides
            .map(|(left, right)| rename_pair(&left, &right))
            .collect()
    }
}

/// Tests a field's bounds, then its tag; gives the range of its contents.
pub(crate) fn open_field(bytes: &[u8], start: usize, due: u8) -> Result<Range<usize>, Refusal> {
    let rest = &bytes[start..];
    if rest.len() < HEADER {
        return refuse(3, start);
    }
    let length = u16::from_be_bytes([rest[1], rest[2]]) as usize;
    if rest.len() - HEADER < length {
        return refuse(3, start);
    }
    if rest[0] != due {
        return refuse(4, start);
    }
    Ok(start + HEADER..start + HEADER + length)
}

/// Like `open_field`, for a field that must be there.
fn open_due_field(bytes: &[u8], start: usize, due: u8) -> Result<Range<usize>, Refusal> {
    if start == bytes.len() {
        return refuse(4, start);
    }
    open_field(bytes, start, due)
}

/// Reads the symbol field at the front; gives its end too.
pub(crate) fn read_symbols(bytes: &[u8]) -> Result<(Signature, usize), Refusal> {
    let contents = open_due_field(bytes, 0, TAG_SYMBOLS)?;
    if contents.is_empty() || contents.len() % 2 == 1 || contents.len() > MAX_SYMBOL_BYTES {
        return refuse(5, 0);
    }
    let mut signature = Signature::default();
    for place in contents.clone().step_by(2) {
        let (arity, rank) = (bytes[place], bytes[place + 1]);
        if arity > MAX_ARITY {
            return refuse(6, place);
        }
        if rank > MAX_RANK {
            return refuse(6, place + 1);
        }
        signature.arity.push(arity);
        signature.rank.push(rank);
    }
    Ok((signature, contents.end))
}

fn read_budget(bytes: &[u8], start: usize) -> Result<(u32, usize), Refusal> {
    let contents = open_due_field(bytes, start, TAG_BUDGET)?;
    let Ok(four) = <[u8; 4]>::try_from(&bytes[contents.clone()]) else {
        return refuse(8, start);
    };
    let budget = u32::from_be_bytes(four);
    if budget > MAX_BUDGET {
        return refuse(8, start);
    }
    Ok((budget, contents.end))
}

/// Reads the two terms that fill the contents of the field at the start.
pub(crate) fn read_equation(
    bytes: &[u8],
    start: usize,
    contents: &Range<usize>,
    signature: &Signature,
) -> Result<EquationField, Refusal> {
    let left = read_side(bytes, contents.clone(), signature)?;
    let right = read_side(bytes, left.end..contents.end, signature)?;
    if right.end < contents.end {
        return refuse(10, right.end);
    }
    Ok(EquationField { start, left, right })
}

/// Reads one term at the front of the range, to its end, then tests its size.
pub(crate) fn read_side(
    bytes: &[u8],
    range: Range<usize>,
    signature: &Signature,
) -> Result<Range<usize>, Refusal> {
    let mut due = 1;
    let mut place = range.start;
    while due > 0 {
        if place == range.end {
            return refuse(10, place);
        }
        match signature.arguments_of(bytes[place]) {
            Some(arguments) => due = due - 1 + arguments,
            None => return refuse(10, place),
        }
        place += 1;
    }
    if place - range.start > MAX_NODES {
        return refuse(11, range.start);
    }
    Ok(range.start..place)
}
