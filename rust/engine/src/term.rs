//! Terms as heap trees.
//!
//! A term is a variable or a symbol with its arguments. Argument lists are
//! shared, so copying a term is cheap; each application carries its size.
//! The byte form is the nodes in preorder, symbol n as n, variable n as
//! 0x80 + n.

use std::rc::Rc;

/// First byte of the variables in the byte form.
pub const VARIABLE_BASE: u8 = 0x80;
/// Variables that can occur while two rules overlap (16 of each).
pub const VARIABLE_SPACE: usize = 32;

/// A first-order term.
#[derive(Clone, Debug, PartialEq, Eq)]
pub enum Term {
    Variable(u8),
    Application {
        symbol: u8,
        size: u16,
        arguments: Rc<[Term]>,
    },
}

impl Term {
    /// The symbol applied to the arguments.
    pub fn application(symbol: u8, arguments: impl Into<Rc<[Term]>>) -> Term {
        let arguments = arguments.into();
        let size = 1 + arguments.iter().map(|a| a.size() as u16).sum::<u16>();
        Term::Application {
            symbol,
            size,
            arguments,
        }
    }

    /// Number of nodes.
    pub fn size(&self) -> usize {
        match self {
            Term::Variable(_) => 1,
            Term::Application { size, .. } => *size as usize,
        }
    }

    /// Root symbol, none for a variable.
    pub fn root(&self) -> Option<u8> {
        match self {
            Term::Variable(_) => None,
            Term::Application { symbol, .. } => Some(*symbol),
        }
    }

    /// Arguments, none for a variable.
    pub fn arguments(&self) -> &[Term] {
        match self {
            Term::Variable(_) => &[],
            Term::Application { arguments, .. } => arguments,
        }
    }

    /// Whether both are one shared tree (a quick, incomplete equality).
    pub fn shares(&self, other: &Term) -> bool {
        match (self, other) {
            (Term::Variable(a), Term::Variable(b)) => a == b,
            (Term::Application { arguments: a, .. }, Term::Application { arguments: b, .. }) => {
                Rc::ptr_eq(a, b)
            }
            _ => false,
        }
    }

    /// Set of variables as bits.
    pub fn variables(&self) -> u32 {
        match self {
            Term::Variable(v) => 1 << v,
            Term::Application { arguments, .. } => {
                arguments.iter().fold(0, |bits, a| bits | a.variables())
            }
        }
    }

    /// Whether the variable occurs in the term.
    pub fn contains(&self, variable: u8) -> bool {
        match self {
            Term::Variable(v) => *v == variable,
            Term::Application { arguments, .. } => arguments.iter().any(|a| a.contains(variable)),
        }
    }

    /// Appends the byte form.
    pub fn write(&self, out: &mut Vec<u8>) {
        match self {
            Term::Variable(v) => out.push(VARIABLE_BASE + v),
            Term::Application {
                symbol, arguments, ..
            } => {
                out.push(*symbol);
                arguments.iter().for_each(|a| a.write(out));
            }
        }
    }

    /// Appends all subterms in preorder, so that entry p is the one at p.
    pub fn preorder(&self, out: &mut Vec<Term>) {
        out.push(self.clone());
        self.arguments().iter().for_each(|a| a.preorder(out));
    }

    /// Reads one well-formed byte form from the front; `arity` by symbol.
    pub fn read(bytes: &mut &[u8], arity: &dyn Fn(u8) -> usize) -> Term {
        let byte = bytes[0];
        *bytes = &bytes[1..];
        if byte >= VARIABLE_BASE {
            return Term::Variable(byte - VARIABLE_BASE);
        }
        let arguments = (0..arity(byte)).map(|_| Term::read(bytes, arity));
        Term::application(byte, arguments.collect::<Rc<[Term]>>())
    }
}

/// Numbers the variables of a pair 0, 1, 2 .. by first occurrence, left first.
pub fn rename_pair(left: &Term, right: &Term) -> (Term, Term) {
    let mut renaming = Renaming::default();
    let left = renaming.apply(left);
    let right = renaming.apply(right);
    (left, right)
}

/// Numbers the variables of one term by first occurrence.
pub fn rename(term: &Term) -> Term {
    Renaming::default().apply(term)
}

#[derive(Default)]
struct Renaming {
    to: [Option<u8>; VARIABLE_SPACE],
    used: u8,
}

impl Renaming {
    fn apply(&mut self, term: &Term) -> Term {
        match term {
            Term::Variable(v) => Term::Variable(self.number(*v)),
            Term::Application {
                symbol, arguments, ..
            } => {
                let arguments = arguments.iter().map(|a| self.apply(a));
                Term::application(*symbol, arguments.collect::<Rc<[Term]>>())
            }
        }
    }

    fn number(&mut self, variable: u8) -> u8 {
        *self.to[variable as usize].get_or_insert_with(|| {
            self.used += 1;
            self.used - 1
        })
    }
}
