//! The cases of the programs calls_run and complete_run, and what each of
//! them must print; settle, run on those of complete_run.
//!
//! A case is a byte that says what is asked, the length of its name, the
//! length of its problem in two bytes, the name and the problem.

pub mod calls;
pub mod complete;
mod put_back;
mod refusals;
pub mod settle;

use crate::notation::Theory;
use crate::theories::{one_rank, GROUP};
use kb_engine::fields::push_field;
use kb_engine::problem::Refusal;
use std::io::{self, Write};

/// What is asked of a problem, under a name.
#[derive(Clone, Debug, PartialEq, Eq)]
pub struct Case {
    pub asked: u8,
    pub name: String,
    pub problem: Vec<u8>,
}

/// A list of cases.
#[derive(Clone, Debug, PartialEq, Eq)]
pub struct Cases(Vec<Case>);

impl Cases {
    fn ask(&mut self, asked: u8, name: &str, problem: Vec<u8>) {
        let name = name.to_string();
        self.0.push(Case {
            asked,
            name,
            problem,
        });
    }

    /// What is asked first, of these bytes.
    fn bytes(&mut self, name: &str, problem: Vec<u8>) {
        self.ask(0, name, problem);
    }

    /// An equation over the symbols of groups.
    fn equation(&mut self, name: &str, text: &str) {
        self.bytes(name, groups().equation(text).problem(9));
    }

    /// An equation field with these contents, over those symbols.
    fn contents(&mut self, name: &str, contents: &[u8]) {
        let theory = groups().raw_equation(contents.to_vec());
        self.bytes(name, theory.problem(9));
    }

    /// The field of those symbols, and these bytes.
    fn after_symbols(&mut self, name: &str, more: &[u8]) {
        let mut problem = Vec::new();
        push_field(&mut problem, 1, &[0, 0, 1, 2, 2, 1]);
        problem.extend(more);
        self.bytes(name, problem);
    }

    /// A field of symbols, an arity and a rank each, and nothing more.
    fn symbols(&mut self, name: &str, contents: &[u8]) {
        let mut problem = Vec::new();
        push_field(&mut problem, 1, contents);
        self.bytes(name, problem);
    }

    /// The cases in their order.
    pub fn list(&self) -> &[Case] {
        &self.0
    }

    /// The bytes that the program reads.
    pub fn input(&self) -> Vec<u8> {
        let mut out = Vec::new();
        for case in &self.0 {
            out.extend([case.asked, case.name.len() as u8]);
            out.extend((case.problem.len() as u16).to_be_bytes());
            out.extend(case.name.as_bytes());
            out.extend(&case.problem);
        }
        out
    }

    /// The cases of a program's input; none if it is cut.
    pub fn read(mut input: &[u8]) -> Option<Cases> {
        let mut list = Vec::new();
        while !input.is_empty() {
            let (&[asked, name, high, low], rest) = input.split_first_chunk()?;
            let (name, rest) = rest.split_at_checked(name.into())?;
            let length = u16::from_be_bytes([high, low]);
            let (problem, rest) = rest.split_at_checked(length.into())?;
            list.push(Case {
                asked,
                name: String::from_utf8_lossy(name).into_owned(),
                problem: problem.to_vec(),
            });
            input = rest;
        }
        Some(Cases(list))
    }

    /// The text that the program must print, by what one case prints.
    pub fn output(&self, text: fn(&Case) -> String) -> Vec<u8> {
        self.0.iter().flat_map(|c| text(c).into_bytes()).collect()
    }

    /// Writes the input, or with the argument `answers` the output.
    pub fn write(&self, text: fn(&Case) -> String) -> io::Result<()> {
        let answers = std::env::args().nth(1).as_deref() == Some("answers");
        let bytes = match answers {
            true => self.output(text),
            false => self.input(),
        };
        io::stdout().lock().write_all(&bytes)
    }
}

/// f and g have one rank: of the three clauses only the first can hold.
fn equal_ranks(cases: &mut Cases) {
    let equations = ["f(x) = g(x)", "f(g(x)) = g(x)", "f(f(x)) = g(x)"];
    for equation in equations {
        cases.bytes(equation, one_rank(equation).problem(9));
    }
}

fn groups() -> Theory {
    Theory::new(GROUP)
}

fn hex(bytes: &[u8]) -> String {
    bytes.iter().map(|byte| format!("{byte:02x}")).collect()
}

fn refused(refusal: Refusal) -> String {
    format!("refused {} at {}", refusal.number, refusal.place)
}
