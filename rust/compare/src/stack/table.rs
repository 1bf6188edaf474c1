//! The table of the stack that each case takes, and what it must show.

use super::cases::{Case, Kind};
use super::Stack;
use crate::call::{decode, Engine};
use kb_engine::{MIN_RESULT, MIN_SAVED};
use std::fmt;

/// Nodes of the chains.
pub const NODES: [usize; 3] = [2, 60, 120];
/// Most bytes of stack that any call may take.
pub const LIMIT: usize = 512 * 1024;

/// Bytes of stack that a case takes on the three chains.
#[derive(Clone, Debug)]
pub struct Row {
    pub name: &'static str,
    pub kind: Kind,
    pub taken: [usize; 3],
    /// Numbers of nodes with another answer than the one due, and that answer.
    pub wrong: Vec<(usize, u64)>,
}

impl Row {
    /// Runs the case on the three chains.
    pub fn measured(stack: &mut Stack, engine: &(dyn Engine + Sync), case: &Case) -> Row {
        let (mut result, mut saved) = (vec![0; MIN_RESULT], vec![0; MIN_SAVED]);
        let mut wrong = Vec::new();
        let taken = NODES.map(|nodes| {
            let (call, due) = (case.prepared)(nodes);
            let mut answer = 0;
            let taken = stack.taken(|| answer = engine.run(&call, [&mut result, &mut saved]));
            if answer != due {
                wrong.push((nodes, answer));
            }
            taken
        });
        Row {
            name: case.name,
            kind: case.kind,
            taken,
            wrong,
        }
    }

    /// What must not be.
    pub fn faults(&self) -> Vec<String> {
        let (name, taken) = (self.name, self.taken);
        let mut faults = Vec::new();
        if self.kind != Kind::Deep && taken.iter().any(|bytes| *bytes != taken[0]) {
            faults.push(format!("{name}: the stack depends on the chain, {taken:?}"));
        }
        if taken.iter().any(|bytes| *bytes > LIMIT) {
            faults.push(format!("{name}: more than {LIMIT} bytes of stack"));
        }
        for (nodes, answer) in &self.wrong {
            let answer = decode(*answer);
            faults.push(format!("{name}: answers {answer:?} on {nodes} nodes"));
        }
        faults
    }
}

impl fmt::Display for Row {
    fn fmt(&self, f: &mut fmt::Formatter) -> fmt::Result {
        let [a, b, c] = self.taken;
        write!(f, "{:32} {a:8} {b:8} {c:8}", self.name)
    }
}
