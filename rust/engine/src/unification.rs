//! Unification by congruence classes over shared nodes.
//!
//! Both terms are laid out as one graph in which a variable is one node.
//! Unifying merges classes of nodes and so takes almost linear time; a cycle
//! among the classes means that a variable would stand inside its own term.
//! Sizes of instances are counted over the classes and capped, and a term is
//! built only after its size was found small.

use crate::term::{Term, VARIABLE_SPACE};
use crate::MAX_NODES;
use std::rc::Rc;

type NodeId = u16;
/// Every larger size counts as this one.
const SIZE_CAP: usize = MAX_NODES + 1;

#[derive(Clone, Copy)]
enum Mark {
    Unseen,
    Open,
    Size(u16),
}

#[derive(Clone, Copy)]
struct Node {
    parent: NodeId,
    /// An application in this node's class, if it is a class root.
    schema: Option<NodeId>,
    symbol: u8,
    first: u16,
    arity: u8,
    mark: Mark,
}

/// A graph of terms with its classes. Variables are the first nodes.
#[derive(Default)]
pub struct Unifier {
    nodes: Vec<Node>,
    children: Vec<NodeId>,
    built: Vec<Option<Term>>,
    stack: Vec<(NodeId, NodeId)>,
}

impl Unifier {
    /// Forgets all terms and classes.
    pub fn clear(&mut self) {
        self.nodes.clear();
        self.children.clear();
        self.built.clear();
        for variable in 0..VARIABLE_SPACE {
            self.push_node(None, variable as u8, 0);
        }
    }

    fn push_node(&mut self, symbol: Option<u8>, label: u8, arity: usize) -> NodeId {
        let id = self.nodes.len() as NodeId;
        self.nodes.push(Node {
            parent: id,
            schema: symbol.map(|_| id),
            symbol: label,
            first: self.children.len() as u16,
            arity: arity as u8,
            mark: Mark::Unseen,
        });
        self.children.resize(self.children.len() + arity, 0);
        id
    }

    /// Lays out a term, its variables raised by `shift`. The nodes of
    /// applications are appended in preorder.
    pub fn add(&mut self, term: &Term, shift: u8) -> NodeId {
        match term {
            Term::Variable(v) => (v + shift) as NodeId,
            Term::Application {
                symbol, arguments, ..
            } => {
                let id = self.push_node(Some(*symbol), *symbol, arguments.len());
                let first = self.nodes[id as usize].first as usize;
                for (i, argument) in arguments.iter().enumerate() {
                    self.children[first + i] = self.add(argument, shift);
                }
                id
            }
        }
    }

    /// Unifies two nodes; false if they have no common instance.
    pub fn unify(&mut self, a: NodeId, b: NodeId) -> bool {
        self.stack.clear();
        self.stack.push((a, b));
        while let Some((a, b)) = self.stack.pop() {
            if !self.merge(a, b) {
                return false;
            }
        }
        self.measure(a).is_some()
    }

    /// Merges two classes and pushes the pairs of their arguments.
    fn merge(&mut self, a: NodeId, b: NodeId) -> bool {
        let (a, b) = (self.find(a), self.find(b));
        if a == b {
            return true;
        }
        let (x, y) = (self.nodes[a as usize], self.nodes[b as usize]);
        self.nodes[b as usize].parent = a;
        let (Some(s), Some(t)) = (x.schema, y.schema) else {
            self.nodes[a as usize].schema = x.schema.or(y.schema);
            return true;
        };
        let (s, t) = (self.nodes[s as usize], self.nodes[t as usize]);
        if s.symbol != t.symbol {
            return false;
        }
        for i in 0..s.arity as usize {
            let left = self.children[s.first as usize + i];
            let right = self.children[t.first as usize + i];
            self.stack.push((left, right));
        }
        true
    }

    fn find(&mut self, mut node: NodeId) -> NodeId {
        loop {
            let parent = self.nodes[node as usize].parent;
            if parent == node {
                return node;
            }
            let above = self.nodes[parent as usize].parent;
            self.nodes[node as usize].parent = above;
            node = above;
        }
    }

    /// Capped size of a class, none if it reaches itself.
    fn measure(&mut self, node: NodeId) -> Option<usize> {
        let class = self.find(node) as usize;
        match self.nodes[class].mark {
            Mark::Open => return None,
            Mark::Size(size) => return Some(size as usize),
            Mark::Unseen => self.nodes[class].mark = Mark::Open,
        }
        let mut size = 1;
        if let Some(schema) = self.nodes[class].schema {
            let Node { first, arity, .. } = self.nodes[schema as usize];
            for i in first..first + arity as u16 {
                size += self.measure(self.children[i as usize])?;
            }
        }
        let size = size.min(SIZE_CAP);
        self.nodes[class].mark = Mark::Size(size as u16);
        Some(size)
    }

    /// Size of a term's instance, its variables raised by `shift`. Exact up
    /// to 120 nodes, above 120 otherwise. Only after a successful `unify`.
    pub fn instance_size(&mut self, term: &Term, shift: u8) -> usize {
        match term {
            Term::Variable(v) => {
                let size = self.measure((v + shift) as NodeId);
                size.expect("unified classes have no cycle")
            }
            Term::Application { arguments, .. } => {
                let sizes = arguments.iter().map(|a| self.instance_size(a, shift));
                (1 + sizes.sum::<usize>()).min(SIZE_CAP)
            }
        }
    }

    /// A term's instance; only where `instance_size` is at most 120.
    pub fn instance(&mut self, term: &Term, shift: u8) -> Term {
        match term {
            Term::Variable(v) => self.class_term((v + shift) as NodeId),
            Term::Application {
                symbol, arguments, ..
            } => {
                let arguments = arguments.iter().map(|a| self.instance(a, shift));
                Term::application(*symbol, arguments.collect::<Rc<[Term]>>())
            }
        }
    }

    /// The term a class stands for, built once and shared.
    fn class_term(&mut self, node: NodeId) -> Term {
        let class = self.find(node) as usize;
        if self.built.len() < self.nodes.len() {
            self.built.resize(self.nodes.len(), None);
        }
        if let Some(term) = &self.built[class] {
            return term.clone();
        }
        let term = match self.nodes[class].schema {
            None => Term::Variable(class as u8),
            Some(schema) => {
                let node = self.nodes[schema as usize];
                let list = node.first as usize..node.first as usize + node.arity as usize;
                let arguments = list.map(|i| self.class_term(self.children[i]));
                Term::application(node.symbol, arguments.collect::<Rc<[Term]>>())
            }
        };
        self.built[class] = Some(term.clone());
        term
    }
}

/// The outcome of unifying two terms over the same variables.
#[derive(Clone, Debug, PartialEq, Eq)]
pub enum CommonInstance {
    None,
    TooLarge,
    Instance(Term),
}

/// The most general common instance of two terms over the same variables.
pub fn common_instance(left: &Term, right: &Term) -> CommonInstance {
    let mut unifier = Unifier::default();
    unifier.clear();
    let a = unifier.add(left, 0);
    let b = unifier.add(right, 0);
    if !unifier.unify(a, b) {
        CommonInstance::None
    } else if unifier.instance_size(left, 0) > MAX_NODES {
        CommonInstance::TooLarge
    } else {
        CommonInstance::Instance(unifier.instance(left, 0))
    }
}
