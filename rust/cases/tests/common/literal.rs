//! The definitions word for word on preorder byte strings: slow, and with no
//! code of the engine. Terms here may have variables 0x80 .. 0x9f.

use std::collections::HashMap;

pub type Bytes = Vec<u8>;
type Substitution = HashMap<u8, Bytes>;

/// Arity and rank by symbol.
pub struct Symbols(pub Vec<(u8, u8)>);

/// A live rule.
#[derive(Clone)]
pub struct Rule {
    pub number: usize,
    pub left: Bytes,
    pub right: Bytes,
}

impl Symbols {
    fn arity(&self, byte: u8) -> usize {
        self.0.get(byte as usize).map_or(0, |s| s.0 as usize)
    }

    /// End of the subterm that begins at p.
    pub fn end(&self, term: &[u8], mut p: usize) -> usize {
        let mut due = 1;
        while due > 0 {
            due = due - 1 + self.arity(term[p]);
            p += 1;
        }
        p
    }

    fn at<'t>(&self, term: &'t [u8], p: usize) -> &'t [u8] {
        &term[p..self.end(term, p)]
    }

    fn arguments(&self, term: &[u8]) -> Vec<Bytes> {
        let mut list = Vec::new();
        let mut p = 1;
        while p < term.len() {
            list.push(self.at(term, p).to_vec());
            p = self.end(term, p);
        }
        list
    }

    /// The three clauses of the path order.
    pub fn above(&self, s: &[u8], t: &[u8], memo: &mut HashMap<(Bytes, Bytes), bool>) -> bool {
        let key = (s.to_vec(), t.to_vec());
        if let Some(known) = memo.get(&key) {
            return *known;
        }
        let answer = self.clauses(s, t, memo);
        memo.insert(key, answer);
        answer
    }

    fn clauses(&self, s: &[u8], t: &[u8], memo: &mut HashMap<(Bytes, Bytes), bool>) -> bool {
        if s[0] >= 0x80 {
            return false;
        }
        let (a, b) = (self.arguments(s), self.arguments(t));
        if a.iter().any(|x| x == t || self.above(x, t, memo)) {
            return true;
        }
        if t[0] >= 0x80 || !b.iter().all(|y| self.above(s, y, memo)) {
            return false;
        }
        if self.0[s[0] as usize].1 > self.0[t[0] as usize].1 {
            return true;
        }
        let differ = a.iter().zip(&b).find(|(x, y)| x != y);
        s[0] == t[0] && differ.is_some_and(|(x, y)| self.above(x, y, memo))
    }

    /// Matches the pattern with a term of exactly that extent.
    fn matches(&self, pattern: &[u8], term: &[u8], found: &mut Substitution) -> bool {
        if pattern[0] >= 0x80 {
            let bound = found.entry(pattern[0]).or_insert_with(|| term.to_vec());
            return bound == term;
        }
        if pattern[0] != term[0] {
            return false;
        }
        let pairs = self
            .arguments(pattern)
            .into_iter()
            .zip(self.arguments(term));
        pairs.into_iter().all(|(p, t)| self.matches(&p, &t, found))
    }

    fn matched(&self, rule: &Rule, term: &[u8], p: usize) -> Option<Substitution> {
        let mut found = Substitution::new();
        let matches = self.matches(&rule.left, self.at(term, p), &mut found);
        matches.then_some(found)
    }

    pub fn rewrites(&self, rule: &Rule, term: &[u8]) -> bool {
        (0..term.len()).any(|p| self.matched(rule, term, p).is_some())
    }

    /// The nodes that a rule matches, ascending.
    pub fn matched_nodes(&self, rules: &[Rule], term: &[u8]) -> Vec<usize> {
        let node = |p: &usize| rules.iter().any(|r| self.matched(r, term, *p).is_some());
        (0..term.len()).filter(node).collect()
    }

    /// The next term of normalising, if any rule matches: the earliest node
    /// among those with no matched node strictly below.
    pub fn step(&self, rules: &[Rule], term: &[u8]) -> Option<Bytes> {
        let matched = self.matched_nodes(rules, term);
        let inside = |p: usize| matched.iter().any(|q| *q > p && *q < self.end(term, p));
        let p = *matched.iter().find(|p| !inside(**p))?;
        self.step_at(rules, term, p)
    }

    /// The next term of normalising from the outside in: the earliest matched
    /// node.
    pub fn outer_step(&self, rules: &[Rule], term: &[u8]) -> Option<Bytes> {
        let p = *self.matched_nodes(rules, term).first()?;
        self.step_at(rules, term, p)
    }

    /// A step at p, by the lowest numbered rule that matches there.
    pub fn step_at(&self, rules: &[Rule], term: &[u8], p: usize) -> Option<Bytes> {
        let by_number = rules.iter().filter(|r| self.matched(r, term, p).is_some());
        let rule = by_number.min_by_key(|r| r.number)?;
        let with = apply(&self.matched(rule, term, p)?, &rule.right);
        Some([&term[..p], &with, &term[self.end(term, p)..]].concat())
    }

    /// A most general unifier, worked out by elimination. `Err` if some term
    /// grows over the guard: this slow way cannot say.
    pub fn unifier(&self, s: &[u8], t: &[u8]) -> Result<Option<Substitution>, ()> {
        let mut todo = vec![(s.to_vec(), t.to_vec())];
        let mut solved = Substitution::new();
        while let Some((a, b)) = todo.pop() {
            if a == b {
                continue;
            }
            let (a, b) = if a[0] >= 0x80 { (a, b) } else { (b, a) };
            if a[0] < 0x80 {
                if a[0] != b[0] {
                    return Ok(None);
                }
                todo.extend(self.arguments(&a).into_iter().zip(self.arguments(&b)));
                continue;
            }
            if b.contains(&a[0]) {
                return Ok(None);
            }
            eliminate(a[0], &b, &mut todo, &mut solved)?;
        }
        Ok(Some(solved))
    }
}

const GUARD: usize = 3000;

fn eliminate(
    variable: u8,
    by: &[u8],
    todo: &mut [(Bytes, Bytes)],
    solved: &mut Substitution,
) -> Result<(), ()> {
    let one = Substitution::from([(variable, by.to_vec())]);
    for (a, b) in todo.iter_mut() {
        (*a, *b) = (apply(&one, a), apply(&one, b));
    }
    for value in solved.values_mut() {
        *value = apply(&one, value);
    }
    solved.insert(variable, by.to_vec());
    let sizes = todo.iter().map(|(a, b)| a.len() + b.len());
    let sizes = sizes.chain(solved.values().map(Vec::len));
    if sizes.max().unwrap_or(0) > GUARD {
        return Err(());
    }
    Ok(())
}

/// The instance; variables without a value stay.
pub fn apply(substitution: &Substitution, term: &[u8]) -> Bytes {
    let mut out = Vec::new();
    for byte in term {
        match substitution.get(byte) {
            Some(value) => out.extend(value),
            None => out.push(*byte),
        }
    }
    out
}

/// Renames a pair, left first.
pub fn rename(left: &[u8], right: &[u8]) -> (Bytes, Bytes) {
    let mut seen: Vec<u8> = Vec::new();
    let mut side = |term: &[u8]| -> Bytes {
        let mut out = Vec::new();
        for byte in term {
            if *byte < 0x80 {
                out.push(*byte);
                continue;
            }
            if !seen.contains(byte) {
                seen.push(*byte);
            }
            out.push(0x80 + seen.iter().position(|v| v == byte).unwrap() as u8);
        }
        out
    };
    (side(left), side(right))
}
