//! Every truncation, every value of every byte and every appended byte of
//! some pairs.

use crate::pairs::Pair;
use crate::theories::GROUP;

/// Changes of a byte: its 256 values and a cut before it. One place more is
/// the end, at which a byte is appended.
const CHANGES: usize = 257;

/// The pairs that are damaged in every way.
fn bases() -> [Pair; 5] {
    [
        Pair::of_texts(GROUP, ["i(*(x,y))", "*(i(y),i(x))"]),
        Pair::of_texts("f/2/1 g/1/0 h/1/2", ["f(g(x),y)", "f(x,h(y))"]),
        Pair::of_texts("c/0/3 d/0/3 f/1/4", ["f(c)", "f(d)"]),
        Pair::of_texts("q/4/15 c/0/0 f/2/7", ["f(c,q(c,c,c,c))", "q(c,x,c,c)"]),
        Pair::of_texts("c/0/0", ["c", "x"]),
    ]
}

type Part = fn(&mut Pair) -> &mut Vec<u8>;

const PARTS: [Part; 3] = [
    |pair| &mut pair.symbols,
    |pair| &mut pair.first,
    |pair| &mut pair.second,
];

/// All the pairs.
pub fn all() -> impl Iterator<Item = Pair> {
    let parts = |base: Pair| PARTS.map(|part| (base.clone(), part));
    let parts = bases().into_iter().flat_map(parts);
    parts.flat_map(|(mut base, part)| {
        let places = part(&mut base).len() + 1;
        let numbers = 0..places * CHANGES;
        numbers.map(move |number| changed(&base, part, number / CHANGES, number % CHANGES))
    })
}

fn changed(base: &Pair, part: Part, place: usize, value: usize) -> Pair {
    let mut pair = base.clone();
    let bytes = part(&mut pair);
    match u8::try_from(value) {
        Ok(value) if place == bytes.len() => bytes.push(value),
        Ok(value) => bytes[place] = value,
        Err(_) => bytes.truncate(place),
    }
    pair
}
