//! Symbol fields and terms that lower refuses, and the nearest that it
//! accepts.

use super::{both_ways, bytes, flat, repeated, Case, Pair, FIRST, REFUSED};
use crate::notation::Theory;
use kb_engine::fields::push_field;
use kb_engine::lower::Which;

/// x and y over a field, which alone decides.
fn field(name: &str, symbols: Vec<u8>, answer: Which) -> Case {
    Case {
        name: format!("field {name}"),
        pair: Pair {
            symbols,
            first: vec![0x80],
            second: vec![0x81],
        },
        answer,
    }
}

/// The tag 01 field of these contents.
fn table(contents: &[u8]) -> Vec<u8> {
    let mut out = Vec::new();
    push_field(&mut out, 1, contents);
    out
}

/// Fields that are accepted, refused, or followed by bytes.
pub fn fields() -> Vec<Case> {
    let mut list = accepted_fields();
    list.extend(refused_fields());
    list.extend(bytes_behind());
    list
}

fn accepted_fields() -> Vec<Case> {
    let accepted = |name, contents: &[u8]| field(name, table(contents), FIRST);
    vec![
        accepted("of one symbol", &[0, 0]),
        accepted("of 16 symbols", &[1; 32]),
        accepted("of the highest arity and rank", &[4, 15]),
        accepted("of one rank", &[0, 7, 1, 7, 2, 7]),
    ]
}

/// 3, 4, 5 and 6.
fn refused_fields() -> Vec<Case> {
    let refused = |name, bytes: &[u8]| field(name, bytes.to_vec(), REFUSED);
    let contents = |name, contents: &[u8]| refused(name, &table(contents));
    let mut last_rank = [0; 32];
    last_rank[31] = 16;
    vec![
        refused("missing", &[]),
        refused("of a tag only", &[1]),
        refused("of a cut header", &[1, 0]),
        refused("without contents", &[1, 0, 2]),
        refused("with a byte less", &[1, 0, 4, 0, 0, 0]),
        refused("cut by the high byte", &[1, 1, 2, 0, 0]),
        refused("of tag 00", &[0, 0, 2, 0, 0]),
        refused("of tag 02", &[2, 0, 2, 0, 0]),
        refused("of tag 81", &[0x81, 0, 2, 0, 0]),
        refused("of another tag, cut", &[2, 0, 2, 0]),
        contents("of length 0", &[]),
        contents("of length 1", &[0]),
        contents("of length 3", &[0; 3]),
        contents("of length 31", &[0; 31]),
        contents("of length 33", &[0; 33]),
        contents("of length 34", &[0; 34]),
        contents("of length 256", &[0; 256]),
        contents("of length 258", &[0; 258]),
        contents("of length 65,535", &[0; 65_535]),
        contents("with arity 5", &[5, 0]),
        contents("with arity 255", &[0, 0, 255, 0]),
        contents("with rank 16", &[0, 16]),
        contents("with rank 255", &[0, 0, 0, 255]),
        contents("with a last rank 16", &last_rank),
    ]
}

/// A good field, and bytes behind it.
fn bytes_behind() -> Vec<Case> {
    let good = table(&[0, 0, 1, 1]);
    let behind = |name, more: &[u8]| field(name, [&good, more].concat(), REFUSED);
    vec![
        field("with nothing behind", good.clone(), FIRST),
        behind("and a byte", &[0]),
        behind("and a variable", &[0x80]),
        behind("and another", &good),
        behind("and a budget", &[2, 0, 4, 0, 0, 0, 9]),
        behind("and two symbols", &[2, 2, 3, 3]),
        behind("and 256 bytes", &[0; 256]),
        behind("and 65,536 bytes", &[0; 65_536]),
        behind("and 200,000 bytes", &[1; 200_000]),
    ]
}

/// A refused term as the first, as the second, and twice.
fn refused(name: &str, term: &[u8]) -> [Case; 3] {
    let good = [1, 0];
    [
        bytes(&format!("first {name}"), term, &good, REFUSED),
        bytes(&format!("second {name}"), &good, term, REFUSED),
        bytes(&format!("both {name}"), term, term, REFUSED),
    ]
}

/// Terms that are refused, or followed by bytes.
pub fn terms() -> Vec<Case> {
    let mut list = short_terms();
    list.extend(long_terms());
    list
}

/// No symbol and no variable, a cut term, bytes behind a term.
fn short_terms() -> Vec<Case> {
    flat([
        refused("empty", &[]),
        refused("symbol 3 of 3", &[3]),
        refused("symbol 16", &[16]),
        refused("7f", &[0x7f]),
        refused("90", &[0x90]),
        refused("ff", &[0xff]),
        refused("a bad argument", &[2, 0x80, 3]),
        refused("no argument", &[1]),
        refused("one of two arguments", &[2, 0x80]),
        refused("cut below", &[2, 1, 0x80]),
        refused("a constant behind", &[0, 0]),
        refused("a variable behind", &[0x80, 0x80]),
        refused("a symbol behind", &[1, 0, 1]),
        refused("a bad byte behind", &[2, 0, 0x80, 0xff]),
        refused("a term behind", &[1, 0x80, 1, 0x80]),
    ])
}

/// Slices over 120 bytes: no term, a large one, or bytes behind one.
fn long_terms() -> Vec<Case> {
    let behind = |count| [vec![1, 0x80], vec![0x80; count]].concat();
    let chain = |count| repeated(&[1], count);
    let mut list = flat([
        refused("121 bytes, cut", &[1; 121]),
        refused("119 bytes behind", &behind(119)),
        refused("256 bytes behind", &behind(256)),
        refused("65,536 bytes behind", &behind(65_536)),
        refused("257 nodes", &chain(256)),
        refused("65,537 nodes", &chain(65_536)),
        refused("200,000 bytes, cut", &[2; 200_000]),
        refused("200,000 bad bytes", &[0x90; 200_000]),
    ]);
    // 85 symbols of four leave 256 subterms due.
    let symbols = Theory::new("q/4/0").symbol_field();
    let cut = Pair {
        symbols,
        first: vec![0; 85],
        second: vec![0x80],
    };
    list.extend(both_ways("256 subterms due", cut, [REFUSED; 2]));
    list
}
