//! String rewriting with unary symbols.

use super::random::Random;
use super::terms::{assemble, symbols, Symbols};

/// Relations over generators a, b, c, ..; capitals are inverses of a, b, c.
const PRESENTATIONS: [&[&str]; 12] = [
    &["aaa=", "bb=", "abab="],
    &["aaaa=", "bb=", "abab="],
    &["aaaaa=", "bb=", "abab="],
    &["aa=", "bb=", "cc=", "ababab=", "bcbcbc=", "acac="],
    &["aaa=", "bbb=", "abab="],
    &["aa=", "bbb=", "abababab="],
    &["aA=", "Aa=", "bB=", "Bb=", "ab=ba"],
    &["aA=", "Aa=", "aaaaaa="],
    &["aaaa=", "aa=bb", "abA=B", "aA=", "Aa=", "bB=", "Bb="],
    &["aba=bab"],
    &["ab=ba", "bc=cb", "ac=ca"],
    &["aab=b", "bba=a"],
];

const LETTERS: &str = "abcABC";

fn word(letters: &str) -> Vec<u8> {
    let place = |letter| LETTERS.find(letter).expect("a letter of the list") as u8;
    letters.chars().map(place).collect()
}

fn equation(mut left: Vec<u8>, right: &[u8]) -> Vec<u8> {
    left.push(0x80);
    left.extend(right);
    left.push(0x80);
    left
}

/// Six unary symbols with random ranks.
fn letters(random: &mut Random) -> Symbols {
    symbols(random, 6, &[1])
}

/// Presentations of small groups and monoids.
pub fn groups(random: &mut Random) -> Vec<u8> {
    let relations = *random.pick(&PRESENTATIONS);
    let mut equations = Vec::new();
    for relation in relations {
        let (left, right) = relation.split_once('=').expect("a relation");
        equations.push(equation(word(left), &word(right)));
    }
    let symbols = letters(random);
    let budget = random.budget();
    assemble(&symbols, budget, &equations)
}

/// Random relations, some between a word and a part of it.
pub fn random(random: &mut Random) -> Vec<u8> {
    let alphabet = random.between(1, 3);
    let longest = *random.pick(&[3, 5, 8, 8, 40, 118]);
    let count = random.between(1, 5);
    let mut equations = Vec::new();
    for _ in 0..count {
        let (n, m) = (random.between(0, longest), random.between(0, longest / 2));
        let mut letters =
            |n: usize| -> Vec<u8> { (0..n).map(|_| random.below(alphabet) as u8).collect() };
        let (left, right) = (letters(n), letters(m));
        equations.push(equation(left, &right));
    }
    let symbols = letters(random);
    let budget = random.budget();
    assemble(&symbols, budget, &equations)
}
