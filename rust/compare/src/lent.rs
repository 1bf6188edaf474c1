//! The three slices of a pair of terms, lent from one buffer.

use kb_cases::pairs::Pair;
use kb_engine::MAX_NODES;
use std::ops::Range;

/// Bytes before, between and behind the slices: none, such as could complete
/// a cut slice, or no node.
const AROUND: [&[u8]; 5] = [&[], &[0x80; 8], &[0; 8], &[1; 8], &[0xff; 8]];

/// Ways to lend a pair, an odd number: each family meets all of them.
pub const LAYOUTS: u64 = 15;

/// A buffer, and where the slices stand in it.
#[derive(Clone, Debug, PartialEq, Eq)]
pub struct Lent {
    bytes: Vec<u8>,
    symbols: Range<usize>,
    first: Range<usize>,
    second: Range<usize>,
}

impl Lent {
    /// The number modulo 5 chooses the bytes around the slices; modulo 3,
    /// whether a term that occurs in the other is lent as a part of it.
    pub fn new(pair: &Pair, number: u64) -> Lent {
        let around = AROUND[(number % 5) as usize];
        let mut bytes = around.to_vec();
        let mut put = |slice: &[u8]| {
            let start = bytes.len();
            bytes.extend(slice);
            bytes.extend(around);
            start..start + slice.len()
        };
        let symbols = put(&pair.symbols);
        let first_is_longer = pair.first.len() >= pair.second.len();
        let (longer, shorter) = match first_is_longer {
            true => (&pair.first, &pair.second),
            false => (&pair.second, &pair.first),
        };
        let long = put(longer);
        let inside = match number % 3 {
            0 => place_in(longer, shorter),
            _ => None,
        };
        let short = match inside {
            Some(place) => long.start + place..long.start + place + shorter.len(),
            None => put(shorter),
        };
        let (first, second) = match first_is_longer {
            true => (long, short),
            false => (short, long),
        };
        Lent {
            bytes,
            symbols,
            first,
            second,
        }
    }

    /// The symbol field and the two terms.
    pub fn slices(&self) -> [&[u8]; 3] {
        let ranges = [&self.symbols, &self.first, &self.second];
        ranges.map(|range| &self.bytes[range.clone()])
    }
}

/// Where a part first occurs in the bytes of a term.
fn place_in(bytes: &[u8], part: &[u8]) -> Option<usize> {
    if part.is_empty() || bytes.len() > MAX_NODES {
        return None;
    }
    bytes.windows(part.len()).position(|window| window == part)
}
