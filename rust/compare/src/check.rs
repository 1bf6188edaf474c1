//! Both engines on one call: answers, whole buffers, lent bytes.

use crate::call::{decode, Call, Engine};
use crate::inputs::{Input, Notes};
use std::hint::black_box;

/// Bytes before and behind a buffer that no call may touch.
pub const GUARD: usize = 64;

/// Where two engines differ.
#[derive(Clone, Debug, PartialEq, Eq)]
pub struct Difference {
    pub call: String,
    pub left: u64,
    pub right: u64,
    /// A buffer, and the first place at which it differs.
    pub place: Option<(usize, isize)>,
}

impl Difference {
    /// Both engines answered the same, and yet something is wrong.
    pub fn of_both(what: &str, answer: u64) -> Difference {
        Difference {
            call: what.to_string(),
            left: answer,
            right: answer,
            place: None,
        }
    }
}

/// A buffer before a call: so many bytes of a pattern that a number chooses.
#[derive(Clone, Copy, Debug)]
pub struct Start {
    pub length: usize,
    pub pattern: u64,
}

/// No buffer.
pub const NONE: Start = Start {
    length: 0,
    pattern: 0,
};

/// Two engines, and buffers that are used again for every call.
pub struct Checker<'e> {
    engines: [&'e dyn Engine; 2],
    /// By buffer, then by engine.
    buffers: [[Vec<u8>; 2]; 2],
}

impl<'e> Checker<'e> {
    pub fn new(left: &'e dyn Engine, right: &'e dyn Engine) -> Checker<'e> {
        Checker {
            engines: [left, right],
            buffers: Default::default(),
        }
    }

    pub fn engines(&self) -> [&'e dyn Engine; 2] {
        self.engines
    }

    /// All calls of an input; its number varies how they are lent.
    pub fn run(&mut self, input: &Input, number: u64) -> Result<Notes, Difference> {
        input.check(self, number)
    }

    /// Both engines on a call with these buffers.
    pub fn call(&mut self, call: &Call, starts: [Start; 2]) -> Result<u64, Difference> {
        let before = call.lent().map(<[u8]>::to_vec);
        let left = self.answer(0, call, starts);
        let right = self.answer(1, call, starts);
        let as_before = black_box(call).lent() == before.each_ref().map(Vec::as_slice);
        let place = self.difference();
        if left == right && place.is_none() && as_before {
            return Ok(left);
        }
        let changed = match as_before {
            true => "",
            false => ", lent bytes changed",
        };
        let [first, second] = starts.map(|start| start.length);
        Err(Difference {
            call: format!("{call}, buffers of {first} and {second}{changed}"),
            left,
            right,
            place,
        })
    }

    /// One engine's answer, with new buffers.
    fn answer(&mut self, engine: usize, call: &Call, starts: [Start; 2]) -> u64 {
        let [first, second] = &mut self.buffers;
        let first = filled(&mut first[engine], starts[0]);
        let second = filled(&mut second[engine], starts[1]);
        self.engines[engine].run(call, [first, second])
    }

    /// A buffer as the first engine left it.
    pub fn buffer(&self, number: usize) -> &[u8] {
        let buffer = &self.buffers[number][0];
        &buffer[GUARD..buffer.len() - GUARD]
    }

    /// What the last call wrote to the first buffer, none if it refused.
    pub fn written(&self, answer: u64) -> &[u8] {
        match decode(answer) {
            (1, _, count) => &self.buffer(0)[..count as usize],
            _ => &[],
        }
    }

    /// The saved record that the last call wrote, empty if it wrote none.
    pub fn saved(&self, answer: u64) -> &[u8] {
        match decode(answer) {
            (1, length, _) => &self.buffer(1)[..length as usize],
            _ => &[],
        }
    }

    /// The first buffer that differs, guards included, and where.
    fn difference(&self) -> Option<(usize, isize)> {
        let differs = |(number, [a, b]): (usize, &[Vec<u8>; 2])| {
            if a == b {
                return None;
            }
            let place = a.iter().zip(b).position(|(x, y)| x != y)?;
            Some((number, place as isize - GUARD as isize))
        };
        self.buffers.iter().enumerate().find_map(differs)
    }
}

/// The buffer between its guards, all of them filled.
fn filled(buffer: &mut Vec<u8>, start: Start) -> &mut [u8] {
    let first = (start.pattern.wrapping_mul(0x9e37_79b9_7f4a_7c15) >> 56) as u8;
    let byte = |i: usize| first.wrapping_add((i as u8).wrapping_mul(29));
    buffer.clear();
    buffer.extend((0..start.length + 2 * GUARD).map(byte));
    &mut buffer[GUARD..GUARD + start.length]
}
