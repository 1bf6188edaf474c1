//! Saved states that are changed, mostly to others in the form.

use super::made::{entry, origin};
use super::{saved_record, with_units, Save};
use crate::checkpoints::Checkpoint;
use crate::generate::random::Random;
use crate::resumptions::Resumption;

/// One to three changes of a saved state.
pub fn state(random: &mut Random, save: Save) -> Resumption {
    let saved = Checkpoint::of_record(&saved_record(random, save));
    let mut checkpoint = saved.unwrap_or_default();
    for _ in 0..random.between(1, 3) {
        change(random, &mut checkpoint);
    }
    with_units(random, checkpoint.bytes())
}

fn change(random: &mut Random, checkpoint: &mut Checkpoint) {
    let Checkpoint {
        waiting,
        rules,
        entries,
        ..
    } = checkpoint;
    match random.below(12) {
        0 => waiting.reverse(),
        1 => remove(random, waiting),
        2 => remove(random, rules),
        3 => remove(random, entries),
        4 => entries.push(entry(random)),
        5 => repeat(random, waiting),
        6 => waiting.extend(rules.iter().map(|(number, sides)| {
            let [high, low] = number.to_be_bytes();
            [&[2, high, low, 0, 0, 0][..], sides].concat()
        })),
        7 => other_origin(random, waiting),
        8 => other_origin(random, entries),
        9 => checkpoint.put_back = random.below(waiting.len() + 2) as u8,
        10 => checkpoint.next = (checkpoint.next + random.below(4) as u16).saturating_sub(1),
        _ => checkpoint.next = entries.len() as u16 + 1,
    }
}

/// One of the list, if it has any, is removed.
fn remove<T>(random: &mut Random, list: &mut Vec<T>) {
    let place = random.below(list.len());
    if place < list.len() {
        list.remove(place);
    }
}

/// One of the list waits up to four times.
fn repeat(random: &mut Random, list: &mut Vec<Vec<u8>>) {
    let place = random.below(list.len());
    if let Some(item) = list.get(place).cloned() {
        list.extend(vec![item; random.between(1, 3)]);
    }
}

fn other_origin(random: &mut Random, list: &mut [Vec<u8>]) {
    let place = random.below(list.len());
    if let Some(item) = list.get_mut(place) {
        item[..6].copy_from_slice(&origin(random));
    }
}
