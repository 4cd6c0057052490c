//! Damaged copies of good inputs.

use crate::Input;
use crate::random::Random;
use crate::reading::{DictionaryParts, ObjectParts, Row};

/// Bytes at which something changes: of numbers, of UTF-8, of headers.
const TELLING: [u8; 16] = [
    0x00, 0x01, 0x02, 0x03, 0x11, 0x3F, 0x41, 0x7F, 0x80, 0xBF, 0xC2, 0xC3, 0xED, 0xF0, 0xF4, 0xFF,
];

/// A copy with one to three damages to the dictionary, the object, or both.
pub fn damaged(random: &mut Random, good: &Input) -> Input {
    let mut copy = good.clone();
    for _ in 0..random.between(1, 3) {
        match &mut copy.object {
            Some(object) if random.below(3) > 0 => object_damage(random, object),
            _ => dictionary_damage(random, &mut copy.dict),
        }
    }
    copy
}

/// The bit of a dictionary's header that says sorted.
const SORTED: u8 = 0x10;

pub(crate) fn dictionary_damage(random: &mut Random, dict: &mut Vec<u8>) {
    match (random.below(8), DictionaryParts::of(dict)) {
        (0, Some(_)) => dict[0] ^= SORTED,
        (1..=3, Some(parts)) => {
            let row = random.pick(&[parts.count, parts.offsets, parts.offsets]);
            number_damage(random, dict, row, parts.offsets.count - 1);
        }
        _ => byte_damage(random, dict),
    }
}

fn object_damage(random: &mut Random, object: &mut Vec<u8>) {
    match ObjectParts::of(object) {
        Some(parts) if random.one_in(2) => {
            let row = random.pick(&[parts.count, parts.ids, parts.ids, parts.offsets]);
            number_damage(random, object, row, parts.ids.count);
        }
        _ => byte_damage(random, object),
    }
}

/// Swaps two numbers of a row, repeats one, or sets one to a limit.
pub(crate) fn number_damage(random: &mut Random, bytes: &mut [u8], row: Row, count: usize) {
    if row.count == 0 || row.end() > bytes.len() {
        return;
    }
    let (index, other) = (random.below(row.count), random.below(row.count));
    let held = row.number(bytes, index).unwrap_or(0);
    let beside = row.number(bytes, other).unwrap_or(0);
    match random.below(4) {
        0 => {
            row.write(bytes, index, beside);
            row.write(bytes, other, held);
        }
        1 => row.write(bytes, index, beside),
        _ => {
            let limit = limit(random, bytes, row, count, held);
            row.write(bytes, index, limit);
        }
    }
}

/// A number about a limit: of its width, of its row, of what it counts, of the bytes.
fn limit(random: &mut Random, bytes: &[u8], row: Row, count: usize, held: usize) -> usize {
    let last = row.number(bytes, row.count - 1).unwrap_or(0);
    let around = random.below(3);
    random.pick(&[
        0,
        count,
        held + 1,
        held.saturating_sub(1),
        last + around,
        row.greatest() - around,
        (row.greatest() >> 1) + around,
        (row.greatest() >> 2) + around,
        bytes.len() - row.end() + around,
    ])
}

pub(crate) fn byte_damage(random: &mut Random, bytes: &mut Vec<u8>) {
    if bytes.is_empty() {
        bytes.push(random.byte());
        return;
    }
    // The first bytes decide the most.
    let within = if random.one_in(2) {
        8.min(bytes.len())
    } else {
        bytes.len()
    };
    let at = random.below(within);
    match random.below(7) {
        0 | 1 => bytes[at] ^= 1 << random.below(8),
        2 => bytes[at] = random.pick(&TELLING),
        3 => bytes.truncate(random.below(bytes.len() + 1)),
        4 => bytes.truncate(bytes.len() - 1),
        5 => bytes.insert(at, random.pick(&TELLING)),
        _ => drop(bytes.remove(at)),
    }
}
