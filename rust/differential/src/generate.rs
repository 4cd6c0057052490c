//! Good inputs: dictionaries and objects of every width, both counts, sorted and unsorted, with
//! names and children of many kinds. Now and then a child is bad, or has no bytes.

use crate::Input;
use crate::encode::{self, DictionaryShape, ObjectShape, least_width};
use crate::random::Random;
use crate::reading::{BINARY, PAYLOADS, STRING};
use std::iter::repeat_n;

/// How deep values are nested at most, the outermost object included.
pub const DEEPEST: usize = 8;

/// A dictionary and an object over it.
pub fn good(random: &mut Random) -> Input {
    let (names, sorted) = names(random);
    let mut dict = dictionary_of(random, &names, sorted);
    let levels = random.between(0, DEEPEST - 1);
    // The first few children have levels in them.
    let mut depths = repeat_n(levels, 4);
    let mut object = outer_object(random, &names, 4000, |random| {
        child(random, &names, depths.next().unwrap_or(0))
    });
    if random.one_in(4) {
        append_bytes(random, &mut dict);
    }
    if random.one_in(4) {
        append_bytes(random, &mut object);
    }
    Input {
        dict,
        object: Some(object),
        query: Some(name(random)),
        ..Input::default()
    }
}

/// Bytes that belong to nothing.
pub(crate) fn append_bytes(random: &mut Random, bytes: &mut Vec<u8>) {
    for _ in 0..random.between(1, 5) {
        bytes.push(random.byte());
    }
}

/// The dictionary of names, which increase where it says so, in any of the widths that hold its numbers.
pub(crate) fn dictionary_of(random: &mut Random, names: &[Vec<u8>], sorted: bool) -> Vec<u8> {
    let shape = DictionaryShape {
        width: dictionary_width(random, names),
        sorted,
        spare: random.one_in(8),
    };
    encode::dictionary(names, shape)
}

/// A width that holds the dictionary's numbers.
fn dictionary_width(random: &mut Random, names: &[Vec<u8>]) -> usize {
    let total = names.iter().map(Vec::len).sum::<usize>();
    random.between(least_width(total.max(names.len())), 4)
}

/// Names, and whether they increase.
pub(crate) fn names(random: &mut Random) -> (Vec<Vec<u8>>, bool) {
    let count = entry_count(random);
    let prefix = if random.one_in(6) {
        name(random)
    } else {
        vec![]
    };
    let names = (0..count)
        .map(|_| [prefix.clone(), name(random)].concat())
        .collect();
    sorted_or_not(random, names)
}

/// Names, made to increase or left as they are, and which of the two.
pub(crate) fn sorted_or_not(random: &mut Random, mut names: Vec<Vec<u8>>) -> (Vec<Vec<u8>>, bool) {
    let sorted = random.one_in(2);
    if sorted {
        names.sort();
        names.dedup();
    }
    (names, sorted)
}

fn entry_count(random: &mut Random) -> usize {
    match random.below(2000) {
        0 => random.between(1000, 4000),
        1..=10 => random.between(254, 258),
        11..=60 => random.between(10, 60),
        _ => random.below(7),
    }
}

/// A name: of one to four bytes a character, or of none at all.
pub(crate) fn name(random: &mut Random) -> Vec<u8> {
    let alphabet: &[char] = match random.below(5) {
        0 => &['a', 'b'],
        1 => &['a', 'b', 'c', 'x', 'y', 'z', '_', '0', '\0', '\u{7F}'],
        2 => &['\u{80}', 'é', 'ß', '\u{7FF}'],
        3 => &['a', 'é', '\u{800}', '€', '\u{D7FF}', '\u{E000}', '\u{FFFF}'],
        _ => &['a', 'é', '€', '\u{10000}', '😀', '\u{10FFFF}'],
    };
    let length = match random.below(60) {
        0 => random.between(20, 80),
        1..=10 => random.between(5, 12),
        _ => random.below(5),
    };
    let text: String = (0..length).map(|_| random.pick(alphabet)).collect();
    text.into_bytes()
}

/// Entries of different names, in the order of their names.
pub(crate) fn field_ids(random: &mut Random, names: &[Vec<u8>], most: usize) -> Vec<usize> {
    let one_in = random.between(1, 3);
    let mut ids: Vec<usize> = (0..names.len()).filter(|_| random.one_in(one_in)).collect();
    random.shuffle(&mut ids);
    ids.truncate(most);
    ids.sort_by(|&a, &b| names[a].cmp(&names[b]));
    ids.dedup_by(|a, b| names[*a] == names[*b]);
    ids
}

/// An object of so many fields at most, whose children a function makes; they lie anywhere in its
/// region and may be shared.
pub(crate) fn outer_object(
    random: &mut Random,
    names: &[Vec<u8>],
    most: usize,
    mut child: impl FnMut(&mut Random) -> Vec<u8>,
) -> Vec<u8> {
    let ids = field_ids(random, names, most);
    let mut region = Vec::new();
    let mut offsets = vec![0; ids.len()];
    let mut order: Vec<usize> = (0..ids.len()).collect();
    if random.one_in(2) {
        random.shuffle(&mut order);
    }
    for (index, &field) in order.iter().enumerate() {
        if index > 0 && random.one_in(8) {
            offsets[field] = offsets[order[random.below(index)]];
            continue;
        }
        if random.one_in(8) {
            append_bytes(random, &mut region);
        }
        offsets[field] = region.len();
        region.extend(child(random));
    }
    if !ids.is_empty() && random.one_in(16) {
        offsets[random.below(ids.len())] = region.len();
    }
    offsets.push(region.len());
    let shape = object_shape(random, &ids, region.len());
    encode::object(&ids, &offsets, &region, shape)
}

pub(crate) fn object_shape(random: &mut Random, ids: &[usize], region: usize) -> ObjectShape {
    let greatest = ids.iter().copied().max().unwrap_or(0);
    ObjectShape {
        id_width: random.between(least_width(greatest), 4),
        offset_width: random.between(least_width(region), 4),
        long_count: ids.len() > 255 || random.one_in(3),
        spare: random.one_in(8),
    }
}

/// A child, and once in a while one that the Rust refuses.
pub(crate) fn child(random: &mut Random, names: &[Vec<u8>], levels: usize) -> Vec<u8> {
    let mut bytes = value(random, names, levels);
    if random.one_in(60) {
        let at = random.below(bytes.len());
        bytes[at] = random.byte();
    }
    bytes
}

/// A value with so many levels of containers in it at most.
pub(crate) fn value(random: &mut Random, names: &[Vec<u8>], levels: usize) -> Vec<u8> {
    if levels > 0 && random.below(4) > 0 {
        let ids = field_ids(random, names, 3);
        let as_list = ids.is_empty() || random.one_in(2);
        let count = if as_list { random.below(4) } else { ids.len() };
        let children: Vec<Vec<u8>> = (0..count)
            .map(|index| value(random, names, if index == 0 { levels - 1 } else { 0 }))
            .collect();
        return match as_list {
            true => encode::list(&children),
            false => encode::plain_object(&ids, &children),
        };
    }
    if random.one_in(3) {
        return short_string(random);
    }
    primitive(random)
}

pub(crate) fn short_string(random: &mut Random) -> Vec<u8> {
    let mut text = name(random);
    if text.len() > 63 {
        text.clear();
    }
    let mut bytes = vec![(text.len() as u8) << 2 | 1];
    bytes.extend(text);
    bytes
}

pub(crate) fn primitive(random: &mut Random) -> Vec<u8> {
    let kind = random.below(PAYLOADS.len());
    let mut bytes = vec![(kind as u8) << 2];
    if kind == BINARY || kind == STRING {
        let text = name(random);
        encode::put(&mut bytes, text.len(), 4);
        bytes.extend(text);
        return bytes;
    }
    let first = bytes.len();
    bytes.extend((0..PAYLOADS[kind]).map(|_| random.byte()));
    if random.one_in(2) {
        settle(random, &mut bytes[first..]);
    }
    bytes
}

/// Makes a payload one that is more often in its type's range: small, or a float that is not a
/// number.
fn settle(random: &mut Random, payload: &mut [u8]) {
    let high = random.pick(&[0x00, 0xFF, 0x7F]);
    let half = payload.len() / 2;
    payload[half..].fill(high);
    if let Some(first) = payload.first_mut() {
        *first = random.below(40) as u8;
    }
}
