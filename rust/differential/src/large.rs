//! Larger messages: dictionaries and objects of more than 65,536 bytes, up to the limit and a byte
//! over it; numbers about those at which two and three bytes end; and generated ones.

use crate::encode::{self, least_width};
use crate::fixed::{self, SORTED, lengths_about, numbered, object_shape, of_length, shape};
use crate::generate::{self, outer_object};
use crate::random::Random;
use crate::reading::{DictionaryParts, ObjectParts, Row};
use crate::{Input, LARGE};
use lichenhusk::LIMIT;
use std::iter::{once, once_with, repeat};

/// The first number that takes three bytes, and the first that takes four.
const THREE_BYTES: usize = 0x1_0000;
const FOUR_BYTES: usize = 0x100_0000;

/// Those that are the same in every run. They are made one at a time: they are long.
pub fn fixed() -> impl Iterator<Item = Input> {
    offsets()
        .chain(empty_entries())
        .chain(counts())
        .chain(lengths_about(LIMIT).flat_map(of_length))
        .chain(last_children())
        .chain(past_objects())
        .chain(past_dictionaries())
        .chain(once_with(fullest))
}

/// Offsets of dictionary and object about the first that takes three bytes, in each width.
fn offsets() -> impl Iterator<Item = Input> {
    (THREE_BYTES - 2..=THREE_BYTES + 1).flat_map(|last| {
        let widths = move || least_width(last)..=4;
        let both = widths().flat_map(move |one| widths().map(move |other| (one, other)));
        both.map(move |(one, other)| two_parts(last, one, other))
    })
}

/// Two names, and two children of which the last stands first: the two offsets of each after its
/// first are a number and the one before it.
fn two_parts(last: usize, dict_width: usize, offset_width: usize) -> Input {
    let names = [vec![b'n'; last - 1], vec![b'z']];
    let dict = encode::dictionary(&names, shape(dict_width, offset_width == 4));
    let shape = object_shape(dict_width, offset_width, dict_width == 4);
    let (mut region, null) = (encode::binary(last - 1), 0x00);
    region.push(null);
    let object = encode::object(&[0, 1], &[last - 1, 0, last], &region, shape);
    Input::object(dict, object)
}

/// Dictionaries of about as many entries as two bytes count, all of them empty names, and objects
/// that have the last entry for their only field.
fn empty_entries() -> impl Iterator<Item = Input> {
    lengths_about(THREE_BYTES).flat_map(|count| {
        let widths = least_width(count)..=4;
        widths.map(move |width| {
            let dict = encode::dictionary(&vec![vec![]; count], shape(width, false));
            let shape = object_shape(width, 1, false);
            let object = encode::object(&[count - 1], &[0, 1], &[0x00], shape);
            Input::object(dict, object)
        })
    })
}

/// Dictionaries and objects of about as many entries and fields as two bytes count, with ids in
/// each width, sorted and backwards.
fn counts() -> impl Iterator<Item = Input> {
    lengths_about(THREE_BYTES).flat_map(|count| {
        let widths = least_width(count - 1)..=4;
        widths.map(move |id_width| {
            let sorted = id_width % 2 == 1;
            let mut names = numbered(count);
            if !sorted {
                names.reverse();
            }
            let object = object_shape(id_width, 5 - id_width, true);
            fixed::all_fields(&names, shape(3 + count % 2, sorted), object)
        })
    })
}

/// Objects of as many bytes as may be, of whose children one is the last byte and the other the last
/// two, or stands at the very end and has none.
fn last_children() -> impl Iterator<Item = Input> {
    [3, 4].into_iter().flat_map(|width| {
        let head = 1 + 1 + 2 + 3 * width;
        let end = LIMIT - head;
        let shape = object_shape(1, width, false);
        let starts = [(end - 1, end - 2), (end, end - 1), (end - 1, end)];
        starts.into_iter().map(move |(flow, roll)| {
            let object = encode::object(&[0, 1], &[flow, roll, end], &vec![0; end], shape);
            Input::object(SORTED.to_vec(), object)
        })
    })
}

/// As many entries as the limit leaves room for, and as many fields.
fn fullest() -> Input {
    let (head, offset, name) = (1 + 3 + 3, 3, 6);
    let mut names = numbered((LIMIT - head) / (offset + name));
    names.reverse();
    fixed::all_fields(&names, shape(3, false), object_shape(3, 3, true))
}

/// Numbers about the first that takes four bytes. As offsets they are past every region that the
/// limit leaves room for, as counts and ids past what there is.
const PAST: [usize; 3] = [FOUR_BYTES - 1, FOUR_BYTES, FOUR_BYTES + 1];

/// An object of as many bytes as may be, with one of its numbers replaced by such a one.
fn past_objects() -> impl Iterator<Item = Input> {
    [3, 4].into_iter().flat_map(|width| {
        let object = fixed::one_child(LIMIT, object_shape(width, width, true));
        let parts = ObjectParts::of(&object).expect("a header and a count");
        let rows = [parts.count, parts.ids, parts.offsets];
        let with = move |(row, index, number)| replaced(&object, row, index, number);
        let objects = past(rows).map(with);
        objects.map(|object| Input::object(SORTED.to_vec(), object))
    })
}

/// The same with dictionaries.
fn past_dictionaries() -> impl Iterator<Item = Input> {
    [3, 4].into_iter().flat_map(|width| {
        let head = 1 + 4 * width;
        let names = [vec![b'n'; LIMIT - head - 1], vec![b'z']];
        let dict = encode::dictionary(&names, shape(width, true));
        let parts = DictionaryParts::of(&dict).expect("a header and a count");
        let with = move |(row, index, number)| replaced(&dict, row, index, number);
        past([parts.count, parts.offsets])
            .map(with)
            .map(Input::dictionary)
    })
}

/// Each number of rows, with what it is replaced by.
fn past<const N: usize>(rows: [Row; N]) -> impl Iterator<Item = (Row, usize, usize)> {
    let places = rows
        .into_iter()
        .flat_map(|row| (0..row.count).map(move |index| (row, index)));
    let numbers = |row: Row| {
        PAST.into_iter()
            .filter(move |&number| number <= row.greatest())
    };
    places.flat_map(move |(row, index)| numbers(row).map(move |number| (row, index, number)))
}

fn replaced(bytes: &[u8], row: Row, index: usize, number: usize) -> Vec<u8> {
    let mut bytes = bytes.to_vec();
    row.write(&mut bytes, index, number);
    bytes
}

/// A dictionary and an object over it, of which one or both are large.
pub fn good(random: &mut Random) -> Input {
    let size = size(random);
    let (large_dict, large_object) = random.pick(&[(true, true), (true, false), (false, true)]);
    let (names, sorted) = names(random, if large_dict { size } else { 64 });
    let mut dict = generate::dictionary_of(random, &names, sorted);
    let mut object = match (large_dict, large_object) {
        (true, true) if random.one_in(2) => outer_object(random, &names, usize::MAX, small_child),
        (_, true) => long_children(random, &names, size),
        (_, false) => outer_object(random, &names, 4, small_child),
    };
    if random.one_in(4) {
        append_bytes(random, &mut dict);
    }
    if random.one_in(4) {
        append_bytes(random, &mut object);
    }
    Input {
        dict,
        object: Some(object),
        query: Some(generate::name(random)),
        ..Input::default()
    }
}

/// A large dictionary alone.
pub(crate) fn dictionary(random: &mut Random) -> Vec<u8> {
    let size = size(random);
    let (names, sorted) = names(random, size);
    let mut dict = generate::dictionary_of(random, &names, sorted);
    if random.one_in(4) {
        append_bytes(random, &mut dict);
    }
    dict
}

/// A size from just above that of what is large up to the limit: each doubling as often as any
/// other, but the three that end at the limit seldom.
fn size(random: &mut Random) -> usize {
    let doublings = if random.one_in(16) {
        random.between(5, 7)
    } else {
        random.below(5)
    };
    let least = LARGE << doublings;
    // Of names that are drawn twice, one is left out where they are sorted.
    random.between(least + least / 8, 2 * least)
}

/// Bytes that belong to nothing, few or many.
fn append_bytes(random: &mut Random, bytes: &mut Vec<u8>) {
    match random.one_in(2) {
        true => generate::append_bytes(random, bytes),
        false => bytes.resize(bytes.len() + random.below(LARGE), 0xFF),
    }
}

/// Letters of one to four bytes.
const ALPHABETS: [&[char]; 4] = [
    &[
        '0', '1', '2', '3', '4', '5', '6', '7', '8', '9', 'a', 'b', 'c', 'd', 'e', 'f',
    ],
    &['a', 'é', 'ß', '\u{80}', '\u{7FF}', 'z', 'y', 'x'],
    &[
        '€', '\u{800}', '\u{D7FF}', '\u{E000}', '\u{FFFF}', 'a', 'é', 'b',
    ],
    &['😀', '\u{10000}', '\u{10FFFF}', 'a', 'é', '€', 'c', 'd'],
];

/// So many letters.
fn text(random: &mut Random, letters: usize) -> Vec<u8> {
    let alphabet = random.pick(&ALPHABETS);
    let text: String = (0..letters).map(|_| random.pick(alphabet)).collect();
    text.into_bytes()
}

/// Names of about so many bytes together, and whether they increase: a few long ones, or many short
/// ones, with a prefix or without.
fn names(random: &mut Random, size: usize) -> (Vec<Vec<u8>>, bool) {
    let few = random.one_in(4);
    let prefix = if random.one_in(4) {
        generate::name(random)
    } else {
        vec![]
    };
    let (mut names, mut bytes) = (Vec::new(), 0);
    while bytes < size {
        let letters = if few {
            random.between(size / 16, size / 2)
        } else {
            random.between(2, 12)
        };
        let name = [prefix.clone(), text(random, letters)].concat();
        bytes += 3 + name.len();
        names.push(name);
    }
    generate::sorted_or_not(random, names)
}

/// An object of a few fields, of whose children one has about so many bytes and the others fewer.
fn long_children(random: &mut Random, names: &[Vec<u8>], size: usize) -> Vec<u8> {
    loop {
        let mut sizes = once(size).chain(repeat(size / 8));
        let child = |random: &mut Random| long_child(random, sizes.next().unwrap_or(0));
        let object = outer_object(random, names, 6, child);
        // It may have come to have no field, or a string of fewer bytes.
        if object.len() > LARGE {
            return object;
        }
    }
}

/// A child of about so many bytes: a list of many values, a string or a binary.
fn long_child(random: &mut Random, size: usize) -> Vec<u8> {
    match random.below(3) {
        0 => {
            let elements: Vec<_> = (0..size / 3).map(|_| small_child(random)).collect();
            encode::list(&elements)
        }
        1 => string(&text(random, size / 2)),
        _ => encode::binary(5 + size),
    }
}

/// A child of few bytes that the Rust accepts, so that of very many none is refused: null, true, a
/// number of one byte, a double, a short string.
fn small_child(random: &mut Random) -> Vec<u8> {
    match random.below(5) {
        0 => vec![0x00],
        1 => vec![0x04],
        2 => vec![0x0C, random.byte()],
        3 => [&[0x1C], &random.bits().to_le_bytes()[..]].concat(),
        _ => {
            let letters = random.below(5);
            let text = text(random, letters);
            [&[(text.len() as u8) << 2 | 1], &text[..]].concat()
        }
    }
}

/// The string value of a text.
fn string(text: &[u8]) -> Vec<u8> {
    let mut bytes = vec![16 << 2];
    encode::put(&mut bytes, text.len(), 4);
    bytes.extend_from_slice(text);
    bytes
}
