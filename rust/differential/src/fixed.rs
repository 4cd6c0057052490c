//! Inputs that are the same in every run: the documents', those of many entries and fields, those
//! of a given length, and values nested as deep as the domain goes.

use crate::encode::{self, DictionaryShape, ObjectShape, least_width};
use crate::generate::DEEPEST;
use crate::{Input, LARGE};
use std::iter::once_with;

/// Document 01's dictionary, sorted: "flow" and "roll".
pub const SORTED: &[u8] = b"\x11\x02\x00\x04\x08flowroll";

/// An unsorted dictionary with an empty name and a name twice: "b", "a", "", "b".
pub const UNSORTED: &[u8] = b"\x01\x04\x00\x01\x02\x02\x03bab";

/// Document 01's object over its dictionary.
pub const OBJECT: &[u8] = b"\x02\x02\x00\x01\x01\x00\x03\x04\x0C\xFB";

/// All of them, with lengths about that from which on places take three bytes.
pub fn inputs() -> Vec<Input> {
    let mut all = worked();
    all.extend(many());
    all.extend(lengths_about(LARGE).flat_map(of_length));
    all.extend(nested());
    all
}

/// A length, the one before and the one after, the longest first.
pub fn lengths_about(length: usize) -> impl Iterator<Item = usize> {
    (length - 1..=length + 1).rev()
}

/// Inputs of which the dictionary, or the object, has a length. They are made one at a time: they
/// may be long.
pub fn of_length(length: usize) -> impl Iterator<Item = Input> {
    long_dictionaries(length)
        .map(over_it)
        .chain(long_objects(length))
}

/// The dictionaries of document 01's worked cases, and request b)'s.
pub(crate) const WORKED_DICTIONARIES: [&[u8]; 14] = [
    b"",
    b"\x01\x00\x00",
    b"\x01\x00",
    b"\x02\x00\x00",
    b"\xC1\xFD\xFF\xFF\x3F",
    b"\xC1\xFE\xFF\xFF\x3F",
    b"\x01\x00\x01",
    b"\x01\x01\x00\x01\xFF",
    b"\x01\x01\x00\x01\xC3",
    b"\x01\x02\x00\x01\x02\xC3\xA9",
    b"\x01\x03\x00\x02\x01\x02ab",
    b"\x11\x02\x00\x01\x02aa",
    b"\x01\x02\x00\x01\x02aa",
    b"\x11\x02\x00\x00\x01a",
];

/// The objects of document 01's worked cases, and request e)'s: children of no bytes and of one,
/// before and after offsets that are past the region.
const WORKED_OBJECTS: [&[u8]; 21] = [
    b"",
    OBJECT,
    b"\x02\x02\x00\x01\x01\x00\x03\x04\x0C",
    b"\x00",
    b"\x02\x00\x00",
    b"\x02\x01\x00\x00\x00",
    b"\x02\x01\x02\x00\x00",
    b"\x02\x02\x01\x00\x00\x00\x00",
    b"\x02\x02\x00\x00\x00\x00\x00",
    b"\x02\x01\x00\x01\x01\x00",
    b"\x02\x01\x00\x02\x01\x00",
    b"\x02\x01\x00\x00\x01\x00",
    b"\x02\x02\x00\x01\x01\x02\x01\x00",
    b"\x02\x02\x00\x01\x02\x01\x01\x00",
    b"\x02\x02\x00\x01\x00\x01\x01\x00",
    b"\x02\x02\x00\x01\x01\x00\x01\x00",
    b"\x02\x02\x00\x01\x01\x01\x01\x00",
    b"\x02\x02\x00\x01\x00\x00\x01\x00",
    b"\x02\x02\x00\x01\x00\x02\x01\x00",
    b"\x7E\xFE\xFF\xFF\x1F",
    b"\x7E\xFF\xFF\xFF\x1F",
];

/// The worked cases of document 01, and those of requests b) and e).
fn worked() -> Vec<Input> {
    let mut all: Vec<Input> = WORKED_DICTIONARIES
        .iter()
        .map(|dict| Input::object(dict.to_vec(), OBJECT.to_vec()))
        .collect();
    for dict in [SORTED, UNSORTED] {
        all.extend(WORKED_OBJECTS.iter().map(|object| Input {
            dict: dict.to_vec(),
            object: Some(object.to_vec()),
            query: Some(b"rol".to_vec()),
            ..Input::default()
        }));
    }
    all
}

/// Dictionaries and objects of 257 entries and fields, sorted and unsorted, whose numbers take
/// two bytes and whose count takes four.
fn many() -> Vec<Input> {
    let mut names: Vec<Vec<u8>> = (0..257).map(|n| format!("{n:X}").into_bytes()).collect();
    let object = object_shape(2, 1, true);
    let unsorted = all_fields(&names, shape(2, false), object);
    names.sort();
    vec![all_fields(&names, shape(2, true), object), unsorted]
}

/// A dictionary of names, and an object that has all of them as fields, which share three children.
pub fn all_fields(names: &[Vec<u8>], dict: DictionaryShape, object: ObjectShape) -> Input {
    let mut ids: Vec<usize> = (0..names.len()).collect();
    ids.sort_by_key(|&id| &names[id]);
    let mut offsets: Vec<usize> = ids.iter().map(|id| id % 3).collect();
    offsets.push(3);
    let region = [0x00, 0x04, 0x08];
    Input {
        dict: encode::dictionary(names, dict),
        object: Some(encode::object(&ids, &offsets, &region, object)),
        query: names.last().cloned(),
        ..Input::default()
    }
}

pub(crate) fn padded(bytes: &[u8], length: usize) -> Vec<u8> {
    let mut bytes = bytes.to_vec();
    bytes.resize(length, 0xFF);
    bytes
}

/// Dictionaries of a length: bytes after the end, one name, many names, names of no bytes.
fn long_dictionaries(length: usize) -> impl Iterator<Item = Vec<u8>> {
    once_with(move || padded(SORTED, length))
        .chain(shapes(length).map(move |shape| one_name(length, shape)))
        .chain(shapes(length).map(move |shape| many_names(length, shape)))
        .chain(once_with(move || empty_names(length)))
}

/// Shapes of dictionaries whose last offset is just below a length.
fn shapes(length: usize) -> impl Iterator<Item = DictionaryShape> {
    widths(length).flat_map(|width| [true, false].map(|sorted| shape(width, sorted)))
}

/// Widths of offsets of which the last is just below a length.
fn widths(length: usize) -> impl Iterator<Item = usize> {
    // The first bytes are no part of what is counted.
    least_width(length - 5)..=4
}

/// A dictionary with an object that has its first two entries, as far as they go.
fn over_it(dict: Vec<u8>) -> Input {
    let null = vec![0];
    let object = encode::plain_object(&[0, 1], &[null.clone(), null]);
    Input::object(dict, object)
}

/// The shape of a dictionary of a width.
pub fn shape(width: usize, sorted: bool) -> DictionaryShape {
    DictionaryShape {
        width,
        sorted,
        spare: false,
    }
}

/// The shape of an object of widths.
pub fn object_shape(id_width: usize, offset_width: usize, long_count: bool) -> ObjectShape {
    ObjectShape {
        id_width,
        offset_width,
        long_count,
        spare: false,
    }
}

/// A dictionary of one name, so long that the whole has a length.
pub(crate) fn one_name(length: usize, shape: DictionaryShape) -> Vec<u8> {
    let head = 1 + 3 * shape.width;
    encode::dictionary(&[vec![b'n'; length - head]], shape)
}

/// A dictionary of increasing names of six bytes, and a last one that fills up a length.
fn many_names(length: usize, shape: DictionaryShape) -> Vec<u8> {
    let (each, head) = (shape.width + 6, 1 + 2 * shape.width);
    let count = (length - head) / each - 1;
    let mut names = numbered(count);
    let rest = length - (head + each * count) - shape.width;
    names.push(vec![b'z'; rest]);
    encode::dictionary(&names, shape)
}

/// So many increasing names of six bytes.
pub fn numbered(count: usize) -> Vec<Vec<u8>> {
    let digit = |number: usize, place: usize| b"0123456789abcdef"[number >> (4 * place) & 15];
    let name = |number| (0..6).rev().map(|place| digit(number, place)).collect();
    (0..count).map(name).collect()
}

/// An unsorted dictionary of empty names alone, with bytes after its end up to a length.
fn empty_names(length: usize) -> Vec<u8> {
    let width = least_width(length / 2);
    let count = (length - 1 - 2 * width) / width;
    padded(
        &encode::dictionary(&vec![vec![]; count], shape(width, false)),
        length,
    )
}

/// Objects of a length: bytes after the end, one child, many fields.
fn long_objects(length: usize) -> impl Iterator<Item = Input> {
    let after = [SORTED, UNSORTED].into_iter();
    let after = after.map(move |dict| Input::object(dict.to_vec(), padded(OBJECT, length)));
    let child = move |offset_width| {
        let shape = object_shape(1, offset_width, false);
        Input::object(SORTED.to_vec(), one_child(length, shape))
    };
    let fields = move |sorted| many_fields(length, sorted);
    after
        .chain(widths(length).map(child))
        .chain([true, false].into_iter().map(fields))
}

/// An object of one child, a binary, so long that the whole has a length.
pub fn one_child(length: usize, shape: ObjectShape) -> Vec<u8> {
    let count_width = if shape.long_count { 4 } else { 1 };
    let head = 1 + count_width + shape.id_width + 2 * shape.offset_width;
    let region = length - head;
    encode::object(&[1], &[0, region], &encode::binary(region), shape)
}

/// An object of many fields, with bytes after its end up to a length.
fn many_fields(length: usize, sorted: bool) -> Input {
    let object = ObjectShape {
        spare: true,
        ..object_shape(2, 4, true)
    };
    let mut input = all_fields(&numbered(7000), shape(2, sorted), object);
    input.object = input.object.map(|object| padded(&object, length));
    input
}

/// Objects in objects and in lists, two deep to the deepest.
fn nested() -> Vec<Input> {
    let mut all = Vec::new();
    for depth in 2..=DEEPEST {
        let mut objects = vec![0x00];
        let mut mixed = vec![0x00];
        for level in 0..depth {
            objects = encode::plain_object(&[0], &[objects]);
            mixed = match (depth - level) % 2 {
                0 => encode::list(&[mixed]),
                _ => encode::plain_object(&[1], &[mixed]),
            };
        }
        all.push(Input::object(SORTED.to_vec(), objects));
        all.push(Input::object(SORTED.to_vec(), mixed));
    }
    all
}
