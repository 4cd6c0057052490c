//! The Rust's side: what its values and errors tell, and objects that make it tell more.

use crate::reading::{DictionaryParts, ObjectParts};
use arrow_schema::ArrowError;
use parquet_variant::Variant;
use std::str::Utf8Error;

/// Where a part of a buffer starts in it.
pub fn place_in(part: &[u8], whole: &[u8]) -> usize {
    part.as_ptr() as usize - whole.as_ptr() as usize
}

/// Whether two parts are the same bytes of the same buffer.
fn same_part(a: &[u8], b: &[u8]) -> bool {
    a.as_ptr() == b.as_ptr() && a.len() == b.len()
}

/// Whether two values that were read from one buffer are the same: floats by their bits, what
/// keeps its bytes by where these are, and the others as the Rust compares them.
pub fn same_value(a: &Variant, b: &Variant) -> bool {
    use Variant::*;
    match (a, b) {
        (Float(a), Float(b)) => a.to_bits() == b.to_bits(),
        (Double(a), Double(b)) => a.to_bits() == b.to_bits(),
        (Object(a), Object(b)) => same_part(a.value, b.value),
        (List(a), List(b)) => same_part(a.value, b.value),
        (Binary(a), Binary(b)) => same_part(a, b),
        (String(a), String(b)) => same_part(a.as_bytes(), b.as_bytes()),
        (ShortString(a), ShortString(b)) => same_part(a.as_bytes(), b.as_bytes()),
        _ => a == b,
    }
}

/// What stands for a child in [`traced`]: a short string of no bytes.
pub const EMPTY_SHORT_STRING: u8 = 0x01;

/// A copy of an object in which every child is an empty short string; nothing for bytes that
/// have not all their parts.
///
/// The Rust accepts such a child wherever it has a byte, so that its verdict on the copy is one on
/// the layer alone, and a short string's address tells from where it was read.
pub fn traced(object: &[u8]) -> Option<Vec<u8>> {
    let parts = ObjectParts::of(object)?;
    let length = parts.region(object)?.len();
    let mut copy = object[..parts.offsets.end()].to_vec();
    copy.resize(copy.len() + length, EMPTY_SHORT_STRING);
    Some(copy)
}

/// Where a value of a [`traced`] object was read; nothing for a value that is not one of its
/// short strings.
pub fn traced_start(value: &Variant, traced: &[u8]) -> Option<usize> {
    match value {
        Variant::ShortString(text) if text.is_empty() => {
            Some(place_in(text.as_bytes(), traced) - 1)
        }
        _ => None,
    }
}

/// The Rust's words for a refusal.
pub fn words(error: &ArrowError) -> &str {
    match error {
        ArrowError::InvalidArgumentError(text)
        | ArrowError::CastError(text)
        | ArrowError::ParseError(text) => text,
    }
}

/// Words of the Rust's that tell a reason, and our number for it.
pub type Reasons = [(&'static str, u32)];

/// Our number for a refusal of the Rust's, by its words.
pub fn told(reasons: &Reasons, error: &ArrowError) -> Option<u32> {
    let words = words(error);
    let reason = reasons.iter().find(|(telling, _)| words.contains(telling));
    reason.map(|&(_, number)| number)
}

/// The reasons to refuse a dictionary.
const DICTIONARY_REASONS: &Reasons = &[
    ("version", 12),
    ("extract", 13),
    ("First offset", 15),
    ("range", 17),
    ("unique", 18),
    ("UTF-8", 16),
    ("overflow", 14),
    ("empty", 11),
];

/// How the Rust's words for a refused path begin. What comes after may be the path's own.
const PATH_REASONS: &Reasons = &[
    ("Unexpected leading", 71),
    ("Unexpected trailing", 72),
    ("Unexpected '", 73),
    ("Unclosed", 74),
    ("Invalid token", 75),
];

/// Our number for a path that the Rust refuses.
pub fn path_number(error: &ArrowError) -> Option<u32> {
    let words = words(error);
    let mut reasons = PATH_REASONS.iter();
    let reason = reasons.find(|(telling, _)| words.starts_with(telling));
    reason.map(|&(_, number)| number)
}

/// The library's error, where a dictionary's names are not UTF-8.
pub fn utf8_error(dict: &[u8]) -> Option<Utf8Error> {
    let region = DictionaryParts::of(dict)?.region(dict)?;
    std::str::from_utf8(region).err()
}

/// Our number for a dictionary that the Rust refuses. Of names that are not UTF-8 it says no more
/// than that: it drops the library's error, which is asked for again to tell 19 from 16.
pub fn dictionary_number(dict: &[u8], error: &ArrowError) -> Option<u32> {
    match told(DICTIONARY_REASONS, error)? {
        16 => match utf8_error(dict)?.error_len() {
            None => Some(19),
            Some(_) => Some(16),
        },
        number => Some(number),
    }
}

/// The reasons to refuse a [`traced`] copy, of which nothing is cut. A read without an end is that
/// of a child; another read that fails is that of an unknown id's name, in an unsorted dictionary.
const LAYER_REASONS: &Reasons = &[
    ("field id", 25),
    ("not sorted", 26),
    (".. from", 27),
    ("empty", 28),
    ("extract", 25),
];

/// Our number for a [`traced`] copy that the Rust refuses.
pub fn layer_number(error: &ArrowError) -> Option<u32> {
    told(LAYER_REASONS, error)
}

/// Whether the reason that the Rust gives for refusing an object may be one of our numbers.
///
/// Over an unsorted dictionary it tells an unknown id by the read that fails. With 27 and 28 it may
/// have met a child before that it refuses, so that any reason will do.
pub fn may_be_object_number(error: &ArrowError, number: u32) -> bool {
    let words = words(error);
    match number {
        21 => words.contains("empty"),
        23 => words.contains("extract"),
        24 => words.contains("overflow"),
        25 => words.contains("field id") || words.contains("extract"),
        26 => words.contains("not sorted"),
        27 | 28 => true,
        _ => false,
    }
}
