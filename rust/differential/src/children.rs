//! Objects for the own lengths of their children: values of every header byte, whole, cut and with
//! bytes after them; held lengths, counts and last offsets about the limits; and generated ones, in
//! which such children stand among good ones, with bytes between that no child has.

use crate::Input;
use crate::encode::{self, least_width, put};
use crate::fixed::{SORTED, numbered, object_shape, shape};
use crate::generate::{append_bytes, outer_object, value};
use crate::random::Random;
use crate::reading::{BINARY, ObjectParts, PAYLOADS, Row, STRING, list_offsets};
use std::iter::once;

/// Those that are the same in every run.
pub fn fixed() -> impl Iterator<Item = Input> {
    let values = headers().chain(held_lengths()).chain(containers());
    values.map(|value| last_child(&value))
}

/// An object of two fields, a null and, after it, a child whose bytes end with the object's.
pub(crate) fn last_child(child: &[u8]) -> Input {
    let region = [&[0x00], child].concat();
    let shape = object_shape(1, least_width(region.len()), false);
    let object = encode::object(&[0, 1], &[1, 0, region.len()], &region, shape);
    Input::object(SORTED.to_vec(), object)
}

/// Every header byte, with up to a few bytes more after it than the longest payload has, or the
/// longest short string: zeros, ones, or the greatest.
fn headers() -> impl Iterator<Item = Vec<u8>> {
    let fills = [0x00, 0x01, 0xFF].into_iter();
    fills.flat_map(|fill| {
        let of_header = move |header| {
            let longest = if header & 3 == 1 { 66 } else { 20 };
            (1..=longest).map(move |length| {
                let mut value = vec![fill; length];
                value[0] = header;
                value
            })
        };
        (0..=255).flat_map(of_header)
    })
}

/// Binaries and strings of some bytes that say that they have so many, one fewer, one more, or very
/// many; as texts, UTF-8 and not.
fn held_lengths() -> impl Iterator<Item = Vec<u8>> {
    let kinds = [BINARY, STRING].into_iter();
    kinds.flat_map(|kind| {
        [0, 1, 2, 59, 64, 300].into_iter().flat_map(move |length| {
            let about = (length.max(1) - 1)..=length + 1;
            let held = about.chain(greatest_about(5)).chain([255, 256, 65_536]);
            held.flat_map(move |held| [b'a', 0xFF].map(|fill| text(kind, held, length, fill)))
        })
    })
}

/// The greatest number of four bytes, and those with which a sum that has so much more is the
/// greatest and one above it.
fn greatest_about(more: usize) -> [usize; 3] {
    let greatest = u32::MAX as usize;
    [greatest, greatest - more, greatest - more + 1]
}

/// A binary or a string that holds a length, and so many bytes.
fn text(kind: usize, held: usize, length: usize, fill: u8) -> Vec<u8> {
    let mut value = vec![(kind as u8) << 2];
    put(&mut value, held, 4);
    value.resize(value.len() + length, fill);
    value
}

/// Objects and lists of every header byte and up to two children, which are nulls or of no known
/// type: each beginning of them, with bytes after them, and with one of their numbers changed.
fn containers() -> impl Iterator<Item = Vec<u8>> {
    let headers = (0..=255_u8).filter(|header| header & 2 != 0);
    let whole = headers.flat_map(|header| {
        let of_count = move |count| [0x00, 0xFC].map(|fill| container(header, count, fill));
        (0..=2).flat_map(of_count)
    });
    whole.flat_map(|whole| {
        let cut = (1..whole.len()).map(|length| whole[..length].to_vec());
        let longer = [&whole[..], &[0xFC, 0xFF]].concat();
        let all: Vec<_> = cut.chain(once(longer)).chain(changed(&whole)).collect();
        all.into_iter().chain(once(whole))
    })
}

/// Where an object or a list has its count and its offsets.
fn numbers_of(container: &[u8]) -> Option<[Row; 2]> {
    if container.first()? & 3 == 2 {
        let parts = ObjectParts::of(container)?;
        return Some([parts.count, parts.offsets]);
    }
    let offsets = list_offsets(container)?;
    let count = Row {
        at: 1,
        width: offsets.at - 1,
        count: 1,
    };
    Some([count, offsets])
}

/// The object or list of a header byte, with so many children of one byte.
fn container(header: u8, count: usize, fill: u8) -> Vec<u8> {
    let (offset_width, long) = ((header as usize >> 2 & 3) + 1, |bit| header & bit != 0);
    let (ids, offsets): (Vec<_>, Vec<_>) = ((0..count).collect(), (0..=count).collect());
    let region = vec![fill; count];
    match header & 3 {
        2 => {
            let id_width = (header as usize >> 4 & 3) + 1;
            let shape = encode::ObjectShape {
                spare: long(0x80),
                ..object_shape(id_width, offset_width, long(0x40))
            };
            encode::object(&ids, &offsets, &region, shape)
        }
        _ => {
            let mut list = encode::list_of(&offsets, &region, offset_width, long(0x10));
            list[0] = header;
            list
        }
    }
}

/// An object or a list with its count, its first or its last offset replaced by others.
fn changed(whole: &[u8]) -> Vec<Vec<u8>> {
    let [count, offsets] = numbers_of(whole).expect("a header and a count");
    let places = [(count, 0), (offsets, 0), (offsets, offsets.count - 1)];
    let start = offsets.end();
    let with = |(row, index): (Row, usize)| {
        let held = row.number(whole, index).unwrap_or(0);
        let few = [0, 1, 2, held + 1, row.greatest()];
        let numbers = few.into_iter().chain(greatest_about(start));
        let changed = numbers.map(move |number| {
            let mut copy = whole.to_vec();
            row.write(&mut copy, index, number);
            copy
        });
        changed.collect::<Vec<_>>()
    };
    places.into_iter().flat_map(with).collect()
}

/// A dictionary and an object over it whose children are good or bad in their lengths.
pub fn good(random: &mut Random) -> Input {
    let count = random.between(1, 8);
    let names = numbered(count);
    let dict = encode::dictionary(&names, shape(1, random.one_in(2)));
    let mut object = outer_object(random, &names, count, |random| child(random, &names));
    if random.one_in(4) {
        end_earlier(random, &mut object);
    }
    Input::object(dict, object)
}

/// A child, as it is or changed in what tells its length.
fn child(random: &mut Random, names: &[Vec<u8>]) -> Vec<u8> {
    let levels = random.below(4);
    let mut child = value(random, names, levels);
    match random.below(24) {
        0 => child[0] = (random.between(PAYLOADS.len(), 63) as u8) << 2,
        1 => child.truncate(random.between(1, child.len())),
        2 => {
            let held = random.pick(&[6, 255, 65_536, 0x7FFF_FFFF, 0xFFFF_FFFA, 0xFFFF_FFFF]);
            let (kind, length) = (random.pick(&[BINARY, STRING]), random.below(6));
            child = text(kind, held, length, b'a');
        }
        3 => {
            let at = random.below(child.len().min(6));
            child[at] = random.byte();
        }
        4..=7 => append_bytes(random, &mut child),
        _ => {}
    }
    child
}

/// Takes a byte or a few off an object's end, by its last offset.
fn end_earlier(random: &mut Random, object: &mut [u8]) {
    if let Some(ObjectParts { offsets, .. }) = ObjectParts::of(object) {
        let last = offsets.count - 1;
        let end = offsets.number(object, last).unwrap_or(0);
        let earlier = end.saturating_sub(random.between(1, 4));
        offsets.write(object, last, earlier);
    }
}
