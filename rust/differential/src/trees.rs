//! Trees: the documents' cases, levels about both sides' limits, every short value of telling bytes;
//! and generated ones, of objects and lists of every width, every primitive, texts, with children that
//! are shared or lie in one another, and damaged copies.

use crate::damage::{byte_damage, dictionary_damage, number_damage};
use crate::encode::{self, least_width, put};
use crate::fixed::{SORTED, UNSORTED};
use crate::generate::{
    append_bytes, dictionary_of, field_ids, name, names, object_shape, primitive, short_string,
};
use crate::otherwise;
use crate::random::Random;
use crate::reading::STRING;
use crate::reference::{is_container, rows_of};
use crate::tree::children;
use crate::{Input, LARGE};
use lichenhusk::{LEVELS, LIMIT};
use std::iter::once;
use std::ops::Range;

/// Those that are the same in every run.
pub fn fixed() -> impl Iterator<Item = Input> {
    let small = worked().into_iter().chain(headers()).chain(leaves());
    let over =
        |value: Vec<u8>| [SORTED, UNSORTED].map(|dict| Input::tree(dict.to_vec(), value.clone()));
    let small = small.flat_map(over);
    let deep = nested().chain(met_again()).chain(of_many_ways());
    let deep = deep.map(|value| Input::tree(SORTED.to_vec(), value));
    small.chain(deep).chain(over_refused())
}

/// The cases of document 02's reading, and of each refusal's order.
fn worked() -> Vec<Vec<u8>> {
    let values: [&[u8]; 40] = [
        b"",
        b"\x02\x02\x00\x01\x01\x00\x03\x04\x0C\xFB",
        b"\x54",
        b"\x05\xFF",
        b"\x05\xC3",
        b"\x40\x01\x00\x00\x00\x80",
        b"\x3C\x01\x00\x00\x00\x80",
        b"\x02\x00\x00",
        b"\x03\x00\x00",
        b"\x03\x00\x01\x00",
        b"\x03\x01\x00\x00",
        b"\x03\x01\x00\x01\x00",
        b"\x03\x01\x01\x02\xFC\x00",
        b"\x03\x01\x00\x02\x05\xFF",
        b"\x03\x01\x00\x02\x00\xFF",
        b"\x03\x02\x00\x02\x01\x00\x00",
        b"\x03\x02\x02\x02\x01\x00",
        b"\x03\x03\x00\x02\x03\x01\x54\x00\x00",
        b"\x03\x02\x00\x01\x00\x54\x00",
        b"\x03\x02\x00\x00\x01\x00",
        b"\x03\x02\x00\x01\x02\x00\x54",
        b"\x13\x00\x00\x00",
        b"\x13\xF9\xFF\xFF\xFF",
        b"\x13\xFA\xFF\xFF\xFF",
        b"\x0F\x00\xF9\xFF\xFF\xFF",
        b"\x0F\x00\xFA\xFF\xFF\xFF",
        b"\x02\x01\x00\x00\x00",
        b"\x02\x01\x00\x00\x01\x54",
        b"\x02\x01\x00\x00\x05\x03\x01\x00\x01\x54",
        b"\x02\x01\x00\x00\x06\x02\x01\x09\x00\x01\x00",
        b"\x02\x01\x00\x00\x08\x02\x02\x01\x00\x00\x00\x01\x00",
        b"\x02\x01\x00\x00\x08\x02\x02\x00\x01\x00\x00\x01\x00",
        b"\x03\x01\x00\x05\x02\x01\x00\x00\x00",
        b"\x03\x01\x00\x06\x02\x01\x00\x02\x01\x00",
        b"\x02\x02\x00\x01\x00\x00\x01\x00",
        b"\x02\x02\x01\x00\x00\x00\x01\x54",
        b"\x02\x02\x00\x01\x00\x01\x03\x54\x05\xFF",
        b"\x02\x02\x00\x01\x01\x00\x03\x54\x05\xFF",
        b"\x02\x01\x00\x00\x03\x00\x05\xFF\xFF",
        b"\x02\x01\x00\x00\x06\x03\x01\x00\x01\x00\x54",
    ];
    values.map(<[u8]>::to_vec).to_vec()
}

/// Values of every header byte in a list of two, followed by up to a few bytes.
fn headers() -> impl Iterator<Item = Vec<u8>> {
    (0..=255_u8).flat_map(|header| {
        (0..4_usize).map(move |length| {
            let mut value = vec![0x01; 1 + length];
            value[0] = header;
            encode::list(&[vec![0], value])
        })
    })
}

/// What the Rust alone may refuse, about where it begins to: dates, times and decimals.
fn leaves() -> impl Iterator<Item = Vec<u8>> {
    let about = |limit: i128| (limit - 1..=limit + 1).collect::<Vec<_>>();
    let sized = move |kind: u8, width: usize, limits: &[i128]| {
        let numbers: Vec<i128> = limits.iter().copied().flat_map(about).collect();
        let bytes = move |number: i128| [&[kind << 2], &number.to_le_bytes()[..width]].concat();
        numbers.into_iter().map(bytes).collect::<Vec<_>>()
    };
    let day = 86_400_000_000_i128;
    let days = [-96_465_292, 95_026_237_i128];
    let micros = days.map(|days| days * day);
    let dates = sized(11, 4, &days);
    let stamps = [12, 13]
        .into_iter()
        .flat_map(move |kind| sized(kind, 8, &micros));
    let times = sized(17, 8, &[0, day, i128::from(i64::MAX)]);
    dates
        .into_iter()
        .chain(stamps)
        .chain(times)
        .chain(decimals())
}

/// Decimals about their digits, in scale and number.
fn decimals() -> impl Iterator<Item = Vec<u8>> {
    let widths = [(8_u8, 4_usize, 9_u32), (9, 8, 18), (10, 16, 38)];
    widths.into_iter().flat_map(|(kind, width, digits)| {
        let most = 10_i128.pow(digits) - 1;
        let numbers = [most, -most, most + 1, -most - 1, 0];
        let scales = [0, digits as u8, digits as u8 + 1, 255];
        scales.into_iter().flat_map(move |scale| {
            numbers.map(|number| [&[kind << 2, scale], &number.to_le_bytes()[..width]].concat())
        })
    })
}

/// So many lists, or objects, or both in turn, in one another about a value.
pub fn nest(levels: usize, value: &[u8], is_list: impl Fn(usize) -> bool) -> Vec<u8> {
    (0..levels).fold(value.to_vec(), |inner, level| match is_list(level) {
        true => encode::list(&[inner]),
        false => encode::plain_object(&[0], &[inner]),
    })
}

/// The Rust's levels.
const THEIRS: usize = parquet_variant::MAX_NESTING_DEPTH;

/// Levels about both limits, about a leaf, a container, nothing, and what is refused.
fn nested() -> impl Iterator<Item = Vec<u8>> {
    let innermost: [&[u8]; 7] = [
        b"\x00",
        b"",
        b"\x54",
        b"\x02\x00\x00",
        b"\x03\x00\x00",
        b"\x02",
        b"\x03\x01\x00\x00",
    ];
    let levels = [
        1,
        LEVELS - 2,
        LEVELS - 1,
        LEVELS,
        LEVELS + 1,
        THEIRS - 1,
        THEIRS,
        THEIRS + 1,
    ];
    innermost.into_iter().flat_map(move |value| {
        levels.into_iter().flat_map(move |levels| {
            let kinds: [fn(usize) -> bool; 3] = [|_| true, |_| false, |level| level % 2 == 0];
            kinds.map(|is_list| nest(levels, value, is_list))
        })
    })
}

/// An object of two fields, each at a place of one child's bytes.
fn two_fields(places: [usize; 2], child: &[u8]) -> Vec<u8> {
    let offsets = [places[0], places[1], child.len()];
    let shape = crate::fixed::object_shape(1, least_width(child.len()), false);
    encode::object(&[0, 1], &offsets, child, shape)
}

/// Values that are met again: deeper, where they are too deep; and with fewer bytes at hand, where
/// they are cut.
fn met_again() -> impl Iterator<Item = Vec<u8>> {
    let deeper = (LEVELS - 3..=LEVELS).flat_map(|levels| {
        let child = nest(levels, &[0], |_| true);
        let inner = child.len() - nest(levels - 1, &[0], |_| true).len();
        [[inner, 0], [0, inner]].map(|places| two_fields(places, &child))
    });
    let cut = b"\x03\x02\x00\x01\x02\x05\x61\x61";
    let fewer = [[5, 0], [0, 5]].map(|places| two_fields(places, cut));
    let text = b"\x15\x09\x61\xC3\xA9\x61";
    let texts = [[0, 1], [1, 0], [0, 0]].map(|places| two_fields(places, text));
    deeper.chain(fewer).chain(texts)
}

/// Trees of 31 levels with very many ways through them, and a bad leaf at the end of each or none.
fn of_many_ways() -> impl Iterator<Item = Vec<u8>> {
    let leaves: [&[u8]; 3] = [b"\x00", b"\x54", b"\x05\x80"];
    leaves.into_iter().flat_map(|leaf| {
        let shared = (0..LEVELS - 1).fold(leaf.to_vec(), |child, _| two_fields([0, 0], &child));
        [shared, fibonacci(LEVELS - 1, leaf), fibonacci(LEVELS, leaf)]
    })
}

/// So many objects in one another, of each of which a field is the next and the other the one in it.
pub fn fibonacci(levels: usize, leaf: &[u8]) -> Vec<u8> {
    let mut value = leaf.to_vec();
    let mut inner = 0;
    for _ in 0..levels {
        let outer = two_fields([0, inner], &value);
        inner = outer.len() - value.len();
        value = outer;
    }
    value
}

/// Values about the limit of length: a binary in a list, and bytes after a null.
pub fn of_length() -> impl Iterator<Item = Input> {
    let about = [LIMIT - 1, LIMIT, LIMIT + 1].into_iter();
    let values = about.flat_map(|length| {
        let head = encode::list(&[encode::binary(LIMIT / 2)]).len() - LIMIT / 2;
        let list = encode::list(&[encode::binary(length - head)]);
        [list, vec![0; length]]
    });
    values.map(|value| Input::tree(SORTED.to_vec(), value))
}

/// Trees over dictionaries that are refused, good and bad ones.
fn over_refused() -> impl Iterator<Item = Input> {
    let dicts: [&[u8]; 5] = [
        b"",
        b"\x02\x00\x00",
        b"\x01\x00",
        b"\x01\x01\x00\x01\xFF",
        b"\x01\x00\x01",
    ];
    dicts.into_iter().flat_map(|dict| {
        let values: [&[u8]; 3] = [b"\x00", b"", b"\x03\x01\x00\x01\x54"];
        values.map(|value| Input::tree(dict.to_vec(), value.to_vec()))
    })
}

/// First bytes of short values, and the bytes after them, at which something changes.
pub const HEADS: [u8; 6] = [0x02, 0x03, 0x07, 0x13, 0x05, 0x40];
/// See there.
pub const TAILS: [u8; 8] = [0x00, 0x01, 0x02, 0x03, 0x05, 0x54, 0x80, 0xFF];

/// A value that was generated, and where values start in it, its own start among them.
struct Grown {
    bytes: Vec<u8>,
    starts: Vec<usize>,
}

impl Grown {
    fn leaf(bytes: Vec<u8>) -> Grown {
        Grown {
            bytes,
            starts: vec![0],
        }
    }

    /// A container of a head and a region, in which values start.
    fn container(bytes: Vec<u8>, region: usize, within: Vec<usize>) -> Grown {
        let head = bytes.len() - region;
        let within = within.into_iter().map(|start| head + start);
        Grown {
            starts: once(0).chain(within).collect(),
            bytes,
        }
    }
}

/// What trees are grown over.
struct Soil {
    names: Vec<Vec<u8>>,
    /// Whether nothing is in them that is refused, by us or by the Rust alone, but for levels.
    is_mild: bool,
}

/// A dictionary and a tree over it.
pub fn good(random: &mut Random) -> Input {
    let (mut names, sorted) = names(random);
    if names.len() > 300 {
        names.truncate(300);
    }
    let dict = dictionary_of(random, &names, sorted);
    let levels = match random.below(16) {
        0 => random.between(LEVELS - 1, LEVELS + 1),
        1 => random.between(12, LEVELS - 1),
        2..=5 => random.between(4, 8),
        _ => random.below(4),
    };
    let soil = Soil {
        names,
        is_mild: random.one_in(2),
    };
    let mut value = match random.below(12) {
        0 => of_texts(random, &soil),
        1 => ways(random, &soil, levels),
        _ => grown(random, &soil, levels).bytes,
    };
    if random.one_in(6) {
        append_bytes(random, &mut value);
    }
    Input::tree(dict, value)
}

/// A tree of more than 65,536 bytes: a list of many small ones, out of a few, by itself or as a field.
pub fn larger(random: &mut Random) -> Input {
    let names: Vec<Vec<u8>> = [&b"a"[..], b"b", b"bc", b"c"].map(<[u8]>::to_vec).to_vec();
    let dict = encode::dictionary(&names, crate::fixed::shape(1, random.one_in(2)));
    let soil = Soil {
        names,
        is_mild: random.one_in(2),
    };
    let few: Vec<Vec<u8>> = (0..random.between(1, 40))
        .map(|_| {
            let levels = random.below(4);
            grown(random, &soil, levels).bytes
        })
        .collect();
    let least = LARGE << random.below(4);
    let (mut region, mut offsets) = (Vec::new(), vec![0]);
    while region.len() <= least {
        region.extend_from_slice(&few[random.below(few.len())]);
        offsets.push(region.len());
    }
    let width = random.between(least_width(region.len()), 4);
    let list = encode::list_of(&offsets, &region, width, true);
    let value = match random.one_in(2) {
        true => list,
        false => encode::plain_object(&[0, 1], &[vec![0], list]),
    };
    Input::tree(dict, value)
}

/// A value with so many levels of containers in it.
fn grown(random: &mut Random, soil: &Soil, levels: usize) -> Grown {
    if levels == 0 {
        return Grown::leaf(leaf(random, soil.is_mild));
    }
    let ids = field_ids(random, &soil.names, 4);
    match ids.is_empty() || random.one_in(2) {
        true => list(random, soil, levels),
        false => object(random, soil, &ids, levels),
    }
}

/// The children of a container: the first has its levels, and of the others some have a few.
fn child(random: &mut Random, soil: &Soil, levels: usize, is_first: bool) -> Grown {
    let below = match is_first {
        true => levels - 1,
        false if random.one_in(4) => random.below(levels.min(3)),
        false => 0,
    };
    grown(random, soil, below)
}

/// An object of ids. Children lie in any order, with bytes between, shared, or inside one another.
fn object(random: &mut Random, soil: &Soil, ids: &[usize], levels: usize) -> Grown {
    let mut region = Vec::new();
    let mut starts: Vec<usize> = Vec::new();
    let mut offsets = vec![0; ids.len()];
    let mut order: Vec<usize> = (0..ids.len()).collect();
    random.shuffle(&mut order);
    for (index, &field) in order.iter().enumerate() {
        if index > 0 && random.one_in(4) {
            offsets[field] = random.pick(&starts);
            continue;
        }
        if random.one_in(10) {
            append_bytes(random, &mut region);
        }
        let child = child(random, soil, levels, index == 0);
        offsets[field] = region.len();
        starts.extend(child.starts.iter().map(|start| region.len() + start));
        region.extend(child.bytes);
    }
    if !soil.is_mild && random.one_in(40) {
        offsets[random.below(ids.len())] = region.len();
    }
    if random.one_in(10) {
        append_bytes(random, &mut region);
    }
    offsets.push(region.len());
    let shape = object_shape(random, ids, region.len());
    let bytes = encode::object(ids, &offsets, &region, shape);
    Grown::container(bytes, region.len(), starts)
}

/// A list, now and then of many elements, with bytes after an element's own, of no bytes, or before
/// the first.
fn list(random: &mut Random, soil: &Soil, levels: usize) -> Grown {
    let count = match random.below(400) {
        0 => random.between(254, 258),
        1..=10 => random.between(5, 30),
        _ => random.between(1, 4),
    };
    let (mut region, mut starts, mut offsets) = (Vec::new(), Vec::new(), Vec::new());
    if !soil.is_mild && random.one_in(24) {
        append_bytes(random, &mut region);
    }
    let deep = random.below(count);
    for element in 0..count {
        offsets.push(region.len());
        if !soil.is_mild && random.one_in(150) {
            continue;
        }
        let child = child(random, soil, levels, element == deep);
        starts.extend(child.starts.iter().map(|start| region.len() + start));
        region.extend(child.bytes);
        if random.one_in(16) {
            append_bytes(random, &mut region);
        }
    }
    offsets.push(region.len());
    let width = random.between(least_width(region.len()), 4);
    let long_count = count > 255 || random.one_in(3);
    let mut bytes = encode::list_of(&offsets, &region, width, long_count);
    if random.one_in(8) {
        bytes[0] |= 0xE0;
    }
    Grown::container(bytes, region.len(), starts)
}

/// A leaf: of every primitive type, or a text, now and then one that is none; or an empty container.
fn leaf(random: &mut Random, is_mild: bool) -> Vec<u8> {
    let mut bytes = match random.below(8) {
        0..=2 => short_string(random),
        3 => string(&name(random)),
        4 => {
            return random
                .pick(&[&b"\x03\x00\x00"[..], b"\x02\x00\x00"])
                .to_vec();
        }
        _ => primitive(random),
    };
    if is_mild {
        return match otherwise::of_leaf(&bytes) {
            None => bytes,
            Some(_) => vec![0; 1],
        };
    }
    let is_text = bytes[0] & 3 == 1 || bytes[0] as usize >> 2 == STRING;
    if is_text && bytes.len() > 1 && random.one_in(60) {
        let at = bytes.len() - 1;
        bytes[at] = random.pick(&[0x80, 0xC3, 0xE2, 0xF0, 0xFF]);
    }
    bytes
}

/// The long string of a text.
pub fn string(text: &[u8]) -> Vec<u8> {
    let mut bytes = vec![(STRING as u8) << 2];
    put(&mut bytes, text.len(), 4);
    bytes.extend_from_slice(text);
    bytes
}

/// An object whose children are strings in one another: any place of a text is a header byte, and
/// those of these letters are short strings'.
fn of_texts(random: &mut Random, soil: &Soil) -> Vec<u8> {
    let ids = field_ids(random, &soil.names, 8);
    let letters = [
        '\x01', '\x05', '\t', '\r', '\x11', '!', '1', 'é', '\u{441}', '€', '😀',
    ];
    let length = random.between(4, 60);
    let letters: String = (0..length).map(|_| random.pick(&letters)).collect();
    let mut region = string(letters.as_bytes());
    region.extend([0; 12]);
    let is_short = |&at: &usize| region[at] & 3 == 1;
    let places: Vec<usize> = once(0).chain((5..region.len()).filter(is_short)).collect();
    let mut offsets: Vec<usize> = ids.iter().map(|_| random.pick(&places)).collect();
    offsets.push(region.len());
    let shape = object_shape(random, &ids, region.len());
    encode::object(&ids, &offsets, &region, shape)
}

/// Objects in one another whose fields share the next, or have the one in it as well.
fn ways(random: &mut Random, soil: &Soil, levels: usize) -> Vec<u8> {
    let ids = field_ids(random, &soil.names, 3);
    let mut value = leaf(random, soil.is_mild);
    let mut inner = 0;
    for _ in 0..levels {
        let place = |random: &mut Random| random.pick(&[0, 0, inner]);
        let mut offsets: Vec<usize> = ids.iter().map(|_| place(random)).collect();
        offsets.push(value.len());
        let shape = object_shape(random, &ids, value.len());
        let outer = encode::object(&ids, &offsets, &value, shape);
        inner = outer.len() - value.len();
        value = outer;
    }
    value
}

/// The most values of a tree among which one is taken to be damaged.
const NODES: usize = 300;

/// Where values are in a tree, so many at most.
pub(crate) fn nodes(value: &[u8]) -> Vec<Range<usize>> {
    let mut nodes: Vec<Range<usize>> = once(0..value.len()).collect();
    let mut next = 0;
    while next < nodes.len() && nodes.len() < NODES {
        let node = nodes[next].clone();
        next += 1;
        let bytes = &value[node.clone()];
        if !is_container(bytes) {
            continue;
        }
        let places = children(bytes).map(|(_, places)| places);
        let within = |place: Range<usize>| node.start + place.start..node.start + place.end;
        nodes.extend(places.into_iter().flatten().map(within));
    }
    nodes
}

/// A copy with one or two damages: to the dictionary, to a value anywhere in the tree, or to any byte.
pub fn damaged(random: &mut Random, good: &Input) -> Input {
    let mut copy = good.clone();
    for _ in 0..random.between(1, 2) {
        match &mut copy.tree {
            Some(value) if !random.one_in(12) => tree_damage(random, value),
            _ => dictionary_damage(random, &mut copy.dict),
        }
    }
    copy
}

fn tree_damage(random: &mut Random, value: &mut Vec<u8>) {
    let nodes = nodes(value);
    let node = nodes[random.below(nodes.len())].clone();
    let bytes = &mut value[node.clone()];
    match rows_of(bytes).filter(|_| is_container(bytes)) {
        Some((ids, offsets)) if !random.one_in(4) => {
            let rows = [ids.unwrap_or(offsets), offsets, offsets];
            let row = random.pick(&rows);
            number_damage(random, bytes, row, offsets.count - 1);
        }
        _ if !bytes.is_empty() && random.one_in(2) => {
            let at = random.below(bytes.len().min(6));
            bytes[at] = random.byte();
        }
        _ => byte_damage(random, value),
    }
}
