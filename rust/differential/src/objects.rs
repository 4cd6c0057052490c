//! Pairs to write objects of: worked cases, every row of few telling words and of few pairs; generated
//! ones, in any order, whose children may be shared, with damaged copies; larger ones, and some about the
//! limit of length.

use crate::Input;
use crate::damage::{byte_damage, dictionary_damage};
use crate::encode::{self, least_width};
use crate::fixed::{SORTED, UNSORTED, WORKED_DICTIONARIES, numbered, shape};
use crate::generate::{append_bytes, child, dictionary_of, field_ids, name, names, sorted_or_not};
use crate::pairs::{Pair, Pairs};
use crate::random::Random;
use lichenhusk::LIMIT;

/// Those that are the same in every run.
pub fn fixed() -> impl Iterator<Item = Input> {
    let worked = [SORTED, UNSORTED]
        .into_iter()
        .flat_map(|dict| WORKED.map(|words| over(dict, words)));
    let refused = WORKED_DICTIONARIES
        .into_iter()
        .flat_map(|dict| WORKED.into_iter().step_by(5).map(|words| over(dict, words)));
    worked
        .chain(refused)
        .chain(by_names())
        .chain(by_ids())
        .chain(by_totals())
        .chain(by_counts())
}

/// Three bytes that are lent: two values, and the end of one.
const LENT: [u8; 3] = [0x04, 0x0C, 0xFB];

fn over(dict: &[u8], words: &[u32]) -> Input {
    let pairs = Pairs {
        bytes: LENT.to_vec(),
        words: words.to_vec(),
    };
    Input::pairs(dict.to_vec(), pairs)
}

/// Words over three bytes and a dictionary of two names or four, some of which are one: none, cut, in
/// either order, with children that are shared; then each refusal, alone and beside others.
const WORKED: [&[u32]; 36] = [
    &[],
    &[9],
    &[0, 9],
    &[0, 0, 1],
    &[1, 1, 3],
    &[0, 0, 1, 9],
    &[0, 0, 1, 0, 0],
    &[0, 1, 3, 1, 0, 1],
    &[1, 0, 1, 0, 1, 3],
    &[1, 0, 1, 0, 0, 1],
    &[1, 0, 3, 0, 1, 2],
    &[0, 0, 3, 1, 0, 3],
    &[2, 0, 1],
    &[4, 0, 1],
    &[u32::MAX, 0, 1],
    &[1, 0, 1, 0, 1, 3, 4, 0, 1],
    &[0, 0, 1, 0, 1, 3],
    &[1, 0, 1, 0, 0, 1, 0, 0, 1, 1, 0, 1],
    &[1, 0, 1, 0, 0, 1, 1, 0, 1, 0, 0, 1],
    &[0, 0, 1, 3, 0, 1],
    &[3, 0, 1, 2, 0, 1, 1, 0, 1, 0, 0, 1],
    &[2, 0, 1, 1, 0, 1, 0, 1, 3],
    &[0, 1, 0],
    &[0, 0, 4],
    &[0, 4, 4],
    &[0, u32::MAX, u32::MAX],
    &[1, 0, 1, 0, 3, 2],
    &[0, 0, 0],
    &[0, 3, 3],
    &[1, 0, 1, 0, 1, 1],
    &[0, 1, 1, 1, 0, 4],
    &[0, 1, 1, 1, 2, 1],
    &[0, 0, 0, 1, 2, 1, 0, 0, 1, 9, 0, 1],
    &[0, 0, 0, 1, 2, 1, 0, 0, 1],
    &[0, 9, 9, 0, 0, 1],
    &[0, 0, 1, 0, 0, 1, 9, 0, 1],
];

/// A dictionary of names.
fn dictionary(names: &[Vec<u8>], sorted: bool) -> Vec<u8> {
    let total: usize = names.iter().map(Vec::len).sum();
    encode::dictionary(names, shape(least_width(total.max(names.len())), sorted))
}

/// Names whose order is another by length, or by signed bytes, or by 16-bit units, and that begin alike.
const NAMES: [&str; 12] = [
    "b",
    "ab",
    "",
    "é",
    "z",
    "\0",
    "abcdefghi",
    "abcdefgh",
    "abcdefgi",
    "\u{10000}",
    "\u{FFFF}",
    "a",
];

/// Two of these names, each with each other, and all of them, over a sorted dictionary and another.
fn by_names() -> impl Iterator<Item = Input> {
    let names = NAMES.map(|name| name.as_bytes().to_vec());
    let mut in_order = names.clone();
    in_order.sort();
    let dicts = [dictionary(&names, false), dictionary(&in_order, true)];
    dicts.into_iter().flat_map(|dict| {
        let count = NAMES.len() as u32;
        let two = (0..count * count).map(move |row| vec![row / count, row % count]);
        let all = [(0..count).collect(), (0..count).rev().collect()];
        two.chain(all).map(move |ids: Vec<u32>| {
            let pair = |(place, id): (usize, u32)| [id, 0, if place == 0 { 1 } else { 3 }];
            let pairs: Vec<Pair> = ids.into_iter().enumerate().map(pair).collect();
            Input::pairs(dict.clone(), Pairs::of(&LENT, &pairs))
        })
    })
}

/// Dictionaries with as many entries as where a width ends: with the last, the first, both, and one that
/// is no longer there.
fn by_ids() -> impl Iterator<Item = Input> {
    let counts = [255, 256, 257, 65_535, 65_536, 65_537].into_iter();
    counts.flat_map(|count| {
        let names = numbered(count);
        let mut backwards = names.clone();
        backwards.reverse();
        let last = count as u32 - 1;
        let ids = [vec![last], vec![0], vec![last, 0], vec![0, last + 1]];
        [dictionary(&names, true), dictionary(&backwards, false)]
            .into_iter()
            .flat_map(move |dict| {
                let pairs = |ids: &Vec<u32>| {
                    let pairs: Vec<Pair> = ids.iter().map(|&id| [id, 0, 1]).collect();
                    Input::pairs(dict.clone(), Pairs::of(&LENT, &pairs))
                };
                ids.iter().map(pairs).collect::<Vec<_>>()
            })
    })
}

/// Children that have as many bytes together as where a width ends: one, two, and two of the same; and
/// one byte out of as many.
fn by_totals() -> impl Iterator<Item = Input> {
    let totals = [254, 255, 256, 257, 65_534, 65_535, 65_536, 65_537].into_iter();
    totals.flat_map(|total: usize| {
        let mut bytes = encode::binary(total);
        bytes.push(0);
        let (whole, half) = (total as u32, total as u32 / 2);
        let rows: [&[Pair]; 5] = [
            &[[1, 0, whole]],
            &[[1, 0, half], [0, half, whole]],
            &[[1, 0, whole - 1], [0, 0, 1]],
            &[[0, 3, 3 + half], [1, 3, 3 + half]],
            &[[1, whole, whole + 1]],
        ];
        rows.map(|pairs| Input::pairs(SORTED.to_vec(), Pairs::of(&bytes, pairs)))
    })
}

/// As many fields as where a count ends, of one byte that they share, the last name first.
fn by_counts() -> impl Iterator<Item = Input> {
    let counts = [254, 255, 256, 257, 65_535, 65_536, 65_537].into_iter();
    counts.map(|count| {
        let pairs: Vec<Pair> = (0..count as u32).rev().map(|id| [id, 0, 1]).collect();
        Input::pairs(dictionary(&numbered(count), true), Pairs::of(&LENT, &pairs))
    })
}

/// The most that a telling word is: past the entries of [`UNSORTED`], and past two bytes.
const MOST_WORD: usize = 4;

/// Every row of so many words, each of them up to four, over two bytes and each of two dictionaries,
/// until a visit fails.
pub fn each_words<E>(
    length: usize,
    mut visit: impl FnMut(&Input) -> Result<(), E>,
) -> Result<(), E> {
    let choices = MOST_WORD + 1;
    for row in 0..choices.pow(length as u32) {
        let word = |place: usize| (row / choices.pow(place as u32) % choices) as u32;
        let words: Vec<u32> = (0..length).map(word).collect();
        for dict in [SORTED, UNSORTED] {
            let pairs = Pairs {
                bytes: LENT[..2].to_vec(),
                words: words.clone(),
            };
            visit(&Input::pairs(dict.to_vec(), pairs))?;
        }
    }
    Ok(())
}

/// Ranges over three bytes: two that are good, one that is empty, falls and passes the bytes.
const RANGES: [[u32; 2]; 5] = [[0, 1], [1, 3], [2, 2], [2, 1], [2, 4]];

/// The most pairs in a row.
const LONGEST_ROW: u32 = 3;

/// Every row of few pairs over [`UNSORTED`], of each of its entries and one that is none, until a visit
/// fails.
pub fn each_row<E>(mut visit: impl FnMut(&Input) -> Result<(), E>) -> Result<(), E> {
    let choices = (MOST_WORD + 1) * RANGES.len();
    for length in 0..=LONGEST_ROW {
        for row in 0..choices.pow(length) {
            let pair = |place: u32| {
                let choice = row / choices.pow(place) % choices;
                let [start, end] = RANGES[choice % RANGES.len()];
                [(choice / RANGES.len()) as u32, start, end]
            };
            let pairs: Vec<Pair> = (0..length).map(pair).collect();
            let pairs = Pairs::of(&LENT, &pairs);
            visit(&Input::pairs(UNSORTED.to_vec(), pairs))?;
        }
    }
    Ok(())
}

/// Pairs that are written: over a dictionary of any shape, in any order, of children that may be shared
/// or lie in one another; once in a while words are left over.
pub fn good(random: &mut Random) -> Input {
    let (names, sorted) = names(random);
    of_names(random, &names, sorted, 4_000)
}

/// Pairs of which there are thousands, or of long children.
pub fn larger(random: &mut Random) -> Input {
    if random.one_in(4) {
        return long_children(random);
    }
    let count = random.between(1_500, 6_000);
    let prefix = if random.one_in(3) {
        name(random)
    } else {
        vec![]
    };
    let names = (0..count)
        .map(|_| [prefix.clone(), name(random), name(random)].concat())
        .collect();
    let (names, sorted) = sorted_or_not(random, names);
    of_names(random, &names, sorted, count)
}

/// A few children of thousands of bytes, which are any bytes.
fn long_children(random: &mut Random) -> Input {
    let bytes = encode::binary(random.between(2_000, 120_000));
    let length = bytes.len();
    let mut pairs: Vec<Pair> = Vec::new();
    for id in 0..random.between(1, 4) as u32 {
        let start = random.below(length);
        pairs.push([id, start as u32, random.between(start + 1, length) as u32]);
    }
    let dict = dictionary(&numbered(4), true);
    Input::pairs(dict, Pairs::of(&bytes, &pairs))
}

fn of_names(random: &mut Random, names: &[Vec<u8>], sorted: bool, most: usize) -> Input {
    let mut dict = dictionary_of(random, names, sorted);
    if random.one_in(4) {
        append_bytes(random, &mut dict);
    }
    let mut ids = field_ids(random, names, most);
    match random.below(4) {
        0 => {}
        1 => ids.reverse(),
        _ => random.shuffle(&mut ids),
    }
    let mut given = Pairs::default();
    for id in ids {
        let [start, end] = range(random, names, &mut given);
        given.words.extend([id as u32, start, end]);
    }
    for _ in 0..random.pick(&[0, 0, 0, 1, 2]) {
        given.words.push(random.below(4) as u32);
    }
    Input::pairs(dict, given)
}

/// Where a child lies: mostly it is new, and else an earlier one, or a part of all that is there.
fn range(random: &mut Random, names: &[Vec<u8>], given: &mut Pairs) -> [u32; 2] {
    let earlier = given.pairs().len();
    let length = given.bytes.len();
    match random.below(8) {
        0 if earlier > 0 => {
            let [_, start, end] = given.pairs()[random.below(earlier)];
            [start, end]
        }
        1 if length > 0 => {
            let start = random.below(length);
            [start as u32, random.between(start + 1, length) as u32]
        }
        kind => {
            if kind == 2 {
                append_bytes(random, &mut given.bytes);
            }
            let start = given.bytes.len() as u32;
            let levels = random.below(3);
            given.bytes.extend(child(random, names, levels));
            [start, given.bytes.len() as u32]
        }
    }
}

/// A copy with one or two damages to the words, or once in a while to the dictionary or the bytes.
pub fn damaged(random: &mut Random, good: &Input) -> Input {
    let mut copy = good.clone();
    for _ in 0..random.between(1, 2) {
        match (random.below(8), &mut copy.pairs) {
            (0, _) => dictionary_damage(random, &mut copy.dict),
            (1, Some(given)) => byte_damage(random, &mut given.bytes),
            (_, Some(given)) => word_damage(random, given),
            _ => {}
        }
    }
    copy
}

fn word_damage(random: &mut Random, Pairs { bytes, words }: &mut Pairs) {
    let length = bytes.len() as u32;
    let count = words.len() / 3;
    if count == 0 {
        words.push(random.below(4) as u32);
        return;
    }
    let (at, other) = (3 * random.below(count), 3 * random.below(count));
    match random.below(9) {
        0 => words[at] = words[other],
        1 => words[at] = words[at].wrapping_add(1),
        2 => words[at] = random.pick(&[0, count as u32, 0xFF, 0xFFFF, u32::MAX]),
        3 => words[at + 1] = words[at + 2],
        4 => words.swap(at + 1, at + 2),
        5 => words[at + 2] = words[at + 2].wrapping_add(1),
        6 => words[at + 1 + random.below(2)] = random.pick(&[0, length, length + 1, u32::MAX]),
        7 => drop(words.remove(random.below(words.len()))),
        _ => words.extend_from_within(at..at + 3),
    }
}

/// Pairs whose object has about as many bytes as the limit: one, two, and very many that lend the same
/// bytes; one that passes it beside a child of no bytes, and one of few bytes out of more than the limit.
pub fn of_length() -> impl Iterator<Item = Input> {
    let lengths = [LIMIT - 1, LIMIT, LIMIT + 1].into_iter();
    let one = lengths.clone().map(|length| {
        let child = length - (1 + 1 + 1 + 2 * 3);
        over_long(SORTED, &[[1, 0, child as u32]])
    });
    let two = lengths.clone().map(|length| {
        let (first, child) = (1_000, length - (1 + 1 + 2 + 3 * 3));
        over_long(
            SORTED,
            &[[1, 0, (child - first) as u32], [0, 7, 7 + first as u32]],
        )
    });
    let many = lengths.map(of_many);
    let over = LIMIT as u32;
    let beside = over_long(SORTED, &[[1, 0, over], [0, 5, 5]]);
    let few = over_long(SORTED, &[[1, over, over + 1]]);
    one.chain(two).chain(many).chain([beside, few])
}

/// Pairs over a byte more than the limit.
fn over_long(dict: &[u8], pairs: &[Pair]) -> Input {
    let bytes = vec![0; LIMIT + 1];
    Input::pairs(dict.to_vec(), Pairs::of(&bytes, pairs))
}

/// Pairs that make an object of so many bytes: 60,000, of 270 bytes each and five for id and offset, in
/// no order, and one for the rest.
fn of_many(length: usize) -> Input {
    let (count, each) = (60_000, 270);
    let head = 1 + 4 + 2 * (count + 1) + 3 * (count + 2);
    let rest = (length - head - each * count) as u32;
    let mut pairs: Vec<Pair> = (0..count)
        .map(|index| [(index * 7 % count) as u32, 0, each as u32])
        .collect();
    pairs.push([count as u32, 0, rest]);
    let bytes = encode::binary(rest as usize);
    Input::pairs(
        dictionary(&numbered(count + 1), true),
        Pairs::of(&bytes, &pairs),
    )
}
