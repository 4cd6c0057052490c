//! Names to write dictionaries of: worked cases, every row of few names out of seven, every short run of
//! telling bytes with every row of few ends; generated ones, in any order and some more than once, with
//! damaged copies; larger ones, and some about the limit of length.

use crate::Input;
use crate::generate::{append_bytes, name};
use crate::given::Given;
use crate::random::Random;
use lichenhusk::LIMIT;

/// Those that are the same in every run.
pub fn fixed() -> impl Iterator<Item = Input> {
    let taken = TAKEN.into_iter().map(Given::of);
    let refused = REFUSED.map(|(run, ends)| given(run, ends));
    taken.chain(refused).chain(at_widths()).map(Input::names)
}

fn given(run: &[u8], ends: &[u32]) -> Given {
    Given {
        run: run.to_vec(),
        ends: ends.to_vec(),
    }
}

/// Names that are written: none, one, sorted and not, more than once; what is short and what begins
/// alike; of characters of every length, about where the order of bytes is another than that of 16-bit
/// units.
const TAKEN: [&[&str]; 20] = [
    &[],
    &[""],
    &["", ""],
    &["a"],
    &["a", "a"],
    &["a", "a", "a", "a"],
    &["flow", "roll"],
    &["roll", "flow"],
    &["roll", "flow", "roll"],
    &["a", ""],
    &["", "a", ""],
    &["b", "ab", "a"],
    &["ab", "b", "abc", "a", "ab"],
    &["c", "b", "a"],
    &["b", "c", "a", "c", "b"],
    &["é", "z", "\0", "e"],
    &[
        "\u{10000}",
        "\u{FFFF}",
        "\u{E000}",
        "\u{D7FF}",
        "\u{7F}",
        "\u{80}",
    ],
    &["abcdefgh", "abcdefghi", "abcdefgi", "abcdefg"],
    &["abcdefghijklmnop", "abcdefghijklmnoq", "abcdefghijklmno"],
    &["meter1", "meter10", "meter2", "meter", "meter1"],
];

/// Names that are refused, and some that are not for all that: bytes after the last end are no name's.
const REFUSED: [(&[u8], &[u32]); 24] = [
    (b"", &[1]),
    (b"", &[0, 1]),
    (b"", &[u32::MAX]),
    (b"ab", &[1, 0]),
    (b"ab", &[2, 1]),
    (b"ab", &[1, 3]),
    (b"ab", &[3, 1]),
    (b"ab", &[1, 2, 1]),
    (b"ab", &[2, 1, 0]),
    (b"ab", &[9, 1, 0]),
    (b"\xFF", &[1]),
    (b"\xC3", &[0, 1]),
    (b"a\x80", &[1, 2]),
    (b"\xC3\xA9", &[1, 2]),
    (b"\xC3\xA9", &[2, 1]),
    (b"a\xC3\xA9b", &[1, 2, 4]),
    (b"a\xFFb", &[1, 2, 1]),
    (b"a\xFFb", &[1, 0, 2]),
    (b"a\xFFb\xFE", &[1, 2, 3, 4]),
    (b"\xED\xA0\x80", &[0, 3]),
    (b"\xF4\x90\x80\x80", &[4]),
    (b"\xFF", &[]),
    (b"\xFF", &[0]),
    (b"ba\xC3", &[1, 2]),
];

/// Names whose total is about where a width ends: one, two, many; and as many of them.
fn at_widths() -> impl Iterator<Item = Given> {
    let totals = [254, 255, 256, 257, 65_534, 65_535, 65_536, 65_537];
    let by_total = totals.into_iter().flat_map(|total| {
        let long = "x".repeat(total);
        let (begin, end) = long.split_at(total / 3);
        [
            Given::of(&[&long]),
            Given::of(&[&long, &long]),
            Given::of(&[end, begin, "", begin]),
        ]
    });
    let counts = [255, 256, 257, 65_535, 65_536, 65_537].into_iter();
    let by_count = counts.map(|count| Given::of(&numbered(count)));
    let shortest = [128, 192, 193, 255].into_iter();
    by_total
        .chain(by_count)
        .chain(shortest.map(|count| Given::of(&short(count))))
}

/// So many names of five letters, in no order.
fn numbered(count: usize) -> Vec<String> {
    let number = |index: usize| format!("{:05x}", index * 7 % count);
    // No number of those that are asked has the factor 7.
    (0..count).map(number).collect()
}

/// So many different names of as few bytes as there can be.
fn short(count: usize) -> Vec<Vec<u8>> {
    let ones = (0..128).map(|byte| vec![byte]);
    let twos = (0..128).map(|byte| vec![b'~', byte]);
    let names = [vec![]].into_iter().chain(ones).chain(twos);
    names.take(count).collect()
}

/// Names that are alike: of no bytes, beginnings of one another, with a character of two bytes.
const ALIKE: [&str; 7] = ["", "a", "aa", "ab", "b", "aé", "é"];

/// The most of them in a row.
const LONGEST_ROW: u32 = 5;

/// Every row of few of these names, in every order and with every repeat, until a visit fails.
pub fn each_row<E>(mut visit: impl FnMut(&Input) -> Result<(), E>) -> Result<(), E> {
    let choices = ALIKE.len();
    for length in 0..=LONGEST_ROW {
        for row in 0..choices.pow(length) {
            let name = |place: u32| ALIKE[row / choices.pow(place) % choices];
            let names: Vec<&str> = (0..length).map(name).collect();
            visit(&Input::names(Given::of(&names)))?;
        }
    }
    Ok(())
}

/// Bytes at which something changes in a name: letters, and a character's halves.
pub const TELLING: [u8; 4] = [b'a', b'b', 0xC3, 0xA9];

/// The most names of a telling run.
const MOST_NAMES: usize = 3;

/// A run with every row of few ends, each of them up to one past the run, until a visit fails.
pub fn each_ends<E>(run: &[u8], mut visit: impl FnMut(&Given) -> Result<(), E>) -> Result<(), E> {
    let above = run.len() + 2;
    for count in 0..=MOST_NAMES {
        for row in 0..above.pow(count as u32) {
            let end = |place: usize| (row / above.pow(place as u32) % above) as u32;
            let ends: Vec<u32> = (0..count).map(end).collect();
            visit(&given(run, &ends))?;
        }
    }
    Ok(())
}

/// Names in any order, some of them more than once; once in a while bytes follow them.
pub fn good(random: &mut Random) -> Input {
    let count = match random.below(2000) {
        0 => random.between(500, 1500),
        1..=10 => random.between(254, 258),
        11..=100 => random.between(10, 60),
        _ => random.below(8),
    };
    of_count(random, count)
}

/// Names of which there are thousands, or which are long.
pub fn larger(random: &mut Random) -> Input {
    match random.below(4) {
        0 => {
            let names: Vec<String> = (0..random.between(1, 6)).map(|_| long(random)).collect();
            handed(random, &names)
        }
        _ => {
            let count = random.between(1_500, 6_000);
            of_count(random, count)
        }
    }
}

/// A name of thousands of letters, which mostly begins as others do.
fn long(random: &mut Random) -> String {
    let letter = random.pick(&["x", "x", "y", "é", "😀"]);
    let mut text = letter.repeat(random.between(1_000, 40_000));
    text.push(random.pick(&['a', 'b', 'é']));
    text
}

fn of_count(random: &mut Random, count: usize) -> Input {
    let prefix = if random.one_in(6) {
        name(random)
    } else {
        vec![]
    };
    let again = random.pick(&[2, 5, 1000]);
    let mut names: Vec<Vec<u8>> = Vec::with_capacity(count);
    for _ in 0..count {
        names.push(match names.len() {
            held @ 1.. if random.one_in(again) => names[random.below(held)].clone(),
            _ => [&prefix[..], &name(random)].concat(),
        });
    }
    match random.below(4) {
        0 => names.sort(),
        1 => names.sort_by(|a, b| b.cmp(a)),
        _ => {}
    }
    handed(random, &names)
}

/// Names as they are, with bytes after them once in four times.
fn handed(random: &mut Random, names: &[impl AsRef<[u8]>]) -> Input {
    let mut given = Given::of(names);
    if random.one_in(4) {
        append_bytes(random, &mut given.run);
    }
    Input::names(given)
}

/// A copy with one or two damages to the run or to the ends.
pub fn damaged(random: &mut Random, good: &Input) -> Input {
    let mut copy = good.clone();
    if let Some(given) = &mut copy.names {
        for _ in 0..random.between(1, 2) {
            damage(random, given);
        }
    }
    copy
}

fn damage(random: &mut Random, Given { run, ends }: &mut Given) {
    let length = run.len() as u32;
    if !ends.is_empty() && random.one_in(2) {
        let (at, other) = (random.below(ends.len()), random.below(ends.len()));
        match random.below(6) {
            0 => ends.swap(at, other),
            1 => ends[at] = ends[other],
            2 => drop(ends.remove(at)),
            3 => ends[at] = ends[at].wrapping_sub(1),
            4 => ends[at] = ends[at].saturating_add(1),
            _ => ends[at] = random.pick(&[0, length, length + 1, u32::MAX]),
        }
        return;
    }
    let at = random.below(run.len() + 1);
    match (random.below(4), run.get_mut(at)) {
        (0, Some(byte)) => *byte = random.pick(&[b'a', 0x80, 0xC3, 0xE2, 0xF0, 0xFF]),
        (1, Some(byte)) => *byte ^= 1 << random.below(8),
        (2, Some(_)) => drop(run.remove(at)),
        _ => run.insert(at, random.pick(&[b'b', 0xA9, 0xC3])),
    }
}

/// Names whose dictionary has about as many bytes as the limit: one, two that are given twice; ones that
/// pass it, of which the last is no text, or its end falls; and very many.
pub fn of_length() -> impl Iterator<Item = Input> {
    let lengths = [LIMIT - 1, LIMIT, LIMIT + 1].into_iter();
    let one = lengths.clone().map(|length| {
        let head = 1 + 3 * 3;
        Given::of(&["x".repeat(length - head)])
    });
    let two = lengths.clone().map(|length| {
        let head = 1 + 4 * 3;
        let long = "x".repeat(length - head - 1);
        Given::of(&[&long, "a", &long, "a"])
    });
    let many = lengths.skip(1).map(|length| Given::of(&of_many(length)));
    let over = || Given::of(&["x".repeat(LIMIT)]);
    let mut no_text = over();
    no_text.run.push(0xFF);
    no_text.ends.push(LIMIT as u32 + 1);
    let mut falls = over();
    falls.ends.push(LIMIT as u32 - 1);
    one.chain(two)
        .chain([no_text, falls])
        .chain(many)
        .map(Input::names)
}

/// Names that make a dictionary of so many bytes: numbered ones, of 80 bytes each and three for an
/// offset, in no order, and one for the rest.
fn of_many(length: usize) -> Vec<String> {
    let (head, each) = (1 + 3 * 3, 80 + 3);
    let count = (length - head) / each - 1;
    let rest = length - head - each * count;
    let mut names: Vec<String> = (0..count)
        .map(|index| format!("{:_<74}{:06}", "station_meter_reading", index * 7 % count))
        .collect();
    names.push("x".repeat(rest));
    names
}
