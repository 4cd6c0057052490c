//! Dictionaries that come in pieces: worked cases in several cuttings, with pieces of no bytes, in stores
//! about their length; every cutting of short ones; generated ones, cut anywhere, with damaged copies;
//! larger ones, and some about the limit of length.

use crate::cuts::Cuts;
use crate::damage::dictionary_damage;
use crate::encode;
use crate::exhaustive::{DICTIONARY_BYTES, DICTIONARY_HEADERS, each};
use crate::fixed::{SORTED, UNSORTED, WORKED_DICTIONARIES, one_name, padded, shape};
use crate::generate::{self, append_bytes};
use crate::random::Random;
use crate::{Input, LARGE, large};
use lichenhusk::LIMIT;

/// Those that are the same in every run: singly and whole, with pieces of no bytes about each, in every
/// room up to three bytes more than there are.
pub fn fixed() -> impl Iterator<Item = Input> {
    short().into_iter().flat_map(of_rooms).chain(at_widths())
}

/// Short dictionaries, good and bad: the worked ones, and some of each width, each with bytes after it.
fn short() -> Vec<Vec<u8>> {
    let names = [b"a".to_vec(), "é".into()];
    let wide = (1..=4).map(|width| encode::dictionary(&names, shape(width, width % 2 == 0)));
    let none = (2..=4).map(|width| encode::dictionary(&[], shape(width, true)));
    let worked = WORKED_DICTIONARIES.map(<[u8]>::to_vec).into_iter();
    let all = worked.chain([SORTED.to_vec(), UNSORTED.to_vec()]);
    let all = all.chain(wide).chain(none);
    all.map(|dict| [&dict[..], b"\xFFa"].concat()).collect()
}

/// A dictionary in single bytes and in one piece, each as it is and with pieces of no bytes, and none of it,
/// in every room.
fn of_rooms(dict: Vec<u8>) -> impl Iterator<Item = Input> {
    (0..dict.len() + 3).flat_map(move |room| {
        let of = |ends| Input::pieces(dict.clone(), Cuts::of(ends, room));
        let (singly, whole) = (of((1..=dict.len()).collect()), of(vec![dict.len()]));
        [apart(&singly), singly, apart(&whole), whole, of(vec![])]
    })
}

/// Dictionaries about the first length that takes three bytes, cut there.
fn at_widths() -> impl Iterator<Item = Input> {
    (LARGE - 1..=LARGE + 2).flat_map(|length| {
        let dict = one_name(length, shape(3, false));
        let ends = [5, 10, LARGE - 1, LARGE, LARGE + 1, LARGE + 2];
        let of = move |room| Input::pieces(dict.clone(), Cuts::of(ends, room));
        [length - 1, length, LARGE + 9].into_iter().map(of)
    })
}

/// The longest dictionary of which every cutting is tried, with a byte after it.
const LONGEST: usize = 14;

/// Every cutting of the short dictionaries, with pieces of no bytes and without, in stores that are too
/// short by a byte, just long enough and longer, until a visit fails.
pub fn each_cutting<E>(mut visit: impl FnMut(&Input) -> Result<(), E>) -> Result<(), E> {
    for dict in short().into_iter().filter(|dict| dict.len() <= LONGEST + 1) {
        // Two bytes come after it.
        let end = dict.len() - 2;
        let rooms = [end.saturating_sub(1), end, end + 2];
        cut(&dict[..=end], rooms, &mut |input| {
            visit(input)?;
            visit(&apart(input))
        })?;
    }
    Ok(())
}

/// The same pieces with one of no bytes before each, and one after the last.
fn apart(input: &Input) -> Input {
    let mut copy = input.clone();
    if let Some(cuts) = &mut copy.pieces {
        let ends = cuts.ends.iter().flat_map(|&end| [end, end]);
        cuts.ends = [0].into_iter().chain(ends).collect();
    }
    copy
}

/// Every cutting of every dictionary of so many telling bytes, in stores as long and a byte shorter and
/// longer, until a visit fails.
pub fn each_telling<E>(
    length: usize,
    mut visit: impl FnMut(&Input) -> Result<(), E>,
) -> Result<(), E> {
    each(length, &DICTIONARY_HEADERS, &DICTIONARY_BYTES, |dict| {
        let rooms = [length.saturating_sub(1), length, length + 1];
        cut(dict, rooms, &mut visit)
    })
}

/// Every cutting of a dictionary into pieces that have bytes, in each of some rooms.
fn cut<E>(
    dict: &[u8],
    rooms: [usize; 3],
    visit: &mut impl FnMut(&Input) -> Result<(), E>,
) -> Result<(), E> {
    let places = dict.len().saturating_sub(1);
    for cuts in 0..1_usize << places {
        let within = (1..=places).filter(|place| cuts >> (place - 1) & 1 == 1);
        let ends: Vec<usize> = within.chain([dict.len()]).collect();
        for room in rooms {
            let cuts = Cuts::of(ends.iter().copied(), room);
            visit(&Input::pieces(dict.to_vec(), cuts))?;
        }
    }
    Ok(())
}

/// A dictionary of names of many kinds, in any cutting, in a store of any length about its own.
pub fn good(random: &mut Random) -> Input {
    let (names, sorted) = generate::names(random);
    let mut dict = generate::dictionary_of(random, &names, sorted);
    if random.one_in(3) {
        append_bytes(random, &mut dict);
    }
    cut_anywhere(random, dict)
}

/// A large dictionary, in a few pieces.
pub fn larger(random: &mut Random) -> Input {
    let dict = large::dictionary(random);
    cut_anywhere(random, dict)
}

/// The longest dictionary that is cut into single bytes.
const SINGLY: usize = 600;

fn cut_anywhere(random: &mut Random, dict: Vec<u8>) -> Input {
    let length = dict.len();
    let mut ends: Vec<usize> = match random.below(8) {
        0 if length <= SINGLY => (1..=length).collect(),
        1 => vec![],
        _ => {
            let (count, about) = (random.pick(&[1, 2, 5, 12]), random.pick(&[8, length]));
            let place = |_| random.below(about.min(length) + 1);
            (0..count).map(place).collect()
        }
    };
    ends.sort();
    // Mostly all of it comes, and then a piece of no bytes.
    if !random.one_in(6) {
        ends.extend([length, length]);
    }
    let room = random.pick(&[
        length,
        length,
        length + 1,
        length + 40,
        length.saturating_sub(1),
    ]);
    let room = if random.one_in(5) {
        random.below(length + 1)
    } else {
        room
    };
    Input::pieces(dict, Cuts::of(ends, room))
}

/// A copy with a damage or two to the dictionary, cut in the same places.
pub fn damaged(random: &mut Random, good: &Input) -> Input {
    let mut copy = good.clone();
    for _ in 0..random.between(1, 2) {
        dictionary_damage(random, &mut copy.dict);
    }
    copy
}

/// Dictionaries of about as many bytes as the limit, in stores about it: of one name, and with bytes after
/// the end.
pub fn of_length() -> impl Iterator<Item = Input> {
    let ends = [5, LIMIT - 1, LIMIT, LIMIT, LIMIT + 1];
    let one = [
        (LIMIT, LIMIT - 1),
        (LIMIT, LIMIT),
        (LIMIT, LIMIT + 10),
        (LIMIT + 1, LIMIT),
        (LIMIT + 1, LIMIT + 10),
    ];
    let one = one.into_iter().map(move |(length, room)| {
        let dict = one_name(length, shape(4, false));
        Input::pieces(dict, Cuts::of(ends, room))
    });
    let after = [LIMIT - 1, LIMIT + 1].into_iter().map(|end| {
        let dict = padded(SORTED, LIMIT + 1);
        Input::pieces(dict, Cuts::of([12, end, LIMIT + 1], LIMIT + 10))
    });
    one.chain(after)
}
