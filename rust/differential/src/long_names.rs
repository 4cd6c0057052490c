//! Long names, where a check that takes many bytes at once could go wrong: plain but for a place or
//! two, plain but for four bytes, of longer characters with one byte changed, cut inside a
//! character, and two or nine that begin alike.

use crate::Input;
use crate::encode::{DictionaryShape, dictionary, plain_object};
use std::collections::BTreeSet;

/// What stands in a plain name: characters of each length, and bytes that are none.
const OTHERS: [&[u8]; 9] = [
    b"\x7F",
    b"\x80",
    b"\xBF",
    b"\xFF",
    b"\xC3",
    b"\xC3\xA9",
    b"\xE2\x82",
    b"\xE2\x82\xAC",
    b"\xF0\x9F\x98\x80",
];

/// The plain bytes before, between and after are at most so many: more than a block each.
const MOST: usize = 100;

/// Both ends of each range of bytes in RFC 3629's table.
const ENDS: [u8; 23] = [
    0x00, 0x7F, 0x80, 0x8F, 0x90, 0x9F, 0xA0, 0xBF, 0xC0, 0xC1, 0xC2, 0xDF, 0xE0, 0xE1, 0xEC, 0xED,
    0xEE, 0xEF, 0xF0, 0xF1, 0xF3, 0xF4, 0xF5,
];

/// Plain bytes before four such ones and after them: the four stand at the text's start, across the
/// border of the first two blocks, and at the text's end.
const AROUND: [(usize, usize); 3] = [(0, 80), (65, 75), (90, 0)];

/// What names of longer characters are made of.
const LONGER: [&str; 5] = ["é", "€", "😀", "aé", "aé€😀"];

/// What stands in place of one of their bytes.
const CHANGES: [u8; 7] = [b'a', 0x80, 0xBF, 0xC3, 0xE2, 0xF0, 0xFF];

/// Plain bytes before the beginning of a character: it stands alone, or at the end of a name that
/// is just short of a block or just has one.
const BEFORE: [usize; 2] = [0, 65];

/// How names end that begin alike.
const TAILS: [&str; 9] = [
    "",
    "a",
    "b",
    "\u{7F}",
    "é",
    "ab",
    "abcdefgh",
    "abcdefgz",
    "abcdefghi",
];

/// The bytes in common are at most so many: five words of eight.
const COMMON: usize = 40;

/// Calls a function with the dictionary of each name that is plain but for a place or two, until it
/// fails.
pub fn plain<E>(mut visit: impl FnMut(&[u8]) -> Result<(), E>) -> Result<(), E> {
    for first in 0..=MOST {
        for second in 0..=MOST {
            for other in OTHERS {
                let (before, after) = (vec![b'a'; first], vec![b'z'; second]);
                visit(&of_one(&[&before, other, &after].concat()))?;
                visit(&of_one(&[&before, "é".as_bytes(), &after, other].concat()))?;
            }
        }
    }
    Ok(())
}

/// The same with each name that is plain but for four bytes.
pub fn fours<E>(mut visit: impl FnMut(&[u8]) -> Result<(), E>) -> Result<(), E> {
    for (before, after) in AROUND {
        let mut name = vec![b'a'; before + 4 + after];
        for number in 0..ENDS.len().pow(4) {
            for (power, byte) in (0..).zip(&mut name[before..before + 4]) {
                *byte = ENDS[number / ENDS.len().pow(power) % ENDS.len()];
            }
            visit(&of_one(&name))?;
        }
    }
    Ok(())
}

/// The same with each name of longer characters, one or two blocks long and cut at any byte, in
/// which one byte is changed or none.
pub fn longer<E>(mut visit: impl FnMut(&[u8]) -> Result<(), E>) -> Result<(), E> {
    for characters in LONGER {
        let text = characters.repeat(MOST).into_bytes();
        for length in (64..=72).chain(128..=136) {
            visit(&of_one(&text[..length]))?;
            for place in 0..length {
                for change in CHANGES {
                    let mut name = text[..length].to_vec();
                    name[place] = change;
                    visit(&of_one(&name))?;
                }
            }
        }
    }
    Ok(())
}

/// The same with each name that ends with a proper beginning of a character, all beginnings of all
/// characters, and with some byte after it, which mostly does not fit.
pub fn cut<E>(mut visit: impl FnMut(&[u8]) -> Result<(), E>) -> Result<(), E> {
    for before in BEFORE {
        for beginning in beginnings() {
            let mut name = [&vec![b'a'; before], &beginning[..]].concat();
            visit(&of_one(&name))?;
            name.push(0);
            for after in CHANGES {
                *name.last_mut().expect("it was pushed") = after;
                visit(&of_one(&name))?;
            }
        }
    }
    Ok(())
}

/// Every proper beginning of a character, once.
pub fn beginnings() -> BTreeSet<Vec<u8>> {
    let mut all = BTreeSet::new();
    for character in '\u{80}'..=char::MAX {
        let mut bytes = [0; 4];
        let bytes = character.encode_utf8(&mut bytes).as_bytes();
        for length in 1..bytes.len() {
            if !all.contains(&bytes[..length]) {
                all.insert(bytes[..length].to_vec());
            }
        }
    }
    all
}

/// The same with two names that begin alike, in either order, sorted or not, and objects that have
/// both as fields, in either order.
pub fn alike<E>(mut visit: impl FnMut(&Input) -> Result<(), E>) -> Result<(), E> {
    let common = common();
    let child = vec![0x0C, 1];
    let pairs = TAILS.iter().flat_map(|one| TAILS.map(|other| (one, other)));
    for (one, other) in pairs.filter(|(one, other)| *one != other) {
        for length in 0..=COMMON {
            let names = [one, other].map(|tail| [&common[..length], tail].concat().into_bytes());
            for sorted in [true, false] {
                for ids in [[0, 1], [1, 0]] {
                    let shape = DictionaryShape {
                        width: 1,
                        sorted,
                        spare: false,
                    };
                    let object = plain_object(&ids, &[child.clone(), child.clone()]);
                    visit(&Input::object(dictionary(&names, shape), object))?;
                }
            }
        }
    }
    Ok(())
}

/// The same with nine names that begin alike, sorted and backwards, and objects that have each set
/// of them as fields.
pub fn sets<E>(mut visit: impl FnMut(&Input) -> Result<(), E>) -> Result<(), E> {
    let common = common();
    for length in 0..=COMMON {
        let mut names = TAILS.map(|tail| [&common[..length], tail].concat().into_bytes());
        for sorted in [true, false] {
            names.sort();
            if !sorted {
                names.reverse();
            }
            let shape = DictionaryShape {
                width: 2,
                sorted,
                spare: false,
            };
            for set in 0..1 << TAILS.len() {
                let mut ids: Vec<usize> =
                    (0..TAILS.len()).filter(|id| set >> id & 1 == 1).collect();
                ids.sort_by_key(|&id| &names[id]);
                let object = plain_object(&ids, &vec![vec![0x0C, 1]; ids.len()]);
                visit(&Input::object(dictionary(&names, shape), object))?;
            }
        }
    }
    Ok(())
}

/// The bytes that names have in common, of which some are taken.
fn common() -> String {
    ('a'..='z').cycle().take(COMMON).collect()
}

/// The dictionary of one name.
fn of_one(name: &[u8]) -> Vec<u8> {
    let shape = DictionaryShape {
        width: 1,
        sorted: false,
        spare: false,
    };
    dictionary(&[name.to_vec()], shape)
}
