//! Paths: the documents' over a few values, every short one of telling bytes; generated ones of the
//! grammar's parts; and ones that are followed into generated trees, with damaged copies.

use crate::Input;
use crate::encode::{self, list, plain_object};
use crate::fixed::{OBJECT, SORTED, UNSORTED};
use crate::generate::name;
use crate::random::Random;
use crate::reading::ObjectParts;
use crate::reference::{is_container, names_of};
use crate::spelling::Step;
use crate::tree::children;
use crate::trees;
use lichenhusk::LIMIT;

/// A sorted dictionary of two names of a byte, so that a path has few.
const A_AND_B: &[u8] = b"\x11\x02\x00\x01\x02ab";

/// Those that are the same in every run: each path over each dictionary and value.
pub fn fixed() -> impl Iterator<Item = Input> {
    let refused: [&[u8]; 3] = [b"", b"\x02\x00\x00", b"\x01\x01\x00\x01\xFF"];
    let dicts = [A_AND_B, UNSORTED].into_iter().chain(refused);
    let texts = || READ.iter().chain(&REFUSED).copied();
    dicts.flat_map(move |dict| {
        values().into_iter().flat_map(move |value| {
            let input = move |text: &[u8]| Input::path(dict.to_vec(), value.clone(), text.to_vec());
            texts().map(input)
        })
    })
}

/// Paths that have steps, or none: the documents', and what is taken beside them.
const READ: [&[u8]; 47] = [
    b"",
    b"a",
    b"b",
    b"aa",
    b"a[0]",
    b"b[0]",
    b"b[1].b",
    b"a[0].b",
    b"a[1][0]",
    b"a.b",
    b"a.b.a",
    b"[0]",
    b"[1]",
    b"[2]",
    b"[0][0]",
    b"[1].a",
    b"[1]a",
    b"['a']",
    b"[\"b\"]",
    b"['']",
    b"['a.b']",
    b"['a\\]b']",
    b"['a]b']",
    b"['a\\\\b']",
    b"['a\\']",
    b"[\\'a\\']",
    b"['''']",
    b"['a\"']",
    b"['[']",
    b"a\\.b",
    b"a\\b",
    b"'a'",
    b" a ",
    b"\xC3\xA9",
    b"['\\\xC3\xA9']",
    b"[\\5]",
    b"[+5]",
    b"[+0]",
    b"[007]",
    b"[00]",
    b"[4294967295]",
    b"[4294967296]",
    b"[4294967297]",
    b"[18446744073709551615]",
    b"[00018446744073709551615]",
    b"a[4294967296]",
    b"site.meter[2]",
];

/// Paths that are refused, the first of several things that are wrong with them among others.
const REFUSED: [&[u8]; 44] = [
    b"\xFF",
    b"\xC3",
    b".\x80",
    b"[\x80",
    b"['\xED\xA0\x80']",
    b".",
    b".a",
    b"..",
    b".]",
    b"a.",
    b"[0].",
    b"[x].",
    b"a..",
    b"a..b",
    b"a.[0]",
    b"a.]",
    b"a].",
    b"]",
    b"a]",
    b"[0]]",
    b"[",
    b"a[",
    b"[1",
    b"[x",
    b"['a'",
    b"[\\]",
    b"['a\\]",
    b"[1\\",
    b"[\\",
    b"[]",
    b"[']",
    b"[\"]",
    b"['\"]",
    b"['a\"]",
    b"[a]",
    b"[+]",
    b"[++1]",
    b"[-0]",
    b"[-1]",
    b"[ 1]",
    b"[1 ]",
    b"[18446744073709551616]",
    b"[18446744073709551617]",
    b"[99999999999999999999999999999999999999999999]",
];

/// Values over two names, good and bad in the first layer or the second.
fn values() -> Vec<Vec<u8>> {
    let layers: [&[u8]; 17] = [
        b"",
        b"\x00",
        OBJECT,
        b"\x02",
        b"\x02\x00\x00",
        b"\x02\x01\x02\x00\x01\x00",
        b"\x02\x02\x01\x00\x00\x01\x02\x00\x00",
        b"\x02\x02\x00\x01\x00\x03\x02\x00\x00",
        b"\x02\x02\x00\x01\x00\x01\x01\x00",
        b"\x42\xFF\xFF\xFF\xFF",
        b"\x03\x00\x00",
        b"\x03\x02\x00\x01\x02\x00\x04",
        b"\x03\x02\x00\x00\x01\x00",
        b"\x03\x02\x00\x02\x01\x00\x00",
        b"\x03\x03\x00\x01\x03\x02\x00\x00\x00",
        b"\x03\x01",
        b"\x13\xFA\xFF\xFF\xFF",
    ];
    let layers = layers.map(<[u8]>::to_vec);
    let inner = layers.iter().flat_map(|layer| {
        let object = plain_object(&[0, 1], &[vec![0], layer.clone()]);
        let only = plain_object(&[1], &[list(&[layer.clone(), vec![0]])]);
        [
            [
                &plain_object(&[0], std::slice::from_ref(layer))[..],
                b"\xFF",
            ]
            .concat(),
            object,
            only,
            list(&[vec![4], layer.clone()]),
        ]
    });
    layers.iter().cloned().chain(inner).collect()
}

/// Bytes at which something changes in a path.
pub const TELLING: [u8; 11] = *b".[]'\"\\+-09a";

/// A value over [`UNSORTED`] with something at some of the paths of [`TELLING`] bytes: a null at `['']`
/// and a list of one null at `a`.
pub fn small() -> Vec<u8> {
    plain_object(&[2, 1], &[vec![0], list(&[vec![0]])])
}

/// A path over that value.
pub fn over_small(text: &[u8]) -> Input {
    Input::path(UNSORTED.to_vec(), small(), text.to_vec())
}

/// The characters of generated paths.
const LETTERS: [char; 22] = [
    '.', '.', '[', '[', ']', ']', '\'', '\'', '"', '\\', '+', '-', '0', '1', '9', ' ', 'a', 'b',
    'é', '€', '😀', '\0',
];

/// A path of steps in some spelling, or of characters at random.
pub fn written(random: &mut Random) -> Input {
    let text = match random.below(4) {
        0 => letters(random, 14),
        _ => {
            let steps: Vec<Step> = (0..random.below(5)).map(|_| step(random)).collect();
            spelled(random, &steps)
        }
    };
    over_small(text.as_bytes())
}

fn letters(random: &mut Random, most: usize) -> String {
    let length = random.below(most);
    (0..length).map(|_| random.pick(&LETTERS)).collect()
}

fn step(random: &mut Random) -> Step {
    match random.below(5) {
        0 | 1 => Step::Index(index(random)),
        2 => Step::Name(random.pick(&["a", "b", ""]).to_string()),
        3 => Step::Name(letters(random, 6)),
        _ => Step::Name(String::from_utf8(name(random)).expect("text")),
    }
}

/// An index: mostly small, or about where 32 and 64 bits end.
fn index(random: &mut Random) -> u64 {
    let around = random.below(4) as u64;
    match random.below(8) {
        0 => (1 << 32) - 2 + around,
        1 => u64::MAX - around,
        2 => random.bits(),
        _ => around,
    }
}

/// Steps in one of their spellings.
pub fn spelled(random: &mut Random, steps: &[Step]) -> String {
    let mut text = String::new();
    for step in steps {
        let name = match step {
            Step::Index(index) => {
                text += &number(random, *index);
                continue;
            }
            Step::Name(name) => name,
        };
        let is_plain = !name.is_empty() && !name.contains(['.', '[', ']']);
        if !is_plain || random.one_in(3) {
            text += &quoted(random, name);
            continue;
        }
        let may_be_bare = text.is_empty() || text.ends_with(']') && random.one_in(4);
        text += if may_be_bare { "" } else { "." };
        text += name;
    }
    text
}

/// A name in brackets, with backslashes where they must be and some where they may.
fn quoted(random: &mut Random, name: &str) -> String {
    let quote = random.pick(&["'", "\""]);
    let often = random.pick(&[2, 20, 1000]);
    format!(
        "[{}]",
        escaped(random, &[quote, name, quote].concat(), often)
    )
}

fn escaped(random: &mut Random, text: &str, often: usize) -> String {
    let mut escaped = String::new();
    for letter in text.chars() {
        if matches!(letter, ']' | '\\') || random.one_in(often) {
            escaped.push('\\');
        }
        escaped.push(letter);
    }
    escaped
}

/// A number in brackets: with a plus, with zeros, with backslashes.
fn number(random: &mut Random, number: u64) -> String {
    let plus = if random.one_in(8) { "+" } else { "" };
    let zeros = match random.one_in(8) {
        true => "0".repeat(random.below(24)),
        false => String::new(),
    };
    let often = random.pick(&[2, 1000, 1000, 1000]);
    format!(
        "[{}]",
        escaped(random, &format!("{plus}{zeros}{number}"), often)
    )
}

/// A copy of which a character or two, or a byte, is another.
pub fn miswritten(random: &mut Random, good: &Input) -> Input {
    let mut copy = good.clone();
    copy.path = good.path.as_deref().map(|text| miswrite(random, text));
    copy
}

fn miswrite(random: &mut Random, text: &[u8]) -> Vec<u8> {
    let mut text = text.to_vec();
    for _ in 0..random.between(1, 2) {
        let at = random.below(text.len() + 1);
        let to = (at + random.below(2)).min(text.len());
        let (to, put) = match random.below(12) {
            0 => (to, vec![random.byte()]),
            1 | 2 => (to, vec![]),
            3 => (text.len(), vec![]),
            4 => (to, past(random).into_bytes()),
            _ => (to, random.pick(&LETTERS).to_string().into_bytes()),
        };
        text.splice(at..to, put);
    }
    text
}

/// Digits of a number about 2 to the 64th, or far above it.
fn past(random: &mut Random) -> String {
    let number = (1_u128 << 64) - 3 + random.below(6) as u128;
    match random.one_in(4) {
        true => number.to_string().repeat(2),
        false => number.to_string(),
    }
}

/// A tree, and a path into it.
pub fn followed(random: &mut Random) -> Input {
    let input = trees::good(random);
    with_path(random, input)
}

/// The same of a larger tree.
pub fn larger(random: &mut Random) -> Input {
    let input = trees::larger(random);
    with_path(random, input)
}

fn with_path(random: &mut Random, input: Input) -> Input {
    let steps = along(
        random,
        &input.dict,
        input.tree.as_deref().unwrap_or_default(),
    );
    let text = spelled(random, &steps);
    Input {
        path: Some(text.into_bytes()),
        ..input
    }
}

/// Steps to somewhere in a value, the last of which now and then leads to nothing.
fn along(random: &mut Random, dict: &[u8], value: &[u8]) -> Vec<Step> {
    let names = names_of(dict);
    let mut steps = Vec::new();
    let mut part = value;
    while let Some((_, places)) = is_container(part).then(|| children(part)).flatten() {
        let stop = random.one_in(7);
        if stop || places.is_empty() {
            break;
        }
        let child = random.below(places.len());
        let ids = ObjectParts::of(part).filter(|_| part[0] & 1 == 0);
        let id = ids.and_then(|parts| parts.ids.number(part, child));
        steps.push(match id.and_then(|id| names.get(id)) {
            Some(name) => Step::Name(String::from_utf8_lossy(name).into_owned()),
            None => Step::Index(child as u64),
        });
        part = &part[places[child].clone()];
    }
    if random.one_in(4) {
        steps.push(step(random));
    }
    steps
}

/// A copy with a damage to the path, the dictionary or the tree.
pub fn damaged(random: &mut Random, good: &Input) -> Input {
    match random.one_in(3) {
        true => miswritten(random, good),
        false => trees::damaged(random, good),
    }
}

/// Values about the limit of length, an object with bytes after it and a list of a binary; and a
/// dictionary over the limit.
pub fn of_length() -> impl Iterator<Item = Input> {
    let about = [LIMIT - 1, LIMIT, LIMIT + 1].into_iter();
    let values = about.flat_map(|length| {
        let head = list(&[encode::binary(LIMIT / 2)]).len() - LIMIT / 2;
        let values = [
            padded(OBJECT, length),
            list(&[encode::binary(length - head)]),
        ];
        values.map(|value| Input::tree(SORTED.to_vec(), value))
    });
    let dict = Input::tree(padded(SORTED, LIMIT + 1), OBJECT.to_vec());
    values.chain([dict]).flat_map(|input| {
        [&b""[..], b"roll", b"[0]"].map(|text| Input {
            path: Some(text.to_vec()),
            ..input.clone()
        })
    })
}

/// Bytes with zeros after them, up to a length.
fn padded(bytes: &[u8], length: usize) -> Vec<u8> {
    let mut bytes = bytes.to_vec();
    bytes.resize(length, 0);
    bytes
}
