//! UTF-8 alone: a dictionary of one long name, against the library's check of that name's bytes.

use crate::clock::{SAMPLES, medians};
use crate::rows::{letter, three_byte, two_byte};
use differential::encode::{DictionaryShape, dictionary};
use differential::random::Random;
use lichenhusk::Refusal;
use std::hint::black_box;
use std::str::from_utf8;

/// One line of the table.
pub struct Text {
    /// What it is.
    pub label: &'static str,
    /// The name's bytes.
    name: Vec<u8>,
    /// The dictionary that has it alone.
    pub dict: Vec<u8>,
}

/// How many bytes the name has.
const LENGTH: usize = 60_000;

/// Every line of the table.
pub fn texts() -> Vec<Text> {
    vec![
        of("plain bytes", bytes(plain)),
        of(
            "a 2-byte character in every 16 bytes",
            bytes(one_in_sixteen),
        ),
        of("2-byte characters after 1 to 6 letters", bytes(short_runs)),
        of("3-byte characters", bytes(three_bytes)),
        of(
            "3-byte characters, the last one cut",
            cut(bytes(three_bytes)),
        ),
    ]
}

/// Nanoseconds of our check of the dictionary, and of the library's check of the name. Both take
/// it, or both find it cut at the same place.
pub fn measured(text: &Text) -> [f64; 2] {
    let ours = lichenhusk::dictionary(&text.dict).err();
    let library = from_utf8(&text.name).err().map(|error| {
        assert_eq!(error.error_len(), None, "{}", text.label);
        let prefix = error.valid_up_to() as u32;
        Refusal::DictionaryTextCut { prefix }
    });
    assert_eq!(ours, library, "{}", text.label);
    medians(
        SAMPLES,
        [
            &|_| {
                let _ = black_box(lichenhusk::dictionary(black_box(&text.dict)));
            },
            &|_| {
                let _ = black_box(from_utf8(black_box(&text.name)));
            },
        ],
    )
}

/// A name and the dictionary that has it alone.
fn of(label: &'static str, name: Vec<u8>) -> Text {
    let shape = DictionaryShape {
        width: 2,
        sorted: false,
        spare: false,
    };
    let dict = dictionary(std::slice::from_ref(&name), shape);
    Text { label, name, dict }
}

/// A name without its last byte.
fn cut(mut name: Vec<u8>) -> Vec<u8> {
    name.pop();
    name
}

/// Parts one after another, and letters to the end.
fn bytes(part: fn(&mut Random) -> String) -> Vec<u8> {
    let random = &mut Random::seeded(LENGTH as u64);
    let mut name = part(random);
    loop {
        let next = part(random);
        if LENGTH < name.len() + next.len() {
            break;
        }
        name += &next;
    }
    name.extend((name.len()..LENGTH).map(|_| letter(random)));
    name.into_bytes()
}

fn letters(random: &mut Random, count: usize) -> String {
    (0..count).map(|_| letter(random)).collect()
}

fn plain(random: &mut Random) -> String {
    letters(random, 1)
}

fn one_in_sixteen(random: &mut Random) -> String {
    format!("{}{}", letters(random, 14), two_byte(random))
}

fn short_runs(random: &mut Random) -> String {
    let count = 1 + random.below(6);
    format!("{}{}", letters(random, count), two_byte(random))
}

fn three_bytes(random: &mut Random) -> String {
    three_byte(random).into()
}
