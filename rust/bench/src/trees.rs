//! A whole tree: our check against the Rust's full validation.

use crate::clock::{SAMPLES, medians};
use crate::large::{FEW_SAMPLES, MANY_BYTES};
use differential::encode::{DictionaryShape, dictionary, list, plain_object};
use differential::random::Random;
use parquet_variant::Variant;
use std::hint::black_box;

/// A tree over a dictionary.
pub struct Row {
    /// What it is.
    pub label: &'static str,
    /// The dictionary.
    pub dict: Vec<u8>,
    /// The value.
    pub value: Vec<u8>,
    /// How many values are in it, itself among them.
    pub values: usize,
}

/// Every line of the table.
pub fn rows() -> impl Iterator<Item = Row> {
    let rows: [fn() -> Row; 7] = [
        || message("a message of 3 levels, sorted", true),
        || message("a message of 3 levels, unsorted", false),
        || list_of("a list of 10,000 integers", 10_000, 1, integer),
        || {
            list_of(
                "a list of 10,000 short strings and doubles",
                10_000,
                1,
                mixed,
            )
        },
        || list_of("a list of 1,000 objects of two fields", 1_000, 3, reading),
        || list_of("a list of 100,000 integers", 100_000, 1, integer),
        || list_of("a list of 2,000,000 integers", 2_000_000, 1, integer),
    ];
    rows.into_iter().map(|row| row())
}

/// The names of a message, in order.
const NAMES: [&str; 24] = [
    "battery", "count", "firmware", "flow", "meter0", "meter1", "meter2", "meter3", "meter4",
    "meter5", "meter6", "meter7", "meter8", "meter9", "power", "readings", "serial", "signal",
    "site", "status", "tariff", "time", "unit", "zone",
];

/// Where a name is in a dictionary.
fn id(names: &[&str], name: &str) -> usize {
    names
        .iter()
        .position(|&other| other == name)
        .expect("a name")
}

/// An object of fields, in the order of their names.
fn object(names: &[&str], mut fields: Vec<(&str, Vec<u8>)>) -> Vec<u8> {
    fields.sort_by_key(|(name, _)| *name);
    let ids: Vec<usize> = fields.iter().map(|(name, _)| id(names, name)).collect();
    let children: Vec<Vec<u8>> = fields.into_iter().map(|(_, child)| child).collect();
    plain_object(&ids, &children)
}

fn short(text: &str) -> Vec<u8> {
    [&[(text.len() as u8) << 2 | 1], text.as_bytes()].concat()
}

fn double(number: f64) -> Vec<u8> {
    [&[7 << 2][..], &number.to_le_bytes()].concat()
}

fn long(number: i64) -> Vec<u8> {
    [&[6 << 2][..], &number.to_le_bytes()].concat()
}

/// A site with nine values of its own and ten meters, each with three and a list of fourteen
/// readings: 200 values.
pub fn message(label: &'static str, sorted: bool) -> Row {
    let mut names = NAMES;
    if !sorted {
        names.rotate_left(NAMES.len() / 2);
    }
    let meter = |number: usize| {
        let readings: Vec<Vec<u8>> = (0..14).map(|k| integer(number + k)).collect();
        object(
            &names,
            vec![
                ("serial", long(4_000_000_000 + number as i64)),
                ("unit", short("m3/h")),
                ("flow", double(number as f64 * 1.25)),
                ("readings", list(&readings)),
            ],
        )
    };
    let mut fields = vec![
        ("battery", vec![3 << 2, 87]),
        ("count", vec![3 << 2, 10]),
        ("firmware", short("v12.4.1-rc3")),
        ("power", double(229.7)),
        ("signal", vec![3 << 2, 0xC4]),
        ("site", short("Waterworks North, hall 7")),
        ("status", vec![1 << 2]),
        (
            "time",
            [&[12 << 2][..], &1_780_000_000_000_000_i64.to_le_bytes()].concat(),
        ),
        ("zone", short("Europe/Berlin")),
    ];
    fields.extend((0..10).map(|number| (NAMES[4 + number], meter(number))));
    let bytes: Vec<Vec<u8>> = names.iter().map(|name| name.as_bytes().to_vec()).collect();
    let shape = DictionaryShape {
        width: 1,
        sorted,
        spare: false,
    };
    Row {
        label,
        dict: dictionary(&bytes, shape),
        value: object(&names, fields),
        values: 200,
    }
}

/// An integer of 32 bits.
pub fn integer(number: usize) -> Vec<u8> {
    let number = 0x0123_4567_u32.wrapping_mul(number as u32);
    [&[5 << 2][..], &number.to_le_bytes()].concat()
}

/// A short string of 4 to 19 letters, or a double, in no order.
fn mixed(number: usize) -> Vec<u8> {
    let mut random = Random::seeded(number as u64);
    match random.one_in(2) {
        true => double(random.below(1_000_000) as f64 / 64.0),
        false => {
            let letters = random.between(4, 19);
            let text: String = (0..letters)
                .map(|_| (b'a' + random.below(26) as u8) as char)
                .collect();
            short(&text)
        }
    }
}

/// A time and a flow, by the first two names.
pub fn reading(number: usize) -> Vec<u8> {
    plain_object(
        &[0, 1],
        &[long(1_780_000_000 + number as i64), double(number as f64)],
    )
}

/// A list of elements, each of which is so many values.
pub fn list_of(
    label: &'static str,
    count: usize,
    of_each: usize,
    element: fn(usize) -> Vec<u8>,
) -> Row {
    let elements: Vec<Vec<u8>> = (0..count).map(element).collect();
    Row {
        label,
        dict: b"\x11\x02\x00\x04\x08flowtime".to_vec(),
        value: list(&elements),
        values: 1 + of_each * count,
    }
}

/// Nanoseconds of our check and of the Rust's; after a look that both accept.
pub fn measured(row: &Row) -> [f64; 2] {
    let ours = lichenhusk::check_tree(&row.dict, &row.value);
    assert_eq!(ours, Ok(row.value.len()), "{}", row.label);
    assert!(
        Variant::try_new(&row.dict, &row.value).is_ok(),
        "{}",
        row.label
    );
    let samples = match row.value.len() > MANY_BYTES {
        true => FEW_SAMPLES,
        false => SAMPLES,
    };
    let bytes = || (black_box(&row.dict[..]), black_box(&row.value[..]));
    medians(
        samples,
        [
            &|_| {
                let (dict, value) = bytes();
                let _ = black_box(lichenhusk::check_tree(dict, value));
            },
            &|_| {
                let (dict, value) = bytes();
                let _ = black_box(Variant::try_new(dict, value));
            },
        ],
    )
}
