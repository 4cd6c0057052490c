//! A path followed into a value: ours against the Rust's reading of it and `get_path`.

use crate::clock::{SAMPLES, medians};
use crate::trees;
use differential::original::same_value;
use lichenhusk::{Reached, path};
use parquet_variant::{Variant, VariantMetadata, VariantPath};
use std::hint::black_box;

/// Paths into a value.
pub struct Row {
    /// What they are.
    pub label: String,
    /// The dictionary.
    pub dict: Vec<u8>,
    /// The value.
    pub value: Vec<u8>,
    /// The paths, in the order in which they are asked for, again and again.
    paths: Vec<String>,
}

/// The paths of a line: what they are, and the one of a number.
type Paths = (&'static str, fn(usize) -> String);

/// Paths into a message of three levels.
const INTO_MESSAGES: [Paths; 6] = [
    ("1 step", |k| {
        ["site", "zone", "battery", "time"][k % 4].to_string()
    }),
    ("2 steps", |k| format!("meter{}.flow", k % 10)),
    ("3 steps", |k| {
        format!("meter{}.readings[{}]", k % 10, k % 14)
    }),
    ("3 steps, quotes", |k| {
        format!("['meter{}'][\"readings\"][{}]", k % 10, k % 14)
    }),
    ("3 steps, backslashes", |k| {
        format!(r"['\m\e\t\e\r\{}']['\r\eadings'][\{}]", k % 10, k % 10)
    }),
    ("2 steps, absent", |k| format!("meter{}.none", k % 10)),
];

/// So many paths are asked for in turn.
const PATHS: usize = 256;

/// Every line of the table.
pub fn rows() -> impl Iterator<Item = Row> {
    let orders = [("3 levels, sorted", true), ("3 levels, unsorted", false)];
    let messages = orders.into_iter().flat_map(|(label, sorted)| {
        let message = trees::message(label, sorted);
        INTO_MESSAGES.map(|paths| row(&message, paths))
    });
    let integers = trees::list_of("10,000 integers", 10_000, 1, trees::integer);
    let readings = trees::list_of("1,000 objects", 1_000, 3, trees::reading);
    messages.chain([
        row(
            &integers,
            ("an index", |k| format!("[{}]", k * 37 % 10_000)),
        ),
        row(
            &readings,
            ("an index, a name", |k| format!("[{}].flow", k * 37 % 1_000)),
        ),
    ])
}

fn row(tree: &trees::Row, (label, path): Paths) -> Row {
    Row {
        label: format!("{}: {label}", tree.label),
        dict: tree.dict.clone(),
        value: tree.value.clone(),
        paths: (0..PATHS).map(path).collect(),
    }
}

/// A look that both sides find the same at each path, or nothing.
fn look(row: &Row) {
    let metadata = VariantMetadata::try_new(&row.dict).expect("a good dictionary");
    let read =
        |bytes| Variant::try_new_with_metadata(metadata.clone(), bytes).expect("a good value");
    let whole = read(&row.value);
    for text in &row.paths {
        let ours = path(&row.dict, &row.value, text).expect("good on our side too");
        let ours = ours.map(|Reached { bytes, .. }| read(bytes));
        let theirs = VariantPath::try_from(text.as_str()).expect("a good path");
        let is_same = match (ours, whole.get_path(&theirs)) {
            (Some(ours), Some(theirs)) => same_value(&ours, &theirs),
            (ours, theirs) => ours.is_none() && theirs.is_none(),
        };
        assert!(is_same, "{}: {text}", row.label);
    }
}

/// Nanoseconds of our call, of the Rust's with full validation, and of the Rust's shallow one.
pub fn measured(row: &Row) -> [f64; 3] {
    look(row);
    let bytes = || (black_box(&row.dict[..]), black_box(&row.value[..]));
    let text = |turn: usize| black_box(row.paths[turn % PATHS].as_str());
    let read = |turn| VariantPath::try_from(text(turn)).expect("a good path");
    medians(
        SAMPLES,
        [
            &|turn| {
                let (dict, value) = bytes();
                let _ = black_box(path(dict, value, text(turn)));
            },
            &|turn| {
                let (dict, value) = bytes();
                let value = Variant::try_new(dict, value).expect("a good row");
                black_box(value.get_path(&read(turn)));
            },
            &|turn| {
                let (dict, value) = bytes();
                let metadata = VariantMetadata::try_new(dict).expect("a good row");
                let value = Variant::new_with_metadata(metadata, value);
                black_box(value.get_path(&read(turn)));
            },
        ],
    )
}
