//! The id of a field that was found: by one call, by two, and by the Rust's two searches.

use crate::clock::{SAMPLES, medians};
use crate::rows::{Row, labelled};
use crate::sides::name;
use lichenhusk::{Found, WORDS_PER_FIELD};
use parquet_variant::{VariantMetadata, VariantObject};
use std::cell::RefCell;
use std::hint::black_box;

/// The rows of the first table that are taken, sorted and unsorted.
const TAKEN: [&str; 4] = ["1 field", "16 fields", "255 fields", "4,000 names, 1 field"];

/// Every line of the table.
pub fn taken() -> impl Iterator<Item = Row> {
    labelled(&TAKEN)
}

/// Nanoseconds by one call, by two, and by the Rust; of each name each finds the same id.
pub fn measured(row: &Row) -> [f64; 3] {
    let layer = lichenhusk::layer(&row.dict, &row.object).expect("a good row");
    let words = RefCell::new(vec![0; WORDS_PER_FIELD * layer.fields]);
    let twice = |turn| twice(row, turn, &mut words.borrow_mut());
    for turn in 0..row.names.len() {
        let id = once(row, turn);
        assert_eq!([twice(turn), searched(row, turn)], [id; 2], "{}", row.label);
    }
    medians(
        SAMPLES,
        [
            &|turn| _ = black_box(once(row, turn)),
            &|turn| _ = black_box(twice(turn)),
            &|turn| _ = black_box(searched(row, turn)),
        ],
    )
}

fn lookup(row: &Row, turn: usize) -> Found {
    let (dict, object) = (black_box(&row.dict), black_box(&row.object));
    let found = lichenhusk::lookup(dict, object, name(row, turn).as_bytes());
    found.expect("a good row").expect("a name that is there")
}

/// The lookup's answer has it.
fn once(row: &Row, turn: usize) -> u32 {
    lookup(row, turn).id
}

/// The lookup, and then a listing for the id of its field, as it was before the answer had it.
fn twice(row: &Row, turn: usize, words: &mut [u32]) -> u32 {
    let field = lookup(row, turn).field;
    let listed = lichenhusk::list_into(black_box(&row.dict), black_box(&row.object), words);
    listed.expect("a good row");
    words[WORDS_PER_FIELD * field]
}

/// The Rust's checks and `get`, and then its search for the name in the dictionary.
fn searched(row: &Row, turn: usize) -> u32 {
    let metadata = VariantMetadata::try_new(black_box(&row.dict)).expect("a good row");
    let object = VariantObject::try_new(metadata, black_box(&row.object)).expect("a good row");
    let name = name(row, turn);
    black_box(object.get(name));
    let entry = object.metadata.get_entry(name);
    entry.expect("a name that is there").0
}
