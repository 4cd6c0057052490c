//! All fields of one message: our listing, against the Rust's checks and its walk over the fields.

use crate::clock::medians;
use crate::large::samples;
use crate::rows::Asked::Present;
use crate::rows::Fields::All;
use crate::rows::Names::Letters;
use crate::rows::Order::{Shuffled, Sorted};
use crate::rows::{Kind, Row, row};
use lichenhusk::WORDS_PER_FIELD;
use parquet_variant::{Variant, VariantMetadata, VariantObject};
use std::cell::RefCell;
use std::hint::black_box;

/// The messages of the table.
pub const SMALLER: [Kind; 3] = [
    ("16 fields", 16, Letters, All, Present),
    ("255 fields", 255, Letters, All, Present),
    ("16,000 fields", 16_000, Letters, All, Present),
];

/// The messages of a table of their own: an archive whose listing takes a time that grows with the
/// square of the fields needs minutes for one call.
pub const LARGEST: [Kind; 1] = [("500,000 fields", 500_000, Letters, All, Present)];

/// The messages of kinds, sorted and unsorted.
pub fn messages(kinds: &[Kind]) -> impl Iterator<Item = Row> {
    let both = |&kind| [Sorted, Shuffled].map(|order| row(kind, order));
    kinds.iter().flat_map(both)
}

/// Nanoseconds of our listing, of the Rust's checks and walk, and of our layer, which is the listing
/// without the children; after a look that both sides have the same fields.
pub fn measured(row: &Row) -> [f64; 3] {
    let fields = alike(row);
    let words = RefCell::new(vec![0; WORDS_PER_FIELD * fields]);
    medians(
        samples(row),
        [
            &|_| ours(row, &mut words.borrow_mut()),
            &|_| theirs(row),
            &|_| layer(row),
        ],
    )
}

/// One call, which fills words that are lent.
fn ours(row: &Row, words: &mut [u32]) {
    let (dict, object) = (black_box(&row.dict), black_box(&row.object));
    let _ = black_box(lichenhusk::list_into(dict, object, words));
    black_box(words);
}

/// The Rust's checks, and its walk over names and values.
fn theirs(row: &Row) {
    let metadata = VariantMetadata::try_new(black_box(&row.dict)).expect("a good row");
    let object = VariantObject::try_new(metadata, black_box(&row.object)).expect("a good row");
    for field in object.iter() {
        black_box(field);
    }
}

fn layer(row: &Row) {
    let (dict, object) = (black_box(&row.dict), black_box(&row.object));
    let _ = black_box(lichenhusk::layer(dict, object));
}

/// How many fields a row has, after a look that each is the same on both sides: its name, by our id,
/// and its value, by our child. The children lie without gaps, so that document 01's rule for spans
/// lists the same.
fn alike(row: &Row) -> usize {
    let metadata = VariantMetadata::try_new(&row.dict).expect("a good dictionary");
    let object = VariantObject::try_new(metadata.clone(), &row.object).expect("a good object");
    let ours = lichenhusk::list(&row.dict, &row.object).expect("good on our side too");
    assert_eq!(ours.len(), object.len(), "{}", row.label);
    for (field, theirs) in ours.iter().zip(object.iter()) {
        let name = metadata.get(field.id as usize).expect("an entry");
        let value = Variant::try_new_with_metadata(metadata.clone(), field.child);
        assert_eq!(
            (name, value.expect("a good child")),
            theirs,
            "{}",
            row.label
        );
    }
    ours.len()
}
