//! Check and lookup together: what is called, on each side.

use crate::clock::medians;
use crate::rows::Row;
use differential::reading::ObjectParts;
use parquet_variant::{Variant, VariantMetadata, VariantObject};
use std::hint::black_box;

/// A row, and what the checks of its children need.
struct Prepared<'r> {
    row: &'r Row,
    metadata: VariantMetadata<'r>,
    starts: Vec<usize>,
}

/// A row's figures, in the order of the sides: ours, the Rust's, the Rust's shallow one, and its
/// checks of the children.
pub fn measured(row: &Row, samples: usize) -> [f64; 4] {
    let prepared = prepared(row);
    medians(
        samples,
        [
            &|turn| ours(&prepared, turn),
            &|turn| whole(&prepared, turn),
            &|turn| shallow(&prepared, turn),
            &|_| children(&prepared),
        ],
    )
}

/// Prepares a row, after a look that both sides answer alike: each name that is compared is found
/// by both, and in the same bytes, or by none.
fn prepared(row: &Row) -> Prepared<'_> {
    let metadata = VariantMetadata::try_new(&row.dict).expect("a good dictionary");
    let object = VariantObject::try_new(metadata.clone(), &row.object).expect("a good object");
    for name in &row.names[..row.compared()] {
        let child = lichenhusk::child(&row.dict, &row.object, name.as_bytes());
        let ours = child.expect("good on our side too").map(|child| {
            Variant::try_new_with_metadata(metadata.clone(), child).expect("a good child")
        });
        assert_eq!(ours, object.get(name), "{}: {name}", row.label);
    }
    let starts = ObjectParts::of(&row.object).and_then(|parts| parts.starts(&row.object));
    Prepared {
        row,
        metadata,
        starts: starts.expect("a good object"),
    }
}

/// The name that is asked for in a turn.
pub fn name(row: &Row, turn: usize) -> &str {
    black_box(&row.names[turn % row.names.len()])
}

/// Check and lookup together: one call.
fn ours(prepared: &Prepared, turn: usize) {
    let row = prepared.row;
    let (dict, object) = (black_box(&row.dict), black_box(&row.object));
    let found = lichenhusk::lookup(dict, object, name(row, turn).as_bytes());
    let _ = black_box(found);
}

/// The Rust's check of the dictionary, its check of the object with its children, and `get`.
fn whole(prepared: &Prepared, turn: usize) {
    let row = prepared.row;
    let metadata = VariantMetadata::try_new(black_box(&row.dict)).expect("a good row");
    let object = VariantObject::try_new(metadata, black_box(&row.object)).expect("a good row");
    black_box(object.get(name(row, turn)));
}

/// The same with `VariantObject::new` in place of `try_new`.
fn shallow(prepared: &Prepared, turn: usize) {
    let row = prepared.row;
    let metadata = VariantMetadata::try_new(black_box(&row.dict)).expect("a good row");
    let object = VariantObject::new(metadata, black_box(&row.object));
    black_box(object.get(name(row, turn)));
}

/// The Rust's checks of the children alone.
fn children(prepared: &Prepared) {
    let object = black_box(&prepared.row.object);
    for &start in &prepared.starts {
        let metadata = prepared.metadata.clone();
        let child = Variant::try_new_with_metadata(metadata, &object[start..]);
        let _ = black_box(child);
    }
}
