//! The value of a name: found and read, and read alone, on both sides.

use crate::clock::{SAMPLES, medians};
use crate::rows::Asked::Present;
use crate::rows::Fields::All;
use crate::rows::Names::Letters;
use crate::rows::Order::Sorted;
use crate::rows::{Row, row_of};
use crate::sides::name;
use differential::encode::{plain_object, put};
use lichenhusk::{Kind, Value};
use parquet_variant::{Variant, VariantMetadata, VariantObject};
use std::hint::black_box;

/// What the children of a message are, and the child of a field by its number.
type Children = (&'static str, fn(usize) -> Vec<u8>);

/// The children of each line.
const CHILDREN: [Children; 7] = [
    ("integers of 8 bits", |number| vec![0x0C, number as u8]),
    ("integers of 64 bits", |number| {
        let number = -(number as i64);
        [&[0x18], &number.to_le_bytes()[..]].concat()
    }),
    ("double floats", |number| {
        let number = number as f64 / 7.0;
        [&[0x1C], &number.to_le_bytes()[..]].concat()
    }),
    ("short strings of 12 bytes", |number| {
        [&[12 << 2 | 1], &[b'a' + number as u8; 12][..]].concat()
    }),
    ("strings of 100 bytes", |number| text(Kind::String, number)),
    ("binaries of 100 bytes", |number| text(Kind::Binary, number)),
    ("objects of two fields", |number| {
        plain_object(&[0, 1], &[vec![0x0C, number as u8], vec![0x04]])
    }),
];

/// A string or a binary of a hundred bytes.
fn text(kind: Kind, number: usize) -> Vec<u8> {
    let mut value = vec![(kind.number() as u8) << 2];
    put(&mut value, 100, 4);
    value.extend_from_slice(&[b'a' + number as u8; 100]);
    value
}

/// Every line of the table: messages of sixteen fields.
pub fn rows() -> impl Iterator<Item = Row> {
    let row = |(label, child)| row_of((label, 16, Letters, All, Present), Sorted, child);
    CHILDREN.into_iter().map(row)
}

/// Nanoseconds to find and read a child, and to read one alone, ours and the Rust's of each; after a
/// look that all of them read the same.
pub fn measured(row: &Row) -> [f64; 4] {
    let metadata = VariantMetadata::try_new(&row.dict).expect("a good row");
    let children = alike(row, &metadata);
    let child = |turn: usize| black_box(children[turn % children.len()]);
    medians(
        SAMPLES,
        [
            &|turn| found(row, turn),
            &|turn| gotten(row, turn),
            &|turn| _ = black_box(lichenhusk::value(child(turn))),
            &|turn| {
                let value = Variant::try_new_with_metadata(metadata.clone(), child(turn));
                let _ = black_box(value);
            },
        ],
    )
}

/// Dictionary check, layer check, lookup and reading.
fn found(row: &Row, turn: usize) {
    let (dict, object) = (black_box(&row.dict), black_box(&row.object));
    let child = lichenhusk::find(dict, object, name(row, turn).as_bytes());
    let _ = black_box(child.and_then(|child| child.value()));
}

/// The Rust's check of the dictionary, its check of the object with its children, and `get`, which
/// reads the child.
fn gotten(row: &Row, turn: usize) {
    let metadata = VariantMetadata::try_new(black_box(&row.dict)).expect("a good row");
    let object = VariantObject::try_new(metadata, black_box(&row.object)).expect("a good row");
    black_box(object.get(name(row, turn)));
}

/// The child of each name, after a look that both sides read the same from it.
fn alike<'r>(row: &'r Row, metadata: &VariantMetadata<'r>) -> Vec<&'r [u8]> {
    let object = VariantObject::try_new(metadata.clone(), &row.object).expect("a good row");
    let child = |name: &String| {
        let found = lichenhusk::find(&row.dict, &row.object, name.as_bytes()).expect("a good row");
        let ours = found.value().expect("a good child");
        let theirs = object.get(name);
        assert!(
            ours.zip(theirs.as_ref())
                .is_some_and(|(ours, theirs)| same(ours, theirs)),
            "{}: {ours:?} and {theirs:?}",
            row.label
        );
        found.bytes().expect("a name that is there")
    };
    row.names.iter().map(child).collect()
}

/// Whether two readings are the same, by what they hold.
fn same(ours: Value, theirs: &Variant) -> bool {
    match (ours, theirs) {
        (Value::I8(ours), Variant::Int8(theirs)) => ours == *theirs,
        (Value::I64(ours), Variant::Int64(theirs)) => ours == *theirs,
        (Value::F64(ours), Variant::Double(theirs)) => ours == *theirs,
        (Value::Bytes { kind, bytes }, _) => match (kind, theirs) {
            (Kind::ShortString, Variant::ShortString(theirs)) => bytes == theirs.as_bytes(),
            (Kind::String, Variant::String(theirs)) => bytes == theirs.as_bytes(),
            (Kind::Binary, Variant::Binary(theirs)) => bytes == *theirs,
            (Kind::Object, Variant::Object(theirs)) => bytes == theirs.value,
            _ => false,
        },
        _ => false,
    }
}
