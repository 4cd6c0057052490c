//! Larger messages: check and lookup together, and many names at one check, from about 64 KiB to
//! the limit, with the time of a byte.

use crate::clock::SAMPLES;
use crate::many;
use crate::rows::Asked::Present;
use crate::rows::Fields::{All, Middle};
use crate::rows::Names::{Letters, Stamps};
use crate::rows::Order::{self, Halves, Shuffled, Sorted};
use crate::rows::{Kind, Names, Row, row};
use crate::sides;

/// About how many bytes the messages of a series have, dictionary and object together.
pub const SIZES: [&str; 3] = ["64 KiB", "1 MiB", "16 MiB"];

/// Messages that differ in their size.
type Sizes = [Kind; SIZES.len()];

/// As many names as a dictionary of 65,536, of 1,048,576 and of 16,777,216 bytes has room for.
const NAMES: Sizes = [
    names("4,680 names, 1 field", 4_680),
    names("69,904 names, 1 field", 69_904),
    names("1,118,480 names, 1 field", 1_118_480),
];

/// A year's readings: every three hours, every quarter of an hour, and every minute up to the
/// middle of December.
const STAMPED: Sizes = [
    readings("2,920 fields, time stamps", 2_920, Stamps(180)),
    readings("35,040 fields, time stamps", 35_040, Stamps(15)),
    readings("500,000 fields, time stamps", 500_000, Stamps(1)),
];

/// As many fields whose names have little in common.
const LETTERED: Sizes = [
    readings("2,920 fields, letters", 2_920, Letters),
    readings("35,040 fields, letters", 35_040, Letters),
    readings("500,000 fields, letters", 500_000, Letters),
];

const fn names(label: &'static str, count: usize) -> Kind {
    (label, count, Letters, Middle, Present)
}

const fn readings(label: &'static str, count: usize, names: Names) -> Kind {
    (label, count, names, All, Present)
}

/// So many names are asked for at one check.
const AT_ONCE: usize = 64;

/// Samples of each side of a message that has more bytes than `MANY_BYTES`: a call takes
/// milliseconds there.
pub const FEW_SAMPLES: usize = 21;
pub const MANY_BYTES: usize = 2 << 20;

/// What is called.
#[derive(Clone, Copy, Debug)]
enum Call {
    Lookup,
    AtOnce,
}

/// Messages of one shape, in each size, and what is called.
pub struct Series {
    pub label: String,
    sizes: Sizes,
    order: Order,
    call: Call,
}

/// A line of the table, in nanoseconds of a call.
pub struct Line {
    pub label: String,
    pub dict: usize,
    pub object: usize,
    pub ours: f64,
    pub theirs: f64,
    /// The Rust's shallow side and its checks of the children, where one name is asked for.
    pub parts: Option<[f64; 2]>,
}

/// The orders of a dictionary. In two halves, the names of neighbouring fields are neighbours there
/// too, so that reading them in the order of the fields does not go to and fro; where only one field
/// is there, or the same messages were measured before, that tells nothing.
const TWO_ORDERS: &[Order] = &[Sorted, Shuffled];
const THREE_ORDERS: &[Order] = &[Sorted, Shuffled, Halves];

/// Every series, in each order of its dictionary.
pub fn series() -> impl Iterator<Item = Series> {
    let each_order = |(label, sizes, call, orders): (&'static str, _, _, &'static [Order])| {
        orders.iter().map(move |&order| Series {
            label: format!("{label}, {}", order.label()),
            sizes,
            order,
            call,
        })
    };
    [
        ("names, 1 field", NAMES, Call::Lookup, TWO_ORDERS),
        ("fields, time stamps", STAMPED, Call::Lookup, THREE_ORDERS),
        ("fields, letters", LETTERED, Call::Lookup, THREE_ORDERS),
        ("64 at once, time stamps", STAMPED, Call::AtOnce, TWO_ORDERS),
        ("64 at once, letters", LETTERED, Call::AtOnce, TWO_ORDERS),
    ]
    .into_iter()
    .flat_map(each_order)
}

impl Series {
    /// Its lines, each measured when it is asked for.
    pub fn lines(&self) -> impl Iterator<Item = Line> {
        let measured = match self.call {
            Call::Lookup => lookup,
            Call::AtOnce => at_once,
        };
        let line = move |&kind| measured(row(kind, self.order));
        self.sizes.iter().map(line)
    }
}

impl Line {
    /// Nanoseconds for a byte of dictionary and object, ours and the Rust's.
    pub fn a_byte(&self) -> [f64; 2] {
        let bytes = (self.dict + self.object) as f64;
        [self.ours / bytes, self.theirs / bytes]
    }
}

/// The line of one name.
fn lookup(row: Row) -> Line {
    let [ours, theirs, shallow, children] = sides::measured(&row, samples(&row));
    Line {
        dict: row.dict.len(),
        object: row.object.len(),
        label: row.label,
        ours,
        theirs,
        parts: Some([shallow, children]),
    }
}

/// The line of many names at one check.
fn at_once(row: Row) -> Line {
    let [ours, theirs] = many::at_one_check(&row, AT_ONCE, samples(&row));
    Line {
        dict: row.dict.len(),
        object: row.object.len(),
        label: format!("{}, {AT_ONCE} at once", row.label),
        ours,
        theirs,
        parts: None,
    }
}

/// So many samples are taken of a message.
pub fn samples(row: &Row) -> usize {
    if row.bytes() > MANY_BYTES {
        FEW_SAMPLES
    } else {
        SAMPLES
    }
}
