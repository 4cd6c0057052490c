//! Many names of one message: by one call, by a call for each, and by the Rust.

use crate::clock::{SAMPLES, medians};
use crate::rows::{Row, labelled, mixed};
use lichenhusk::{Found, WORDS_PER_NAME, run_of};
use parquet_variant::{Variant, VariantMetadata, VariantObject};
use std::cell::RefCell;
use std::hint::black_box;

/// The rows of the first table whose messages are taken, sorted and unsorted.
const TAKEN: [&str; 2] = ["16 fields", "255 fields"];

/// So many names are asked for at once.
pub const COUNTS: [usize; 4] = [1, 4, 16, 64];

/// Every message: those of twelve letters a name, then those of several lengths.
pub fn messages() -> impl Iterator<Item = Row> {
    labelled(&TAKEN).chain(mixed())
}

/// Names that are asked for in one turn.
struct Set<'r> {
    names: &'r [String],
    /// The same as our call takes them. A host that asks for them in every message has that ready.
    run: Vec<u8>,
    ends: Vec<u32>,
}

impl Set<'_> {
    fn of(names: &[String]) -> Set<'_> {
        let (run, ends) = run_of(names).expect("names of few bytes");
        Set { names, run, ends }
    }
}

/// A row's names in sets, and the words that our call fills. Each turn takes another set.
struct Asked<'r> {
    row: &'r Row,
    sets: Vec<Set<'r>>,
    words: RefCell<Vec<u32>>,
}

/// Nanoseconds for so many names by one call, by the Rust, and by a call for each name.
pub fn measured(row: &Row, count: usize) -> [f64; 3] {
    let asked = Asked::prepared(row, count);
    let together = |turn| asked.together(asked.set(turn));
    let theirs = |turn| asked.theirs(asked.set(turn));
    let singly = |turn| asked.singly(asked.set(turn));
    medians(SAMPLES, [&together, &theirs, &singly])
}

/// The same without the calls for each name, which would take long over a large message.
pub fn at_one_check(row: &Row, count: usize, samples: usize) -> [f64; 2] {
    let asked = Asked::prepared(row, count);
    let together = |turn| asked.together(asked.set(turn));
    let theirs = |turn| asked.theirs(asked.set(turn));
    medians(samples, [&together, &theirs])
}

impl<'r> Asked<'r> {
    /// Prepares the sets of so many names, after a look that all three answer alike.
    fn prepared(row: &'r Row, count: usize) -> Asked<'r> {
        let asked = Asked {
            row,
            sets: row.names.chunks_exact(count).map(Set::of).collect(),
            words: RefCell::new(vec![0; WORDS_PER_NAME * count]),
        };
        for set in &asked.sets[..row.compared() / count] {
            asked.together(set);
            let found: Vec<Option<Found>> = lichenhusk::rows_of(&asked.words.borrow()).collect();
            alike(row, set, &found);
        }
        asked
    }

    /// The names of a turn.
    fn set(&self, turn: usize) -> &Set<'r> {
        black_box(&self.sets[turn % self.sets.len()])
    }

    /// One call for all names.
    fn together(&self, set: &Set) {
        let (dict, object) = (black_box(&self.row.dict), black_box(&self.row.object));
        let words = &mut self.words.borrow_mut();
        let layer = lichenhusk::lookup_all_into(dict, object, &set.run, &set.ends, words);
        let _ = black_box(layer);
        black_box(words);
    }

    /// The Rust's checks once, and `get` of each name.
    fn theirs(&self, set: &Set) {
        let (dict, object) = (black_box(&self.row.dict), black_box(&self.row.object));
        let metadata = VariantMetadata::try_new(dict).expect("a good row");
        let object = VariantObject::try_new(metadata, object).expect("a good row");
        for name in set.names {
            black_box(object.get(name));
        }
    }

    /// A call for each name.
    fn singly(&self, set: &Set) {
        for name in set.names {
            let (dict, object) = (black_box(&self.row.dict), black_box(&self.row.object));
            let _ = black_box(lichenhusk::lookup(dict, object, name.as_bytes()));
        }
    }
}

/// Looks whether all three find the same: each name in the same bytes.
fn alike(row: &Row, set: &Set, found: &[Option<Found>]) {
    let metadata = VariantMetadata::try_new(&row.dict).expect("a good dictionary");
    let object = VariantObject::try_new(metadata.clone(), &row.object).expect("a good object");
    assert_eq!(found.len(), set.names.len(), "{}", row.label);
    for (name, found) in set.names.iter().zip(found) {
        let single = lichenhusk::lookup(&row.dict, &row.object, name.as_bytes());
        assert_eq!(Ok(*found), single, "{}: {name}", row.label);
        let value = found.map(|found| {
            let child = &row.object[found.start..found.end];
            Variant::try_new_with_metadata(metadata.clone(), child).expect("a good child")
        });
        assert_eq!(value, object.get(name), "{}: {name}", row.label);
    }
}
