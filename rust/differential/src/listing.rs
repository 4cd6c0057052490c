//! The listing of an object whose layer is accepted: what must agree.
//!
//! It has three words for each field: the id and the start that the lookup of its name has found, and
//! the own length of its child. Where a child has none, 43 at the first such field is the answer,
//! whatever the room; in too little room it is otherwise 41. Words after the listing stay, and so do
//! all under a refusal.
//!
//! The own lengths are those of [`own_length`], a function of a few lines by VariantEncoding.md, so
//! that ours are compared for every child. The function in its turn is held to the Rust, as
//! [`lengths`](crate::lengths) says: of every child up to the first that has no length, whether the
//! Rust accepts it or not, the length is the one that the Rust tells; and that first one the Rust
//! refuses, whatever it says. What the Rust cannot tell is counted.

use crate::compare::{Compared, Placed, UNWRITTEN, agree, differ};
use crate::lengths::{Told, Values};
use crate::ours::{Reader, refused};
use crate::reading::{Unmeasured, own_length};
use crate::shown;
use crate::tally::Tally;
use lichenhusk::{Strip, WORDS_PER_FIELD};
use parquet_variant::VariantMetadata;

/// An object over a dictionary, both accepted, and our layer's answer to them.
pub struct Listing<'a, 'd, R> {
    /// Our side.
    pub reader: &'a R,
    /// The dictionary's bytes.
    pub dict: &'a [u8],
    /// The dictionary as the Rust reads it.
    pub metadata: &'a VariantMetadata<'d>,
    /// The object's bytes.
    pub object: &'a [u8],
    /// What our layer says.
    pub layer: Strip,
}

/// The own lengths of children in the order of their fields, up to the first that has none, and why
/// that has none.
struct Measured {
    lengths: Vec<usize>,
    unmeasured: Option<Unmeasured>,
}

impl Measured {
    /// What is due in place of a listing.
    fn refusal(&self) -> Option<Strip> {
        let field = self.lengths.len() as u32;
        self.unmeasured.map(|_| refused(43, field))
    }
}

impl<R: Reader> Listing<'_, '_, R> {
    /// Compares the listing of fields, by their ids and starts.
    pub fn of(&self, fields: &[Placed], tally: &mut Tally) -> Compared {
        let measured = self.measured(fields);
        self.listed(fields, &measured)?;
        self.in_too_little_room(fields.len(), &measured)?;
        self.as_the_rust_tells(fields, &measured, tally)?;
        self.count(&measured, tally);
        Ok(())
    }

    /// The bytes of a child up to the trimmed end.
    fn child(&self, field: &Placed) -> &[u8] {
        let child = self.object.get(field.start..self.layer.end as usize);
        child.unwrap_or_default()
    }

    fn measured(&self, fields: &[Placed]) -> Measured {
        let mut lengths = Vec::with_capacity(fields.len());
        for field in fields {
            match own_length(self.child(field)) {
                Ok(length) => lengths.push(length),
                Err(why) => {
                    return Measured {
                        lengths,
                        unmeasured: Some(why),
                    };
                }
            }
        }
        Measured {
            lengths,
            unmeasured: None,
        }
    }

    /// The listing in room enough, with two words more.
    fn listed(&self, fields: &[Placed], measured: &Measured) -> Compared {
        let mut words = vec![UNWRITTEN; WORDS_PER_FIELD * fields.len() + 2];
        let strip = self.reader.list(self.dict, self.object, &mut words);
        let due = measured.refusal();
        agree("a listing's answer", strip, due.unwrap_or(self.layer))?;
        if due.is_some() {
            return is_left(&words);
        }
        let (listed, after) = words.as_chunks::<WORDS_PER_FIELD>();
        agree("the words after a listing", after, &[UNWRITTEN; 2])?;
        for ((words, field), &length) in listed.iter().zip(fields).zip(&measured.lengths) {
            let due = [field.id, field.start as u32, length as u32];
            agree("a field's id, start and span", words, &due)?;
        }
        Ok(())
    }

    /// The listing with one word too few, if there can be one.
    fn in_too_little_room(&self, fields: usize, measured: &Measured) -> Compared {
        let Some(room) = (WORDS_PER_FIELD * fields).checked_sub(1) else {
            return Ok(());
        };
        let mut words = vec![UNWRITTEN; room];
        let strip = self.reader.list(self.dict, self.object, &mut words);
        let due = measured.refusal().unwrap_or(refused(41, 0));
        agree("a listing in too little room", strip, due)?;
        is_left(&words)
    }

    /// The Rust takes each child that has a length for one of that length, and the one that has none
    /// for no value at all.
    fn as_the_rust_tells(
        &self,
        fields: &[Placed],
        measured: &Measured,
        tally: &mut Tally,
    ) -> Compared {
        let values = Values::of(self.metadata, self.object);
        let Measured { lengths, .. } = measured;
        for (field, &length) in fields.iter().zip(lengths) {
            let child = self.child(field);
            let told = values.told(child, length);
            if told == Told::Otherwise {
                let asked = format!("the own length of {}", shown(child));
                return differ(&asked, length, "takes other bytes for the value's own");
            }
            tally.measure(child[0], told);
        }
        let unmeasured = measured
            .unmeasured
            .map(|_| self.child(&fields[lengths.len()]));
        if let Some(child) = unmeasured.filter(|child| values.takes(child)) {
            let asked = format!("the own length of {}", shown(child));
            return differ(&asked, measured.refusal(), "takes it for a value");
        }
        Ok(())
    }

    fn count(&self, measured: &Measured, tally: &mut Tally) {
        if let Some(why) = measured.unmeasured {
            *tally.unlisted.entry(why).or_default() += 1;
            return;
        }
        let region = self.layer.end as usize - self.layer.start as usize;
        let has_others = measured.lengths.iter().sum::<usize>() < region;
        tally.listings += 1;
        tally.listings_apart += u64::from(has_others);
    }
}

fn is_left(words: &[u32]) -> Compared {
    let left = words.iter().all(|&word| word == UNWRITTEN);
    agree("that a listing's refusal leaves the words", left, true)
}
