//! A value that is read: what must agree.
//!
//! Our reading is the Rust's of the same bytes, case by case: a null; a truth value; a signed integer
//! by its number; a float by its bits; a text or a binary by where the Rust's part of the bytes is, an
//! object or a list by where the bytes are that it keeps. Of a decimal, a date, a time or a uuid the
//! Rust keeps no bytes, but it writes the value down again: those must be the value's own bytes, and
//! our place is what follows the first of them.
//!
//! What has an own length by [`own_length`] and the Rust refuses, it must refuse for what the bytes
//! say and for nothing else, as [`lengths`](crate::lengths) tells; our place is then that of a
//! function of a few lines, [`place`]. What has no own length is refused by both: with 51 where the
//! Rust's words are that the type is unknown, and with 50 where they are others.
//!
//! Of our own answers besides: bytes after a value change nothing, and without its last byte it gets
//! 50.

use crate::compare::{Compared, agree, differ};
use crate::lengths::{Told, Values};
use crate::original::{place_in, words};
use crate::ours::{Reader, accepted, refused};
use crate::reading::{BINARY, STRING, Unmeasured, own_length};
use crate::shown;
use crate::tally::Tally;
use arrow_schema::ArrowError;
use lichenhusk::{Kind, Strip};
use parquet_variant::{Variant, VariantBuilder};

/// Both sides, for values over a dictionary.
pub struct Readings<'a, 'd, R> {
    /// Our side.
    pub reader: &'a R,
    /// The Rust's.
    pub values: Values<'a, 'd>,
}

impl<R: Reader> Readings<'_, '_, R> {
    /// Compares the reading of the value that bytes begin with.
    pub fn of(&self, bytes: &[u8], tally: &mut Tally) -> Compared {
        let ours = self.reader.value(bytes);
        match own_length(bytes) {
            Ok(length) => self.read(bytes, length, ours, tally),
            Err(why) => self.refused(bytes, why, ours, tally),
        }
    }

    fn read(&self, bytes: &[u8], length: usize, ours: Strip, tally: &mut Tally) -> Compared {
        let theirs = match self.values.read(bytes) {
            Ok(value) => told_by(&value, bytes)?,
            Err(_) if self.values.told(bytes, length) != Told::Otherwise => {
                tally.values_of_refused += 1;
                place(bytes[0], length)
            }
            Err(error) => return differ(&format!("to read {}", shown(bytes)), ours, error),
        };
        if ours != theirs {
            return differ(&format!("to read {}", shown(bytes)), ours, theirs);
        }
        let (own, cut) = (&bytes[..length], &bytes[..length - 1]);
        agree("a value's own bytes", self.reader.value(own), ours)?;
        let without = self.reader.value(cut);
        agree("a value without its last byte", without, refused(50, 0))?;
        tally.read(ours);
        Ok(())
    }

    fn refused(&self, bytes: &[u8], why: Unmeasured, ours: Strip, tally: &mut Tally) -> Compared {
        let number = if why == Unmeasured::Unknown { 51 } else { 50 };
        agree("a value that is not read", ours, refused(number, 0))?;
        match self.values.read(bytes) {
            Err(error) if refusal_of(&error) == number && !self.values.takes(bytes) => {
                Tally::refuse(&mut tally.values_refused, number);
                Ok(())
            }
            theirs => differ(&format!("not to read {}", shown(bytes)), ours, theirs),
        }
    }
}

/// What the Rust says to the value that bytes begin with: what is due to it, a refusal with our number
/// for it included. Nothing where it refuses the value for what its bytes say.
pub fn said_by(values: Values, bytes: &[u8]) -> Option<Strip> {
    match values.read(bytes) {
        Ok(value) => told_by(&value, bytes).ok(),
        Err(_) if values.takes(bytes) => None,
        Err(error) => Some(refused(refusal_of(&error), 0)),
    }
}

/// Our number for what the Rust does not read, whatever its bytes say.
fn refusal_of(error: &ArrowError) -> u32 {
    match words(error).contains("unknown primitive type") {
        true => 51,
        false => 50,
    }
}

/// What is due to bytes from which the Rust reads a value.
pub fn told_by(value: &Variant, bytes: &[u8]) -> Compared<Strip> {
    let part = |kind: Kind, part: &[u8]| {
        let start = place_in(part, bytes);
        accepted(kind.number() as usize, start, start + part.len())
    };
    Ok(match value {
        Variant::Null => number(0, 0),
        Variant::BooleanTrue => number(1, 0),
        Variant::BooleanFalse => number(2, 0),
        Variant::Int8(held) => number(3, i64::from(*held) as u64),
        Variant::Int16(held) => number(4, i64::from(*held) as u64),
        Variant::Int32(held) => number(5, i64::from(*held) as u64),
        Variant::Int64(held) => number(6, *held as u64),
        Variant::Double(held) => number(7, held.to_bits()),
        Variant::Float(held) => number(14, held.to_bits().into()),
        Variant::Binary(held) => part(Kind::Binary, held),
        Variant::String(held) => part(Kind::String, held.as_bytes()),
        Variant::ShortString(held) => part(Kind::ShortString, held.as_bytes()),
        Variant::Object(held) => part(Kind::Object, held.value),
        Variant::List(held) => part(Kind::List, held.value),
        _ => return payload(value, bytes),
    })
}

/// The kind and the bits of a number.
fn number(kind: usize, bits: u64) -> Strip {
    accepted(kind, bits as u32 as usize, (bits >> 32) as usize)
}

/// The kind and the place of a primitive that the Rust writes down as it stands in the bytes.
fn payload(value: &Variant, bytes: &[u8]) -> Compared<Strip> {
    let mut builder = VariantBuilder::new();
    builder.append_value(value.clone());
    let (_, written) = builder.finish();
    let own = bytes.get(..written.len());
    agree("what the Rust writes down again", own, Some(&written))?;
    Ok(place(written[0], written.len()))
}

/// The kind and the place of a value that is no number, by its header byte and its own length, after
/// VariantEncoding.md.
pub fn place(header: u8, length: usize) -> Strip {
    let (kind, start) = match (header & 3, header as usize >> 2) {
        (0, kind @ (BINARY | STRING)) => (kind, 5),
        (0, kind) => (kind, 1),
        (1, _) => (257, 1),
        (basic_type, _) => (256 + basic_type as usize, 0),
    };
    accepted(kind, start, length)
}
