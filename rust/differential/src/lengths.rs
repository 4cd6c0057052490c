//! A value's own length, as the Rust tells it.
//!
//! The Rust has no such number, but it accepts a value from exactly so many bytes on: the least
//! beginning that it accepts is the value's own bytes. What it refuses for what the bytes say, a
//! date that its calendar does not have or a text that is not UTF-8, it accepts at the same length
//! if they say something else, see `stand_in`. Of an object or a list it keeps the own bytes, and
//! cuts them off before it looks into it, so that it tells their length whatever is in it; and where
//! it cannot cut them off, its words tell that from what else it may refuse.
//!
//! One length it cannot tell: that of a list without elements whose only offset is not 0. It wants
//! a list's first offset to be 0, and there that is the last, too.

use crate::LARGE;
use crate::original::{same_value, words};
use crate::reading::{BINARY, STRING, list_offsets};
use arrow_schema::ArrowError;
use parquet_variant::{Variant, VariantMetadata};

/// What the Rust tells of a value that is said to have so many bytes of its own.
#[derive(Clone, Copy, Debug, PartialEq, Eq)]
pub enum Told {
    /// It accepts the value, and so many bytes are the fewest from which it reads it.
    Accepts,
    /// It refuses the value for what it says, and takes so many bytes for something else.
    Refuses,
    /// It cannot tell.
    Nothing,
    /// It takes more bytes, or fewer.
    Otherwise,
}

/// Of a value of so few bytes every beginning is tried, of a longer one that without the last byte.
pub const FEW: usize = 64;

/// The values over a dictionary.
#[derive(Clone, Copy)]
pub struct Values<'a, 'd> {
    /// The dictionary.
    pub metadata: &'a VariantMetadata<'d>,
    /// Up to how many bytes of a value every beginning is tried, [`FEW`] or less.
    pub few: usize,
}

impl<'a, 'd> Values<'a, 'd> {
    /// The values of an object. Of those of a large one, fewer beginnings are tried: there may be
    /// very many.
    pub fn of(metadata: &'a VariantMetadata<'d>, object: &[u8]) -> Values<'a, 'd> {
        let few = if object.len() > LARGE { 0 } else { FEW };
        Values { metadata, few }
    }

    /// The value that the Rust reads from bytes, if it accepts it.
    pub fn read<'v>(&self, bytes: &'v [u8]) -> Result<Variant<'d, 'v>, ArrowError> {
        Variant::try_new_with_metadata(self.metadata.clone(), bytes)
    }

    /// What the Rust tells of a child whose own bytes are the first so many.
    ///
    /// # Panics
    ///
    /// On an object or a list that the Rust refuses and of which it cannot cut so many bytes off.
    pub fn told(&self, child: &[u8], length: usize) -> Told {
        let own = &child[..length];
        let (told, is_length) = match self.read(child) {
            Ok(value) => (Told::Accepts, self.is_read_from(&value, own)),
            Err(_) => match stand_in(own) {
                None => return Told::Nothing,
                Some(copy) => (Told::Refuses, self.is_taken(&copy)),
            },
        };
        if is_length { told } else { Told::Otherwise }
    }

    /// Whether a child's own bytes are the least beginning that the Rust accepts, and give the value
    /// that it reads from the child; of an object or a list, whether it keeps all of them.
    fn is_read_from(&self, value: &Variant, own: &[u8]) -> bool {
        let is_it = |own_value| same_value(value, &own_value);
        let keeps_all = kept_by(value).is_none_or(|kept| kept.len() == own.len());
        keeps_all && self.read(own).is_ok_and(is_it) && self.needs_all(own)
    }

    /// Whether the Rust takes all bytes of a copy, and no fewer, for a value.
    fn is_taken(&self, copy: &[u8]) -> bool {
        match is_container(copy) {
            true => self.is_kept(copy),
            false => self.read(copy).is_ok() && self.needs_all(copy),
        }
    }

    /// Whether the Rust refuses every shorter beginning of those that are tried.
    fn needs_all(&self, own: &[u8]) -> bool {
        let longest = own.len() - 1;
        let mut tried = if own.len() <= self.few { 0 } else { longest }..=longest;
        tried.all(|shorter| self.read(&own[..shorter]).is_err())
    }

    /// Whether the Rust keeps all bytes of an object or a list, by the checks that come before it
    /// looks into it.
    fn is_kept(&self, own: &[u8]) -> bool {
        let value = Variant::new_with_metadata(self.metadata.clone(), own);
        kept_by(&value).is_some_and(|kept| kept.len() == own.len())
    }

    /// Whether the Rust takes a child for a value, whatever it says.
    pub fn takes(&self, child: &[u8]) -> bool {
        let Some(copy) = stand_in(child) else {
            return self.read(child).is_ok();
        };
        match self.read(&copy) {
            Ok(_) => true,
            Err(error) => is_container(child) && !is_cut(&error, child.len()),
        }
    }
}

/// Whether an object or a list of so many bytes was refused before the Rust looked into it: a read
/// failed in all of its bytes, or a sum passed 32 bits. (A name's read in a dictionary of as many
/// bytes, and a sum in a child, have the same words.)
fn is_cut(error: &ArrowError, length: usize) -> bool {
    let words = words(error);
    words.contains("overflow") || words.ends_with(&format!("from {length}-byte buffer"))
}

/// The bytes that an object or a list keeps.
fn kept_by<'v>(value: &Variant<'_, 'v>) -> Option<&'v [u8]> {
    match value {
        Variant::Object(object) => Some(object.value),
        Variant::List(list) => Some(list.value),
        _ => None,
    }
}

/// Whether a value is an object or a list, by its basic type.
fn is_container(value: &[u8]) -> bool {
    value.first().is_some_and(|header| header & 2 != 0)
}

/// A copy of a value of the same length, of which the Rust refuses nothing but that it is cut: zeros
/// for what a primitive or a text says, and for a list's first offset. An object is as it is. Nothing
/// for what has no such copy: a list whose first offset is the last, and not 0.
fn stand_in(value: &[u8]) -> Option<Vec<u8>> {
    let mut copy = value.to_vec();
    let header = *copy.first()?;
    match (header & 3, header as usize >> 2) {
        (0, BINARY | STRING) => zeros_from(&mut copy, 5),
        (0 | 1, _) => zeros_from(&mut copy, 1),
        (2, _) => {}
        _ => {
            if let Some(offsets) = list_offsets(value) {
                offsets.write(&mut copy, 0, 0);
                if offsets.count == 1 && copy != value {
                    return None;
                }
            }
        }
    }
    Some(copy)
}

fn zeros_from(bytes: &mut [u8], from: usize) {
    if let Some(rest) = bytes.get_mut(from..) {
        rest.fill(0);
    }
}
