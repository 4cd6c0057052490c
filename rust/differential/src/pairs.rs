//! An object that is to be written, as it is handed over; and in document 02's words what is due.

use crate::encode::{least_width, plain_object};
use crate::ours::{accepted, refused};
use crate::reading::ObjectParts;
use lichenhusk::{LIMIT, OK, Strip, WORDS_PER_PAIR};
use std::collections::HashSet;

/// An id, and where a child starts and ends.
pub type Pair = [u32; WORDS_PER_PAIR];

/// Bytes that are lent, and the words of pairs.
#[derive(Clone, Debug, Default, PartialEq, Eq)]
pub struct Pairs {
    /// The bytes in which children lie.
    pub bytes: Vec<u8>,
    /// Three words a pair. One or two may be left over at the end.
    pub words: Vec<u32>,
}

/// A field that is to be written.
#[derive(Clone, Copy, Debug, PartialEq, Eq)]
pub struct Field<'p> {
    /// Its entry in the dictionary.
    pub id: usize,
    /// The bytes of its child.
    pub child: &'p [u8],
}

/// Why pairs are refused, and the first such pair.
pub type Bad = (u32, usize);

impl Pairs {
    /// Pairs as they are.
    pub fn of(bytes: &[u8], pairs: &[Pair]) -> Pairs {
        Pairs {
            bytes: bytes.to_vec(),
            words: pairs.as_flattened().to_vec(),
        }
    }

    /// The pairs, without what is left over.
    pub fn pairs(&self) -> &[Pair] {
        self.words.as_chunks().0
    }

    /// The bytes of a pair's child; nothing for a range that falls or passes the bytes.
    pub fn child(&self, [_, start, end]: Pair) -> Option<&[u8]> {
        self.bytes.get(start as usize..end as usize)
    }

    /// The fields in the order of their names, where `names` are the dictionary's by their entries; or the
    /// first pair that is refused. Each number is looked for in all pairs before the next.
    pub fn fields(&self, names: &[&[u8]]) -> Result<Vec<Field<'_>>, Bad> {
        let pairs = self.pairs();
        let all = |number: u32, is_good: &mut dyn FnMut(Pair) -> bool| {
            let bad = pairs.iter().position(|&pair| !is_good(pair));
            bad.map_or(Ok(()), |place| Err((number, place)))
        };
        let mut seen = HashSet::new();
        all(25, &mut |[id, ..]| (id as usize) < names.len())?;
        all(26, &mut |[id, ..]| seen.insert(names[id as usize]))?;
        all(45, &mut |pair| self.child(pair).is_some())?;
        all(28, &mut |pair| self.child(pair) != Some(&[]))?;
        let field = |&pair: &Pair| Field {
            id: pair[0] as usize,
            child: self.child(pair).unwrap_or_default(),
        };
        let mut fields: Vec<Field> = pairs.iter().map(field).collect();
        fields.sort_by_key(|field| names[field.id]);
        Ok(fields)
    }

    /// How many bytes there are in all, of each word four.
    pub fn size(&self) -> usize {
        self.bytes.len() + 4 * self.words.len()
    }
}

/// What is due in room enough: the strip, and what is written.
#[derive(Clone, Debug, PartialEq, Eq)]
pub struct Due {
    /// The strip.
    pub strip: Strip,
    /// The object, or nothing under a refusal.
    pub bytes: Vec<u8>,
}

impl Due {
    /// What is due for pairs over the names of a dictionary that is accepted.
    pub fn of(pairs: &Pairs, names: &[&[u8]]) -> Due {
        match pairs.fields(names) {
            Err((number, place)) => Due::refused(refused(number, place as u32)),
            // It may be as long as all pairs times all bytes: it is measured before it is made.
            Ok(fields) if length(&fields) > LIMIT => Due::refused(refused(20, 0)),
            Ok(fields) => Due::laid(&fields),
        }
    }

    fn laid(fields: &[Field]) -> Due {
        let ids: Vec<usize> = fields.iter().map(|field| field.id).collect();
        let children: Vec<Vec<u8>> = fields.iter().map(|field| field.child.to_vec()).collect();
        let bytes = plain_object(&ids, &children);
        let region = ObjectParts::of(&bytes).map_or(0, |parts| parts.offsets.end());
        Due {
            strip: accepted(fields.len(), region, bytes.len()),
            bytes,
        }
    }

    /// A refusal.
    pub fn refused(strip: Strip) -> Due {
        Due {
            strip,
            bytes: vec![],
        }
    }

    /// What is due in a room.
    pub fn in_room(&self, room: &mut [u8]) -> Strip {
        if self.strip.code != OK {
            return self.strip;
        }
        match room.get_mut(..self.bytes.len()) {
            Some(begin) => {
                begin.copy_from_slice(&self.bytes);
                self.strip
            }
            None => refused(46, 0),
        }
    }
}

/// How many bytes the object of fields has.
pub fn length(fields: &[Field]) -> usize {
    let count = fields.len();
    let total: usize = fields.iter().map(|field| field.child.len()).sum();
    let greatest = fields.iter().map(|field| field.id).max().unwrap_or(0);
    let count_width = if count > 255 { 4 } else { 1 };
    1 + count_width + count * least_width(greatest) + (count + 1) * least_width(total) + total
}
