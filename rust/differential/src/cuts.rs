//! A dictionary that comes in pieces, as it is handed over; and how many bytes are wanted of a beginning.

use crate::reading::DictionaryParts;

/// Where a dictionary is cut, and how much room there is for it.
#[derive(Clone, Debug, Default, PartialEq, Eq)]
pub struct Cuts {
    /// Where each piece ends, counted from the dictionary's first byte. An end that falls is that of a
    /// piece of no bytes, and what is after the last does not come.
    pub ends: Vec<u32>,
    /// How many bytes the store has.
    pub room: u32,
}

impl Cuts {
    /// Ends and room that 32 bits count.
    pub fn of(ends: impl IntoIterator<Item = usize>, room: usize) -> Cuts {
        Cuts {
            ends: ends.into_iter().map(|end| end as u32).collect(),
            room: room as u32,
        }
    }

    /// The pieces of a dictionary, one after another.
    pub fn pieces<'d>(&self, dict: &'d [u8]) -> impl Iterator<Item = &'d [u8]> {
        let mut begin = 0;
        self.ends.iter().map(move |&end| {
            let end = (end as usize).clamp(begin, dict.len());
            let piece = &dict[begin..end];
            begin = end;
            piece
        })
    }

    /// How many bytes it takes, of each end four.
    pub fn size(&self) -> usize {
        4 * self.ends.len()
    }
}

/// How many bytes there must be, these among them, before a dictionary that begins with them has its next
/// part: a header, a count, offsets, names.
pub fn wanted(begin: &[u8]) -> usize {
    let Some(header) = begin.first() else {
        return 1;
    };
    let Some(DictionaryParts { offsets, .. }) = DictionaryParts::of(begin) else {
        return 1 + (*header as usize >> 6) + 1;
    };
    let names = offsets.number(begin, offsets.count - 1);
    offsets.end() + names.unwrap_or(0)
}
