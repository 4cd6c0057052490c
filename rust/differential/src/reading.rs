//! Where the parts of a dictionary or an object stand, by its header: the positions alone, with
//! no verdict. It serves to damage a part on purpose, to put other children into an object, and to
//! tell places. And how long a value is, by its first bytes.

/// A row of numbers of one width.
#[derive(Clone, Copy, Debug, PartialEq, Eq)]
pub struct Row {
    /// Where it starts.
    pub at: usize,
    /// Bytes of a number.
    pub width: usize,
    /// How many numbers.
    pub count: usize,
}

impl Row {
    /// Where the row ends.
    pub fn end(&self) -> usize {
        self.at + self.width * self.count
    }

    /// Where one of its numbers starts.
    pub fn place(&self, index: usize) -> usize {
        self.at + self.width * index
    }

    /// The greatest number of its width.
    pub fn greatest(&self) -> usize {
        (1 << (8 * self.width)) - 1
    }

    /// One of its numbers, if the bytes have it.
    pub fn number(&self, bytes: &[u8], index: usize) -> Option<usize> {
        let at = self.place(index);
        let held = bytes.get(at..at + self.width)?;
        let (low, rest) = held.split_first()?;
        let higher = rest
            .iter()
            .rev()
            .fold(0, |sum, &byte| sum << 8 | byte as usize);
        Some(higher << 8 | *low as usize)
    }

    /// All of its numbers, if the bytes have them.
    pub fn numbers(&self, bytes: &[u8]) -> Option<Vec<usize>> {
        bytes.get(self.at..self.end())?;
        (0..self.count)
            .map(|index| self.number(bytes, index))
            .collect()
    }

    /// Writes one of its numbers, cut to its width, if the bytes have it.
    pub fn write(&self, bytes: &mut [u8], index: usize, number: usize) {
        let at = self.place(index);
        if let Some(held) = bytes.get_mut(at..at + self.width) {
            held.copy_from_slice(&number.to_le_bytes()[..self.width]);
        }
    }
}

/// The parts of a dictionary.
#[derive(Clone, Copy, Debug, PartialEq, Eq)]
pub struct DictionaryParts {
    /// The entry count, a row of one.
    pub count: Row,
    /// The offsets, one more than entries.
    pub offsets: Row,
}

/// The parts of an object.
#[derive(Clone, Copy, Debug, PartialEq, Eq)]
pub struct ObjectParts {
    /// The field count, a row of one.
    pub count: Row,
    /// The field ids.
    pub ids: Row,
    /// The offsets, one more than fields.
    pub offsets: Row,
}

impl DictionaryParts {
    /// The parts by the header, if it and the count are there.
    pub fn of(dict: &[u8]) -> Option<DictionaryParts> {
        let width = (dict.first()? >> 6) as usize + 1;
        let count = Row {
            at: 1,
            width,
            count: 1,
        };
        let offsets = Row {
            at: count.end(),
            width,
            count: count.number(dict, 0)? + 1,
        };
        Some(DictionaryParts { count, offsets })
    }

    /// The names' bytes, if they are all there.
    pub fn region<'d>(&self, dict: &'d [u8]) -> Option<&'d [u8]> {
        region(self.offsets, dict)
    }
}

impl ObjectParts {
    /// The parts by the header, if it and the count are there.
    pub fn of(object: &[u8]) -> Option<ObjectParts> {
        let header = *object.first()? as usize;
        let count = Row {
            at: 1,
            width: if header & 0x40 != 0 { 4 } else { 1 },
            count: 1,
        };
        let fields = count.number(object, 0)?;
        let ids = Row {
            at: count.end(),
            width: (header >> 4 & 3) + 1,
            count: fields,
        };
        let offsets = Row {
            at: ids.end(),
            width: (header >> 2 & 3) + 1,
            count: fields + 1,
        };
        Some(ObjectParts {
            count,
            ids,
            offsets,
        })
    }

    /// Where each child starts, if the offsets are all there.
    pub fn starts(&self, object: &[u8]) -> Option<Vec<usize>> {
        let start = |field| Some(self.offsets.end() + self.offsets.number(object, field)?);
        (0..self.ids.count).map(start).collect()
    }

    /// The children's bytes, if they are all there.
    pub fn region<'o>(&self, object: &'o [u8]) -> Option<&'o [u8]> {
        region(self.offsets, object)
    }
}

/// What the last offset says follows the offsets, if it is all there.
fn region(offsets: Row, bytes: &[u8]) -> Option<&[u8]> {
    let length = offsets.number(bytes, offsets.count - 1)?;
    bytes.get(offsets.end()..)?.get(..length)
}

/// The offsets of a list, one more than elements, if its header and its count are there.
pub fn list_offsets(list: &[u8]) -> Option<Row> {
    let header = *list.first()? as usize;
    let count = Row {
        at: 1,
        width: if header & 0x10 != 0 { 4 } else { 1 },
        count: 1,
    };
    Some(Row {
        at: count.end(),
        width: (header >> 2 & 3) + 1,
        count: count.number(list, 0)? + 1,
    })
}

/// Bytes after the header byte, by primitive type. The four of [`BINARY`] and [`STRING`] are the
/// length of what follows them.
pub const PAYLOADS: [usize; 21] = [
    0, 0, 0, 1, 2, 4, 8, 8, 5, 9, 17, 4, 8, 8, 4, 4, 4, 8, 8, 8, 16,
];
/// The two primitive types that hold a length.
pub const BINARY: usize = 15;
/// See there.
pub const STRING: usize = 16;

/// Why the bytes that begin with a value have not all of it.
#[derive(Clone, Copy, Debug, PartialEq, Eq, PartialOrd, Ord)]
pub enum Unmeasured {
    /// It is of no known primitive type.
    Unknown,
    /// They end before its header does, or before what its header counts.
    Cut,
    /// It would end past the 32-bit range.
    Sum,
    /// They end before it does.
    Longer,
}

/// The own length of the value that bytes begin with, by VariantEncoding.md.
pub fn own_length(bytes: &[u8]) -> Result<usize, Unmeasured> {
    let header = *bytes.first().ok_or(Unmeasured::Cut)?;
    let upper = header as usize >> 2;
    let length = match header & 3 {
        0 => 1 + payload(bytes, upper)?,
        1 => 1 + upper,
        2 => end_by(ObjectParts::of(bytes).map(|parts| parts.offsets), bytes)?,
        _ => end_by(list_offsets(bytes), bytes)?,
    };
    match length {
        _ if length <= bytes.len() => Ok(length),
        _ if length <= u32::MAX as usize => Err(Unmeasured::Longer),
        _ => Err(Unmeasured::Sum),
    }
}

/// The bytes after the header byte of a primitive.
fn payload(bytes: &[u8], kind: usize) -> Result<usize, Unmeasured> {
    let payload = *PAYLOADS.get(kind).ok_or(Unmeasured::Unknown)?;
    if kind != BINARY && kind != STRING {
        return Ok(payload);
    }
    let held = Row {
        at: 1,
        width: payload,
        count: 1,
    };
    let held = held.number(bytes, 0).ok_or(Unmeasured::Cut)?;
    Ok(payload + held)
}

/// Where what the last offset says ends, whether it is all there or not.
fn end_by(offsets: Option<Row>, bytes: &[u8]) -> Result<usize, Unmeasured> {
    let offsets = offsets.ok_or(Unmeasured::Cut)?;
    let start = offsets.end();
    match offsets.number(bytes, offsets.count - 1) {
        Some(last) => Ok(start + last),
        None if start <= u32::MAX as usize => Err(Unmeasured::Cut),
        None => Err(Unmeasured::Sum),
    }
}
