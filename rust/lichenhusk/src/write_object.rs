//! An object of fields, written: over a dictionary that is there, or with one of its names.

use crate::write::{dictionary_of, width};
use crate::{LIMIT, Layer, Refusal, Strip, WORDS_PER_PAIR, layer_of, raw, run_of};

/// A field as an object is written of it: the entry that is its name, and where its child starts and
/// ends in the bytes that are lent.
type Pair = [u32; WORDS_PER_PAIR];

/// The object of fields over a dictionary: each an entry of the dictionary, which is its name, and the
/// bytes of its child.
///
/// The fields come in any order, and the same fields give the same bytes: in the order of their names,
/// children in that order without gaps, numbers in the fewest bytes that hold them. Each name is found
/// by [`lookup`](crate::lookup()), in bytes that begin with its child. What a child says is not looked
/// at: that it is a value, over this dictionary, is the caller's. Of no fields it is the bytes 02 00 00.
///
/// ```
/// use lichenhusk::Refusal;
///
/// let dict = lichenhusk::write_dictionary(["flow", "roll"])?;
/// let object = lichenhusk::write_object(&dict, [(1, &[0x04][..]), (0, &[0x0C, 0xFB])])?;
/// assert_eq!(object, b"\x02\x02\x00\x01\x00\x02\x03\x0C\xFB\x04");
/// assert_eq!(lichenhusk::check_tree(&dict, &object), Ok(object.len()));
///
/// // An entry that is none; a name that comes again.
/// let refused = lichenhusk::write_object(&dict, [(0, [0]), (2, [0])]);
/// assert_eq!(refused, Err(Refusal::ObjectId { field: 1 }));
/// let refused = lichenhusk::write_object(&dict, [(1, [0]), (0, [0]), (1, [4])]);
/// assert_eq!(refused, Err(Refusal::ObjectOrder { field: 2 }));
/// # Ok::<(), Refusal>(())
/// ```
///
/// Refused, in this order, with the number of the first such field as it was given: what is refused of
/// the dictionary; 25, an entry that it has not; 26, a name that an earlier field has; 28, a child of no
/// bytes. Then 20, where the object would be longer than [`LIMIT`], and nothing else. Children are handed
/// on with ends of 32 bits, so that those of more than 4,294,967,295 bytes together are refused with 20
/// before anything else is looked at.
///
/// This allocates the children one after another, words to sort their fields in, and the result; with
/// [`write_object_into`] nothing is. [`ObjectWriter`] takes names in place of entries.
pub fn write_object(
    dict: &[u8],
    fields: impl IntoIterator<Item = (u32, impl AsRef<[u8]>)>,
) -> Result<Vec<u8>, Refusal> {
    let (ids, children): (Vec<u32>, Vec<_>) = fields.into_iter().unzip();
    // They are measured before a byte of them is copied.
    let (bytes, ends) = run_of(&children).map_err(|_| Refusal::ObjectTooLong)?;
    object_of(dict, &bytes, &pairs_of(&ids, &ends))
}

/// The pairs of children that lie one after another.
fn pairs_of(ids: &[u32], ends: &[u32]) -> Vec<Pair> {
    let starts = [0].iter().chain(ends);
    let ranges = starts.zip(ends);
    ids.iter()
        .zip(ranges)
        .map(|(&id, (&start, &end))| [id, start, end])
        .collect()
}

/// The object of pairs that have all of the bytes, each byte once.
fn object_of(dict: &[u8], bytes: &[u8], pairs: &[Pair]) -> Result<Vec<u8>, Refusal> {
    let (mut order, mut spare) = (vec![0; pairs.len()], vec![0; pairs.len()]);
    let mut room = vec![0; length(bytes.len(), pairs)];
    let written = write_object_into(dict, bytes, pairs, &mut order, &mut spare, &mut room)?;
    debug_assert_eq!(written.end, room.len());
    Ok(room)
}

/// How many bytes their object has; or the limit, where that is less.
fn length(total: usize, pairs: &[Pair]) -> usize {
    let greatest = pairs.iter().map(|&[id, ..]| id).max().unwrap_or(0);
    let count_width = if pairs.len() > 0xFF { 4 } else { 1 };
    let ids = pairs.len() * width(greatest as usize);
    let offsets = (pairs.len() + 1) * width(total);
    (1 + count_width + ids + offsets)
        .saturating_add(total)
        .min(LIMIT)
}

/// As [`write_object`], of pairs over bytes that are lent, into room that is lent; this allocates
/// nothing.
///
/// A pair has three words: the entry of the dictionary, and where the child starts and ends in the
/// bytes, counted from the first of them. Pairs may have the same bytes, or overlap: what they lend is
/// written for each. The object goes to the first bytes of the room; bytes after it stay as they are,
/// and a refusal leaves them all. What is answered is the layer that [`layer`](crate::layer()) reads back.
///
/// `order` and `spare` are scratch. With a word for each pair in both, the time grows with the pairs as
/// sorting them does, whatever their order; where a name comes again, as that of some sorts, since the
/// first such pair is found by halving. With fewer, none too, the answer is the same, the time grows with
/// the square of the pairs, and nothing but the room is written. They may hold anything before; what they
/// hold afterwards is not said.
///
/// ```
/// use lichenhusk::{Layer, Refusal, write_object_into};
///
/// let dict = b"\x11\x02\x00\x04\x08flowroll";
/// let (bytes, pairs) = ([0x04, 0x0C, 0xFB], [[1, 0, 1], [0, 1, 3]]);
/// let (mut order, mut spare, mut room) = ([0; 2], [0; 2], [9; 11]);
/// let layer = write_object_into(dict, &bytes, &pairs, &mut order, &mut spare, &mut room)?;
/// assert_eq!(layer, Layer { fields: 2, region: 7, end: 10 });
/// assert_eq!(&room, b"\x02\x02\x00\x01\x00\x02\x03\x0C\xFB\x04\x09");
///
/// // Without scratch: a child that passes the bytes, and too little room.
/// let short = &mut [9; 9];
/// let refused = write_object_into(dict, &bytes, &[[1, 3, 4]], &mut [], &mut [], short);
/// assert_eq!(refused, Err(Refusal::NamesEnd { name: 0 }));
/// let refused = write_object_into(dict, &bytes, &pairs, &mut [], &mut [], short);
/// assert_eq!(refused, Err(Refusal::WriteNoRoom));
/// assert_eq!(short, &[9; 9]);
/// # Ok::<(), Refusal>(())
/// ```
///
/// Refused, in this order, each of all pairs before the next and at the first such pair: what is refused
/// of the dictionary; 25; 26; 45, a start above its end, or an end past the bytes; 28. Then 20; 46.
pub fn write_object_into(
    dict: &[u8],
    bytes: &[u8],
    pairs: &[Pair],
    order: &mut [u32],
    spare: &mut [u32],
    room: &mut [u8],
) -> Result<Layer, Refusal> {
    let words = pairs.as_flattened();
    let fill = |strip: &mut [u8]| raw::write_object(dict, bytes, words, order, spare, room, strip);
    Ok(layer_of(Strip::of(fill).accepted()?))
}

/// Fields by their names, of which an object is written, and its dictionary.
///
/// Names and the bytes of children are handed over in any order, and are copied. [`finish`] writes a
/// dictionary of the names and the object over it. The same fields give the same bytes, whatever their
/// order.
///
/// ```
/// use lichenhusk::{Message, ObjectWriter, Value};
///
/// let mut writer = ObjectWriter::new();
/// writer.field("roll", [0x04]).field("flow", [0x0C, 0xFB]);
/// let (dict, object) = writer.finish()?;
/// assert_eq!(dict, b"\x11\x02\x00\x04\x08flowroll");
/// assert_eq!(object, b"\x02\x02\x00\x01\x00\x02\x03\x0C\xFB\x04");
/// assert_eq!(Message::new(&dict, &object).value("flow")?, Some(Value::I8(-5)));
/// # Ok::<(), lichenhusk::Refusal>(())
/// ```
///
/// A child that is an object itself, or has one in it, is over the same dictionary. So the dictionary
/// of all names is written first, and [`finish_over`] writes each object over it, the inner ones before
/// those that they are in:
///
/// ```
/// use lichenhusk::{Message, ObjectWriter, Value};
///
/// let dict = lichenhusk::write_dictionary(["site", "flow"])?;
/// let inner = ObjectWriter::from_iter([("flow", [0x0C, 0xFB])]).finish_over(&dict)?;
/// let outer = ObjectWriter::from_iter([("site", inner)]).finish_over(&dict)?;
/// let flow = Message::new(&dict, &outer).value_at("site.flow")?;
/// assert_eq!(flow, Some(Value::I8(-5)));
/// # Ok::<(), lichenhusk::Refusal>(())
/// ```
///
/// [`finish`]: ObjectWriter::finish
/// [`finish_over`]: ObjectWriter::finish_over
#[derive(Clone, Debug, Default, PartialEq, Eq)]
pub struct ObjectWriter {
    names: Run,
    children: Run,
}

impl ObjectWriter {
    /// A writer of no fields.
    pub fn new() -> ObjectWriter {
        ObjectWriter::default()
    }

    /// Hands a field over: its name, text or bytes, and its child. Neither is looked at yet.
    pub fn field(&mut self, name: impl AsRef<[u8]>, child: impl AsRef<[u8]>) -> &mut Self {
        self.names.push(name.as_ref());
        self.children.push(child.as_ref());
        self
    }

    /// The dictionary of the names, and the object over it.
    ///
    /// ```
    /// use lichenhusk::{ObjectWriter, Refusal};
    ///
    /// let none = ObjectWriter::new().finish();
    /// assert_eq!(none, Ok((vec![0x11, 0, 0], vec![0x02, 0, 0])));
    ///
    /// let mut writer = ObjectWriter::new();
    /// let twice = writer.field("flow", [0]).field("roll", [0]).field("flow", [4]).finish();
    /// assert_eq!(twice, Err(Refusal::ObjectOrder { field: 2 }));
    /// ```
    ///
    /// Refused, in this order: what [`write_dictionary`](crate::write_dictionary) refuses of the names,
    /// 45 at the first that is not UTF-8 and 10; then, at the first such field in the order in which they
    /// came, 26, a name that came before, and 28, a child of no bytes; then 20. Where the children have
    /// more than 4,294,967,295 bytes together, 20 comes before 26.
    pub fn finish(&self) -> Result<(Vec<u8>, Vec<u8>), Refusal> {
        let ends = self.names.words().ok_or(Refusal::DictionaryTooLong)?;
        let dict = dictionary_of(&self.names.bytes, &ends)?;
        let object = self.over(&dict)?;
        Ok((dict, object))
    }

    /// The object over a dictionary that is there. Of entries with one name, the first is taken.
    ///
    /// ```
    /// use lichenhusk::{ObjectWriter, Refusal};
    ///
    /// let dict = b"\x11\x02\x00\x04\x08flowroll";
    /// let mut writer = ObjectWriter::new();
    /// let object = writer.field("roll", [0x04]).finish_over(dict)?;
    /// assert_eq!(object, b"\x02\x01\x01\x00\x01\x04");
    ///
    /// let refused = writer.field("rol", [0x04]).finish_over(dict);
    /// assert_eq!(refused, Err(Refusal::ObjectId { field: 1 }));
    /// # Ok::<(), Refusal>(())
    /// ```
    ///
    /// Refused, in this order: what is refused of the dictionary; 25, at the first field whose name it
    /// has not; then as by [`finish`](ObjectWriter::finish) 26, 28 and 20.
    pub fn finish_over(&self, dict: &[u8]) -> Result<Vec<u8>, Refusal> {
        crate::dictionary(dict)?;
        self.over(dict)
    }

    /// The object over a dictionary that is accepted.
    fn over(&self, dict: &[u8]) -> Result<Vec<u8>, Refusal> {
        let entries = entries_of(dict);
        let id = |(name, field)| {
            let at = entries.partition_point(|&(entry, _)| entry < name);
            let found = entries.get(at).filter(|(entry, _)| *entry == name);
            found.map(|&(_, id)| id).ok_or(Refusal::ObjectId { field })
        };
        let ids = self.names.parts().zip(0..).map(id);
        let ids: Vec<u32> = ids.collect::<Result<_, _>>()?;
        let ends = self.children.words().ok_or(Refusal::ObjectTooLong)?;
        object_of(dict, &self.children.bytes, &pairs_of(&ids, &ends))
    }
}

impl<N: AsRef<[u8]>, C: AsRef<[u8]>> Extend<(N, C)> for ObjectWriter {
    fn extend<T: IntoIterator<Item = (N, C)>>(&mut self, fields: T) {
        for (name, child) in fields {
            self.field(name, child);
        }
    }
}

impl<N: AsRef<[u8]>, C: AsRef<[u8]>> FromIterator<(N, C)> for ObjectWriter {
    fn from_iter<T: IntoIterator<Item = (N, C)>>(fields: T) -> ObjectWriter {
        let mut writer = ObjectWriter::new();
        writer.extend(fields);
        writer
    }
}

/// Parts one after another, and where each of them ends.
#[derive(Clone, Debug, Default, PartialEq, Eq)]
struct Run {
    bytes: Vec<u8>,
    ends: Vec<usize>,
}

impl Run {
    fn push(&mut self, part: &[u8]) {
        self.bytes.extend_from_slice(part);
        self.ends.push(self.bytes.len());
    }

    fn parts(&self) -> impl Iterator<Item = &[u8]> {
        let starts = [0].iter().chain(&self.ends);
        starts
            .zip(&self.ends)
            .map(|(&start, &end)| &self.bytes[start..end])
    }

    /// The ends as words; nothing where 32 bits do not hold the last.
    fn words(&self) -> Option<Vec<u32>> {
        u32::try_from(self.bytes.len()).ok()?;
        Some(self.ends.iter().map(|&end| end as u32).collect())
    }
}

/// The names of a dictionary that is accepted, in order, each with its entry. Equal names stand in the
/// order of their entries.
fn entries_of(dict: &[u8]) -> Vec<(&[u8], u32)> {
    let width = 1 + (dict[0] >> 6) as usize;
    let number = |index: usize| {
        let mut bytes = [0; 4];
        bytes[..width].copy_from_slice(&dict[1 + index * width..][..width]);
        u32::from_le_bytes(bytes) as usize
    };
    let count = number(0);
    let names = &dict[1 + (count + 2) * width..];
    let name = |entry: usize| &names[number(entry + 1)..number(entry + 2)];
    let mut entries: Vec<(&[u8], u32)> = (0..count)
        .map(|entry| (name(entry), entry as u32))
        .collect();
    entries.sort();
    entries
}
