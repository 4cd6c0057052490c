//! Safe calls to Lichenhusk, a reader of the Variant binary encoding of Apache Parquet, and a writer of
//! its dictionaries and objects, whose code is proved to meet its definitions.
//!
//! A Variant comes as two buffers: a dictionary of field names and a value. This crate checks a
//! dictionary and one layer of an object, finds a field by its name, or many by theirs, lists the
//! fields, and reads a value. It does not look into the children, but for how long each is where they
//! are listed: a child is handed back as bytes of the object, which can be read as a value in turn.
//! [`check_tree`] checks a value with all that is below it, and [`path`](path()) follows names and
//! indices into it. [`write_dictionary`] writes a dictionary of names, [`write_object`] an object over
//! one, and an [`ObjectWriter`] both, of names and the bytes of their children. [`Pieces`] takes a
//! dictionary in as it comes, piece by piece.
//!
//! Each call checks what it is lent from the start, keeps nothing, and copies nothing but what it
//! writes; pieces are kept by the store that is lent. Any bytes may be lent; what is wrong with them is a
//! [`Refusal`] with a number and a place. What a C caller must see to (no null pointer, no shared memory,
//! alignment), a slice brings with it; [`raw`] says how. The functions called are proved; this crate around
//! them is tested.
//!
//! ```
//! use lichenhusk::{Message, Value};
//!
//! // A sorted dictionary of "flow" and "roll", and an object that has both.
//! let dict = b"\x11\x02\x00\x04\x08flowroll";
//! let object = b"\x02\x02\x00\x01\x01\x00\x03\x04\x0C\xFB";
//!
//! let flow = lichenhusk::child(dict, object, b"flow")?;
//! assert_eq!(flow, Some(&object[8..10]));
//! assert_eq!(lichenhusk::child(dict, object, b"rol")?, None);
//!
//! // The number itself: an eight-bit FB is minus five.
//! let flow = lichenhusk::find(dict, object, b"flow")?.value()?;
//! assert_eq!(flow, Some(Value::I8(-5)));
//!
//! // Many names, and both buffers are checked once.
//! let [flow, roll] = Message::new(dict, object).children(["flow", "roll"])?;
//! assert_eq!((flow, roll), (Some(&object[8..10]), Some(&object[7..10])));
//!
//! // Names and children, in any order, become a dictionary and an object.
//! let mut writer = lichenhusk::ObjectWriter::new();
//! let (dict, object) = writer.field("roll", [0x04]).field("flow", [0x0C, 0xFB]).finish()?;
//!
//! for field in lichenhusk::list(&dict, &object)? {
//!     let name = lichenhusk::name(&dict, field.id as usize)?;
//!     println!("{}: {:02X?}", String::from_utf8_lossy(name), field.child);
//! }
//! # Ok::<(), lichenhusk::Refusal>(())
//! ```

#![deny(unsafe_code)]
#![warn(missing_docs)]

mod message;
mod path;
mod pieces;
#[allow(unsafe_code)]
pub mod raw;
mod refusal;
mod strip;
mod tree;
mod value;
mod write;
mod write_object;

pub use message::Message;
pub use path::{Reached, path, path_with};
pub use pieces::{Fed, Pieces};
pub use refusal::Refusal;
pub use strip::Strip;
pub use tree::{TreeRefusal, check_tree, check_tree_with};
pub use value::{Child, Kind, Value, find, value};
pub use write::{Written, write_dictionary, write_dictionary_into};
pub use write_object::{ObjectWriter, write_object, write_object_into};

/// The most bytes that a dictionary, or an object, may have.
pub const LIMIT: usize = 16_777_216;

/// The bytes of a strip that an answer fills.
pub const STRIP_BYTES: usize = 24;

/// The words of a listing for each field.
pub const WORDS_PER_FIELD: usize = 3;

/// The words for each of many names.
pub const WORDS_PER_NAME: usize = 5;

/// The words for each step of a path.
pub const WORDS_PER_STEP: usize = 3;

/// The words for each pair that an object is written of.
pub const WORDS_PER_PAIR: usize = 3;

/// The most objects and lists that may stand in one another in a tree.
pub const LEVELS: usize = 32;

/// The longest value of which the check of a tree needs no marks lent to be fast.
pub const OWN_MARKS: usize = 65_536;

/// The code of what was accepted, found or written.
pub const OK: u32 = 0;

/// The code of a name that no field has, and of an index past a list.
pub const ABSENT: u32 = 1;

/// The code of a dictionary in pieces of which more bytes are wanted.
pub const MORE: u32 = 3;

/// An accepted dictionary.
#[derive(Clone, Copy, Debug, PartialEq, Eq, Hash)]
pub struct Dictionary {
    /// How many names it has.
    pub entries: usize,
    /// Where its own bytes end; what comes after is ignored.
    pub end: usize,
}

/// An accepted layer of an object, or one that was written.
#[derive(Clone, Copy, Debug, PartialEq, Eq, Hash)]
pub struct Layer {
    /// How many fields it has.
    pub fields: usize,
    /// Where the children's bytes begin.
    pub region: usize,
    /// Where the object's own bytes end; what comes after is ignored.
    pub end: usize,
}

/// A field that a lookup found.
#[derive(Clone, Copy, Debug, PartialEq, Eq, Hash)]
pub struct Found {
    /// Which field, counted from 0 in the object's order.
    pub field: usize,
    /// The entry of the dictionary that is its name: [`name`] there gives the bytes looked for.
    pub id: u32,
    /// Where its child starts in the object: below the end, so that a child has a byte at least.
    pub start: usize,
    /// Where the child ends: at the end of the object's own bytes, for every child.
    pub end: usize,
}

impl Found {
    /// The child, in the object where it was found.
    fn child_of(self, object: &[u8]) -> &[u8] {
        &object[self.start..self.end]
    }
}

/// A field as a listing has it.
#[derive(Clone, Copy, Debug, PartialEq, Eq, Hash)]
pub struct Field<'object> {
    /// The entry of the dictionary that is its name.
    pub id: u32,
    /// Where its child starts in the object.
    pub start: usize,
    /// The child: the bytes of its own encoding and no others, one at least. What a lookup finds
    /// begins with the same bytes, and goes on to the end of the object.
    pub child: &'object [u8],
}

/// Checks a dictionary.
///
/// ```
/// use lichenhusk::{Dictionary, Refusal};
///
/// let two = b"\x11\x02\x00\x04\x08flowroll, and more";
/// assert_eq!(lichenhusk::dictionary(two), Ok(Dictionary { entries: 2, end: 13 }));
/// assert_eq!(lichenhusk::dictionary(&two[..12]), Err(Refusal::DictionaryShort));
/// ```
pub fn dictionary(dict: &[u8]) -> Result<Dictionary, Refusal> {
    dictionary_by(Strip::of(|strip| raw::dictionary(dict, strip)))
}

/// Checks a dictionary and finds the name of an entry, counted from 0. A name is UTF-8.
///
/// ```
/// use lichenhusk::Refusal;
///
/// let dict = b"\x11\x02\x00\x04\x08flowroll";
/// assert_eq!(lichenhusk::name(dict, 1), Ok(&b"roll"[..]));
/// assert_eq!(lichenhusk::name(dict, 2), Err(Refusal::NoSuchEntry));
/// ```
pub fn name(dict: &[u8], entry: usize) -> Result<&[u8], Refusal> {
    let strip = Strip::of(|strip| raw::name(dict, entry, strip)).accepted()?;
    Ok(&dict[strip.start as usize..strip.end as usize])
}

/// Checks a dictionary and one layer of an object.
///
/// ```
/// use lichenhusk::{Layer, Refusal};
///
/// let dict = b"\x11\x02\x00\x04\x08flowroll";
/// let object = b"\x02\x02\x00\x01\x01\x00\x03\x04\x0C\xFB";
/// let layer = Layer { fields: 2, region: 7, end: 10 };
/// assert_eq!(lichenhusk::layer(dict, object), Ok(layer));
/// assert_eq!(lichenhusk::layer(dict, &[0]), Err(Refusal::ObjectType));
/// ```
pub fn layer(dict: &[u8], object: &[u8]) -> Result<Layer, Refusal> {
    let strip = Strip::of(|strip| raw::layer(dict, object, strip)).accepted()?;
    Ok(layer_of(strip))
}

/// Checks a dictionary and one layer of an object, and looks for the field of a name.
///
/// The name is any bytes. Bytes that are not UTF-8 are no field's name.
///
/// ```
/// use lichenhusk::Found;
///
/// let dict = b"\x11\x02\x00\x04\x08flowroll";
/// let object = b"\x02\x02\x00\x01\x01\x00\x03\x04\x0C\xFB";
/// let roll = Found { field: 1, id: 1, start: 7, end: 10 };
/// assert_eq!(lichenhusk::lookup(dict, object, b"roll"), Ok(Some(roll)));
/// assert_eq!(lichenhusk::name(dict, roll.id as usize), Ok(&b"roll"[..]));
/// assert_eq!(lichenhusk::lookup(dict, object, b"rol"), Ok(None));
/// ```
pub fn lookup(dict: &[u8], object: &[u8], name: &[u8]) -> Result<Option<Found>, Refusal> {
    let strip = Strip::of(|strip| raw::lookup(dict, object, name, strip)).accepted()?;
    Ok(found_of(strip.row()))
}

/// As [`lookup`], and hands back the child as a part of the object.
///
/// The part lives as long as the object; the dictionary and the name may go before. It is never
/// empty: an object with a child of no bytes is refused.
///
/// ```
/// let object = *b"\x02\x02\x00\x01\x01\x00\x03\x04\x0C\xFB";
/// let flow = {
///     let dict = b"\x11\x02\x00\x04\x08flowroll".to_vec();
///     let name = String::from("flow");
///     lichenhusk::child(&dict, &object, name.as_bytes())?
/// };
/// assert_eq!(flow, Some(&[0x0C, 0xFB][..]));
///
/// let dict = b"\x11\x02\x00\x04\x08flowroll";
/// let refused = lichenhusk::child(dict, &[2, 1, 0, 0, 0], b"flow");
/// assert_eq!(refused, Err(lichenhusk::Refusal::ObjectChildEmpty { field: 0 }));
/// # Ok::<(), lichenhusk::Refusal>(())
/// ```
pub fn child<'object>(
    dict: &[u8],
    object: &'object [u8],
    name: &[u8],
) -> Result<Option<&'object [u8]>, Refusal> {
    let found = lookup(dict, object, name)?;
    Ok(found.map(|found| found.child_of(object)))
}

/// Checks a dictionary and one layer of an object once, and looks for the fields of many names.
///
/// The answers are those of [`lookup`], in the order of the names. This puts the names one after
/// another first; with [`run_of`] that is done once for all messages, and [`lookup_all_into`] then
/// allocates nothing.
///
/// ```
/// use lichenhusk::Found;
///
/// let dict = b"\x11\x02\x00\x04\x08flowroll";
/// let object = b"\x02\x02\x00\x01\x01\x00\x03\x04\x0C\xFB";
/// let flow = Found { field: 0, id: 0, start: 8, end: 10 };
/// let roll = Found { field: 1, id: 1, start: 7, end: 10 };
/// let found = lichenhusk::lookup_all(dict, object, &["roll", "rol", "flow"])?;
/// assert_eq!(found, [Some(roll), None, Some(flow)]);
/// # Ok::<(), lichenhusk::Refusal>(())
/// ```
pub fn lookup_all<N: AsRef<[u8]>>(
    dict: &[u8],
    object: &[u8],
    names: &[N],
) -> Result<Vec<Option<Found>>, Refusal> {
    let (run, ends) = run_of(names)?;
    let mut words = vec![0; WORDS_PER_NAME * ends.len()];
    lookup_all_into(dict, object, &run, &ends, &mut words)?;
    Ok(rows_of(&words).collect())
}

/// Names as [`lookup_all_into`] takes them: one after another, and where each of them ends.
///
/// Ends are numbers of 32 bits. The first name whose end is none, because the names up to it are
/// longer together, is refused as one whose end passes the run.
///
/// ```
/// let (run, ends) = lichenhusk::run_of(&["flow", "", "roll"])?;
/// assert_eq!((&run[..], &ends[..]), (&b"flowroll"[..], &[4, 4, 8][..]));
/// # Ok::<(), lichenhusk::Refusal>(())
/// ```
pub fn run_of<N: AsRef<[u8]>>(names: &[N]) -> Result<(Vec<u8>, Vec<u32>), Refusal> {
    let mut length: usize = 0;
    let end = |(index, name): (usize, &N)| {
        length = length.saturating_add(name.as_ref().len());
        let name = index as u32;
        u32::try_from(length).map_err(|_| Refusal::NamesEnd { name })
    };
    let ends = names
        .iter()
        .enumerate()
        .map(end)
        .collect::<Result<_, _>>()?;
    let mut run = Vec::with_capacity(length);
    names
        .iter()
        .for_each(|name| run.extend_from_slice(name.as_ref()));
    Ok((run, ends))
}

/// Checks a dictionary and one layer of an object once, looks for the fields of many names, and
/// writes five words a name into room that is lent: code, field, id, start, end, the last four 0
/// where the name is absent. Words after these stay as they are, and a refusal leaves them all.
///
/// The names stand one after another in a run of bytes; the ends say where, counted from its
/// first byte. Bytes after the last end are ignored.
///
/// ```
/// use lichenhusk::Refusal;
///
/// let dict = b"\x11\x02\x00\x04\x08flowroll";
/// let object = b"\x02\x02\x00\x01\x01\x00\x03\x04\x0C\xFB";
/// let (run, ends) = lichenhusk::run_of(&["roll", "rol"])?;
/// let mut words = [9; 11];
/// let layer = lichenhusk::lookup_all_into(dict, object, &run, &ends, &mut words)?;
/// assert_eq!(Ok(layer), lichenhusk::layer(dict, object));
/// assert_eq!(words, [0, 1, 1, 7, 10, 1, 0, 0, 0, 0, 9]);
///
/// let (falls, little) = ([4, 3], &mut [9; 9]);
/// let refused = lichenhusk::lookup_all_into(dict, object, &run, &falls, little);
/// assert_eq!(refused, Err(Refusal::NamesEnd { name: 1 }));
/// let refused = lichenhusk::lookup_all_into(dict, object, &run, &ends, little);
/// assert_eq!(refused, Err(Refusal::WordsTooFew));
/// assert_eq!(little, &[9; 9]);
/// # Ok::<(), Refusal>(())
/// ```
pub fn lookup_all_into(
    dict: &[u8],
    object: &[u8],
    names: &[u8],
    ends: &[u32],
    words: &mut [u32],
) -> Result<Layer, Refusal> {
    let fill = |strip: &mut [u8]| raw::lookup_all(dict, object, names, ends, words, strip);
    Ok(layer_of(Strip::of(fill).accepted()?))
}

/// What was found, by the words that [`lookup_all_into`] wrote. A cut last row is left out.
///
/// ```
/// let rows = [0, 1, 1, 7, 10, 1, 0, 0, 0, 0];
/// let mut found = lichenhusk::rows_of(&rows);
/// assert_eq!(found.next().unwrap().map(|roll| roll.start), Some(7));
/// assert_eq!(found.next().unwrap(), None);
/// assert!(found.next().is_none());
/// ```
pub fn rows_of(words: &[u32]) -> impl Iterator<Item = Option<Found>> {
    let (rows, _) = words.as_chunks();
    rows.iter().copied().map(found_of)
}

/// Checks a dictionary and one layer of an object, and lists the fields in their order, each with
/// the bytes of its child's own encoding.
///
/// This asks for the layer first, to know how many fields there are, and so checks twice; with
/// [`list_into`] and room enough it is done once.
///
/// A child that has no such bytes within the object is refused: one of an unknown primitive type,
/// or that goes on past the object's end.
///
/// ```
/// use lichenhusk::{Field, Refusal};
///
/// let dict = b"\x11\x02\x00\x04\x08flowroll";
/// let object = b"\x02\x02\x00\x01\x01\x00\x03\x04\x0C\xFB";
/// let flow = Field { id: 0, start: 8, child: &[0x0C, 0xFB] };
/// let roll = Field { id: 1, start: 7, child: &[0x04] };
/// assert_eq!(lichenhusk::list(dict, object), Ok(vec![flow, roll]));
///
/// let no_such_type = b"\x02\x01\x00\x00\x01\xFC";
/// let refused = lichenhusk::list(dict, no_such_type);
/// assert_eq!(refused, Err(Refusal::ChildLength { field: 0 }));
/// ```
pub fn list<'object>(dict: &[u8], object: &'object [u8]) -> Result<Vec<Field<'object>>, Refusal> {
    let fields = layer(dict, object)?.fields;
    let mut words = vec![0; WORDS_PER_FIELD * fields];
    list_into(dict, object, &mut words)?;
    Ok(fields_of(object, &words).collect())
}

/// Checks a dictionary and one layer of an object, and writes three words a field into room that
/// is lent: id, start, span. The span is the length of the child's own encoding. Words after these
/// stay as they are, and a refusal leaves them all; [`fields_of`] reads them.
///
/// ```
/// use lichenhusk::Refusal;
///
/// let dict = b"\x11\x02\x00\x04\x08flowroll";
/// let object = b"\x02\x02\x00\x01\x01\x00\x03\x04\x0C\xFB";
/// let mut words = [9; 7];
/// let layer = lichenhusk::list_into(dict, object, &mut words)?;
/// assert_eq!(words, [0, 8, 2, 1, 7, 1, 9]);
///
/// let listed = &words[..lichenhusk::WORDS_PER_FIELD * layer.fields];
/// let roll = lichenhusk::fields_of(object, listed).last().unwrap();
/// assert_eq!((roll.id, roll.child), (1, &[0x04][..]));
///
/// let little = &mut [9; 5];
/// assert_eq!(lichenhusk::list_into(dict, object, little), Err(Refusal::WordsTooFew));
/// assert_eq!(little, &[9; 5]);
/// # Ok::<(), Refusal>(())
/// ```
pub fn list_into(dict: &[u8], object: &[u8], words: &mut [u32]) -> Result<Layer, Refusal> {
    let strip = Strip::of(|strip| raw::list(dict, object, words, strip)).accepted()?;
    Ok(layer_of(strip))
}

/// The fields of an object, by the words that [`list_into`] wrote for it. A cut last field is left
/// out.
///
/// # Panics
///
/// On words that reach out of the object: they are another one's.
pub fn fields_of<'object>(
    object: &'object [u8],
    words: &[u32],
) -> impl Iterator<Item = Field<'object>> {
    let (fields, _) = words.as_chunks();
    fields
        .iter()
        .map(|&[id, start, span]: &[u32; WORDS_PER_FIELD]| {
            let start = start as usize;
            Field {
                id,
                start,
                child: &object[start..][..span as usize],
            }
        })
}

/// Writes the empty dictionary, the bytes 01 00 00, to the first three bytes of room; bytes
/// after them stay as they are.
///
/// ```
/// use lichenhusk::Refusal;
///
/// let mut room = [9; 4];
/// assert_eq!(lichenhusk::empty(&mut room), Ok(()));
/// assert_eq!(room, [1, 0, 0, 9]);
/// assert_eq!(lichenhusk::empty(&mut room[..2]), Err(Refusal::RoomTooSmall));
/// ```
pub fn empty(room: &mut [u8]) -> Result<(), Refusal> {
    match raw::empty(room) {
        OK => Ok(()),
        number => Err(Refusal::known(number, 0)),
    }
}

/// What was found, by a row of words; a strip begins with the same.
fn found_of([code, field, id, start, end]: [u32; WORDS_PER_NAME]) -> Option<Found> {
    (code == OK).then_some(Found {
        field: field as usize,
        id,
        start: start as usize,
        end: end as usize,
    })
}

/// The dictionary that a strip is of, or its refusal.
fn dictionary_by(strip: Strip) -> Result<Dictionary, Refusal> {
    let strip = strip.accepted()?;
    Ok(Dictionary {
        entries: strip.number as usize,
        end: strip.end as usize,
    })
}

fn layer_of(strip: Strip) -> Layer {
    Layer {
        fields: strip.number as usize,
        region: strip.start as usize,
        end: strip.end as usize,
    }
}
