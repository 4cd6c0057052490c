//! What stands at a path in a value.

use crate::{Refusal, Strip, Value, WORDS_PER_STEP, found_of, raw, value};

/// What stands at a path: a part of the value, and which field or element it is.
///
/// It lives as long as the value; the dictionary and the path may go before.
#[derive(Clone, Copy, Debug, PartialEq, Eq, Hash)]
pub struct Reached<'value> {
    /// By the last step: a name's field, counted from 0 in its object's order, or the index. Of the
    /// empty path, 0.
    pub field: usize,
    /// The entry of the dictionary that is the last step's name; of an index and of the empty path, 0.
    pub id: u32,
    /// Where it starts, counted from the value's first byte.
    pub start: usize,
    /// Its bytes: of a name up to the end of the object that has the field, so that others may follow;
    /// of an index up to the next element, and they may be none. Of the empty path, the whole value.
    pub bytes: &'value [u8],
}

impl<'value> Reached<'value> {
    /// Reads what stands there, as [`value`](crate::value()) does.
    ///
    /// ```
    /// use lichenhusk::{Reached, Value};
    ///
    /// let dict = b"\x11\x02\x00\x04\x08flowroll";
    /// let list = b"\x03\x02\x00\x02\x03\x0C\xFB\x04";
    /// let first = lichenhusk::path(dict, list, "[0]")?.map(Reached::value).transpose()?;
    /// assert_eq!(first, Some(Value::I8(-5)));
    /// # Ok::<(), lichenhusk::Refusal>(())
    /// ```
    pub fn value(self) -> Result<Value<'value>, Refusal> {
        value(self.bytes)
    }
}

/// The longest path whose steps go into room on the stack.
const SHORT: usize = 64;

/// Checks a dictionary and follows a path into a value, layer by layer; nothing where an object has no
/// field of the name, or a list no such element.
///
/// A path is names with dots between them, and brackets with an index or a quoted name: `site.meter[2]`,
/// `['a.b']["c"]`. Within brackets a backslash takes the next character as it is. The empty path is the
/// whole value. A path is text, or bytes, which are refused where they are none.
///
/// Each object and each list on the way is checked in full, and nothing beside them: other children may
/// say what they will.
///
/// ```
/// use lichenhusk::{Reached, Refusal, Value};
///
/// // The object of a field "flow", which is a list of minus five and of true.
/// let dict = b"\x11\x02\x00\x04\x08flowroll";
/// let value = b"\x02\x01\x00\x00\x08\x03\x02\x00\x02\x03\x0C\xFB\x04";
///
/// let first = Reached { field: 0, id: 0, start: 10, bytes: &[0x0C, 0xFB] };
/// assert_eq!(lichenhusk::path(dict, value, "flow[0]")?, Some(first));
/// assert_eq!(first.value()?, Value::I8(-5));
/// assert_eq!(lichenhusk::path(dict, value, "flow[2]")?, None);
/// assert_eq!(lichenhusk::path(dict, value, "['roll']")?, None);
///
/// let refused = |path: &str| lichenhusk::path(dict, value, path).unwrap_err();
/// assert_eq!(refused("flow.roll"), Refusal::StepKind { step: 1 });
/// assert_eq!(refused("flow[x]"), Refusal::PathBracket);
/// assert_eq!(lichenhusk::path(dict, value, b"\xFF"), Err(Refusal::PathNotUtf8));
/// # Ok::<(), Refusal>(())
/// ```
///
/// A path of more than 64 bytes has its steps read into room that this allocates; [`path_with`] has it
/// lent.
pub fn path<'value>(
    dict: &[u8],
    value: &'value [u8],
    path: impl AsRef<[u8]>,
) -> Result<Option<Reached<'value>>, Refusal> {
    let path = path.as_ref();
    let length = path.len();
    if length <= SHORT {
        let (mut names, mut words) = ([0; SHORT], [0; WORDS_PER_STEP * SHORT]);
        return path_with(dict, value, path, &mut names, &mut words);
    }
    let (mut names, mut words) = (vec![0; length], vec![0; WORDS_PER_STEP * length]);
    path_with(dict, value, path, &mut names, &mut words)
}

/// As [`path`], with room for the steps that is lent, which allocates nothing.
///
/// The names go one after another into the bytes, and into the words three for each step: 0, and where
/// its name starts and ends among the bytes; or 1, and the low and the high half of its index. As many
/// bytes as the path has, and three words for each of them, always do. What comes after stays as it is.
/// A refusal of the path leaves all; any other comes after the steps are written.
///
/// ```
/// use lichenhusk::Refusal;
///
/// let dict = b"\x11\x02\x00\x04\x08flowroll";
/// let value = b"\x02\x01\x00\x00\x08\x03\x02\x00\x02\x03\x0C\xFB\x04";
/// let (mut names, mut words) = ([9; 5], [9; 7]);
/// let found = lichenhusk::path_with(dict, value, "flow[1]", &mut names, &mut words)?;
/// assert_eq!(found.map(|found| found.bytes), Some(&[0x04][..]));
/// assert_eq!(&names, b"flow\x09");
/// assert_eq!(words, [0, 0, 4, 1, 1, 0, 9]);
///
/// let (few, no_names) = (&mut [9; 5], &mut [9; 3]);
/// let refused = lichenhusk::path_with(dict, value, "flow[1]", no_names, few);
/// assert_eq!(refused, Err(Refusal::PathNoRoom));
/// assert_eq!((no_names, few), (&mut [9; 3], &mut [9; 5]));
/// # Ok::<(), Refusal>(())
/// ```
pub fn path_with<'value>(
    dict: &[u8],
    value: &'value [u8],
    path: impl AsRef<[u8]>,
    names: &mut [u8],
    words: &mut [u32],
) -> Result<Option<Reached<'value>>, Refusal> {
    let path = path.as_ref();
    let strip = Strip::of(|strip| raw::path(dict, value, path, names, words, strip)).accepted()?;
    Ok(found_of(strip.row()).map(|found| Reached {
        field: found.field,
        id: found.id,
        start: found.start,
        // The whole value may have more bytes than the strip's 32 bits count.
        bytes: match path.is_empty() {
            true => value,
            false => found.child_of(value),
        },
    }))
}
