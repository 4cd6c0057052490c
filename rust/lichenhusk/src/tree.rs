//! A value with all that is below it.

use crate::{LIMIT, OWN_MARKS, Refusal, Strip, raw};
use std::error::Error;
use std::fmt;

/// Why a tree was refused, and of which value in it.
///
/// ```
/// let dict = b"\x11\x02\x00\x04\x08flowroll";
/// // A list of one object, whose field has the id 2.
/// let list = b"\x03\x01\x00\x06\x02\x01\x02\x00\x01\x00";
/// let refused = lichenhusk::check_tree(dict, list).unwrap_err();
/// assert_eq!(
///     refused.to_string(),
///     "refused 25 at 0: the id of the object's field 0 names no entry of the dictionary \
///      (the value starts at 4)"
/// );
/// ```
#[derive(Clone, Copy, Debug, PartialEq, Eq, Hash)]
pub struct TreeRefusal {
    /// The refusal. Its place is one in its own layer: a field of the object that is refused, an
    /// element of the list.
    pub refusal: Refusal,
    /// Where the value starts that is refused, counted from the first byte of the whole; 0 where the
    /// dictionary is.
    pub start: usize,
}

impl TreeRefusal {
    /// Whether it is the dictionary that is refused, and no value.
    pub fn is_of_dictionary(self) -> bool {
        (10..=19).contains(&self.refusal.number())
    }
}

impl fmt::Display for TreeRefusal {
    fn fmt(&self, to: &mut fmt::Formatter<'_>) -> fmt::Result {
        self.refusal.fmt(to)?;
        match self.is_of_dictionary() {
            true => Ok(()),
            false => write!(to, " (the value starts at {})", self.start),
        }
    }
}

impl Error for TreeRefusal {}

/// For a host to which it is enough what is wrong, and not where.
impl From<TreeRefusal> for Refusal {
    fn from(refused: TreeRefusal) -> Refusal {
        refused.refusal
    }
}

/// Checks a dictionary, and the value that bytes begin with, with all that is below it; gives the
/// value's own length.
///
/// An object has its children checked as values, and a list its elements; any other value has its
/// length checked, and a string that it is UTF-8. More than [`LEVELS`](crate::LEVELS) objects and
/// lists in one another are refused. Bytes after the value's own change nothing.
///
/// Fields may share children, and children may overlap: a value is looked into once all the same, by
/// marks of what was found good. For a value of more than [`OWN_MARKS`] bytes this allocates them, a
/// byte for each of its bytes; [`check_tree_with`] has them lent.
///
/// ```
/// use lichenhusk::{Refusal, TreeRefusal};
///
/// let dict = b"\x11\x02\x00\x04\x08flowroll";
/// let object = b"\x02\x02\x00\x01\x01\x00\x03\x04\x0C\xFB, and more";
/// assert_eq!(lichenhusk::check_tree(dict, object), Ok(10));
///
/// // The object of a field "flow", a list of one value of no known type, which starts at 9.
/// let object = b"\x02\x01\x00\x00\x05\x03\x01\x00\x01\x54";
/// assert!(lichenhusk::layer(dict, object).is_ok());
/// let refused = TreeRefusal { refusal: Refusal::ValueType, start: 9 };
/// assert_eq!(lichenhusk::check_tree(dict, object), Err(refused));
/// ```
pub fn check_tree(dict: &[u8], value: &[u8]) -> Result<usize, TreeRefusal> {
    let length = value.len();
    let is_marked = OWN_MARKS < length && length <= LIMIT;
    let mut marks = vec![0; if is_marked { length } else { 0 }];
    check_tree_with(dict, value, &mut marks)
}

/// As [`check_tree`], with marks that are lent.
///
/// They are any number of bytes, which hold anything before and are all 0 afterwards, also under a
/// refusal; no answer depends on them. Lend none for a value of up to [`OWN_MARKS`] bytes, and for a
/// longer one as many as it has, so that it takes no longer than it must.
///
/// ```
/// use lichenhusk::Refusal;
///
/// let dict = b"\x11\x02\x00\x04\x08flowroll";
/// let mut marks = [9; 4];
/// assert_eq!(lichenhusk::check_tree_with(dict, &[0x0C, 0xFB], &mut marks), Ok(2));
/// assert_eq!(marks, [0; 4]);
/// let refused = lichenhusk::check_tree_with(dict, &[0x0C], &mut []).unwrap_err();
/// assert_eq!(refused.refusal, Refusal::ValueShort);
/// ```
pub fn check_tree_with(dict: &[u8], value: &[u8], marks: &mut [u8]) -> Result<usize, TreeRefusal> {
    let strip = Strip::of(|strip| raw::tree(dict, value, marks, strip));
    let start = strip.start as usize;
    let accepted = strip.accepted();
    let accepted = accepted.map_err(|refusal| TreeRefusal { refusal, start })?;
    Ok(accepted.end as usize)
}
