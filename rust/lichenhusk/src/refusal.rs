//! Why bytes were refused.

use crate::{LEVELS, LIMIT, STRIP_BYTES};
use std::error::Error;
use std::fmt;

/// A refusal, with its place where it has one.
///
/// Of several reasons to refuse, the one given is the first in the order in which bytes are
/// checked: the ends of names before the dictionary, the dictionary before the object, a header
/// before what it describes, and then entry by entry and field by field: 25 and 26 of each field
/// first, and when all are done, 27 and 28 of each. Of a listing, 43 comes after these, and 41 last. A
/// value that is read gets 50 or 51 and no other. Of a tree, an object or a list has its own checks
/// before its children, and these come in their order. A path's own refusals, 70 to 76, come before
/// the dictionary's, and then the value is checked step by step. Of a dictionary that is written, 45 of
/// all names comes first, then 10, and 46 last. Of an object that is written, each of 25, 26, 45 and 28
/// is looked for in all pairs, in this order, after the dictionary; then come 20 and 46. The field, or
/// the name, of these four is the pair, in the order in which they are given. Of a dictionary in pieces,
/// 44 stands for 11 and 13 where there is no room for more, and 10 is never given.
///
/// ```
/// let refusal = lichenhusk::dictionary(&[1, 1, 0, 1, 0xFF]).unwrap_err();
/// assert_eq!((refusal.number(), refusal.place()), (16, 0));
/// assert_eq!(
///     refusal.to_string(),
///     "refused 16 at 0: the dictionary's names are not UTF-8 after their first 0 bytes"
/// );
/// ```
///
/// A text that was cut is told from one that is corrupt:
///
/// ```
/// use lichenhusk::Refusal;
///
/// let refusal = lichenhusk::dictionary(&[1, 1, 0, 1, 0xC3]).unwrap_err();
/// assert_eq!(refusal, Refusal::DictionaryTextCut { prefix: 0 });
/// ```
#[derive(Clone, Copy, Debug, PartialEq, Eq, Hash)]
pub enum Refusal {
    /// 10: the dictionary is longer than [`LIMIT`], or the one to be written would be.
    DictionaryTooLong,
    /// 11: the dictionary has no bytes.
    DictionaryEmpty,
    /// 12: the dictionary's version is not 1.
    DictionaryVersion,
    /// 13: the dictionary ends before its count, its offsets or its names do.
    DictionaryShort,
    /// 14: the dictionary's count or last offset asks for a place above 4,294,967,295.
    DictionaryOverflow,
    /// 15: the dictionary's first offset is not 0.
    DictionaryFirstOffset,
    /// 16: the dictionary's names are not UTF-8, and no further bytes would make them that.
    DictionaryNotUtf8 {
        /// How many bytes, from the first name's first byte, are well formed.
        prefix: u32,
    },
    /// 17: an entry's offsets fall, pass the names' end or cut a character.
    DictionaryEntry {
        /// The first such entry.
        entry: u32,
    },
    /// 18: the dictionary says that it is sorted, and an entry is not above the one before.
    DictionaryOrder {
        /// The first such entry.
        entry: u32,
    },
    /// 19: the dictionary's names end inside a character, which further bytes would complete:
    /// the text was cut, so ask for the rest. Checked where 16 is.
    DictionaryTextCut {
        /// How many bytes, from the first name's first byte, are well formed.
        prefix: u32,
    },
    /// 20: the object is longer than [`LIMIT`], or the one to be written would be.
    ObjectTooLong,
    /// 21: the object has no bytes.
    ObjectEmpty,
    /// 22: the value is not an object.
    ObjectType,
    /// 23: the object ends before its count, its ids, its offsets or its children do.
    ObjectShort,
    /// 24: the object's count or last offset asks for a place above 4,294,967,295.
    ObjectOverflow,
    /// 25: the id of a field, or of a pair to be written, names no entry of the dictionary.
    ObjectId {
        /// The first such field.
        field: u32,
    },
    /// 26: a field's name is not above the name of the field before. Of an object to be written, a pair
    /// has the name of an earlier one, whichever entries they are.
    ObjectOrder {
        /// The first such field.
        field: u32,
    },
    /// 27: a field's offset is above the length of the children's bytes.
    ObjectOffset {
        /// The first such field, with none before it that gets 28.
        field: u32,
    },
    /// 28: a field's child has no bytes, since its offset is the length of the children's bytes. Of an
    /// object to be written, a pair's child starts where it ends.
    ObjectChildEmpty {
        /// The first such field, with none before it that gets 27.
        field: u32,
    },
    /// 31: the dictionary has no entry of that number.
    NoSuchEntry,
    /// 40: the strip is shorter than [`STRIP_BYTES`].
    StripTooShort,
    /// 41: there are fewer than three words of room for each field of a listing, or than five
    /// for each of many names.
    WordsTooFew,
    /// 42: there are fewer than three bytes of room for the empty dictionary.
    RoomTooSmall,
    /// 43: of a listing, a field's child has no length of its own within the object: it is of an
    /// unknown primitive type, or its header or its bytes go on past the end of the object.
    ChildLength {
        /// The first such field.
        field: u32,
    },
    /// 44: of a dictionary in pieces, more bytes have come than there is room for, and they settle nothing;
    /// or its state counts more bytes than its store has room for.
    PiecesNoRoom,
    /// 45: of many names, the end of one falls below where it begins or passes the run of names; or,
    /// of names that are to be written, one is not UTF-8. Of an object to be written, the end of a pair's
    /// child is below its start or passes the bytes that are lent.
    NamesEnd {
        /// The first such name, or pair.
        name: u32,
    },
    /// 46: there are fewer bytes of room than the dictionary, or the object, has that is to be written.
    WriteNoRoom,
    /// 50: the value has no bytes, its header is cut, or its own length passes its bytes or
    /// 4,294,967,295.
    ValueShort,
    /// 51: the value is of an unknown primitive type.
    ValueType,
    /// 52: of a tree, an object or a list stands inside [`LEVELS`] others.
    ValueTooDeep,
    /// 53: of a path, a step goes into a value of another kind: a name into what is no object, or an
    /// index into what is no list.
    StepKind {
        /// Which step, counted from 0.
        step: u32,
    },
    /// 54: of a tree, a string is not UTF-8.
    ValueNotUtf8,
    /// 60: of a tree or a path, a list ends before its count, its offsets or its elements do.
    ListShort,
    /// 61: of a tree or a path, a list's count or last offset asks for a place above 4,294,967,295.
    ListOverflow,
    /// 62: of a tree or a path, an element's offset is above the next one or above the length of the
    /// elements' bytes.
    ListOffset {
        /// The first such element.
        element: u32,
    },
    /// 70: the path is not UTF-8.
    PathNotUtf8,
    /// 71: the path begins with a dot.
    PathLeadingDot,
    /// 72: the path ends with a dot.
    PathTrailingDot,
    /// 73: in the path a dot or a bracket stands where none may: after a dot, or a closing bracket
    /// that nothing opened.
    PathUnexpected,
    /// 74: in the path a bracket is not closed.
    PathUnclosed,
    /// 75: in the path, what is in brackets is neither quoted nor a number below 2 to the 64th.
    PathBracket,
    /// 76: there are fewer than three words of room for each step of the path, or fewer bytes than its
    /// names have, or these pass 4,294,967,295.
    PathNoRoom,
}

use Refusal::*;

impl Refusal {
    /// The refusal of a number and a place, as a strip holds them; nothing for a number that is
    /// no refusal. The place counts only for a refusal that has one.
    ///
    /// ```
    /// use lichenhusk::Refusal;
    ///
    /// assert_eq!(Refusal::of(25, 3), Some(Refusal::ObjectId { field: 3 }));
    /// assert_eq!(Refusal::of(1, 0), None);
    /// ```
    pub fn of(number: u32, place: u32) -> Option<Refusal> {
        Some(match number {
            10 => DictionaryTooLong,
            11 => DictionaryEmpty,
            12 => DictionaryVersion,
            13 => DictionaryShort,
            14 => DictionaryOverflow,
            15 => DictionaryFirstOffset,
            16 => DictionaryNotUtf8 { prefix: place },
            17 => DictionaryEntry { entry: place },
            18 => DictionaryOrder { entry: place },
            19 => DictionaryTextCut { prefix: place },
            20 => ObjectTooLong,
            21 => ObjectEmpty,
            22 => ObjectType,
            23 => ObjectShort,
            24 => ObjectOverflow,
            25 => ObjectId { field: place },
            26 => ObjectOrder { field: place },
            27 => ObjectOffset { field: place },
            28 => ObjectChildEmpty { field: place },
            31 => NoSuchEntry,
            40 => StripTooShort,
            41 => WordsTooFew,
            42 => RoomTooSmall,
            43 => ChildLength { field: place },
            44 => PiecesNoRoom,
            45 => NamesEnd { name: place },
            46 => WriteNoRoom,
            50 => ValueShort,
            51 => ValueType,
            52 => ValueTooDeep,
            53 => StepKind { step: place },
            54 => ValueNotUtf8,
            60 => ListShort,
            61 => ListOverflow,
            62 => ListOffset { element: place },
            70 => PathNotUtf8,
            71 => PathLeadingDot,
            72 => PathTrailingDot,
            73 => PathUnexpected,
            74 => PathUnclosed,
            75 => PathBracket,
            76 => PathNoRoom,
            _ => return None,
        })
    }

    /// The refusal of a number that the archive gave.
    ///
    /// # Panics
    ///
    /// On a number that this crate does not know, which only an archive of another version of
    /// the project can give.
    pub(crate) fn known(number: u32, place: u32) -> Refusal {
        Refusal::of(number, place).unwrap_or_else(|| {
            panic!("the archive answers {number}: it is not of this crate's version")
        })
    }

    /// The number, as the strip's first word has it.
    pub fn number(self) -> u32 {
        match self {
            DictionaryTooLong => 10,
            DictionaryEmpty => 11,
            DictionaryVersion => 12,
            DictionaryShort => 13,
            DictionaryOverflow => 14,
            DictionaryFirstOffset => 15,
            DictionaryNotUtf8 { .. } => 16,
            DictionaryEntry { .. } => 17,
            DictionaryOrder { .. } => 18,
            DictionaryTextCut { .. } => 19,
            ObjectTooLong => 20,
            ObjectEmpty => 21,
            ObjectType => 22,
            ObjectShort => 23,
            ObjectOverflow => 24,
            ObjectId { .. } => 25,
            ObjectOrder { .. } => 26,
            ObjectOffset { .. } => 27,
            ObjectChildEmpty { .. } => 28,
            NoSuchEntry => 31,
            StripTooShort => 40,
            WordsTooFew => 41,
            RoomTooSmall => 42,
            ChildLength { .. } => 43,
            PiecesNoRoom => 44,
            NamesEnd { .. } => 45,
            WriteNoRoom => 46,
            ValueShort => 50,
            ValueType => 51,
            ValueTooDeep => 52,
            StepKind { .. } => 53,
            ValueNotUtf8 => 54,
            ListShort => 60,
            ListOverflow => 61,
            ListOffset { .. } => 62,
            PathNotUtf8 => 70,
            PathLeadingDot => 71,
            PathTrailingDot => 72,
            PathUnexpected => 73,
            PathUnclosed => 74,
            PathBracket => 75,
            PathNoRoom => 76,
        }
    }

    /// The place, as the strip's last word has it: 0 for a refusal that has none.
    pub fn place(self) -> u32 {
        match self {
            DictionaryNotUtf8 { prefix } | DictionaryTextCut { prefix } => prefix,
            DictionaryEntry { entry } | DictionaryOrder { entry } => entry,
            ObjectId { field } | ObjectOrder { field } => field,
            ObjectOffset { field } | ObjectChildEmpty { field } => field,
            ChildLength { field } => field,
            NamesEnd { name } => name,
            ListOffset { element } => element,
            StepKind { step } => step,
            _ => 0,
        }
    }
}

impl fmt::Display for Refusal {
    fn fmt(&self, to: &mut fmt::Formatter<'_>) -> fmt::Result {
        write!(to, "refused {} at {}: ", self.number(), self.place())?;
        match self {
            DictionaryTooLong => write!(to, "the dictionary is longer than {LIMIT} bytes"),
            DictionaryEmpty => write!(to, "the dictionary has no bytes"),
            DictionaryVersion => write!(to, "the dictionary's version is not 1"),
            DictionaryShort => write!(
                to,
                "the dictionary ends before its count, its offsets or its names do"
            ),
            DictionaryOverflow => write!(
                to,
                "the dictionary's count or last offset asks for a place above 4294967295"
            ),
            DictionaryFirstOffset => write!(to, "the dictionary's first offset is not 0"),
            DictionaryNotUtf8 { prefix } => write!(
                to,
                "the dictionary's names are not UTF-8 after their first {prefix} bytes"
            ),
            DictionaryEntry { entry } => write!(
                to,
                "the offsets of the dictionary's entry {entry} fall, pass the names' end or cut a character"
            ),
            DictionaryOrder { entry } => write!(
                to,
                "the dictionary says that it is sorted, and its entry {entry} is not above the one before"
            ),
            DictionaryTextCut { prefix } => write!(
                to,
                "the dictionary's names end inside a character, after their first {prefix} bytes: ask for the rest"
            ),
            ObjectTooLong => write!(to, "the object is longer than {LIMIT} bytes"),
            ObjectEmpty => write!(to, "the object has no bytes"),
            ObjectType => write!(to, "the value is not an object: its basic type is not 2"),
            ObjectShort => write!(
                to,
                "the object ends before its count, its ids, its offsets or its children do"
            ),
            ObjectOverflow => write!(
                to,
                "the object's count or last offset asks for a place above 4294967295"
            ),
            ObjectId { field } => write!(
                to,
                "the id of the object's field {field} names no entry of the dictionary"
            ),
            ObjectOrder { field } => write!(
                to,
                "the name of the object's field {field} is not above that of the field before or, in an object to be written, is that of an earlier one"
            ),
            ObjectOffset { field } => write!(
                to,
                "the offset of the object's field {field} is above the length of the children's bytes"
            ),
            ObjectChildEmpty { field } => {
                write!(to, "the child of the object's field {field} has no bytes")
            }
            NoSuchEntry => write!(to, "the dictionary has no entry of that number"),
            StripTooShort => write!(to, "the strip is shorter than {STRIP_BYTES} bytes"),
            WordsTooFew => write!(
                to,
                "there are fewer than three words of room for each field, or than five for each of many names"
            ),
            RoomTooSmall => write!(
                to,
                "there are fewer than 3 bytes of room for the empty dictionary"
            ),
            ChildLength { field } => write!(
                to,
                "the child of the object's field {field} is of an unknown primitive type or goes on past the object's end"
            ),
            PiecesNoRoom => write!(
                to,
                "more bytes of the dictionary have come than there is room for, and they settle nothing"
            ),
            NamesEnd { name } => write!(
                to,
                "the end of name {name}, or of field {name} to be written, falls below where it begins or passes the bytes, or the name is to be written and is not UTF-8"
            ),
            WriteNoRoom => write!(
                to,
                "there are fewer bytes of room than the dictionary or the object to be written has"
            ),
            ValueShort => write!(
                to,
                "the value has no bytes, its header is cut, or its own length passes its bytes or 4294967295"
            ),
            ValueType => write!(to, "the value is of an unknown primitive type"),
            ValueTooDeep => write!(
                to,
                "the value is an object or a list inside {LEVELS} others"
            ),
            StepKind { step } => write!(
                to,
                "step {step} of the path is a name and the value no object, or an index and the value no list"
            ),
            ValueNotUtf8 => write!(to, "the value is a string that is not UTF-8"),
            ListShort => write!(
                to,
                "the list ends before its count, its offsets or its elements do"
            ),
            ListOverflow => write!(
                to,
                "the list's count or last offset asks for a place above 4294967295"
            ),
            ListOffset { element } => write!(
                to,
                "the offset of the list's element {element} is above the next or above the length of the elements' bytes"
            ),
            PathNotUtf8 => write!(to, "the path is not UTF-8"),
            PathLeadingDot => write!(to, "the path begins with a dot"),
            PathTrailingDot => write!(to, "the path ends with a dot"),
            PathUnexpected => write!(
                to,
                "the path has a dot or a bracket after a dot, or a closing bracket that nothing opened"
            ),
            PathUnclosed => write!(to, "the path has a bracket that is not closed"),
            PathBracket => write!(
                to,
                "what the path has in brackets is neither quoted nor a number below 18446744073709551616"
            ),
            PathNoRoom => write!(
                to,
                "there are fewer than three words of room for each step of the path, or fewer bytes than its names have"
            ),
        }
    }
}

impl Error for Refusal {}
