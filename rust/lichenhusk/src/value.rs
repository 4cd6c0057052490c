//! A value as it is read: a number, or where its bytes are.

use crate::{Field, Refusal, Strip, child, raw};

/// A value, as one of the cases of a reading.
///
/// Floats have the bits that were encoded, of what is not a number too; as ever, such a float is not
/// equal to itself, nor is the value that holds it.
///
/// ```
/// use lichenhusk::{Kind, Value};
///
/// assert_eq!(lichenhusk::value(&[0x0C, 0xFB])?, Value::I8(-5));
/// assert_eq!(lichenhusk::value(&[0x04])?, Value::Bool(true));
/// let text = Value::Bytes { kind: Kind::ShortString, bytes: b"flow" };
/// assert_eq!(lichenhusk::value(b"\x11flow, and more")?, text);
/// # Ok::<(), lichenhusk::Refusal>(())
/// ```
#[derive(Clone, Copy, Debug, PartialEq)]
pub enum Value<'bytes> {
    /// The null.
    Null,
    /// A truth value.
    Bool(bool),
    /// A signed integer of eight bits.
    I8(i8),
    /// A signed integer of 16 bits.
    I16(i16),
    /// A signed integer of 32 bits.
    I32(i32),
    /// A signed integer of 64 bits.
    I64(i64),
    /// A single float.
    F32(f32),
    /// A double float.
    F64(f64),
    /// A value of any other type: what it says is not looked at.
    Bytes {
        /// Which type.
        kind: Kind,
        /// The text of a short string; of a binary or a string what follows its length; the whole
        /// encoding of an object or a list; of another primitive what follows its header byte.
        bytes: &'bytes [u8],
    },
}

/// The types of which a reading gives the bytes.
#[derive(Clone, Copy, Debug, PartialEq, Eq, Hash)]
pub enum Kind {
    /// A byte for the scale, and an integer of 32 bits.
    Decimal4 = 8,
    /// A byte for the scale, and an integer of 64 bits.
    Decimal8 = 9,
    /// A byte for the scale, and an integer of 128 bits.
    Decimal16 = 10,
    /// Days since 1970, in 32 bits.
    Date = 11,
    /// Microseconds since 1970 in UTC, in 64 bits.
    Timestamp = 12,
    /// The same without a time zone.
    TimestampNtz = 13,
    /// Any bytes.
    Binary = 15,
    /// A text, which may turn out not to be UTF-8.
    String = 16,
    /// Microseconds since midnight, in 64 bits.
    TimeNtz = 17,
    /// Nanoseconds since 1970 in UTC, in 64 bits.
    TimestampNanos = 18,
    /// The same without a time zone.
    TimestampNtzNanos = 19,
    /// Sixteen bytes.
    Uuid = 20,
    /// A text of up to 63 bytes, which may turn out not to be UTF-8.
    ShortString = 257,
    /// An object, of which nothing is checked but that its bytes are all there.
    Object = 258,
    /// A list, of which the same is checked.
    List = 259,
}

use Kind::*;

impl Kind {
    /// The kind of a number; nothing for a number that has none, or that is not read as bytes.
    pub fn of(number: u32) -> Option<Kind> {
        Some(match number {
            8 => Decimal4,
            9 => Decimal8,
            10 => Decimal16,
            11 => Date,
            12 => Timestamp,
            13 => TimestampNtz,
            15 => Binary,
            16 => String,
            17 => TimeNtz,
            18 => TimestampNanos,
            19 => TimestampNtzNanos,
            20 => Uuid,
            257 => ShortString,
            258 => Object,
            259 => List,
            _ => return None,
        })
    }

    /// The kind of a number that the archive gave.
    ///
    /// # Panics
    ///
    /// On a number that this crate does not know, which only an archive of another version of
    /// the project can give.
    fn known(number: u32) -> Kind {
        Kind::of(number).unwrap_or_else(|| {
            panic!("the archive answers kind {number}: it is not of this crate's version")
        })
    }

    /// The number, as the strip's second word has it: that of the primitive type, or 256 plus that
    /// of the basic type.
    pub fn number(self) -> u32 {
        self as u32
    }
}

impl<'bytes> Value<'bytes> {
    /// The integer, whatever its width; nothing of a value that is none.
    ///
    /// A writer may take the least width that holds a number, so that the same field has one width
    /// in this message and another in the next.
    ///
    /// ```
    /// assert_eq!(lichenhusk::value(&[0x0C, 0xFB])?.integer(), Some(-5));
    /// assert_eq!(lichenhusk::value(&[0x10, 0xFB, 0x00])?.integer(), Some(251));
    /// assert_eq!(lichenhusk::value(&[0x04])?.integer(), None);
    /// # Ok::<(), lichenhusk::Refusal>(())
    /// ```
    pub fn integer(self) -> Option<i64> {
        match self {
            Value::I8(number) => Some(number.into()),
            Value::I16(number) => Some(number.into()),
            Value::I32(number) => Some(number.into()),
            Value::I64(number) => Some(number),
            _ => None,
        }
    }

    /// The value that a strip tells, in the bytes that it was read from.
    fn of(strip: Strip, bytes: &'bytes [u8]) -> Value<'bytes> {
        let bits = strip.bits();
        match strip.number {
            0 => Value::Null,
            1 => Value::Bool(true),
            2 => Value::Bool(false),
            3 => Value::I8(bits as i8),
            4 => Value::I16(bits as i16),
            5 => Value::I32(bits as i32),
            6 => Value::I64(bits as i64),
            7 => Value::F64(f64::from_bits(bits)),
            14 => Value::F32(f32::from_bits(bits as u32)),
            number => Value::Bytes {
                kind: Kind::known(number),
                bytes: &bytes[strip.start as usize..strip.end as usize],
            },
        }
    }
}

/// Reads the value that bytes begin with.
///
/// Bytes after its own encoding change nothing, so that a child is read as it was found. There is
/// no limit of length, and what the bytes of a text, a date or an object say is not looked at.
///
/// ```
/// use lichenhusk::{Refusal, Value};
///
/// let minus_five = [0x18, 0xFB, 0xFF, 0xFF, 0xFF, 0xFF, 0xFF, 0xFF, 0xFF];
/// assert_eq!(lichenhusk::value(&minus_five), Ok(Value::I64(-5)));
/// assert_eq!(lichenhusk::value(&minus_five[..8]), Err(Refusal::ValueShort));
/// assert_eq!(lichenhusk::value(&[]), Err(Refusal::ValueShort));
/// assert_eq!(lichenhusk::value(&[0xFC]), Err(Refusal::ValueType));
/// ```
pub fn value(bytes: &[u8]) -> Result<Value<'_>, Refusal> {
    let strip = Strip::of(|strip| raw::value(bytes, strip)).accepted()?;
    Ok(Value::of(strip, bytes))
}

/// What was found of a name: the child, or that there is none.
///
/// It lives as long as the object; the dictionary and the name may go before.
#[derive(Clone, Copy, Debug, PartialEq, Eq, Hash)]
pub struct Child<'object> {
    bytes: Option<&'object [u8]>,
}

impl<'object> Child<'object> {
    /// The child's bytes, up to the end of the object, as [`child`](crate::child()) hands them back;
    /// nothing where the object has no such field.
    ///
    /// ```
    /// let dict = b"\x11\x02\x00\x04\x08flowroll";
    /// let object = b"\x02\x02\x00\x01\x01\x00\x03\x04\x0C\xFB";
    /// assert_eq!(lichenhusk::find(dict, object, b"roll")?.bytes(), Some(&object[7..]));
    /// assert_eq!(lichenhusk::find(dict, object, b"rol")?.bytes(), None);
    /// # Ok::<(), lichenhusk::Refusal>(())
    /// ```
    pub fn bytes(self) -> Option<&'object [u8]> {
        self.bytes
    }

    /// Reads the child, as [`value`](crate::value()) does; nothing where the object has no such
    /// field, which is no error.
    ///
    /// ```
    /// use lichenhusk::{Refusal, Value};
    ///
    /// let dict = b"\x11\x02\x00\x04\x08flowroll";
    /// let object = b"\x02\x02\x00\x01\x01\x00\x03\x04\x0C\xFB";
    /// let value = |name: &[u8]| lichenhusk::find(dict, object, name)?.value();
    /// assert_eq!(value(b"flow"), Ok(Some(Value::I8(-5))));
    /// assert_eq!(value(b"rol"), Ok(None));
    ///
    /// let no_such_type = b"\x02\x01\x00\x00\x01\xFC";
    /// let flow = lichenhusk::find(dict, no_such_type, b"flow")?;
    /// assert_eq!(flow.value(), Err(Refusal::ValueType));
    /// # Ok::<(), Refusal>(())
    /// ```
    pub fn value(self) -> Result<Option<Value<'object>>, Refusal> {
        self.bytes.map(value).transpose()
    }
}

/// As [`child`](crate::child()), for a child that is to be read: `find(..)?.value()?` is its value,
/// or nothing where there is no such field.
///
/// ```
/// use lichenhusk::Value;
///
/// let dict = b"\x11\x02\x00\x04\x08flowroll";
/// let object = b"\x02\x02\x00\x01\x01\x00\x03\x04\x0C\xFB";
/// match lichenhusk::find(dict, object, b"flow")?.value()? {
///     Some(Value::I8(flow)) => assert_eq!(flow, -5),
///     Some(other) => panic!("not an eight-bit integer: {other:?}"),
///     None => panic!("no flow"),
/// }
/// # Ok::<(), lichenhusk::Refusal>(())
/// ```
pub fn find<'object>(
    dict: &[u8],
    object: &'object [u8],
    name: &[u8],
) -> Result<Child<'object>, Refusal> {
    let bytes = child(dict, object, name)?;
    Ok(Child { bytes })
}

impl<'object> Field<'object> {
    /// Reads the field's child, as [`value`](crate::value()) does. A child that was listed has all
    /// of its bytes and a known type, so that it is not refused.
    ///
    /// ```
    /// use lichenhusk::Value;
    ///
    /// let dict = b"\x11\x02\x00\x04\x08flowroll";
    /// let object = b"\x02\x02\x00\x01\x01\x00\x03\x04\x0C\xFB";
    /// let fields = lichenhusk::list(dict, object)?;
    /// assert_eq!(fields[0].value()?, Value::I8(-5));
    /// assert_eq!(fields[1].value()?, Value::Bool(true));
    /// # Ok::<(), lichenhusk::Refusal>(())
    /// ```
    pub fn value(self) -> Result<Value<'object>, Refusal> {
        value(self.child)
    }
}
