//! The six words of an answer.

use crate::{ABSENT, OK, Refusal, STRIP_BYTES, WORDS_PER_NAME};

/// An answer as it stands in a strip: six numbers.
///
/// ```
/// use lichenhusk::{Strip, raw};
///
/// let mut bytes = [0; lichenhusk::STRIP_BYTES];
/// assert_eq!(raw::dictionary(&[1, 0, 0], &mut bytes), 0);
/// let strip = Strip::read(&bytes);
/// assert_eq!((strip.code, strip.number, strip.end), (0, 0, 3));
/// ```
#[derive(Clone, Copy, Debug, PartialEq, Eq, Hash)]
pub struct Strip {
    /// What was answered: 0, 1, 3 or the number of a refusal.
    pub code: u32,
    /// An entry count, a field count, a field, an index, a value's kind or, where more is wanted, how many
    /// bytes are held, by the function that was asked.
    pub number: u32,
    /// The dictionary's entry that is the name of a field that was found.
    pub id: u32,
    /// Where what was found starts; of a value that is a number, the low half of its bits; of a tree
    /// that is refused, where the value starts that it is for.
    pub start: u32,
    /// Where it ends; of such a value, the high half; of a tree, how long the value is; of a dictionary
    /// or an object that was written, how long that is; where more is wanted, how many bytes are.
    pub end: u32,
    /// The place of a refusal.
    pub place: u32,
}

impl Strip {
    /// Reads the words of a strip's bytes, each with its lowest byte first.
    pub fn read(bytes: &[u8; STRIP_BYTES]) -> Strip {
        let word = |k: usize| {
            u32::from_le_bytes([
                bytes[4 * k],
                bytes[4 * k + 1],
                bytes[4 * k + 2],
                bytes[4 * k + 3],
            ])
        };
        Strip {
            code: word(0),
            number: word(1),
            id: word(2),
            start: word(3),
            end: word(4),
            place: word(5),
        }
    }

    /// The bytes of a strip that holds the words: the state, say, of a dictionary in pieces.
    ///
    /// ```
    /// use lichenhusk::{Strip, raw};
    ///
    /// let mut bytes = [0; lichenhusk::STRIP_BYTES];
    /// raw::begin(&mut bytes);
    /// assert_eq!(Strip::read(&bytes).bytes(), bytes);
    /// ```
    pub fn bytes(self) -> [u8; STRIP_BYTES] {
        let Strip {
            code,
            number,
            id,
            start,
            end,
            place,
        } = self;
        let words = [code, number, id, start, end, place].map(u32::to_le_bytes);
        let mut bytes = [0; STRIP_BYTES];
        bytes.copy_from_slice(words.as_flattened());
        bytes
    }

    /// The 64 bits of a value that is a number: a double's as they are, a float's in the low half, a
    /// signed integer's with its sign extended.
    ///
    /// ```
    /// use lichenhusk::{Strip, raw};
    ///
    /// let mut bytes = [0; lichenhusk::STRIP_BYTES];
    /// assert_eq!(raw::value(&[0x0C, 0xFB], &mut bytes), 0);
    /// assert_eq!(Strip::read(&bytes).bits() as i64, -5);
    /// ```
    pub fn bits(self) -> u64 {
        u64::from(self.end) << 32 | u64::from(self.start)
    }

    /// What a name's row among many has.
    pub(crate) fn row(self) -> [u32; WORDS_PER_NAME] {
        [self.code, self.number, self.id, self.start, self.end]
    }

    /// Has a function fill a strip, and reads it.
    pub(crate) fn of(fill: impl FnOnce(&mut [u8]) -> u32) -> Strip {
        let mut bytes = [0; STRIP_BYTES];
        let code = fill(&mut bytes);
        let strip = Strip::read(&bytes);
        debug_assert_eq!(strip.code, code, "the code returned is the code written");
        strip
    }

    /// The refusal that the strip holds, if it holds one.
    pub(crate) fn accepted(self) -> Result<Strip, Refusal> {
        match self.code {
            OK | ABSENT => Ok(self),
            number => Err(Refusal::known(number, self.place)),
        }
    }
}
