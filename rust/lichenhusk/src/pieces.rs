//! A dictionary that comes in pieces.

use crate::{Dictionary, MORE, Refusal, STRIP_BYTES, Strip, dictionary_by, raw};

/// What is known of a dictionary after a piece of it.
#[derive(Clone, Copy, Debug, PartialEq, Eq, Hash)]
pub enum Fed {
    /// Nothing yet: more bytes are wanted.
    More {
        /// How many bytes are in the store.
        held: usize,
        /// How many bytes there must be, these among them, before it can settle: always more than are
        /// held, and never more than a good dictionary has. It may be more than there is room for.
        wanted: usize,
    },
    /// It is settled, and stays so whatever comes.
    Settled(Result<Dictionary, Refusal>),
}

impl Fed {
    fn of(strip: Strip) -> Fed {
        match strip.code {
            MORE => Fed::More {
                held: strip.number as usize,
                wanted: strip.end as usize,
            },
            _ => Fed::Settled(dictionary_by(strip)),
        }
    }
}

/// A dictionary that comes in pieces, which are copied into a store that is lent until it is settled
/// whether the dictionary is good.
///
/// However the bytes are cut, pieces of no bytes too, the answer is that of
/// [`dictionary`](crate::dictionary()) to the first bytes that came, as many as the store and
/// [`LIMIT`](crate::LIMIT) have room for. Where that is that there are no bytes or too few, more are
/// wanted; or, if more have come than there is room for, it is
/// [`PiecesNoRoom`](Refusal::PiecesNoRoom). The names are looked at once, when all of them are there: the
/// time grows with the bytes and with the pieces, whatever their lengths.
///
/// ```
/// use lichenhusk::{Dictionary, Fed, Pieces};
///
/// let mut store = [0; 64];
/// let mut pieces = Pieces::new(&mut store);
/// assert_eq!(pieces.feed(b"\x11\x02\x00"), Fed::More { held: 3, wanted: 5 });
/// assert_eq!(pieces.feed(b""), Fed::More { held: 3, wanted: 5 });
/// assert_eq!(pieces.feed(b"\x04\x08flow"), Fed::More { held: 9, wanted: 13 });
/// let settled = Fed::Settled(Ok(Dictionary { entries: 2, end: 13 }));
/// assert_eq!(pieces.feed(b"roll, and more"), settled);
/// assert_eq!(pieces.feed(b"and what else comes"), settled);
/// assert_eq!(pieces.bytes(), Some(&b"\x11\x02\x00\x04\x08flowroll"[..]));
/// ```
///
/// A host that reads no more bytes than are [`missing`](Pieces::missing) takes none after the dictionary:
///
/// ```
/// use lichenhusk::Pieces;
/// use std::io::Read;
///
/// let mut link = &b"\x11\x02\x00\x04\x08flowroll, and more"[..];
/// let (mut store, mut piece) = ([0; 64], [0; 4]);
/// let mut pieces = Pieces::new(&mut store);
/// while pieces.missing() > 0 {
///     let most = pieces.missing().min(piece.len());
///     match link.read(&mut piece[..most])? {
///         0 => break, // the link has ended, and the dictionary has not
///         read => pieces.feed(&piece[..read]),
///     };
/// }
/// assert_eq!(pieces.bytes().map(<[u8]>::len), Some(13));
/// assert_eq!(link, b", and more");
/// # Ok::<(), std::io::Error>(())
/// ```
///
/// The store is written under a refusal, too. What stands in it after the dictionary may depend on how it
/// was cut; a piece that comes when all is settled is not written.
#[derive(Debug)]
pub struct Pieces<'s> {
    store: &'s mut [u8],
    strip: [u8; STRIP_BYTES],
}

impl<'s> Pieces<'s> {
    /// No bytes yet, and a store for those to come.
    pub fn new(store: &'s mut [u8]) -> Pieces<'s> {
        let mut strip = [0; STRIP_BYTES];
        raw::begin(&mut strip);
        Pieces { store, strip }
    }

    /// Takes a piece in, and says what is known then.
    ///
    /// ```
    /// use lichenhusk::{Fed, Pieces, Refusal};
    ///
    /// // A store that is full may still be enough for what it holds, and is not for a byte more.
    /// let mut store = [0; 4];
    /// let mut pieces = Pieces::new(&mut store);
    /// assert_eq!(pieces.feed(b"\x01\x01\x00\x01"), Fed::More { held: 4, wanted: 5 });
    /// assert_eq!(pieces.feed(b"a"), Fed::Settled(Err(Refusal::PiecesNoRoom)));
    /// ```
    pub fn feed(&mut self, piece: &[u8]) -> Fed {
        raw::feed(self.store, piece, &mut self.strip);
        self.fed()
    }

    /// What is known so far, as the last [`feed`](Pieces::feed) said it.
    pub fn fed(&self) -> Fed {
        Fed::of(Strip::read(&self.strip))
    }

    /// How many bytes more have to come, at least, before it can settle: 0 exactly where it is settled.
    pub fn missing(&self) -> usize {
        match self.fed() {
            Fed::More { held, wanted } => wanted - held,
            Fed::Settled(_) => 0,
        }
    }

    /// The dictionary's own bytes, where it is settled that it is good.
    pub fn bytes(&self) -> Option<&[u8]> {
        Some(&self.store[..self.end()?])
    }

    /// As [`bytes`](Pieces::bytes), for as long as the store is lent.
    ///
    /// ```
    /// use lichenhusk::Pieces;
    ///
    /// let mut store = [0; 13];
    /// let dict = {
    ///     let mut pieces = Pieces::new(&mut store);
    ///     pieces.feed(b"\x11\x02\x00\x04\x08flow");
    ///     pieces.feed(b"roll");
    ///     pieces.into_bytes().unwrap()
    /// };
    /// assert_eq!(lichenhusk::name(dict, 1), Ok(&b"roll"[..]));
    /// ```
    pub fn into_bytes(self) -> Option<&'s [u8]> {
        let end = self.end()?;
        Some(&self.store[..end])
    }

    /// Where the dictionary's own bytes end, where it is good.
    fn end(&self) -> Option<usize> {
        match self.fed() {
            Fed::Settled(Ok(dictionary)) => Some(dictionary.end),
            _ => None,
        }
    }
}
