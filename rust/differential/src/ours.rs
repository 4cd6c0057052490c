//! Our side: the functions of the archive, as strips.

use crate::pairs::Pairs;
use lichenhusk::{STRIP_BYTES, Strip, raw};

/// What can be asked of our side. It is a trait so that a test can put a wrong reader in the
/// archive's place and see that the comparison tells.
pub trait Reader {
    /// Entry count, trimmed end.
    fn dictionary(&self, dict: &[u8]) -> Strip;
    /// Start, end.
    fn name(&self, dict: &[u8], entry: usize) -> Strip;
    /// Field count, region start, trimmed end.
    fn layer(&self, dict: &[u8], object: &[u8]) -> Strip;
    /// Field, id, start, end.
    fn lookup(&self, dict: &[u8], object: &[u8], name: &[u8]) -> Strip;
    /// As the layer, and the words filled.
    fn list(&self, dict: &[u8], object: &[u8], words: &mut [u32]) -> Strip;
    /// The same for names, by their run and ends.
    fn lookup_all(
        &self,
        dict: &[u8],
        object: &[u8],
        run: &[u8],
        ends: &[u32],
        words: &mut [u32],
    ) -> Strip;
    /// Kind, and bits or start and end.
    fn value(&self, value: &[u8]) -> Strip;
    /// The own length as end; refused, the start of the value that is. The marks are lent.
    fn tree(&self, dict: &[u8], value: &[u8], marks: &mut [u8]) -> Strip;
    /// Field, id, start, end of what stands at a path; its steps go to the names and words that are
    /// lent.
    fn path(
        &self,
        dict: &[u8],
        value: &[u8],
        path: &[u8],
        names: &mut [u8],
        words: &mut [u32],
    ) -> Strip;
    /// How many names a dictionary has that is written to the room, and its length as the end; the two
    /// rows of words are scratch.
    fn write_dictionary(
        &self,
        run: &[u8],
        ends: &[u32],
        order: &mut [u32],
        spare: &mut [u32],
        room: &mut [u8],
    ) -> Strip;
    /// Field count, region start and length, as the end, of an object that is written to the room.
    fn write_object(
        &self,
        dict: &[u8],
        pairs: &Pairs,
        order: &mut [u32],
        spare: &mut [u32],
        room: &mut [u8],
    ) -> Strip;
    /// The first state of a dictionary in pieces.
    fn begin(&self) -> Strip;
    /// The state after a piece, which goes to the store, by the one before.
    fn feed(&self, store: &mut [u8], piece: &[u8], state: Strip) -> Strip;
}

/// The archive itself.
#[derive(Clone, Copy, Debug, Default)]
pub struct Archive;

impl Reader for Archive {
    fn dictionary(&self, dict: &[u8]) -> Strip {
        filled(|strip| raw::dictionary(dict, strip))
    }

    fn name(&self, dict: &[u8], entry: usize) -> Strip {
        filled(|strip| raw::name(dict, entry, strip))
    }

    fn layer(&self, dict: &[u8], object: &[u8]) -> Strip {
        filled(|strip| raw::layer(dict, object, strip))
    }

    fn lookup(&self, dict: &[u8], object: &[u8], name: &[u8]) -> Strip {
        filled(|strip| raw::lookup(dict, object, name, strip))
    }

    fn list(&self, dict: &[u8], object: &[u8], words: &mut [u32]) -> Strip {
        filled(|strip| raw::list(dict, object, words, strip))
    }

    fn lookup_all(
        &self,
        dict: &[u8],
        object: &[u8],
        run: &[u8],
        ends: &[u32],
        words: &mut [u32],
    ) -> Strip {
        filled(|strip| raw::lookup_all(dict, object, run, ends, words, strip))
    }

    fn value(&self, value: &[u8]) -> Strip {
        filled(|strip| raw::value(value, strip))
    }

    fn tree(&self, dict: &[u8], value: &[u8], marks: &mut [u8]) -> Strip {
        filled(|strip| raw::tree(dict, value, marks, strip))
    }

    fn path(
        &self,
        dict: &[u8],
        value: &[u8],
        path: &[u8],
        names: &mut [u8],
        words: &mut [u32],
    ) -> Strip {
        filled(|strip| raw::path(dict, value, path, names, words, strip))
    }

    fn write_dictionary(
        &self,
        run: &[u8],
        ends: &[u32],
        order: &mut [u32],
        spare: &mut [u32],
        room: &mut [u8],
    ) -> Strip {
        filled(|strip| raw::write_dictionary(run, ends, order, spare, room, strip))
    }

    fn write_object(
        &self,
        dict: &[u8],
        Pairs { bytes, words }: &Pairs,
        order: &mut [u32],
        spare: &mut [u32],
        room: &mut [u8],
    ) -> Strip {
        filled(|strip| raw::write_object(dict, bytes, words, order, spare, room, strip))
    }

    fn begin(&self) -> Strip {
        filled(raw::begin)
    }

    fn feed(&self, store: &mut [u8], piece: &[u8], state: Strip) -> Strip {
        left(state.bytes(), |strip| raw::feed(store, piece, strip))
    }
}

/// The strip of a call. It holds other bytes before, so that each of them must be written.
fn filled(call: impl FnOnce(&mut [u8]) -> u32) -> Strip {
    left([0xEE; STRIP_BYTES], call)
}

/// What a call leaves in a strip that held some bytes before.
fn left(mut bytes: [u8; STRIP_BYTES], call: impl FnOnce(&mut [u8]) -> u32) -> Strip {
    let code = call(&mut bytes);
    let strip = Strip::read(&bytes);
    assert_eq!(strip.code, code, "the code returned is the code written");
    strip
}

/// The strip of a refusal, or of absence.
pub fn refused(code: u32, place: u32) -> Strip {
    Strip {
        code,
        number: 0,
        id: 0,
        start: 0,
        end: 0,
        place,
    }
}

/// The strip of a refusal in a tree.
pub fn refused_at(code: u32, start: usize, place: usize) -> Strip {
    Strip {
        start: start as u32,
        ..refused(code, place as u32)
    }
}

/// The strip of what is accepted.
pub fn accepted(number: usize, start: usize, end: usize) -> Strip {
    found(number, 0, start, end)
}

/// The strip of a field that is found.
pub fn found(field: usize, id: usize, start: usize, end: usize) -> Strip {
    Strip {
        code: lichenhusk::OK,
        number: field as u32,
        id: id as u32,
        start: start as u32,
        end: end as u32,
        place: 0,
    }
}

/// The strip of a dictionary in pieces of which more bytes are wanted.
pub fn more(held: usize, wanted: usize) -> Strip {
    Strip {
        code: lichenhusk::MORE,
        ..accepted(held, 0, wanted)
    }
}

/// The strip of a name that no field has.
pub fn absent() -> Strip {
    refused(lichenhusk::ABSENT, 0)
}
