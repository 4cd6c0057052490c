//! A dictionary of names, written.

use crate::{LIMIT, Refusal, Strip, raw, run_of};

/// A dictionary that was written.
#[derive(Clone, Copy, Debug, PartialEq, Eq, Hash)]
pub struct Written {
    /// How many names it has: each of those that were given, once.
    pub count: usize,
    /// How many bytes it has, from the room's first byte on.
    pub length: usize,
}

/// The dictionary of names: sorted, each name once, in the fewest bytes a number that hold them.
///
/// The names come in any order, and some of them more than once; the same set of names gives the same
/// bytes, and read back they are that set, by [`dictionary`](crate::dictionary()) and
/// [`name`](crate::name()). A name may have no bytes. Of no names it is the bytes 11 00 00.
///
/// ```
/// use lichenhusk::Refusal;
///
/// let dict = lichenhusk::write_dictionary(["roll", "flow", "roll"])?;
/// assert_eq!(dict, b"\x11\x02\x00\x04\x08flowroll");
/// assert_eq!(lichenhusk::name(&dict, 1), Ok(&b"roll"[..]));
///
/// let none: [&str; 0] = [];
/// assert_eq!(lichenhusk::write_dictionary(none), Ok(vec![0x11, 0, 0]));
///
/// // Any bytes may be given, and the first name that is no text is refused.
/// let refused = lichenhusk::write_dictionary([&b"flow"[..], b"\xC3"]);
/// assert_eq!(refused, Err(Refusal::NamesEnd { name: 1 }));
/// # Ok::<(), Refusal>(())
/// ```
///
/// It is refused with 45 where a name is not UTF-8, and with 10 where it would be longer than
/// [`LIMIT`]; for nothing else. Names are handed on with ends of 32 bits, so that names of more than
/// 4,294,967,295 bytes together, counted as often as they are given, are refused with 10, too, before
/// anything else is looked at: even if each of them is one of a few.
///
/// This allocates the names one after another, words to sort them in, and the result's room; with
/// [`write_dictionary_into`] nothing is.
pub fn write_dictionary(names: impl IntoIterator<Item: AsRef<[u8]>>) -> Result<Vec<u8>, Refusal> {
    // They are measured before a byte of them is copied.
    let names: Vec<_> = names.into_iter().collect();
    let (run, ends) = run_of(&names).map_err(|_| Refusal::DictionaryTooLong)?;
    dictionary_of(&run, &ends)
}

/// The dictionary of names in a run.
pub(crate) fn dictionary_of(run: &[u8], ends: &[u32]) -> Result<Vec<u8>, Refusal> {
    let (mut order, mut spare) = (vec![0; ends.len()], vec![0; ends.len()]);
    let mut room = vec![0; enough(ends.len(), run.len())];
    let written = write_dictionary_into(run, ends, &mut order, &mut spare, &mut room)?;
    room.truncate(written.length);
    room.shrink_to_fit();
    Ok(room)
}

/// As many bytes as the dictionary of so many names, of so many bytes together, can have; or the limit,
/// where that is less. A name that is given twice leaves some of them over, and no other does.
fn enough(names: usize, bytes: usize) -> usize {
    (1 + width(names.max(bytes)) * (names + 2))
        .saturating_add(bytes)
        .min(LIMIT)
}

/// The fewest bytes that hold a number, of 32 bits.
pub(crate) fn width(number: usize) -> usize {
    match number {
        0..=0xFF => 1,
        0x100..=0xFFFF => 2,
        0x1_0000..=0xFF_FFFF => 3,
        _ => 4,
    }
}

/// As [`write_dictionary`], of names in a run, into room that is lent; this allocates nothing.
///
/// The names stand one after another in a run of bytes, and the ends say where, counted from its first
/// byte, as [`run_of`] makes them. Bytes after the last end are ignored. The dictionary goes to the
/// first bytes of the room; bytes after it stay as they are, and a refusal leaves them all. With
/// 9 bytes, 4 for each name and those of the run there is always room.
///
/// `order` and `spare` are scratch. With a word for each name in both, the time grows with the names as
/// sorting them does, whatever their order. With fewer, none too, the answer is the same, the time
/// grows with the square of the names where they are different, and nothing but the room is written.
/// They may hold anything before; what they hold afterwards is not said.
///
/// ```
/// use lichenhusk::{Refusal, Written, run_of, write_dictionary_into};
///
/// let (run, ends) = run_of(&["roll", "flow", "roll"])?;
/// let (mut order, mut spare, mut room) = ([0; 3], [0; 3], [9; 14]);
/// let written = write_dictionary_into(&run, &ends, &mut order, &mut spare, &mut room)?;
/// assert_eq!(written, Written { count: 2, length: 13 });
/// assert_eq!(&room, b"\x11\x02\x00\x04\x08flowroll\x09");
///
/// // Without scratch, and in too little room.
/// let short = &mut [9; 12];
/// let refused = write_dictionary_into(&run, &ends, &mut [], &mut [], short);
/// assert_eq!(refused, Err(Refusal::WriteNoRoom));
/// assert_eq!(short, &[9; 12]);
/// # Ok::<(), Refusal>(())
/// ```
///
/// Refused, in this order: 45 at the first name whose end falls or passes the run, or that is not
/// UTF-8; 10; 46.
pub fn write_dictionary_into(
    run: &[u8],
    ends: &[u32],
    order: &mut [u32],
    spare: &mut [u32],
    room: &mut [u8],
) -> Result<Written, Refusal> {
    let fill = |strip: &mut [u8]| raw::write_dictionary(run, ends, order, spare, room, strip);
    let strip = Strip::of(fill).accepted()?;
    Ok(Written {
        count: strip.number as usize,
        length: strip.end as usize,
    })
}
