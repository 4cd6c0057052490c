//! A dictionary that is written: what must agree.
//!
//! The bytes are those that the Rust's own builder writes for the set of the names, handed to it in
//! order; but for no names, where the request says 11 00 00 and the builder writes another
//! header byte. The strip has how many names there are in the set, and how many bytes. Where these are
//! more than the limit, 10 is due; where the room has a byte less, 46; and 45 at the first name that is
//! no text, or whose end falls or passes the run, which a function of a few lines tells
//! ([`Given::texts`]). Every refusal leaves the room, and bytes after the dictionary stay.
//!
//! That is asked in rooms of several lengths and with scratch of several lengths and contents; the
//! answer is always the same, and scratch that is too little stays as it was. Then of the same names in
//! another order, some of them twice, with other bytes after the last of them; and of names that are
//! refused, of those up to the first bad one, and of those before it.
//!
//! What is written is read back: `VariantMetadata::try_new` takes it, says that it is sorted, and has
//! the set as its names; our own reader accepts it with the same count and end, and has each name by its
//! number.

use crate::compare::{Compared, UNWRITTEN, agree, differ};
use crate::given::{Given, set_of};
use crate::ours::{Reader, accepted, refused};
use crate::tally::Tally;
use crate::{LARGE, shown};
use lichenhusk::{LIMIT, OK, Strip};
use parquet_variant::{VariantMetadata, WritableMetadataBuilder};

/// What a lent byte holds before a call.
const UNWRITTEN_BYTE: u8 = 0xEE;

/// The dictionary of no names, by document 02.
pub const NO_NAMES: [u8; 3] = [0x11, 0, 0];

/// Without scratch, a call on more names is not made: its time grows with the square of them.
const SLOW: usize = 1_000;

/// Of more names than these, so many are asked for by their number.
const NUMBERS: usize = 12;

/// What the Rust's builder writes for names, handed to it one after another.
pub fn built(names: &[&str]) -> Vec<u8> {
    let mut builder: WritableMetadataBuilder = names.iter().collect();
    builder.finish();
    builder.into_inner()
}

/// The dictionary that is due for a set of names, in order.
pub fn dictionary_of(set: &[&str]) -> Vec<u8> {
    match set.is_empty() {
        true => NO_NAMES.to_vec(),
        false => built(set),
    }
}

/// What is due in room enough: the strip, and what is written.
struct Due {
    strip: Strip,
    bytes: Vec<u8>,
}

impl Due {
    fn of(set: &[&str]) -> Due {
        let bytes = dictionary_of(set);
        match bytes.len() > LIMIT {
            true => Due::refused(10, 0),
            false => Due {
                strip: accepted(set.len(), 0, bytes.len()),
                bytes,
            },
        }
    }

    fn refused(number: u32, place: usize) -> Due {
        Due {
            strip: refused(number, place as u32),
            bytes: vec![],
        }
    }

    /// What is due in a room.
    fn in_room(&self, room: &mut [u8]) -> Strip {
        if self.strip.code != OK {
            return self.strip;
        }
        match room.get_mut(..self.bytes.len()) {
            Some(begin) => {
                begin.copy_from_slice(&self.bytes);
                self.strip
            }
            None => refused(46, 0),
        }
    }
}

/// How much scratch is lent, and what it holds.
#[derive(Clone, Copy)]
struct Scratch {
    order: usize,
    spare: usize,
    /// The word of a place.
    holds: fn(usize, usize) -> u32,
}

impl Scratch {
    /// So many words each.
    fn of(order: usize, spare: usize) -> Scratch {
        Scratch {
            order,
            spare,
            holds: |_, _| UNWRITTEN,
        }
    }

    fn words(self, count: usize) -> Vec<u32> {
        (0..count).map(|at| (self.holds)(at, count)).collect()
    }
}

/// Our side, and names of which it writes a dictionary.
pub struct Writing<'a, R> {
    /// Our side.
    pub reader: &'a R,
    /// The names.
    pub given: &'a Given,
}

impl<R: Reader> Writing<'_, R> {
    /// Compares all that can be asked of names.
    pub fn compare(&self, tally: &mut Tally) -> Compared {
        match self.given.texts() {
            Ok(texts) => self.taken(&texts, tally),
            Err(place) => self.bad(place, tally),
        }
    }

    /// How many names are given.
    fn count(&self) -> usize {
        self.given.ends.len()
    }

    /// Whether there are so many bytes that fewer questions are asked.
    fn is_large(&self) -> bool {
        self.given.size() > 2 * LARGE
    }

    /// The answer with scratch enough in so much room, which is the one that is due.
    fn in_room(&self, due: &Due, bytes: usize) -> Compared<Vec<u8>> {
        self.with(due, bytes, Scratch::of(self.count(), self.count()))
    }

    /// The answer with some scratch in so much room, which is the one that is due; then the room.
    fn with(&self, due: &Due, bytes: usize, scratch: Scratch) -> Compared<Vec<u8>> {
        let lent = [scratch.words(scratch.order), scratch.words(scratch.spare)];
        let [mut order, mut spare] = lent.clone();
        let mut room = vec![UNWRITTEN_BYTE; bytes];
        let Given { run, ends } = self.given;
        let strip = self
            .reader
            .write_dictionary(run, ends, &mut order, &mut spare, &mut room);
        let mut due_room = vec![UNWRITTEN_BYTE; bytes];
        let due = due.in_room(&mut due_room);
        agree("a dictionary that is written", strip, due)?;
        if room != due_room {
            return differ("the room for a dictionary", shown(&room), shown(&due_room));
        }
        if scratch.order.min(scratch.spare) < self.count() {
            agree("scratch that is too little", [order, spare], lent)?;
        }
        Ok(room)
    }

    /// Names that are all texts.
    fn taken(&self, texts: &[&str], tally: &mut Tally) -> Compared {
        let set = set_of(texts);
        let due = Due::of(&set);
        let room = self.in_room(&due, due.bytes.len() + 3)?;
        self.rooms(&due, tally)?;
        self.scratches(&due, tally)?;
        self.otherwise_given(&due, texts, tally)?;
        Tally::refuse(&mut tally.written, due.strip.code);
        match due.strip.code {
            OK => self.reads_back(&room[..due.bytes.len()], &set, tally),
            _ => Ok(()),
        }
    }

    /// Just as much room as is needed, a byte less, and none; the first without scratch.
    fn rooms(&self, due: &Due, tally: &mut Tally) -> Compared {
        self.in_room(due, 0)?;
        if due.strip.code != OK {
            // Whatever the room, it is not what is refused.
            return self.in_room(due, LIMIT + 1).map(drop);
        }
        let length = due.bytes.len();
        self.in_room(due, length)?;
        self.in_room(due, length - 1)?;
        tally.written_without_room += 2;
        if self.count() <= SLOW {
            self.with(due, length, Scratch::of(0, 0))?;
            self.with(due, length - 1, Scratch::of(0, 0))?;
        }
        Ok(())
    }

    /// Scratch of several lengths and contents.
    fn scratches(&self, due: &Due, tally: &mut Tally) -> Compared {
        if self.is_large() {
            return Ok(());
        }
        let (count, length) = (self.count(), due.bytes.len());
        // Numbers that could be names' own, as an order of them would be.
        let numbers = |at, count| (count - 1 - at) as u32;
        let more = Scratch {
            holds: |_, _| 0,
            ..Scratch::of(count + 2, count + 1)
        };
        let enough = Scratch {
            holds: numbers,
            ..Scratch::of(count, count)
        };
        self.with(due, length, more)?;
        self.with(due, length, enough)?;
        if (1..=SLOW).contains(&count) {
            for (order, spare) in [(count - 1, count), (count, count - 1)] {
                let less = Scratch {
                    holds: numbers,
                    ..Scratch::of(order, spare)
                };
                self.with(due, length + 1, less)?;
                tally.written_slowly += 1;
            }
        }
        Ok(())
    }

    /// The same names in another order, some of them twice, and other bytes after the last of them.
    fn otherwise_given(&self, due: &Due, texts: &[&str], tally: &mut Tally) -> Compared {
        let backwards = texts.iter().rev().flat_map(|name| [*name, texts[0]]);
        let mut middle: Vec<&str> = texts.to_vec();
        middle.rotate_left(texts.len() / 2);
        middle.extend(texts.iter().step_by(3));
        let orders = match self.is_large() {
            true => vec![middle],
            false => vec![middle, backwards.collect()],
        };
        for names in orders {
            let mut given = Given::of(&names);
            given.run.extend(b"\xFFz");
            let other = Writing {
                reader: self.reader,
                given: &given,
            };
            other.in_room(due, due.bytes.len() + 1)?;
            tally.written_again += 1;
        }
        Ok(())
    }

    /// Names of which one is bad: refused there, in any room and with any scratch; so are the names up to
    /// it, and those before it are not.
    fn bad(&self, place: usize, tally: &mut Tally) -> Compared {
        let due = Due::refused(45, place);
        let Given { run, ends } = self.given;
        self.in_room(&due, run.len() + 4 * ends.len() + 9)?;
        self.with(&due, 2, Scratch::of(0, 0))?;
        let up_to = |count: usize| Given {
            run: run.clone(),
            ends: ends[..count].to_vec(),
        };
        let first = Writing {
            reader: self.reader,
            given: &up_to(place + 1),
        };
        first.in_room(&due, 0)?;
        let before = up_to(place);
        let texts = before.texts().expect("the first bad name is after these");
        let before = Writing {
            reader: self.reader,
            given: &before,
        };
        let due = Due::of(&set_of(&texts));
        before.in_room(&due, due.bytes.len() + 1)?;
        Tally::refuse(&mut tally.written, 45);
        Ok(())
    }

    /// What was written is the set, to the Rust and to our own reader.
    pub fn reads_back(&self, dict: &[u8], set: &[&str], tally: &mut Tally) -> Compared {
        let theirs = match VariantMetadata::try_new(dict) {
            Ok(theirs) => theirs,
            Err(error) => return differ("a written dictionary, read back", shown(dict), error),
        };
        agree("that it is sorted", theirs.is_sorted(), true)?;
        let is_set = theirs.len() == set.len() && theirs.iter().eq(set.iter().copied());
        agree("that its names are the set", is_set, true)?;
        let ours = self.reader.dictionary(dict);
        let due = accepted(set.len(), 0, dict.len());
        agree("a written dictionary, read by us", ours, due)?;
        self.numbers(dict, set)?;
        tally.written_names += set.len() as u64;
        Ok(())
    }

    /// Each name by its number, or of many names some; and none after the last.
    fn numbers(&self, dict: &[u8], set: &[&str]) -> Compared {
        let apart = set.len().div_ceil(NUMBERS).max(1);
        let last = set.len().checked_sub(1);
        for entry in (0..set.len()).step_by(apart).chain(last) {
            let strip = self.reader.name(dict, entry);
            let name = dict.get(strip.start as usize..strip.end as usize);
            let name = name.filter(|_| strip.code == OK);
            agree(
                "a written name by its number",
                name,
                Some(set[entry].as_bytes()),
            )?;
        }
        let after = self.reader.name(dict, set.len());
        agree("a number after the last name", after, refused(31, 0))
    }
}
