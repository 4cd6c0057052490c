//! A dictionary that comes in pieces: what must agree.
//!
//! After each piece the answer is that of document 02: the verdict on the first bytes received, as many as
//! the store and the limit have room for. That is our own call's to these bytes, which is held to the
//! Rust's as for any dictionary; but 11 and 13 are 3, or 44 where more bytes have come than there is room
//! for. With 3 go how many bytes are held and how many are wanted, which the places of a dictionary's
//! parts tell ([`wanted`]); and of one byte fewer, whatever those to come are, the Rust says that they are
//! too few. The store has the bytes received, as far as there is room, up to the end of the piece that
//! settled it, and its other bytes stay.
//!
//! The answer is one to the bytes, whatever was answered before. So each piece is fed again, to a state
//! that was made up: a store with the same bytes, and other words in the strip beside how many are held.
//! A state that counts past its store is 44, and one of any other code stays; both leave the store.

use crate::compare::{self, Compared, agree, differ};
use crate::cuts::{Cuts, wanted};
use crate::original::dictionary_number;
use crate::ours::{Reader, more, refused};
use crate::shown;
use crate::tally::Tally;
use lichenhusk::{LIMIT, MORE, OK, Strip};
use parquet_variant::VariantMetadata;

/// What a lent byte holds before a call.
const UNWRITTEN_BYTE: u8 = 0xEE;

/// Of a larger store no states are made up on the way, and of more bytes that are wanted none.
const SMALL: usize = 4096;

/// Words of a state that are not read.
const OTHER_WORDS: [u32; 4] = [7, 0xFFFF_FFFF, 0x7FFF_FFFF, 9];

/// Codes that are settled: those that are answered, and some that never are.
const SETTLED: [u32; 8] = [0, 1, 2, 10, 13, 44, 77, 0xFFFF_FFFF];

/// Our side, a dictionary, and where it is cut.
pub struct Feeding<'a, R> {
    /// Our side.
    pub reader: &'a R,
    /// The dictionary's bytes.
    pub dict: &'a [u8],
    /// Where it is cut, and the room.
    pub cuts: &'a Cuts,
}

/// A piece that comes when nothing is settled.
struct Step<'a> {
    /// How many bytes are held before.
    held: usize,
    piece: &'a [u8],
    /// What is due after it.
    due: Strip,
}

impl<'a, R: Reader> Feeding<'a, R> {
    /// Compares all that can be asked of the pieces.
    pub fn compare(&self, tally: &mut Tally) -> Compared {
        for step in self.piece_by_piece(tally)? {
            self.made_up(&step, tally)?;
        }
        self.past(tally)?;
        self.settled(tally)
    }

    /// Compares what is answered from the first state on, and makes no state up.
    pub fn from_the_first(&self, tally: &mut Tally) -> Compared {
        self.piece_by_piece(tally).map(drop)
    }

    /// How many bytes there is room for.
    fn room(&self) -> usize {
        (self.cuts.room as usize).min(LIMIT)
    }

    /// The store with so many bytes of the dictionary in it, and the others as they were lent.
    fn store(&self, held: usize) -> Vec<u8> {
        let mut store = vec![UNWRITTEN_BYTE; self.cuts.room as usize];
        store[..held].copy_from_slice(&self.dict[..held]);
        store
    }

    /// The store holds so many bytes of the dictionary, and nothing else was written.
    fn holds(&self, store: &[u8], held: usize) -> Compared {
        let due = self.store(held);
        match store == due {
            true => Ok(()),
            false => differ("the store for pieces", shown(store), shown(&due)),
        }
    }

    /// What is due when so many bytes of the dictionary have come.
    fn due(&self, received: usize) -> Compared<Strip> {
        let first = &self.dict[..received.min(self.room())];
        let verdict = compare::dictionary(self.reader, first, &mut Tally::default())?.ours;
        match verdict.code {
            11 | 13 if received > first.len() => Ok(refused(44, 0)),
            11 | 13 => {
                let wanted = wanted(first);
                too_few(first, wanted)?;
                Ok(more(first.len(), wanted))
            }
            _ => Ok(verdict),
        }
    }

    /// The answer and the store after each piece; what was settled is due to all that came.
    fn piece_by_piece(&self, tally: &mut Tally) -> Compared<Vec<Step<'a>>> {
        let (mut store, mut held, mut received) = (self.store(0), 0, 0);
        let (mut state, mut due) = (self.reader.begin(), more(0, 1));
        let mut steps = Vec::new();
        agree("the first state", state, due)?;
        for piece in self.cuts.pieces(self.dict) {
            received += piece.len();
            if due.code == MORE {
                due = self.due(received)?;
                steps.push(Step { held, piece, due });
                held = received.min(self.room());
                tally.pieces_over += u64::from(held < received && due.code != 44);
            } else {
                tally.pieces_after += 1;
            }
            state = self.reader.feed(&mut store, piece, state);
            agree("a piece of a dictionary", state, due)?;
            self.holds(&store, held)?;
            tally.pieces += 1;
            tally.pieces_of_no_bytes += u64::from(piece.is_empty());
        }
        Tally::refuse(&mut tally.in_pieces, due.code);
        agree("all pieces of a dictionary", due, self.due(received)?)?;
        Ok(steps)
    }

    /// A piece to a state that was made up, over a store that has the same bytes; and no bytes to the one
    /// that has the piece, too, whether that is settled or not.
    fn made_up(&self, &Step { held, piece, due }: &Step, tally: &mut Tally) -> Compared {
        if self.room() > SMALL {
            return Ok(());
        }
        let received = held + piece.len();
        let kept = received.min(self.room());
        let mut store = self.store(held);
        let state = self.reader.feed(&mut store, piece, made_up(MORE, held));
        agree("a state with other words", state, due)?;
        self.holds(&store, kept)?;
        let state = self.reader.feed(&mut store, &[], made_up(MORE, kept));
        let due = if kept < received {
            self.due(kept)?
        } else {
            due
        };
        agree("a state that was made up", state, due)?;
        self.holds(&store, kept)?;
        tally.pieces_made_up += 2;
        Ok(())
    }

    /// A state that counts more bytes than there is room for.
    fn past(&self, tally: &mut Tally) -> Compared {
        let mut store = self.store(0);
        for held in [self.room() + 1, u32::MAX as usize] {
            let state = self
                .reader
                .feed(&mut store, self.some(), made_up(MORE, held));
            agree("a state past its store", state, refused(44, 0))?;
            tally.pieces_made_up += 1;
        }
        self.holds(&store, 0)
    }

    /// What is settled stays, whatever it says.
    fn settled(&self, tally: &mut Tally) -> Compared {
        let mut store = self.store(0);
        for code in SETTLED {
            let settled = made_up(code, self.some().len() / 2);
            let state = self.reader.feed(&mut store, self.some(), settled);
            agree("what is settled", state, settled)?;
            tally.pieces_made_up += 1;
        }
        self.holds(&store, 0)
    }

    /// The dictionary's first bytes, to be fed where they must not be taken.
    fn some(&self) -> &[u8] {
        &self.dict[..self.dict.len().min(SMALL)]
    }
}

/// A state of a code and so many bytes held, with other words beside them.
fn made_up(code: u32, held: usize) -> Strip {
    let [id, start, end, place] = OTHER_WORDS;
    Strip {
        code,
        number: held as u32,
        id,
        start,
        end,
        place,
    }
}

/// The Rust says of a beginning that it is too short, with any bytes after it up to one fewer than are
/// wanted.
fn too_few(begin: &[u8], wanted: usize) -> Compared {
    if begin.len() >= wanted {
        return differ("how many bytes are wanted", wanted, begin.len());
    }
    if wanted > SMALL {
        return Ok(());
    }
    for byte in [0x00, 0x61, 0xFF] {
        let mut fewer = begin.to_vec();
        fewer.resize(wanted - 1, byte);
        let number = match VariantMetadata::try_new(&fewer) {
            Ok(_) => Some(OK),
            Err(error) => dictionary_number(&fewer, &error),
        };
        if !matches!(number, Some(11 | 13)) {
            return differ("one byte fewer than are wanted", 13, number);
        }
    }
    Ok(())
}
