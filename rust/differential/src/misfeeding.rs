//! A plain feeder of pieces, which can do one thing otherwise: wrong feeders, to see that the comparison
//! tells. It shares no code with ours but the verdict on a dictionary; without a fault it answers what is
//! due.

use crate::cuts::wanted;
use crate::faults::Fault;
use crate::ours::{Reader, accepted, more, refused};
use crate::reading::{DictionaryParts, Row};
use lichenhusk::{LIMIT, MORE, OK, Strip};

/// The feeder, and what it does otherwise.
#[derive(Clone, Copy, Debug)]
pub struct Misfeeding<'r, R> {
    /// Who judges a dictionary.
    pub reader: &'r R,
    /// What it does otherwise.
    pub fault: Option<Fault>,
}

/// What is judged when a piece has been copied.
struct Taken {
    /// How many bytes were held before.
    held: usize,
    /// How many of the piece's were copied.
    copied: usize,
    /// How many there were room for.
    room: usize,
    /// Whether there was no room for all of the piece.
    is_over: bool,
}

impl<R: Reader> Misfeeding<'_, R> {
    fn is(&self, fault: Fault) -> bool {
        self.fault == Some(fault)
    }

    /// The first state.
    pub fn begin(&self) -> Strip {
        match self.fault {
            Some(Fault::BeginsSettled) => accepted(0, 0, 0),
            Some(Fault::BeginsWithoutWanted) => more(0, 0),
            _ => more(0, 1),
        }
    }

    /// The state after a piece, which is copied to the store.
    pub fn feed(&self, store: &mut [u8], piece: &[u8], state: Strip) -> Strip {
        let begins = match state.code {
            OK => self.is(Fault::BeginsAgain),
            44 => self.is(Fault::ForgetsNoRoom),
            code => code == MORE,
        };
        if !begins {
            return self.settled(store, piece, state);
        }
        let room = self.room(store.len());
        let held = match state.code {
            MORE => state.number as usize,
            _ => 0,
        };
        if held > room && !self.is(Fault::TakesPastStates) {
            if self.is(Fault::WritesPastStates) {
                fill(store, 0, piece);
            }
            return refused(44, 0);
        }
        let held = held.min(room);
        let copied = self.copied(piece.len(), room - held);
        self.copy(store, held, &piece[..copied]);
        let taken = Taken {
            held,
            copied,
            room,
            is_over: copied < piece.len(),
        };
        self.judged(store, piece, state, &taken)
    }

    /// A state that is settled.
    fn settled(&self, store: &mut [u8], piece: &[u8], state: Strip) -> Strip {
        let is_known = matches!(state.code, 0..=1 | 10..=76);
        match self.fault {
            Some(Fault::UnknownIsNoRoom) if !is_known => return refused(44, 0),
            Some(Fault::WritesAfterSettling) => fill(store, 0, piece),
            _ => {}
        }
        state
    }

    /// How many bytes there is room for.
    fn room(&self, store: usize) -> usize {
        match self.fault {
            Some(Fault::NoPiecesLimit) => store,
            Some(Fault::PiecesLimitOneLess) => store.min(LIMIT - 1),
            Some(Fault::LeavesLastByte) => store.min(LIMIT).saturating_sub(1),
            _ => store.min(LIMIT),
        }
    }

    /// How many bytes of a piece are copied.
    fn copied(&self, piece: usize, room: usize) -> usize {
        match self.fault {
            Some(Fault::DropsLongPieces) if piece > room => 0,
            _ => piece.min(room),
        }
    }

    /// Copies what there is room for.
    fn copy(&self, store: &mut [u8], held: usize, piece: &[u8]) {
        let at = if self.is(Fault::CopiesToTheStart) {
            0
        } else {
            held
        };
        fill(store, at, piece);
        let after = &mut store[at + piece.len()..];
        match self.fault {
            Some(Fault::WritesAfterPiece) => after.iter_mut().take(1).for_each(|byte| *byte = 0),
            Some(Fault::ClearsTheStore) => after.fill(0),
            _ => {}
        }
    }

    /// The answer to what the store holds now.
    fn judged(&self, store: &[u8], piece: &[u8], state: Strip, taken: &Taken) -> Strip {
        let Taken { held, copied, .. } = *taken;
        let kept = &store[..held + copied];
        let waits = self.is(Fault::ReadsWantedBack) && kept.len() < state.end as usize;
        if waits && !taken.is_over {
            return more(kept.len(), state.end as usize);
        }
        if taken.is_over && self.is(Fault::NoRoomFirst) {
            return refused(44, 0);
        }
        let verdict = self.reader.dictionary(match self.fault {
            Some(Fault::JudgesThePiece) => piece,
            Some(Fault::JudgesTheStore) => store,
            Some(Fault::JudgesBeforeCopying) => &store[..held],
            _ => kept,
        });
        if self.is_unsettled(verdict.code) {
            return self.unsettled(kept, piece, state, taken);
        }
        self.said(verdict, kept)
    }

    /// Whether more is wanted with a verdict.
    fn is_unsettled(&self, code: u32) -> bool {
        match code {
            11 => !self.is(Fault::SettlesEmpty),
            13 => !self.is(Fault::SettlesShort),
            14 => self.is(Fault::SumIsMore),
            19 => self.is(Fault::CutTextIsMore),
            _ => false,
        }
    }

    /// The answer to bytes that have no verdict yet.
    fn unsettled(&self, kept: &[u8], piece: &[u8], state: Strip, taken: &Taken) -> Strip {
        let is_full = kept.len() == taken.room && self.is(Fault::FullIsNoRoom);
        let is_over = taken.is_over && !self.is(Fault::MorePastRoom);
        if is_full || is_over {
            let is_ten = self.is(Fault::TenForNoRoom) && taken.room == LIMIT;
            return refused(if is_ten { 10 } else { 44 }, 0);
        }
        if self.is(Fault::EmptyPieceEnds) && piece.is_empty() {
            return self.reader.dictionary(kept);
        }
        if let (true, Some(whole)) = (self.is(Fault::HeaderIsEnough), whole(kept)) {
            return whole;
        }
        let held = match self.fault {
            Some(Fault::ForgetsHeld) => taken.copied,
            Some(Fault::HeldOfTwoBytes) => kept.len() & 0xFFFF,
            _ => kept.len(),
        };
        let asked = more(held, self.wanted(kept, taken.room));
        match self.is(Fault::KeepsOtherWords) {
            true => Strip {
                id: state.id,
                start: state.start,
                place: state.place,
                ..asked
            },
            false => asked,
        }
    }

    /// How many bytes are wanted of a beginning.
    fn wanted(&self, kept: &[u8], room: usize) -> usize {
        let (held, due) = (kept.len(), wanted(kept));
        let offsets = DictionaryParts::of(kept).map(|parts| parts.offsets);
        let is_offsets = |offsets: &Row| offsets.end() == due;
        match (self.fault, offsets) {
            (Some(Fault::WantsOneMore), _) => held + 1,
            (Some(Fault::WantsTheRest), _) => due - held,
            (Some(Fault::WantsNothing), _) => 0,
            (Some(Fault::WantsWithinRoom), _) => due.min(room),
            (Some(Fault::WantsShortCounts), None) if held > 0 => 2,
            (Some(Fault::WantedOfTwoBytes), _) => due & 0xFFFF,
            (Some(Fault::WantsNoLastOffset), Some(offsets)) if is_offsets(&offsets) => {
                due - offsets.width
            }
            (Some(Fault::WantsNamesAlone), Some(offsets)) if !is_offsets(&offsets) => {
                due - offsets.end()
            }
            _ => due,
        }
    }

    /// A verdict as it is said.
    fn said(&self, verdict: Strip, kept: &[u8]) -> Strip {
        let (count, end) = (verdict.number as usize, verdict.end as usize);
        match (self.fault, verdict.code) {
            (Some(Fault::HeldForCount), OK) => accepted(kept.len(), 0, end),
            (Some(Fault::UntrimmedPieces), OK) => accepted(count, 0, kept.len()),
            (Some(Fault::NoPlaceInPieces), code) if code != OK => refused(code, 0),
            _ => verdict,
        }
    }
}

/// Writes as much as there is room for, from a place on.
fn fill(store: &mut [u8], at: usize, bytes: &[u8]) {
    let room = store[at..].iter_mut();
    room.zip(bytes).for_each(|(lent, byte)| *lent = *byte);
}

/// What would be accepted of a dictionary whose offsets are all there.
fn whole(kept: &[u8]) -> Option<Strip> {
    let offsets = DictionaryParts::of(kept)?.offsets;
    let last = offsets.number(kept, offsets.count - 1)?;
    Some(accepted(offsets.count - 1, 0, offsets.end() + last))
}
