//! A dictionary in pieces: taken in as it comes, against copying the same pieces and checking once.

use crate::clock::{SAMPLES, medians};
use crate::large::{FEW_SAMPLES, MANY_BYTES};
use crate::rows::Asked::Present;
use crate::rows::Fields::Middle;
use crate::rows::Names::Letters;
use crate::rows::Order::{Shuffled, Sorted};
use crate::rows::{Kind, row};
use lichenhusk::{Dictionary, Fed, Pieces, Refusal, STRIP_BYTES, raw};
use std::cell::RefCell;
use std::hint::black_box;

/// One line of the table.
pub struct Row {
    /// What it is.
    pub label: String,
    /// The dictionary.
    pub dict: Vec<u8>,
    /// How many bytes a piece has.
    pub piece: usize,
}

/// As many names as a dictionary of 65,536 and of 16,777,216 bytes has room for.
const DICTIONARIES: [Kind; 2] = [
    ("4,680 names", 4_680, Letters, Middle, Present),
    ("1,118,480 names", 1_118_480, Letters, Middle, Present),
];

/// How many bytes the pieces have.
const LENGTHS: [usize; 4] = [1, 16, 256, 65_536];

/// Every line of the table.
pub fn rows() -> impl Iterator<Item = Row> {
    let both = DICTIONARIES.into_iter();
    let dictionaries = both.flat_map(|kind| [Sorted, Shuffled].map(|order| row(kind, order)));
    dictionaries.flat_map(|message| {
        LENGTHS.map(|piece| Row {
            label: message.label.clone(),
            dict: message.dict.clone(),
            piece,
        })
    })
}

impl Row {
    fn pieces(&self) -> impl Iterator<Item = &[u8]> {
        black_box(&self.dict).chunks(self.piece).map(black_box)
    }

    /// How many pieces there are.
    pub fn count(&self) -> usize {
        self.dict.len().div_ceil(self.piece)
    }

    /// The code after the last piece, by the raw call.
    fn fed(&self, store: &mut [u8]) -> u32 {
        let mut strip = [0; STRIP_BYTES];
        let begun = raw::begin(&mut strip);
        self.pieces()
            .fold(begun, |_, piece| raw::feed(store, piece, &mut strip))
    }

    /// The same by the host's own type.
    fn taken_in(&self, store: &mut [u8]) -> Fed {
        let mut pieces = Pieces::new(store);
        for piece in self.pieces() {
            black_box(pieces.feed(piece));
        }
        pieces.fed()
    }

    /// The pieces copied, and all of them checked.
    fn copied(&self, store: &mut [u8]) -> Result<Dictionary, Refusal> {
        let mut at = 0;
        for piece in self.pieces() {
            store[at..][..piece.len()].copy_from_slice(piece);
            at += piece.len();
        }
        lichenhusk::dictionary(black_box(&store[..at]))
    }

    /// A look that all sides say the same, and have all bytes in the store.
    fn look(&self) {
        let mut stores = [(); 3].map(|()| vec![0; self.dict.len()]);
        let [first, second, third] = &mut stores;
        let due = lichenhusk::dictionary(&self.dict);
        assert!(due.is_ok(), "{}", self.label);
        assert_eq!(self.fed(first), 0);
        assert_eq!(self.taken_in(second), Fed::Settled(due));
        assert_eq!(self.copied(third), due);
        assert!(stores.iter().all(|store| *store == self.dict));
    }
}

/// Nanoseconds of all pieces by our call, by the host's own type, and of copying them and checking once.
pub fn measured(row: &Row) -> [f64; 3] {
    row.look();
    let store = RefCell::new(vec![0; row.dict.len()]);
    let samples = match row.dict.len() > MANY_BYTES {
        true => FEW_SAMPLES,
        false => SAMPLES,
    };
    medians(
        samples,
        [
            &|_| {
                black_box(row.fed(&mut store.borrow_mut()));
            },
            &|_| {
                black_box(row.taken_in(&mut store.borrow_mut()));
            },
            &|_| {
                let _ = black_box(row.copied(&mut store.borrow_mut()));
            },
        ],
    )
}
