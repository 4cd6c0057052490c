//! Names that are to be written, as they are handed over; and which of them gets 45.

use lichenhusk::run_of;
use std::collections::BTreeSet;
use std::str::from_utf8;

/// Names one after another in a run of bytes, and where each of them ends.
#[derive(Clone, Debug, Default, PartialEq, Eq)]
pub struct Given {
    /// The bytes of the names, which may go on after the last.
    pub run: Vec<u8>,
    /// The ends, counted from the run's first byte. They may fall, and pass the run.
    pub ends: Vec<u32>,
}

impl Given {
    /// Names as they are.
    pub fn of(names: &[impl AsRef<[u8]>]) -> Given {
        let (run, ends) = run_of(names).expect("fewer bytes than 32 bits count");
        Given { run, ends }
    }

    /// The bytes of each name; nothing for one whose end falls or passes the run.
    pub fn names(&self) -> impl ExactSizeIterator<Item = Option<&[u8]>> {
        (0..self.ends.len()).map(|number| {
            let begin = number.checked_sub(1).map_or(0, |before| self.ends[before]);
            self.run.get(begin as usize..self.ends[number] as usize)
        })
    }

    /// The names as texts, or the number of the first that is none, where 45 is given.
    pub fn texts(&self) -> Result<Vec<&str>, usize> {
        let names = self.names().map(|name| from_utf8(name?).ok());
        names
            .zip(0..)
            .map(|(text, number)| text.ok_or(number))
            .collect()
    }

    /// How many bytes there are in all, of each end four.
    pub fn size(&self) -> usize {
        self.run.len() + 4 * self.ends.len()
    }
}

/// The set of names, in order.
pub fn set_of<'n>(names: &[&'n str]) -> Vec<&'n str> {
    let set: BTreeSet<&str> = names.iter().copied().collect();
    set.into_iter().collect()
}
