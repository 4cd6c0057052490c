//! A plain writer of dictionaries, which can do one thing otherwise: wrong writers, to see that the
//! comparison tells. It shares no code with ours; without a fault it writes what is due.

use crate::encode::{self, DictionaryShape, least_width};
use crate::faults::Fault;
use crate::given::Given;
use crate::ours::{accepted, refused};
use lichenhusk::{LIMIT, OK, Strip};
use std::cmp::Ordering;
use std::str::from_utf8;

/// The writer, and what it does otherwise.
#[derive(Clone, Copy, Debug)]
pub struct Miswriting {
    /// What it does otherwise.
    pub fault: Option<Fault>,
}

/// What a call is lent beside the names, or the pairs.
pub struct Lent<'l> {
    /// Scratch.
    pub order: &'l mut [u32],
    /// Scratch.
    pub spare: &'l mut [u32],
    /// Room for the dictionary, or the object.
    pub room: &'l mut [u8],
}

impl Lent<'_> {
    /// Whether there is a word for each of so many names, or pairs, in both rows of scratch.
    pub(crate) fn has_scratch(&self, names: usize) -> bool {
        self.order.len().min(self.spare.len()) >= names
    }

    /// Writes as much as there is room for.
    pub(crate) fn fill(&mut self, bytes: &[u8]) {
        let room = self.room.iter_mut();
        room.zip(bytes).for_each(|(lent, byte)| *lent = *byte);
    }
}

impl Miswriting {
    fn is(self, fault: Fault) -> bool {
        self.fault == Some(fault)
    }

    /// The answer, with the dictionary written to the room.
    pub fn answer(self, given: &Given, mut lent: Lent) -> Strip {
        let count = given.ends.len();
        if !lent.has_scratch(count) {
            if self.is(Fault::RefusesWithoutScratch) {
                return refused(46, 0);
            }
            if self.is(Fault::WritesShortScratch) {
                lent.order.fill(0);
                lent.spare.fill(0);
            }
        }
        if let Some(refusal) = self.too_early(given, lent.room.len()) {
            return refusal;
        }
        if let Some(place) = self.bad_name(given) {
            if self.is(Fault::WritesBadNames) {
                lent.fill(&[0x11]);
            }
            return refused(45, place as u32);
        }
        let names = self.names(given);
        let listed = match self.is(Fault::TrustsOrder) {
            true => trusted(&names, lent.order),
            false => self.listed(&names),
        };
        let bytes = self.bytes(&names, &listed);
        let number = self.size_refusal(&names, bytes.len(), lent.room.len());
        if number != OK {
            if self.is(Fault::FillsShortRoom) && number == 46 {
                lent.fill(&bytes);
            }
            return refused(number, 0);
        }
        self.put(&bytes, lent.room);
        self.strip(given, &listed, bytes.len(), lent.room.len())
    }

    /// A refusal that is given before the names are looked at.
    fn too_early(self, given: &Given, room: usize) -> Option<Strip> {
        let is_long = given.run.len() > LIMIT && given.texts().is_err();
        match self.fault {
            Some(Fault::RoomBeforeNames) if room < 3 => Some(refused(46, 0)),
            Some(Fault::LimitBeforeNames) if is_long => Some(refused(10, 0)),
            _ => None,
        }
    }

    /// The name that is refused.
    fn bad_name(self, given: &Given) -> Option<usize> {
        let ends = &given.ends;
        let first_end = self.bad_ends(given).position(|bad| bad);
        match self.fault {
            Some(Fault::TakesAnyNames) => first_end,
            Some(Fault::EndsBeforeTexts) if first_end.is_some() => first_end,
            Some(Fault::ChecksWholeRun) => {
                let good = &ends[..first_end.unwrap_or(ends.len())];
                let last = good.last().map_or(0, |&end| end as usize);
                let cut = from_utf8(&given.run[..last])
                    .err()
                    .map(|error| error.valid_up_to());
                let is_cut = |&end: &u32| cut.is_some_and(|cut| end as usize > cut);
                good.iter().position(is_cut).or(first_end)
            }
            Some(Fault::ChecksTheRest) if from_utf8(&given.run).is_err() => {
                given.texts().err().or(ends.len().checked_sub(1))
            }
            _ => self.bad_one_by_one(given),
        }
    }

    /// Which names' ends are bad.
    fn bad_ends(self, given: &Given) -> impl Iterator<Item = bool> {
        let begins = [0].iter().chain(&given.ends);
        begins.zip(&given.ends).map(move |(&begin, &end)| {
            let falls = end < begin && !self.is(Fault::TakesFallingEnds);
            falls || end as usize > given.run.len() && !self.is(Fault::TakesPassingEnds)
        })
    }

    /// The first name, or the last, that is bad by its end or is no text.
    fn bad_one_by_one(self, given: &Given) -> Option<usize> {
        let is_text = |name: Option<&[u8]>| name.is_none_or(|name| from_utf8(name).is_ok());
        let is_bad = self.bad_ends(given).zip(given.names());
        let is_bad = is_bad.map(|(bad_end, name)| bad_end || !is_text(name));
        let mut places = (0..).zip(is_bad).filter(|(_, is_bad)| *is_bad);
        let place = match self.fault {
            Some(Fault::LastBadName) => places.last(),
            _ => places.next(),
        };
        let more = usize::from(self.is(Fault::NamesFromOne));
        place.map(|(place, _)| place + more)
    }

    /// The names, each as it is taken.
    fn names(self, given: &Given) -> Vec<Vec<u8>> {
        let (run, ends) = (&given.run, &given.ends);
        let begins = [0].iter().chain(ends);
        let taken = |(&begin, &end): (&u32, &u32)| {
            let end = (end as usize).min(run.len());
            run[(begin as usize).min(end)..end].to_vec()
        };
        let mut names: Vec<Vec<u8>> = begins.zip(ends).map(taken).collect();
        if let (true, Some(last), Some(&end)) =
            (self.is(Fault::TakesTheRest), names.last_mut(), ends.last())
        {
            last.extend_from_slice(&run[end as usize..]);
        }
        names
    }

    /// The names as they are listed in the dictionary.
    fn listed(self, names: &[Vec<u8>]) -> Vec<Vec<u8>> {
        let mut listed = names.to_vec();
        match self.fault {
            Some(Fault::AlwaysEmpty) => listed.clear(),
            Some(Fault::DropsEmptyNames) => listed.retain(|name| !name.is_empty()),
            Some(Fault::DropsNeighboursAlone) => listed.dedup(),
            _ => {}
        }
        if !self.is(Fault::LeavesTheOrder) {
            listed.sort_by(|a, b| self.compared(a, b));
        }
        match self.fault {
            Some(Fault::KeepsDoubles | Fault::DropsNeighboursAlone) => {}
            Some(Fault::LeavesTheOrder) => {
                let mut seen = std::collections::HashSet::new();
                listed.retain(|name| seen.insert(name.clone()));
            }
            Some(Fault::DoublesByEightBytes) => {
                let eight = |name: &[u8]| name[..name.len().min(8)].to_vec();
                listed.dedup_by(|a, b| eight(a) == eight(b) && a.len().min(b.len()) >= 8 || a == b);
            }
            _ => listed.dedup(),
        }
        if self.is(Fault::DropsLastName) && listed.len() > 1 {
            listed.pop();
        }
        listed
    }

    /// The order of two names.
    fn compared(self, a: &[u8], b: &[u8]) -> Ordering {
        let units =
            |name: &[u8]| -> Vec<u16> { String::from_utf8_lossy(name).encode_utf16().collect() };
        match self.fault {
            Some(Fault::SortsByLength) => a.len().cmp(&b.len()).then(a.cmp(b)),
            Some(Fault::SortsBackwards) => b.cmp(a),
            Some(Fault::SortsSigned) => signed(a).cmp(&signed(b)),
            Some(Fault::SortsByUnits) => units(a).cmp(&units(b)),
            _ => a.cmp(b),
        }
    }

    /// The dictionary of names that are listed.
    fn bytes(self, names: &[Vec<u8>], listed: &[Vec<u8>]) -> Vec<u8> {
        let total = |names: &[Vec<u8>]| names.iter().map(Vec::len).sum::<usize>();
        let width = least_width(match self.fault {
            Some(Fault::WidthOfCount) => listed.len(),
            Some(Fault::WidthOfGiven) => total(names).max(names.len()),
            _ => total(listed).max(listed.len()),
        });
        let is_wider = self.is(Fault::WidthOneMore) && width < 4;
        let is_unsorted =
            self.is(Fault::SaysUnsorted) || self.is(Fault::EmptyAsTheRust) && listed.is_empty();
        let shape = DictionaryShape {
            width: width + usize::from(is_wider),
            sorted: !is_unsorted,
            spare: self.is(Fault::SetsSpareBit),
        };
        let mut bytes = encode::dictionary(listed, shape);
        if self.is(Fault::HighestFirstInNumbers) {
            let numbers = &mut bytes[1..][..shape.width * (listed.len() + 2)];
            numbers.chunks_mut(shape.width).for_each(<[u8]>::reverse);
        }
        bytes
    }

    /// What is refused of a dictionary's length, or 0.
    fn size_refusal(self, names: &[Vec<u8>], length: usize, room: usize) -> u32 {
        let given = names.iter().map(Vec::len).sum::<usize>();
        let limit = match self.fault {
            Some(Fault::LimitOneLess) => LIMIT - 1,
            Some(Fault::LimitOneMore) => LIMIT + 1,
            _ => LIMIT,
        };
        let is_long = length > limit || self.is(Fault::LimitOfGiven) && given > limit;
        let is_short = room < length + usize::from(self.is(Fault::WantsAByteMore));
        match (is_long, is_short) {
            (true, true) if self.is(Fault::RoomBeforeLimit) => 46,
            (true, _) => 10,
            (_, true) => 46,
            _ => OK,
        }
    }

    /// Writes the dictionary to room that is long enough.
    fn put(self, bytes: &[u8], room: &mut [u8]) {
        let (begin, after) = room.split_at_mut(bytes.len());
        begin.copy_from_slice(bytes);
        match self.fault {
            Some(Fault::ClearsTheRoom) => after.fill(0),
            Some(Fault::WritesOneAfter) => after.iter_mut().take(1).for_each(|byte| *byte = 0),
            _ => {}
        }
    }

    fn strip(self, given: &Given, listed: &[Vec<u8>], length: usize, room: usize) -> Strip {
        let count = match self.fault {
            Some(Fault::CountOfGiven) => given.ends.len(),
            Some(Fault::WrittenCountOfTwoBytes) => listed.len() & 0xFFFF,
            _ => listed.len(),
        };
        let length = match self.fault {
            Some(Fault::LengthOfRoom) => room,
            Some(Fault::LengthOfNames) => listed.iter().map(Vec::len).sum(),
            Some(Fault::LengthOfTwoBytes) => length & 0xFFFF,
            _ => length,
        };
        accepted(count, 0, length)
    }
}

/// The bytes of a name, taken for signed.
pub(crate) fn signed(name: &[u8]) -> Vec<i8> {
    name.iter().map(|&byte| byte as i8).collect()
}

/// Names in the order that scratch held before, as far as it has numbers of them.
fn trusted(names: &[Vec<u8>], order: &[u32]) -> Vec<Vec<u8>> {
    let numbers = order.get(..names.len()).unwrap_or_default();
    let held: Option<Vec<Vec<u8>>> = numbers
        .iter()
        .map(|&number| names.get(number as usize).cloned())
        .collect();
    match held {
        Some(held) if !held.is_empty() => held,
        _ => Miswriting { fault: None }.listed(names),
    }
}
