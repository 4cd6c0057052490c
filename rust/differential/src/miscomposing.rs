//! A plain writer of objects, which can do one thing otherwise: wrong writers, to see that the comparison
//! tells. It shares no code with ours; without a fault it writes what is due.

use crate::encode::{self, ObjectShape, least_width};
use crate::faults::Fault;
use crate::miswriting::{Lent, signed};
use crate::ours::{accepted, refused};
use crate::pairs::{Pair, Pairs};
use crate::reference::names_of;
use lichenhusk::{LIMIT, OK, Strip, WORDS_PER_PAIR};
use std::cmp::Ordering;
use std::collections::HashSet;
use std::hash::Hash;

/// The writer over a dictionary, and what it does otherwise.
pub struct Miscomposing<'d> {
    /// The dictionary's bytes.
    pub dict: &'d [u8],
    /// The answer to it.
    pub dictionary: Strip,
    /// What it does otherwise.
    pub fault: Option<Fault>,
}

/// A refusal, and the pair.
type Bad = (u32, usize);

/// A pair's number, its id and the bytes of its child as they are taken.
#[derive(Clone, Debug)]
struct Taken {
    number: usize,
    id: usize,
    child: Vec<u8>,
}

/// An object, and where its children's bytes begin.
struct Laid {
    bytes: Vec<u8>,
    region: usize,
}

impl Miscomposing<'_> {
    fn is(&self, fault: Fault) -> bool {
        self.fault == Some(fault)
    }

    /// The answer, with the object written to the room.
    pub fn answer(&self, given: &Pairs, mut lent: Lent) -> Strip {
        let pairs = self.pairs(given);
        if !lent.has_scratch(pairs.len()) {
            if self.is(Fault::NoObjectWithoutScratch) {
                return refused(46, 0);
            }
            if self.is(Fault::WritesShortObjectScratch) {
                lent.order.fill(0);
                lent.spare.fill(0);
            }
        }
        if self.is(Fault::ObjectRoomFirst) && lent.room.len() < 3 {
            return refused(46, 0);
        }
        if self.is(Fault::RangesBeforeDictionary)
            && let Some((number, place)) = self.first_of(given, &pairs, &[45])
        {
            return refused(number, place as u32);
        }
        let takes = self.is(Fault::NoPairsUnchecked) && pairs.is_empty();
        if self.dictionary.code != OK && !takes {
            return self.dictionary;
        }
        if let Some((number, place)) = self.bad(given, &pairs) {
            if self.is(Fault::WritesRefusedHeader) {
                lent.fill(&[0x02]);
            }
            return refused(number, self.place(given, number, place));
        }
        self.write(given, &pairs, lent)
    }

    /// The object of pairs that are good, as far as its length is.
    fn write(&self, given: &Pairs, pairs: &[Pair], mut lent: Lent) -> Strip {
        let number = self.size_refusal(given, pairs, lent.room.len());
        if number == 20 {
            return refused(20, 0);
        }
        let fields = self.fields(given, pairs, lent.order);
        let laid = self.laid(given, &fields);
        if number != OK {
            if self.is(Fault::FillsShortObjectRoom) {
                lent.fill(&laid.bytes);
            }
            return refused(number, 0);
        }
        let room = lent.room.len();
        lent.fill(&laid.bytes);
        let after = lent.room.get_mut(laid.bytes.len()..).unwrap_or_default();
        match self.fault {
            Some(Fault::ClearsAfterObject) => after.fill(0),
            Some(Fault::WritesAfterObject) => after.iter_mut().take(1).for_each(|byte| *byte = 0),
            _ => {}
        }
        self.strip(given, &fields, &laid, room)
    }

    /// The pairs, as what is left over is taken.
    fn pairs(&self, given: &Pairs) -> Vec<Pair> {
        let (pairs, rest) = given.words.as_chunks::<WORDS_PER_PAIR>();
        let mut pairs = pairs.to_vec();
        if self.is(Fault::TakesCutPair) && !rest.is_empty() {
            let mut cut = [0; WORDS_PER_PAIR];
            cut[..rest.len()].copy_from_slice(rest);
            pairs.push(cut);
        }
        pairs
    }

    /// The names of the dictionary.
    fn names(&self) -> Vec<&[u8]> {
        match self.dictionary.code {
            OK => names_of(self.dict),
            _ => vec![],
        }
    }

    /// The first refusal of pairs, in the order in which it is looked for.
    fn bad(&self, given: &Pairs, pairs: &[Pair]) -> Option<Bad> {
        if self.is(Fault::RefusesCutPair) && pairs.len() * WORDS_PER_PAIR < given.words.len() {
            return Some((45, pairs.len()));
        }
        let numbers: &[u32] = match self.fault {
            Some(Fault::EmptyBeforeRanges) => &[25, 26, 28, 45],
            Some(Fault::RangesBeforeNames) => &[25, 45, 26, 28],
            Some(Fault::NamesBeforeIds) => &[26, 25, 45, 28],
            Some(Fault::RangesBeforeIds) => &[45, 25, 26, 28],
            Some(Fault::RangesWithEmpty) => &[25, 26],
            Some(Fault::TakesDoubles) => &[25, 45, 28],
            Some(Fault::TakesEmptyChildrenOfPairs) => &[25, 26, 45],
            Some(Fault::PairByPair) => {
                let alone = |place: usize| self.first_of(given, &pairs[..=place], &ALL);
                return (0..pairs.len()).find_map(alone);
            }
            _ => &ALL,
        };
        let first = self.first_of(given, pairs, numbers);
        match self.fault {
            Some(Fault::RangesWithEmpty) => first.or_else(|| {
                let alone = |place: usize| self.first_of(given, &pairs[..=place], &[45, 28]);
                (0..pairs.len()).find_map(alone)
            }),
            _ => first,
        }
    }

    /// The first of some numbers that a pair gets, and the pair.
    fn first_of(&self, given: &Pairs, pairs: &[Pair], numbers: &[u32]) -> Option<Bad> {
        numbers.iter().find_map(|&number| {
            let bad = match number {
                26 => self.double(pairs),
                _ => self.position(pairs, |pair| self.is_bad(given, number, pair)),
            };
            Some((number, bad?))
        })
    }

    /// The first pair that is bad, or the last.
    fn position(&self, pairs: &[Pair], is_bad: impl Fn(Pair) -> bool) -> Option<usize> {
        match self.fault {
            Some(Fault::LastBadPair) => pairs.iter().rposition(|&pair| is_bad(pair)),
            _ => pairs.iter().position(|&pair| is_bad(pair)),
        }
    }

    /// Whether a pair gets a number, but for 26.
    fn is_bad(&self, given: &Pairs, number: u32, [id, start, end]: Pair) -> bool {
        let (entries, length) = (self.dictionary.number, given.bytes.len() as u64);
        match number {
            25 if self.is(Fault::TakesIdAtCount) => id > entries,
            25 => id >= entries,
            45 => {
                let falls = start > end && !self.is(Fault::TakesFallingRanges);
                let passes = match self.fault {
                    Some(Fault::TakesPassingRanges) => false,
                    Some(Fault::RefusesTheLastByte) => u64::from(end) >= length,
                    Some(Fault::LooksAtStartsAlone) => u64::from(start) > length,
                    _ => u64::from(end) > length,
                };
                falls || passes
            }
            _ => start == end,
        }
    }

    /// The pair whose name is an earlier one's.
    fn double(&self, pairs: &[Pair]) -> Option<usize> {
        let names = self.names();
        // An id that is no entry has no name that could come again.
        let name = |[id, ..]: &Pair| names.get(*id as usize).copied();
        let named: Vec<(usize, &[u8])> = (0..)
            .zip(pairs)
            .filter_map(|(place, pair)| Some((place, name(pair)?)))
            .collect();
        let later = |place: usize| {
            let before = &named[..place];
            before.iter().any(|&(_, name)| name == named[place].1)
        };
        let doubles = || (0..named.len()).filter(|&place| later(place));
        let at = match self.fault {
            Some(Fault::DoublesById) => first_again(pairs.iter().map(|pair| pair[0])),
            Some(Fault::DoublesOfNeighbours) => {
                let same = |pair: &[(usize, &[u8])]| pair[0].1 == pair[1].1;
                named.windows(2).position(same).map(|at| at + 1)
            }
            Some(Fault::DoublesAtTheEarlier) => first_again(named.iter().map(|&(_, name)| name))
                .and_then(|at| named.iter().position(|&(_, name)| name == named[at].1)),
            Some(Fault::DoublesByName) => doubles().min_by_key(|&at| (named[at].1, at)),
            Some(Fault::LastBadPair) => doubles().next_back(),
            Some(Fault::DoublesByEight) => {
                first_again(named.iter().map(|&(_, name)| &name[..name.len().min(8)]))
            }
            _ => first_again(named.iter().map(|&(_, name)| name)),
        };
        at.map(|at| named.get(at).map_or(at, |&(place, _)| place))
    }

    /// The place that is given for a pair.
    fn place(&self, given: &Pairs, number: u32, place: usize) -> u32 {
        let place = place as u32;
        match self.fault {
            Some(Fault::PairsFromOne) => place + 1,
            Some(Fault::PairsByTheirWords) => WORDS_PER_PAIR as u32 * place,
            Some(Fault::IdAsPlace) if number == 25 => given.pairs()[place as usize][0],
            Some(Fault::NoPlaceOfPairs) => 0,
            _ => place,
        }
    }

    /// What is refused of an object's length, or 0.
    fn size_refusal(&self, given: &Pairs, pairs: &[Pair], room: usize) -> u32 {
        let child = |&[_, start, end]: &Pair| end.saturating_sub(start) as usize;
        let total: usize = pairs.iter().map(child).sum();
        let greatest = pairs.iter().map(|pair| pair[0]).max().unwrap_or(0) as usize;
        let count = pairs.len();
        let count_width = if count > 255 { 4 } else { 1 };
        let head = 1 + count_width + count * least_width(greatest);
        let length = head + (count + 1) * least_width(total) + total;
        let limit = match self.fault {
            Some(Fault::ObjectLimitOneLess) => LIMIT - 1,
            Some(Fault::ObjectLimitOneMore) => LIMIT + 1,
            _ => LIMIT,
        };
        let is_long = match self.fault {
            Some(Fault::LimitOfChildren) => total > limit,
            Some(Fault::LimitOfLent) => length.max(given.bytes.len()) > limit,
            _ => length > limit,
        };
        let is_short = room < length + usize::from(self.is(Fault::WantsAByteMoreOfRoom));
        match (is_long, is_short) {
            (true, true) if self.is(Fault::RoomBeforeObjectLimit) => 46,
            (true, _) => 20,
            (_, true) => 46,
            _ => OK,
        }
    }

    /// The fields in the order in which they are written.
    fn fields(&self, given: &Pairs, pairs: &[Pair], order: &[u32]) -> Vec<Taken> {
        let length = given.bytes.len();
        let taken = |(number, &[id, start, end]): (usize, &Pair)| {
            let end = (end as usize).min(length);
            Taken {
                number,
                id: id as usize,
                child: given.bytes[(start as usize).min(end)..end].to_vec(),
            }
        };
        let mut fields: Vec<Taken> = (0..).zip(pairs).map(taken).collect();
        let names = self.names();
        let name = |id: usize| names.get(id).copied().unwrap_or_default();
        match self.fault {
            Some(Fault::FieldsAsGiven) => {}
            Some(Fault::TrustsObjectOrder) if holds(order, fields.len()) => {
                fields = order[..fields.len()]
                    .iter()
                    .map(|&at| fields[at as usize].clone())
                    .collect();
            }
            Some(Fault::TakesDoubles) => {
                fields.sort_by_key(|field| name(field.id));
                fields.reverse();
                fields.dedup_by_key(|field| name(field.id));
                fields.reverse();
            }
            _ => fields.sort_by(|a, b| self.compared((a.id, name(a.id)), (b.id, name(b.id)))),
        }
        if let (Some(Fault::SwapsChildren), [first, second, ..]) = (self.fault, &mut fields[..]) {
            std::mem::swap(&mut first.child, &mut second.child);
        }
        fields
    }

    /// The order of two ids and their names.
    fn compared(&self, a: (usize, &[u8]), b: (usize, &[u8])) -> Ordering {
        match self.fault {
            Some(Fault::FieldsById) => a.0.cmp(&b.0),
            Some(Fault::FieldsByLength) => a.1.len().cmp(&b.1.len()).then(a.1.cmp(b.1)),
            Some(Fault::FieldsBackwards) => b.1.cmp(a.1),
            Some(Fault::FieldsSigned) => signed(a.1).cmp(&signed(b.1)),
            _ => a.1.cmp(b.1),
        }
    }

    /// The object of fields.
    fn laid(&self, given: &Pairs, fields: &[Taken]) -> Laid {
        let (offsets, region) = self.children(fields);
        let ids: Vec<usize> = match self.fault {
            Some(Fault::PairsForIds) => fields.iter().map(|field| field.number).collect(),
            _ => fields.iter().map(|field| field.id).collect(),
        };
        let shape = self.shape(given, fields, &offsets);
        let mut bytes = encode::object(&ids, &offsets, &region, shape);
        let region = bytes.len() - region.len();
        if self.is(Fault::HighestFirstInObjects) {
            let ids_end = region - shape.offset_width * offsets.len();
            let ids_start = ids_end - shape.id_width * ids.len();
            let rows = [
                (ids_start..ids_end, shape.id_width),
                (ids_end..region, shape.offset_width),
            ];
            for (row, width) in rows {
                bytes[row].chunks_mut(width).for_each(<[u8]>::reverse);
            }
        }
        if self.is(Fault::NoOffsetOfNoFields) && fields.is_empty() {
            bytes.pop();
        }
        Laid { bytes, region }
    }

    /// The offsets of the children, one more than these, and their bytes.
    fn children(&self, fields: &[Taken]) -> (Vec<usize>, Vec<u8>) {
        let (mut offsets, mut region) = (vec![0; fields.len()], Vec::new());
        let mut order: Vec<usize> = (0..fields.len()).collect();
        if self.is(Fault::ChildrenAsGiven) {
            order.sort_by_key(|&at| fields[at].number);
        }
        for (nth, at) in order.into_iter().enumerate() {
            let child = &fields[at].child;
            let shared = (0..nth).find(|&other| fields[other].child == *child);
            if let (Some(Fault::SharesChildren), Some(other)) = (self.fault, shared) {
                offsets[at] = offsets[other];
                continue;
            }
            if self.is(Fault::GapsBetweenChildren) && nth > 0 {
                region.push(0);
            }
            offsets[at] = region.len();
            region.extend_from_slice(child);
        }
        offsets.push(region.len());
        (offsets, region)
    }

    fn shape(&self, given: &Pairs, fields: &[Taken], offsets: &[usize]) -> ObjectShape {
        let count = fields.len();
        let greatest = fields.iter().map(|field| field.id).max().unwrap_or(0);
        let total = offsets[count];
        let entries = self.dictionary.number as usize;
        let id_width = least_width(match self.fault {
            Some(Fault::IdWidthOfEntries) => entries,
            Some(Fault::IdWidthOfLastEntry) => entries.saturating_sub(1),
            Some(Fault::IdWidthOfFields) => count.max(greatest),
            _ => greatest,
        });
        let offset_width = least_width(match self.fault {
            Some(Fault::OffsetWidthOfLent) => total.max(given.bytes.len()),
            Some(Fault::OneWidthForBoth) => total.max(greatest),
            _ => total,
        });
        let wider = |fault: Fault, width: usize| width + usize::from(self.is(fault) && width < 4);
        let least_long = match self.fault {
            Some(Fault::LongCountAt255) => 255,
            Some(Fault::LongCountOfFew) => 0,
            _ => 256,
        };
        ObjectShape {
            id_width: wider(Fault::IdWidthOneMore, id_width),
            offset_width: wider(Fault::OffsetWidthOneMore, offset_width),
            long_count: count >= least_long,
            spare: self.is(Fault::SetsTopBit),
        }
    }

    fn strip(&self, given: &Pairs, fields: &[Taken], laid: &Laid, room: usize) -> Strip {
        let count = match self.fault {
            Some(Fault::CountsWords) => given.words.len(),
            Some(Fault::WrittenFieldsOfTwoBytes) => fields.len() & 0xFFFF,
            _ => fields.len(),
        };
        let region = match self.fault {
            Some(Fault::NoRegionWritten) => 0,
            _ => laid.region,
        };
        let length = match self.fault {
            Some(Fault::LengthOfObjectRoom) => room,
            Some(Fault::LengthOfChildren) => laid.bytes.len() - laid.region,
            Some(Fault::ObjectLengthOfTwoBytes) => laid.bytes.len() & 0xFFFF,
            _ => laid.bytes.len(),
        };
        let strip = accepted(count, region, length);
        match (self.fault, fields.last()) {
            (Some(Fault::LeavesAnId), Some(last)) => Strip {
                id: last.id as u32,
                ..strip
            },
            _ => strip,
        }
    }
}

/// The refusals of pairs, in the order of document 02.
const ALL: [u32; 4] = [25, 26, 45, 28];

/// The first thing that was there before.
fn first_again<T: Eq + Hash>(mut things: impl Iterator<Item = T>) -> Option<usize> {
    let mut seen = HashSet::new();
    things.position(|thing| !seen.insert(thing))
}

/// Whether scratch holds numbers of so many pairs, and there are some.
fn holds(order: &[u32], pairs: usize) -> bool {
    let numbers = order.get(..pairs).unwrap_or_default();
    !numbers.is_empty() && numbers.iter().all(|&number| (number as usize) < pairs)
}
