//! The verdict on a tree in document 02's words, by plain recursion: number, place and start. Our
//! answers are held to it; it shares no code with them.
//!
//! One thing can be done otherwise, by a [`Twist`]: so are the wrong readers of trees made that the
//! comparison must tell.

use crate::ours::{accepted, refused_at};
use crate::reading::{
    BINARY, DictionaryParts, ObjectParts, Row, STRING, Unmeasured, list_offsets, own_length,
};
use lichenhusk::{LEVELS, LIMIT, Strip};
use std::collections::HashSet;
use std::ops::Range;

/// One thing that is done otherwise than document 02 says.
#[derive(Clone, Copy, Debug, PartialEq, Eq)]
pub enum Twist {
    /// Nothing is looked at but the outermost layer.
    FirstLayer,
    /// 52 comes after a container's own checks.
    DepthLast,
    /// Texts of this primitive type are not looked at.
    Unread(usize),
    /// Short strings are not looked at.
    UnreadShort,
    /// Binaries are held to be texts.
    BinaryText,
    /// A list's first offset must be 0.
    FirstOffset,
    /// An element may have no bytes.
    EmptyElements,
    /// An element goes on to the end of its list.
    ElementsToEnd,
    /// An element is looked into before the offsets after it are looked at.
    ElementsFirst,
    /// The last offset of a list is not held to the others.
    LastOffset,
    /// Children come in the order in which they lie.
    AsTheyLie,
    /// The start is that of the container which has the value.
    StartOfParent,
    /// The start is counted from that container.
    StartInParent,
    /// A start that was found good is good again, whatever bytes are at hand.
    ByStart,
    /// A value that was found good is good again, however few levels are left.
    WithoutLevels,
    /// Ids of nested objects are not looked at.
    NestedIds,
    /// Names of nested objects may be in any order.
    NestedOrder,
    /// A child of no bytes is refused itself, with 50.
    EmptyChildren,
}

/// Why a tree is refused.
#[derive(Clone, Copy, Debug, PartialEq, Eq)]
struct Refused {
    number: u32,
    place: usize,
    start: usize,
}

type Checked<T = ()> = Result<T, Refused>;

/// A tree over a dictionary that is accepted.
pub struct Tree<'t> {
    names: Vec<&'t [u8]>,
    whole: &'t [u8],
    twist: Option<Twist>,
    /// What was found good, with how many levels left; nothing where it is not kept.
    good: Option<HashSet<(usize, usize, usize)>>,
}

/// The names of a dictionary that is accepted.
pub fn names_of(dict: &[u8]) -> Vec<&[u8]> {
    let parts = DictionaryParts::of(dict).expect("an accepted dictionary");
    let region = parts.region(dict).expect("all names");
    let ends = parts.offsets.numbers(dict).expect("all offsets");
    ends.windows(2)
        .map(|pair| &region[pair[0]..pair[1]])
        .collect()
}

/// The offsets of an object or a list, one more than children, and the ids before them.
pub fn rows_of(container: &[u8]) -> Option<(Option<Row>, Row)> {
    match container.first()? & 1 {
        0 => ObjectParts::of(container).map(|parts| (Some(parts.ids), parts.offsets)),
        _ => Some((None, list_offsets(container)?)),
    }
}

/// Whether a value is an object or a list.
pub fn is_container(value: &[u8]) -> bool {
    value.first().is_some_and(|header| header & 2 != 0)
}

impl<'t> Tree<'t> {
    /// A tree, of which no memory is kept.
    pub fn new(dict: &'t [u8], whole: &'t [u8]) -> Tree<'t> {
        Tree {
            names: names_of(dict),
            whole,
            twist: None,
            good: None,
        }
    }

    /// The same with one thing done otherwise.
    pub fn twisted(self, twist: Option<Twist>) -> Tree<'t> {
        Tree { twist, ..self }
    }

    /// The same, which remembers what it found good: for trees of very many ways.
    pub fn remembering(self) -> Tree<'t> {
        Tree {
            good: Some(HashSet::new()),
            ..self
        }
    }

    /// The verdict as a strip.
    pub fn verdict(self) -> Strip {
        self.verdict_within(LEVELS)
    }

    /// The same where so many levels may come.
    pub fn verdict_within(mut self, levels: usize) -> Strip {
        if self.whole.len() > LIMIT {
            return refused_at(20, 0, 0);
        }
        match self.value(0..self.whole.len(), levels) {
            Ok(()) => accepted(0, 0, own_length(self.whole).unwrap_or(0)),
            Err(Refused {
                number,
                place,
                start,
            }) => refused_at(number, start, place),
        }
    }

    /// The name of an entry.
    pub(crate) fn name(&self, id: usize) -> Option<&'t [u8]> {
        self.names.get(id).copied()
    }

    fn is(&self, twist: Twist) -> bool {
        self.twist == Some(twist)
    }

    /// The value at a place, below which so many levels may come, itself among them.
    fn value(&mut self, at: Range<usize>, left: usize) -> Checked {
        let key = match self.twist {
            Some(Twist::ByStart) => (at.start, 0, 0),
            Some(Twist::WithoutLevels) => (at.start, at.end, 0),
            _ => (at.start, at.end, left),
        };
        if self.good.as_ref().is_some_and(|good| good.contains(&key)) {
            return Ok(());
        }
        match is_container(&self.whole[at.clone()]) {
            true => self.container(at, left)?,
            false => self.leaf(at)?,
        }
        self.good.as_mut().map(|good| good.insert(key));
        Ok(())
    }

    /// A leaf: 50, 51; then 54 of a string.
    fn leaf(&self, at: Range<usize>) -> Checked {
        let bytes = &self.whole[at.clone()];
        let refuse = |number| {
            Err(Refused {
                number,
                place: 0,
                start: at.start,
            })
        };
        let length = match own_length(bytes) {
            Ok(length) => length,
            Err(Unmeasured::Unknown) => return refuse(51),
            Err(_) => return refuse(50),
        };
        let text = match (bytes[0] & 3, bytes[0] as usize >> 2) {
            (0, kind) if self.is(Twist::Unread(kind)) => return Ok(()),
            (0, STRING) => &bytes[5..length],
            (0, BINARY) if self.is(Twist::BinaryText) => &bytes[5..length],
            (1, _) if !self.is(Twist::UnreadShort) => &bytes[1..length],
            _ => return Ok(()),
        };
        match std::str::from_utf8(text) {
            Ok(_) => Ok(()),
            Err(_) => refuse(54),
        }
    }

    /// A container: 52, its own checks, then its children in order.
    fn container(&mut self, at: Range<usize>, left: usize) -> Checked {
        let start = at.start;
        let refuse = |(number, place)| Refused {
            number,
            place,
            start,
        };
        if left == 0 && !self.is(Twist::DepthLast) {
            return Err(refuse((52, 0)));
        }
        let bytes = &self.whole[at];
        let children = match bytes[0] & 1 {
            0 => self.object(bytes, start == 0).map_err(refuse)?,
            _ => self.list(bytes).map_err(refuse)?,
        };
        if left == 0 {
            return Err(refuse((52, 0)));
        }
        if self.is(Twist::FirstLayer) {
            return Ok(());
        }
        self.children(start, children, left - 1)
    }

    fn children(&mut self, start: usize, mut places: Vec<Range<usize>>, left: usize) -> Checked {
        if self.is(Twist::AsTheyLie) {
            places.sort_by_key(|place| place.start);
        }
        for (index, place) in places.into_iter().enumerate() {
            if place.start == place.end && self.is(Twist::EmptyElements) {
                continue;
            }
            let child = start + place.start..start + place.end;
            if child.start > child.end || child.end > self.whole.len() {
                return Err(Refused {
                    number: 62,
                    place: index,
                    start,
                });
            }
            let checked = self.value(child.clone(), left);
            checked.map_err(|refused| match self.twist {
                Some(Twist::StartOfParent) if refused.start == child.start => {
                    Refused { start, ..refused }
                }
                Some(Twist::StartInParent) if refused.start == child.start => Refused {
                    start: child.start - start,
                    ..refused
                },
                _ => refused,
            })?;
        }
        Ok(())
    }

    /// An object's own checks, by document 01; where its children are, each up to the trimmed end.
    pub(crate) fn object(
        &self,
        bytes: &[u8],
        outermost: bool,
    ) -> Result<Vec<Range<usize>>, (u32, usize)> {
        let parts = ObjectParts::of(bytes);
        let offsets = parts.map(|parts| parts.offsets);
        let length = region(bytes, offsets, [23, 24])?;
        let ObjectParts { ids, offsets, .. } = parts.ok_or((23, 0))?;
        let ids = ids.numbers(bytes).ok_or((23, 0))?;
        let mut before = None;
        for (field, &id) in ids.iter().enumerate() {
            let name = match self.names.get(id) {
                Some(name) => name,
                None if !outermost && self.is(Twist::NestedIds) => continue,
                None => return Err((25, field)),
            };
            let any_order = !outermost && self.is(Twist::NestedOrder);
            if before.is_some_and(|before| name <= before) && !any_order {
                return Err((26, field));
            }
            before = Some(name);
        }
        let numbers = offsets.numbers(bytes).ok_or((23, 0))?;
        let start = offsets.end();
        let mut places = Vec::new();
        for (field, &offset) in numbers[..ids.len()].iter().enumerate() {
            if offset > length {
                return Err((27, field));
            }
            if offset == length && !self.is(Twist::EmptyChildren) {
                return Err((28, field));
            }
            places.push(start + offset..start + length);
        }
        Ok(places)
    }

    /// A list's own checks; where its elements are, each up to the next offset.
    pub(crate) fn list(&self, bytes: &[u8]) -> Result<Vec<Range<usize>>, (u32, usize)> {
        let offsets = list_offsets(bytes);
        let length = region(bytes, offsets, [60, 61])?;
        let offsets = offsets.ok_or((60, 0))?;
        let numbers = offsets.numbers(bytes).ok_or((60, 0))?;
        if self.is(Twist::FirstOffset) && numbers[0] != 0 {
            return Err((62, 0));
        }
        let start = offsets.end();
        let mut places = Vec::new();
        for (element, pair) in numbers.windows(2).enumerate() {
            let (offset, mut next) = (pair[0], pair[1]);
            let falls = offset > next || offset > length && !self.is(Twist::LastOffset);
            if falls && !self.is(Twist::ElementsFirst) {
                return Err((62, element));
            }
            if self.is(Twist::ElementsToEnd) {
                next = length;
            }
            places.push(start + offset..start + next);
        }
        Ok(places)
    }
}

/// The length of the region of an object or a list, of which nothing is cut; otherwise the first of
/// two numbers for what is cut, and the second for a place past the 32-bit range.
fn region(
    bytes: &[u8],
    offsets: Option<Row>,
    [short, sum]: [u32; 2],
) -> Result<usize, (u32, usize)> {
    let within = |place: usize| match place {
        _ if place > u32::MAX as usize => Err((sum, 0)),
        _ if place > bytes.len() => Err((short, 0)),
        _ => Ok(()),
    };
    let offsets = offsets.ok_or((short, 0))?;
    within(offsets.end())?;
    let length = offsets.number(bytes, offsets.count - 1).ok_or((short, 0))?;
    within(offsets.end() + length)?;
    Ok(length)
}
