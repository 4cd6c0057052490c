//! What a path answers in document 02's words, by plain steps: the strip, and what stands in the bytes
//! and words that are lent. Our answers are held to it; it shares no code with them.
//!
//! As in [`spelling`](crate::spelling), one thing can be done otherwise.

use crate::faults::Fault;
use crate::ours::{absent, found, refused, refused_at};
use crate::reading::{ObjectParts, list_offsets};
use crate::reference::Tree;
use crate::spelling::{Spelling, Step, names_of, words_of};
use crate::tree::children;
use lichenhusk::{LIMIT, OK, Strip, WORDS_PER_STEP};
use std::ops::Range;

/// A question: a path into a value over a dictionary.
#[derive(Clone, Copy, Debug)]
pub struct Walk<'w> {
    /// The dictionary's bytes.
    pub dict: &'w [u8],
    /// What is answered to the dictionary alone.
    pub dictionary: Strip,
    /// The value's bytes.
    pub value: &'w [u8],
    /// The path's bytes.
    pub path: &'w [u8],
    /// What is done otherwise.
    pub fault: Option<Fault>,
}

/// What a step has found: by the last step, and where it stands in the whole.
struct At {
    field: usize,
    id: usize,
    place: Range<usize>,
}

impl Walk<'_> {
    fn is(&self, fault: Fault) -> bool {
        self.fault == Some(fault)
    }

    /// The steps, or the path's refusal but for 76.
    pub fn steps(&self) -> Result<Vec<Step>, u32> {
        let fault = self.fault;
        Spelling { fault }.steps(self.path)
    }

    /// The answer, and the steps written to what is lent.
    pub fn answer(&self, names: &mut [u8], words: &mut [u32]) -> Strip {
        let steps = match self.fitting(names.len(), words.len()) {
            Ok(steps) => steps,
            Err(number) => {
                self.write_refused(number, names, words);
                return refused(number, 0);
            }
        };
        let strip = match (self.dictionary.code, self.fault) {
            (OK, _) => self.followed(&steps),
            (_, Some(Fault::EmptyPathUnchecked)) if steps.is_empty() => self.followed(&steps),
            (_, Some(Fault::ValueBeforeDictionary)) if self.value.is_empty() => refused(21, 0),
            _ => self.dictionary,
        };
        let leaves = match strip.code {
            10..=19 => self.is(Fault::LeavesUnderDictionary),
            0 | 1 => false,
            _ => self.is(Fault::LeavesUnderSteps),
        };
        if !leaves {
            self.write(&steps, names, words);
        }
        strip
    }

    /// The steps, where so many bytes and words have room for them; otherwise the path's refusal.
    fn fitting(&self, bytes: usize, words: usize) -> Result<Vec<Step>, u32> {
        if self.is(Fault::RoomBeforePath) && bytes + words == 0 && !self.path.is_empty() {
            return Err(76);
        }
        let steps = self.steps()?;
        let total: usize = steps.iter().map(|step| step.name().len()).sum();
        let needed = WORDS_PER_STEP * steps.len();
        let has_room = match self.fault {
            Some(Fault::WantsMoreWords) if 0 < needed && needed == words => false,
            Some(Fault::WantsPathsBytes) if bytes < self.path.len() => false,
            Some(Fault::WritesWhatFits) => true,
            Some(Fault::RoomAfterDictionary) if self.dictionary.code != OK => true,
            _ => needed <= words && total <= bytes && u32::try_from(total).is_ok(),
        };
        match has_room {
            true => Ok(steps),
            false => Err(76),
        }
    }

    /// Writes as much of the steps as there is room for.
    fn write(&self, steps: &[Step], names: &mut [u8], words: &mut [u32]) {
        let (mut run, mut rows) = (names_of(steps), words_of(steps));
        self.change_rows(&mut run, &mut rows);
        if self.is(Fault::ClearsTheRest) {
            names.fill(0);
            words.fill(0);
        }
        names
            .iter_mut()
            .zip(run)
            .for_each(|(lent, byte)| *lent = byte);
        words
            .iter_mut()
            .zip(rows)
            .for_each(|(lent, word)| *lent = word);
    }

    /// Does a fault to the bytes and words of the steps.
    fn change_rows(&self, run: &mut Vec<u8>, rows: &mut [u32]) {
        let mut gaps = 0;
        let (rows, _) = rows.as_chunks_mut::<WORDS_PER_STEP>();
        for row in rows {
            *row = match (self.fault, *row) {
                (Some(Fault::GapsBetweenNames), [0, start, end]) => {
                    let (start, end) = (start + gaps, end + gaps);
                    run.insert(end as usize, 0);
                    gaps += 1;
                    [0, start, end]
                }
                (Some(Fault::LengthForEnd), [0, start, end]) => [0, start, end - start],
                (Some(Fault::SwapsIndexWords), [1, low, high]) => [1, high, low],
                (Some(Fault::SwapsStepKinds), [kind, low, high]) => [1 - kind, low, high],
                (_, row) => row,
            };
        }
    }

    /// Does a fault to what is lent where the path is refused, which leaves it otherwise.
    fn write_refused(&self, number: u32, names: &mut [u8], words: &mut [u32]) {
        let writes = match number {
            76 => self.is(Fault::WritesWithoutRoom),
            _ => self.is(Fault::WritesRefusedPaths),
        };
        if writes {
            names.iter_mut().take(1).for_each(|byte| *byte = 0);
            words.iter_mut().take(1).for_each(|word| *word = 0);
        }
    }

    /// Goes step by step, over a dictionary that is accepted.
    fn followed(&self, steps: &[Step]) -> Strip {
        let length = self.value.len();
        if steps.is_empty() {
            return match length == 0 && self.is(Fault::EmptyPathReads) {
                true => refused(21, 0),
                false => found(0, 0, 0, length),
            };
        }
        let tree = Tree::new(self.dict, self.value);
        let mut fields = Vec::new();
        let mut at = At {
            field: 0,
            id: 0,
            place: 0..length,
        };
        for (number, step) in steps.iter().enumerate() {
            let start = at.place.start;
            at = match self.step(&tree, at, step, number) {
                Ok(at) => at,
                Err(strip) if strip.code > 1 && self.is(Fault::StartOfLayer) => {
                    return refused_at(strip.code, start, strip.place as usize);
                }
                Err(strip) => return strip,
            };
            fields.push(at.field);
            if self.is(Fault::FirstStepOnly) {
                break;
            }
        }
        match self.fault {
            Some(Fault::NothingIsThere) => absent(),
            Some(Fault::FieldOfFirstStep) => found(fields[0], at.id, at.place.start, at.place.end),
            _ => found(at.field, at.id, at.place.start, at.place.end),
        }
    }

    /// One step: 20, 21, 53, the layer's own checks, absence.
    fn step(&self, tree: &Tree, at: At, step: &Step, number: usize) -> Result<At, Strip> {
        let part = &self.value[at.place.clone()];
        if part.len() > LIMIT && !self.is(Fault::NoStepLimit) {
            return Err(refused(20, 0));
        }
        let Some(header) = part.first() else {
            let number = if self.is(Fault::EmptyIsShort) { 50 } else { 21 };
            return Err(refused(number, 0));
        };
        let (field, id, place) = match (header & 3, step) {
            (2, Step::Name(name)) => self.field(tree, part, name.as_bytes())?,
            (3, Step::Index(index)) => {
                let (element, place) = self.element(tree, part, *index)?;
                (
                    element,
                    if self.is(Fault::IdOfName) { at.id } else { 0 },
                    place,
                )
            }
            (2, Step::Index(index)) if self.is(Fault::IndexesFields) => {
                let places = self.object(tree, part)?;
                let place = places.get(*index as usize).ok_or(absent())?;
                (*index as usize, 0, place.clone())
            }
            _ => return Err(self.other_kind(number)),
        };
        let from = match self.fault {
            Some(Fault::StartInLayer) => 0,
            _ => at.place.start,
        };
        let end = match self.fault {
            Some(Fault::UntrimmedSteps) if header & 3 == 2 => at.place.end,
            _ => from + place.end,
        };
        Ok(At {
            field,
            id,
            place: from + place.start..end,
        })
    }

    /// The answer to a step into a value of another kind.
    fn other_kind(&self, number: usize) -> Strip {
        match self.fault {
            Some(Fault::OtherKindIsAbsent) => absent(),
            Some(Fault::OtherKindIsNoObject) => refused(22, 0),
            Some(Fault::StepsFromOne) => refused(53, number as u32 + 1),
            Some(Fault::NoStepNumber) => refused(53, 0),
            _ => refused(53, number as u32),
        }
    }

    /// A layer's refusal.
    fn refusal(&self, (number, place): (u32, usize)) -> Strip {
        match self.is(Fault::NoPlaceInLayer) {
            true => refused(number, 0),
            false => refused(number, place as u32),
        }
    }

    fn object(&self, tree: &Tree, part: &[u8]) -> Result<Vec<Range<usize>>, Strip> {
        let checked = tree.object(part, true);
        checked.map_err(|refused| self.refusal(refused))
    }

    /// The field of a name: which, its id, and where its child is in the object.
    fn field(
        &self,
        tree: &Tree,
        part: &[u8],
        name: &[u8],
    ) -> Result<(usize, usize, Range<usize>), Strip> {
        let ids = ObjectParts::of(part).and_then(|parts| parts.ids.numbers(part));
        let ids = ids.unwrap_or_default();
        let is_it = |id: &usize| match tree.name(*id) {
            Some(other) if self.is(Fault::FindsBeginnings) => other.starts_with(name),
            other => other == Some(name),
        };
        let field = ids.iter().position(is_it).ok_or(absent());
        if self.is(Fault::AbsentBeforeChecks) {
            field?;
        }
        let places = self.object(tree, part)?;
        let field = field?;
        Ok((field, ids[field], places[field].clone()))
    }

    /// The element of a number, and where it is in the list.
    fn element(
        &self,
        tree: &Tree,
        part: &[u8],
        index: u64,
    ) -> Result<(usize, Range<usize>), Strip> {
        let index = match self.fault {
            Some(Fault::LowWordOnly) => index & u64::from(u32::MAX),
            _ => index,
        };
        let at = usize::try_from(index).unwrap_or(usize::MAX);
        let elements = list_offsets(part).map_or(0, |offsets| offsets.count - 1);
        if at >= elements && self.is(Fault::AbsentBeforeChecks) {
            return Err(absent());
        }
        let places = match tree.list(part) {
            Err((62, bad)) if at < bad && self.is(Fault::ChecksToElement) => {
                children(part).map_or(vec![], |(_, places)| places)
            }
            checked => checked.map_err(|refused| self.refusal(refused))?,
        };
        let mut place = places.get(at).ok_or(absent())?.clone();
        if self.is(Fault::ElementGoesOn) {
            place.end = places.last().map_or(place.end, |last| last.end);
        }
        Ok((at, place))
    }
}
