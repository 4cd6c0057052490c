//! A path into a value: what must agree.
//!
//! Our strip, and what stands in the bytes and words that are lent, are those of [`walk`](crate::walk):
//! with more room than is needed, just as much, a byte or a word less, and none.
//!
//! The steps that are written, read back, are the elements of the Rust's `VariantPath`; where it refuses
//! the path, its words tell our number, and of bytes that are no text 70 is due.
//!
//! The answer is what our single lookups say one after another, but that 53 stands for 22; of an index,
//! the list's checks and its element stand for the lookup.
//!
//! Where the Rust accepts the whole tree, its `get_path` finds the value that stands where we say, by
//! address: of a leaf that keeps none, in a copy with an empty short string there. It finds nothing
//! exactly where we say absent or 53.

use crate::compare::{Compared, UNWRITTEN, agree, differ};
use crate::original::{EMPTY_SHORT_STRING, path_number, same_value, traced_start};
use crate::ours::{Reader, absent, found, refused};
use crate::reference::{Tree, is_container};
use crate::shown;
use crate::spelling::{Step, names_of};
use crate::tally::Tally;
use crate::tree::{ASKED, visits};
use crate::walk::Walk;
use lichenhusk::{ABSENT, LIMIT, OK, Strip, WORDS_PER_STEP};
use parquet_variant::{Variant, VariantMetadata, VariantPath, VariantPathElement};

/// What a lent byte holds before a call.
const UNWRITTEN_BYTE: u8 = 0xEE;

/// Our answer, and what was lent.
#[derive(Debug, PartialEq)]
struct Answer {
    strip: Strip,
    names: Vec<u8>,
    words: Vec<u32>,
}

impl Answer {
    /// The answer of a call that is lent so many bytes and words.
    fn of(bytes: usize, words: usize, ask: impl FnOnce(&mut [u8], &mut [u32]) -> Strip) -> Answer {
        let mut names = vec![UNWRITTEN_BYTE; bytes];
        let mut words = vec![UNWRITTEN; words];
        Answer {
            strip: ask(&mut names, &mut words),
            names,
            words,
        }
    }

    /// The steps that were written, as far as there are any.
    fn steps(&self) -> Option<Vec<Step>> {
        let (rows, _) = self.words.as_chunks::<WORDS_PER_STEP>();
        let written = rows.iter().take_while(|row| row[0] != UNWRITTEN);
        let step = |&[kind, low, high]: &[u32; WORDS_PER_STEP]| match kind {
            0 => {
                let name = self.names.get(low as usize..high as usize)?;
                String::from_utf8(name.to_vec()).ok().map(Step::Name)
            }
            1 => Some(Step::Index(u64::from(high) << 32 | u64::from(low))),
            _ => None,
        };
        written.map(step).collect()
    }
}

/// A path, and what it is followed into: a value over a dictionary that was compared.
pub struct Followed<'a, 'd, R> {
    /// Our side.
    pub reader: &'a R,
    /// The question.
    pub walk: Walk<'a>,
    /// The Rust's dictionary, where it accepts it.
    pub metadata: Option<&'a VariantMetadata<'d>>,
}

impl<'d, R: Reader> Followed<'_, 'd, R> {
    /// Compares all that can be asked of a path.
    pub fn compare(&self, tally: &mut Tally) -> Compared {
        let length = self.walk.path.len();
        let ours = self.in_room(length + 1, WORDS_PER_STEP * length + 4)?;
        self.rooms(tally)?;
        Tally::refuse(&mut tally.paths, ours.strip.code);
        let Some(theirs) = self.read_alike(&ours, tally)? else {
            return Ok(());
        };
        let steps = ours.steps().unwrap_or_default();
        if let Some(metadata) = self.metadata {
            agree(
                "single lookups, one after another",
                ours.strip,
                self.singly(&steps),
            )?;
            self.gets(metadata, ours.strip, &theirs, tally)?;
        }
        Ok(())
    }

    /// Our answer with so much room, which is the one that is due.
    fn in_room(&self, bytes: usize, words: usize) -> Compared<Answer> {
        let Walk {
            dict, value, path, ..
        } = self.walk;
        let ours = Answer::of(bytes, words, |names, words| {
            self.reader.path(dict, value, path, names, words)
        });
        let due = Answer::of(bytes, words, |names, words| self.walk.answer(names, words));
        agree("what stands at a path", ours.strip, due.strip)?;
        agree(
            "the bytes lent for names",
            shown(&ours.names),
            shown(&due.names),
        )?;
        agree("the words lent for steps", &ours.words, &due.words)?;
        Ok(ours)
    }

    /// The same in just as much room as is needed, in less, and in none.
    fn rooms(&self, tally: &mut Tally) -> Compared {
        self.in_room(0, 0)?;
        let Ok(steps) = self.walk.steps() else {
            return Ok(());
        };
        let (bytes, words) = (names_of(&steps).len(), WORDS_PER_STEP * steps.len());
        self.in_room(bytes, words)?;
        if bytes > 0 {
            self.in_room(bytes - 1, words + 2)?;
            tally.paths_without_room += 1;
        }
        if words > 0 {
            self.in_room(bytes + 2, words - 1)?;
            tally.paths_without_room += 1;
        }
        Ok(())
    }

    /// The path's steps are the Rust's, or its refusal is; the Rust's path, where it has one.
    fn read_alike(&self, ours: &Answer, tally: &mut Tally) -> Compared<Option<VariantPath<'_>>> {
        let code = ours.strip.code;
        let Ok(text) = std::str::from_utf8(self.walk.path) else {
            agree("a path that is no text", ours.strip, refused(70, 0))?;
            return Ok(None);
        };
        match VariantPath::try_from(text) {
            Ok(theirs) => {
                let elements: Vec<Step> = theirs.path().iter().map(step_of).collect();
                agree("the steps of a path", ours.steps(), Some(elements))?;
                if (70..80).contains(&code) {
                    return differ("a path's verdict", ours.strip, "accepts");
                }
                tally.paths_read += 1;
                tally.path_steps += theirs.len() as u64;
                Ok(Some(theirs))
            }
            Err(error) if path_number(&error) == Some(code) => Ok(None),
            Err(error) => differ("a path's verdict", ours.strip, error),
        }
    }

    /// What our own lookups answer one after another.
    fn singly(&self, steps: &[Step]) -> Strip {
        let Walk { dict, value, .. } = self.walk;
        let tree = Tree::new(dict, value);
        let (mut last, mut start, mut end) = ((0, 0), 0, value.len());
        for (number, step) in steps.iter().enumerate() {
            let part = &value[start..end];
            let strip = match step {
                Step::Name(name) => self.reader.lookup(dict, part, name.as_bytes()),
                Step::Index(index) => element(&tree, part, *index),
            };
            match strip.code {
                OK => {}
                22 => return refused(53, number as u32),
                _ => return strip,
            }
            last = (strip.number as usize, strip.id as usize);
            (start, end) = (start + strip.start as usize, start + strip.end as usize);
        }
        found(last.0, last.1, start, end)
    }

    /// What the Rust's `get_path` finds, where it accepts the whole tree.
    fn gets(
        &self,
        metadata: &VariantMetadata<'d>,
        ours: Strip,
        path: &VariantPath,
        tally: &mut Tally,
    ) -> Compared {
        let value = self.walk.value;
        let most = ASKED + value.len();
        if value.len() > LIMIT || visits(value, most) == most {
            tally.paths_unasked += 1;
            return Ok(());
        }
        let read = |bytes| Variant::try_new_with_metadata(metadata.clone(), bytes);
        let Ok(whole) = read(value) else {
            tally.paths_unasked += 1;
            return Ok(());
        };
        let Some(theirs) = whole.get_path(path) else {
            tally.paths_to_nothing += 1;
            return match ours.code {
                ABSENT | 53 => Ok(()),
                _ => differ("a path by get_path", ours, "None"),
            };
        };
        let part = value.get(ours.start as usize..ours.end as usize);
        let part = part.filter(|_| ours.code == OK).unwrap_or_default();
        if !read(part).is_ok_and(|part| same_value(&part, &theirs)) {
            return differ("a path by get_path", ours, theirs);
        }
        tally.paths_found += 1;
        match is_container(part) {
            true => Ok(()),
            false => self.leaf(metadata, ours, path, tally),
        }
    }

    /// Where `get_path` reads a leaf, by a copy with an empty short string where we say that it stands.
    /// Of a tree whose parts overlap, the Rust may refuse the copy.
    fn leaf(
        &self,
        metadata: &VariantMetadata<'d>,
        ours: Strip,
        path: &VariantPath,
        tally: &mut Tally,
    ) -> Compared {
        let mut copy = self.walk.value.to_vec();
        copy[ours.start as usize] = EMPTY_SHORT_STRING;
        let Ok(whole) = Variant::try_new_with_metadata(metadata.clone(), &copy) else {
            return Ok(());
        };
        let theirs = whole.get_path(path);
        let start = theirs.and_then(|leaf| traced_start(&leaf, &copy));
        agree(
            "where get_path reads a leaf",
            Some(ours.start as usize),
            start,
        )?;
        tally.paths_traced += 1;
        Ok(())
    }
}

/// A step as the Rust has it.
fn step_of(element: &VariantPathElement) -> Step {
    match element {
        VariantPathElement::Field { name } => Step::Name(name.to_string()),
        VariantPathElement::Index { index } => Step::Index(*index as u64),
    }
}

/// The element of a list as a lookup would answer it: 20, 21, 22, the list's own checks, absence.
fn element(tree: &Tree, part: &[u8], index: u64) -> Strip {
    if part.len() > LIMIT {
        return refused(20, 0);
    }
    match part.first().map(|header| header & 3) {
        None => return refused(21, 0),
        Some(3) => {}
        Some(_) => return refused(22, 0),
    }
    let places = match tree.list(part) {
        Ok(places) => places,
        Err((number, place)) => return refused(number, place as u32),
    };
    match usize::try_from(index)
        .ok()
        .and_then(|index| places.get(index))
    {
        Some(place) => found(index as usize, 0, place.start, place.end),
        None => absent(),
    }
}
