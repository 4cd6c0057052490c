//! A whole tree: what must agree.
//!
//! Our strip is the [`reference`](crate::reference)'s, number, place and start, whatever marks are
//! lent: none, a few, or enough to be used; and they are 0 afterwards.
//!
//! The Rust's full validation accepts the tree exactly when the reference does within the Rust's own
//! levels and nothing in it is [`otherwise`](crate::otherwise) there; then its words are those of the
//! first such thing. It is asked where the ways through the tree are few: it looks into what is
//! shared once for each way to it, and so may take a time that doubles with each level.
//!
//! Where both accept, both are walked, value by value: the reading of each is the Rust's; an object
//! has the same names, each found by our lookup, and the same children; a list the same elements; and
//! each child is accepted as a tree of its own.

use crate::compare::{Compared, agree, differ};
use crate::original::words;
use crate::otherwise::{self, Otherwise};
use crate::ours::{Reader, accepted, found};
use crate::reading::{Row, own_length};
use crate::reference::{Tree, is_container, rows_of};
use crate::shown;
use crate::tally::Tally;
use crate::values::told_by;
use lichenhusk::{LIMIT, OK, OWN_MARKS, Strip, WORDS_PER_FIELD};
use parquet_variant::{MAX_NESTING_DEPTH, Variant, VariantMetadata};
use std::ops::Range;

/// The Rust is asked, and the reference goes each way, where no more values are met than these and
/// as many as there are bytes.
pub(crate) const ASKED: usize = 20_000;

/// Both are walked where no more values than these are met: each is asked for several times.
const WALKED: usize = 400;

/// Values are met with their bytes: so many are worth one more.
const BYTES_A_VISIT: usize = 256;

/// The offsets of a container whose region is all there, and where its children are: an object's up
/// to its end, a list's up to the next. Those that are out of it, or fall, are left out.
pub fn children(container: &[u8]) -> Option<(Row, Vec<Range<usize>>)> {
    let (ids, offsets) = rows_of(container)?;
    if offsets.end() > container.len() {
        return None;
    }
    let numbers = offsets.numbers(container)?;
    let start = offsets.end();
    let end = start + numbers.last()?;
    if end > container.len() {
        return None;
    }
    let place = |pair: &[usize]| {
        let to = if ids.is_some() { end } else { start + pair[1] };
        let place = start + pair[0]..to;
        (place.start <= place.end && place.end <= end).then_some(place)
    };
    Some((offsets, numbers.windows(2).filter_map(place).collect()))
}

/// How many values are met on all ways through a tree, whether they are good or not, as far as the
/// Rust goes; no more than a number.
pub fn visits(value: &[u8], most: usize) -> usize {
    fn meet(value: &[u8], left: usize, most: usize, met: &mut usize) {
        *met += 1 + value.len() / BYTES_A_VISIT;
        if *met >= most || left == 0 || !is_container(value) {
            return;
        }
        let Some((_, places)) = children(value) else {
            return;
        };
        for place in places {
            if *met >= most {
                return;
            }
            meet(&value[place], left - 1, most, met);
        }
    }
    let mut met = 0;
    meet(value, MAX_NESTING_DEPTH + 1, most, &mut met);
    met.min(most)
}

/// What a lent mark holds before a call.
const HELD: u8 = 33;

/// How many marks are lent besides none: which, the length tells, so that all of them come.
fn lent(value: &[u8]) -> usize {
    match value.len() % 16 {
        0 => OWN_MARKS + 1,
        1 => OWN_MARKS,
        2 => 1,
        _ => value.len(),
    }
}

/// A tree over a dictionary that was compared, which the Rust may accept.
pub struct Whole<'a, 'd, R> {
    /// Our side.
    pub reader: &'a R,
    /// The dictionary's bytes.
    pub dict: &'d [u8],
    /// Our answer to it.
    pub ours: Strip,
    /// The Rust's, where it accepts it.
    pub metadata: Option<&'a VariantMetadata<'d>>,
}

impl<'d, R: Reader> Whole<'_, 'd, R> {
    /// Compares all that can be asked of a tree.
    pub fn of(&self, value: &[u8], tally: &mut Tally) -> Compared {
        let ours = self.answer(value)?;
        let Some(metadata) = self.metadata else {
            agree("a tree over a refused dictionary", ours, self.ours)?;
            tally.trees_over_refused += 1;
            return Ok(());
        };
        let most = ASKED + value.len();
        let met = visits(value, most);
        let tree = || match met < most {
            true => Tree::new(self.dict, value),
            false => Tree::new(self.dict, value).remembering(),
        };
        agree("a tree's verdict", ours, tree().verdict())?;
        Tally::refuse(&mut tally.trees, ours.code);
        if value.len() > LIMIT {
            return self.counted(Otherwise::Length, tally);
        }
        if met == most {
            tally.trees_of_many_ways += 1;
            return Ok(());
        }
        let within = match ours.code {
            52 => tree().verdict_within(MAX_NESTING_DEPTH),
            _ => ours,
        };
        let theirs = Variant::try_new_with_metadata(metadata.clone(), value);
        match (within.code, theirs) {
            (OK, theirs) => match (otherwise::first_in(value), theirs) {
                (None, Ok(theirs)) => self.accepted(value, ours, &theirs, met, tally),
                (Some(otherwise), Err(error)) if words(&error).contains(otherwise.words()) => {
                    self.counted(otherwise, tally)
                }
                (due, theirs) => differ(
                    &format!("a tree in which is otherwise: {due:?}"),
                    ours,
                    theirs.map(|_| "accepts"),
                ),
            },
            (_, Err(_)) => Ok(()),
            (_, Ok(_)) => differ("a tree's verdict by the Rust", ours, "accepts"),
        }
    }

    fn counted(&self, otherwise: Otherwise, tally: &mut Tally) -> Compared {
        *tally.trees_otherwise.entry(otherwise).or_default() += 1;
        Ok(())
    }

    /// Our answer, which no marks change; they are 0 afterwards.
    fn answer(&self, value: &[u8]) -> Compared<Strip> {
        let ours = self.reader.tree(self.dict, value, &mut []);
        let mut marks = vec![HELD; lent(value)];
        let with = self.reader.tree(self.dict, value, &mut marks);
        agree("a tree's verdict with marks", with, ours)?;
        match marks.iter().position(|&mark| mark != 0) {
            None => Ok(ours),
            Some(place) => differ("marks after a check", place, "none but 0"),
        }
    }

    /// A tree that the Rust accepts: as we do, or for its levels alone not.
    fn accepted(
        &self,
        value: &[u8],
        ours: Strip,
        theirs: &Variant<'d, '_>,
        met: usize,
        tally: &mut Tally,
    ) -> Compared {
        if ours.code != OK {
            return self.counted(Otherwise::Levels, tally);
        }
        tally.trees_of_both += 1;
        match met < WALKED {
            true => self.walk(value, theirs, tally),
            false => Ok(()),
        }
    }

    /// A value that both accept, and all that is below it.
    fn walk(&self, value: &[u8], theirs: &Variant<'d, '_>, tally: &mut Tally) -> Compared {
        let own = match own_length(value) {
            Ok(length) => &value[..length],
            Err(why) => return differ("a value in a good tree", why, theirs),
        };
        let ours = self.reader.tree(self.dict, value, &mut []);
        agree(
            "a value of a good tree, alone",
            ours,
            accepted(0, 0, own.len()),
        )?;
        agree(
            "to read a value of a good tree",
            self.reader.value(value),
            told_by(theirs, value)?,
        )?;
        tally.tree_values += 1;
        match theirs {
            Variant::Object(_) => self.walk_object(own, theirs, tally),
            Variant::List(_) => self.walk_list(own, theirs, tally),
            _ => Ok(()),
        }
    }

    fn walk_object(&self, own: &[u8], theirs: &Variant<'d, '_>, tally: &mut Tally) -> Compared {
        let Variant::Object(theirs) = theirs else {
            return Ok(());
        };
        let mut words = vec![0; WORDS_PER_FIELD * theirs.len()];
        let listed = self.reader.list(self.dict, own, &mut words);
        let count = (listed.code, listed.number as usize);
        agree(
            "the fields of an object in a good tree",
            count,
            (OK, theirs.len()),
        )?;
        let (fields, _) = words.as_chunks::<WORDS_PER_FIELD>();
        for (field, words) in fields.iter().enumerate() {
            let [id, start, span] = words.map(|word| word as usize);
            let at = self.reader.name(self.dict, id);
            let name = self.dict.get(at.start as usize..at.end as usize);
            let their_name = theirs.field_name(field).map(str::as_bytes);
            agree("a field's name in a good tree", name, their_name)?;
            let ours = self.reader.lookup(self.dict, own, name.unwrap_or_default());
            let due = found(field, id, start, own.len());
            agree("a field's lookup in a good tree", ours, due)?;
            let child = own.get(start..).and_then(|rest| rest.get(..span));
            match (child, theirs.field(field)) {
                (Some(child), Some(theirs)) => self.walk(child, &theirs, tally)?,
                (ours, theirs) => return differ("a field in a good tree", ours, theirs),
            }
        }
        Ok(())
    }

    fn walk_list(&self, own: &[u8], theirs: &Variant<'d, '_>, tally: &mut Tally) -> Compared {
        let (Variant::List(theirs), Some((_, places))) = (theirs, children(own)) else {
            return differ("a list in a good tree", shown(own), theirs);
        };
        agree("the elements of a list", places.len(), theirs.len())?;
        for (element, place) in places.into_iter().enumerate() {
            match theirs.get(element) {
                Some(theirs) => self.walk(&own[place], &theirs, tally)?,
                None => return differ("an element in a good tree", shown(own), element),
            }
        }
        Ok(())
    }
}
