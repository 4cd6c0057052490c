//! An object that is written: what must agree.
//!
//! Strip and bytes are those of a plain writer after document 02 ([`Due`]), for every input: 25, 26, 45
//! and 28, each at the first such pair, after the dictionary's own refusal; then 20, and 46 in a room
//! that has a byte less. Every refusal leaves the room, and bytes after the object stay. That is asked in
//! rooms of several lengths and with scratch of several lengths and contents; the answer is always the
//! same, and scratch that is too little stays as it was. Then of the same pairs in other orders, over
//! other bytes, with words left over; and of pairs that are refused, of those up to the first bad one, and
//! of those before it.
//!
//! The Rust tells it, too. Where each child is a value by itself, and each id the one that its builder
//! finds for the name, `ObjectBuilder`, handed the fields in the order of their names, writes the same
//! bytes. `VariantObject::try_new` takes every object of ours whose children are values, has the names in
//! our order, and `get` of each reads its child where it was laid. Of the others it takes a copy with
//! other children, and tells from where it reads them. Our own reader accepts each object with the strip
//! that it was written with, and finds each name there, and not one that no field has.

use crate::compare::{Compared, UNWRITTEN, agree, differ};
use crate::original::{same_value, traced, traced_start};
use crate::ours::{Reader, absent, found};
use crate::pairs::{Due, Field, Pair, Pairs};
use crate::reading::own_length;
use crate::reference::names_of;
use crate::tally::Tally;
use crate::{LARGE, shown};
use lichenhusk::{LIMIT, OK, Strip};
use parquet_variant::{
    ObjectBuilder, ParentState, ReadOnlyMetadataBuilder, ValueBuilder, Variant, VariantMetadata,
    VariantObject,
};

/// What a lent byte holds before a call.
const UNWRITTEN_BYTE: u8 = 0xEE;

/// Without scratch, a call on more pairs is not made: its time grows with the square of them.
const SLOW: usize = 1_000;

/// Of more fields than these, so many are asked for by their name.
const NAMES: usize = 12;

/// Over an unsorted dictionary of more names the Rust is not asked for an id: it walks from the first.
const WALKED: usize = 1_000;

/// A field as the Rust's builder takes it.
pub type Named<'n, 'd> = (&'n str, Variant<'n, 'd>);

/// What the Rust's builder writes for fields over a dictionary, handed to it one after another.
pub fn built<'n, 'd: 'n>(
    metadata: &VariantMetadata,
    fields: impl IntoIterator<Item = Named<'n, 'd>>,
) -> Vec<u8> {
    let (mut names, mut value) = (ReadOnlyMetadataBuilder::new(metadata), ValueBuilder::new());
    let state = ParentState::variant(&mut value, &mut names);
    let mut builder = ObjectBuilder::new(state, true);
    for (name, child) in fields {
        builder.insert_bytes(name, child);
    }
    builder.finish();
    value.into_inner()
}

/// How much scratch is lent, and what it holds.
#[derive(Clone, Copy)]
struct Scratch {
    order: usize,
    spare: usize,
    /// The word of a place.
    holds: fn(usize, usize) -> u32,
}

impl Scratch {
    /// So many words each.
    fn of(order: usize, spare: usize) -> Scratch {
        Scratch {
            order,
            spare,
            holds: |_, _| UNWRITTEN,
        }
    }

    fn words(self, count: usize) -> Vec<u32> {
        (0..count).map(|at| (self.holds)(at, count)).collect()
    }
}

/// Our side, and pairs of which it writes an object over a dictionary that was compared.
pub struct Composing<'a, 'd, R> {
    /// Our side.
    pub reader: &'a R,
    /// The dictionary's bytes.
    pub dict: &'d [u8],
    /// Our answer to it.
    pub ours: Strip,
    /// The Rust's, where it accepts it.
    pub metadata: Option<&'a VariantMetadata<'d>>,
    /// The pairs.
    pub pairs: &'a Pairs,
}

impl<'d, R: Reader> Composing<'_, 'd, R> {
    /// Compares all that can be asked of pairs.
    pub fn compare(&self, tally: &mut Tally) -> Compared {
        let Some(metadata) = self.metadata else {
            let due = Due::refused(self.ours);
            tally.composed_over_refused += 1;
            return self.in_any_room(&due);
        };
        let names = names_of(self.dict);
        let due = Due::of(self.pairs, &names);
        Tally::refuse(&mut tally.composed, due.strip.code);
        match due.strip.code {
            OK => self.taken(&due, metadata, tally),
            20 => self.in_any_room(&due),
            _ => self.bad(&due, &names),
        }
    }

    /// The same dictionary and other pairs.
    fn of<'b>(&'b self, pairs: &'b Pairs) -> Composing<'b, 'd, R> {
        Composing { pairs, ..*self }
    }

    /// How many pairs are given.
    fn count(&self) -> usize {
        self.pairs.pairs().len()
    }

    /// Whether there are so many bytes that fewer questions are asked.
    fn is_large(&self) -> bool {
        self.dict.len() + self.pairs.size() > 2 * LARGE
    }

    /// The answer with scratch enough in so much room, which is the one that is due.
    fn in_room(&self, due: &Due, bytes: usize) -> Compared<Vec<u8>> {
        self.with(due, bytes, Scratch::of(self.count(), self.count()))
    }

    /// The answer with some scratch in so much room, which is the one that is due; then the room.
    fn with(&self, due: &Due, bytes: usize, scratch: Scratch) -> Compared<Vec<u8>> {
        let lent = [scratch.words(scratch.order), scratch.words(scratch.spare)];
        let [mut order, mut spare] = lent.clone();
        let mut room = vec![UNWRITTEN_BYTE; bytes];
        let strip = self
            .reader
            .write_object(self.dict, self.pairs, &mut order, &mut spare, &mut room);
        let mut due_room = vec![UNWRITTEN_BYTE; bytes];
        let due = due.in_room(&mut due_room);
        agree("an object that is written", strip, due)?;
        if room != due_room {
            return differ("the room for an object", shown(&room), shown(&due_room));
        }
        if scratch.order.min(scratch.spare) < self.count() {
            let what = "scratch that is too little for pairs";
            agree(what, [order, spare], lent)?;
        }
        Ok(room)
    }

    /// A refusal that is not one of room: in none, in a little, and in much; in a little also without
    /// scratch, and with a word too little of it in either row.
    fn in_any_room(&self, due: &Due) -> Compared {
        let most = match due.strip.code {
            20 => LIMIT + 1,
            _ => 9 + 8 * self.count() + self.pairs.bytes.len(),
        };
        for bytes in [0, 2, most] {
            self.in_room(due, bytes)?;
        }
        let count = self.count();
        if count <= SLOW {
            let less = count.saturating_sub(1);
            for (order, spare) in [(0, 0), (less, count), (count, less)] {
                self.with(due, 2, Scratch::of(order, spare))?;
            }
        }
        Ok(())
    }

    /// Pairs that are written.
    fn taken(&self, due: &Due, metadata: &VariantMetadata<'d>, tally: &mut Tally) -> Compared {
        let room = self.in_room(due, due.bytes.len() + 3)?;
        self.rooms(due, tally)?;
        self.scratches(due, tally)?;
        self.otherwise_given(due, tally)?;
        self.reads_back(&room[..due.bytes.len()], due.strip, metadata, tally)
    }

    /// An object that was written of the pairs, with a strip, is theirs to the Rust and to our own reader.
    pub fn reads_back(
        &self,
        object: &[u8],
        strip: Strip,
        metadata: &VariantMetadata<'d>,
        tally: &mut Tally,
    ) -> Compared {
        let names = &names_of(self.dict);
        let composed = Composed {
            writer: self,
            metadata,
            fields: self.pairs.fields(names).expect("pairs that are taken"),
            names,
            object,
            strip,
        };
        composed.compare(tally)
    }

    /// Just as much room as is needed, a byte less, and none; the first without scratch.
    fn rooms(&self, due: &Due, tally: &mut Tally) -> Compared {
        let length = due.bytes.len();
        for bytes in [0, length - 1, length] {
            self.in_room(due, bytes)?;
        }
        tally.composed_without_room += 2;
        if self.count() <= SLOW {
            self.with(due, length, Scratch::of(0, 0))?;
            self.with(due, length - 1, Scratch::of(0, 0))?;
        }
        Ok(())
    }

    /// Scratch of several lengths and contents.
    fn scratches(&self, due: &Due, tally: &mut Tally) -> Compared {
        if self.is_large() {
            return Ok(());
        }
        let (count, length) = (self.count(), due.bytes.len());
        // Numbers that could be pairs' own, as an order of them would be.
        let numbers = |at, count| (count - 1 - at) as u32;
        let more = Scratch {
            holds: |_, _| 0,
            ..Scratch::of(count + 2, count + 1)
        };
        let enough = Scratch {
            holds: numbers,
            ..Scratch::of(count, count)
        };
        self.with(due, length, more)?;
        self.with(due, length, enough)?;
        if (1..=SLOW).contains(&count) {
            for (order, spare) in [(count - 1, count), (count, count - 1)] {
                let less = Scratch {
                    holds: numbers,
                    ..Scratch::of(order, spare)
                };
                self.with(due, length + 1, less)?;
                tally.composed_slowly += 1;
            }
        }
        Ok(())
    }

    /// The same pairs in other orders, with words left over; and their children at other places in other
    /// bytes, where no pair shares any with another.
    fn otherwise_given(&self, due: &Due, tally: &mut Tally) -> Compared {
        let pairs = self.pairs.pairs();
        let mut middle = pairs.to_vec();
        middle.rotate_left(pairs.len() / 2);
        let backwards: Vec<Pair> = pairs.iter().rev().copied().collect();
        let orders = match self.is_large() {
            true => vec![middle],
            false => vec![middle, backwards],
        };
        for (left_over, order) in (1..).zip(orders) {
            let mut other = Pairs::of(&self.pairs.bytes, &order);
            other.words.extend(&[u32::MAX, 0][..left_over]);
            self.of(&other).in_room(due, due.bytes.len() + 1)?;
            tally.composed_again += 1;
        }
        if !self.is_large() {
            self.of(&self.apart()).in_room(due, due.bytes.len())?;
            tally.composed_again += 1;
        }
        Ok(())
    }

    /// The same children in the order of the pairs, each with a byte before it that is no child's.
    fn apart(&self) -> Pairs {
        let mut apart = Pairs::default();
        for &pair in self.pairs.pairs() {
            apart.bytes.push(0xFF);
            let start = apart.bytes.len() as u32;
            let child = self.pairs.child(pair).unwrap_or_default();
            apart.bytes.extend_from_slice(child);
            apart
                .words
                .extend([pair[0], start, start + child.len() as u32]);
        }
        apart
    }

    /// Pairs of which one is bad: refused there, with scratch and without; so are the pairs up to it, and
    /// of those before it something else is due.
    fn bad(&self, due: &Due, names: &[&[u8]]) -> Compared {
        self.in_any_room(due)?;
        let place = due.strip.place as usize;
        let up_to = |count: usize| Pairs::of(&self.pairs.bytes, &self.pairs.pairs()[..count]);
        let first = up_to(place + 1);
        self.of(&first).in_room(due, 0)?;
        let before = up_to(place);
        let due = Due::of(&before, names);
        self.of(&before).in_room(&due, due.bytes.len() + 1)?;
        Ok(())
    }
}

/// An object that was written.
struct Composed<'a, 'd, R> {
    writer: &'a Composing<'a, 'd, R>,
    metadata: &'a VariantMetadata<'d>,
    /// Its fields, in order, and the names of the dictionary.
    fields: Vec<Field<'a>>,
    names: &'a [&'a [u8]],
    object: &'a [u8],
    /// The strip that it was written with.
    strip: Strip,
}

impl<R: Reader> Composed<'_, '_, R> {
    fn compare(&self, tally: &mut Tally) -> Compared {
        self.read_by_us()?;
        let children = self.fields.iter().map(|field| self.value(field));
        let children: Option<Vec<Variant>> = children.collect();
        match &children {
            Some(children) => {
                self.read_by_the_rust(children)?;
                self.built(children, tally)?;
            }
            None => {
                self.read_with_other_children()?;
                tally.composed_of_no_values += 1;
            }
        }
        tally.composed_fields += self.fields.len() as u64;
        Ok(())
    }

    /// The child of a field as a value of the Rust's, if it takes it.
    fn value<'f>(&'f self, field: &Field<'f>) -> Option<Variant<'f, 'f>> {
        Variant::try_new_with_metadata(self.metadata.clone(), field.child).ok()
    }

    fn name(&self, field: &Field) -> &str {
        std::str::from_utf8(self.names[field.id]).expect("a dictionary's names are texts")
    }

    /// Where each child was laid.
    fn starts(&self) -> impl Iterator<Item = usize> {
        let lengths = self.fields.iter().map(|field| field.child.len());
        let mut at = self.strip.start as usize;
        lengths.map(move |length| {
            at += length;
            at - length
        })
    }

    /// Which fields are asked for by name: all, or of many some, and the last.
    fn asked(&self) -> impl Iterator<Item = usize> {
        let apart = self.fields.len().div_ceil(NAMES).max(1);
        let last = self.fields.len().checked_sub(1);
        (0..self.fields.len()).step_by(apart).chain(last)
    }

    /// Our own layer is the strip that it was written with; each name is found where its child was laid,
    /// and a name that no field has is absent.
    fn read_by_us(&self) -> Compared {
        let (reader, dict) = (self.writer.reader, self.writer.dict);
        let layer = reader.layer(dict, self.object);
        agree("a written object, read by us", layer, self.strip)?;
        let starts: Vec<usize> = self.starts().collect();
        for index in self.asked() {
            let field = &self.fields[index];
            let ours = reader.lookup(dict, self.object, self.names[field.id]);
            let due = found(index, field.id, starts[index], self.object.len());
            agree("a written field, looked for by us", ours, due)?;
            let part = &self.object[starts[index]..];
            agree(
                "that it begins with its child",
                part.starts_with(field.child),
                true,
            )?;
        }
        let is_field = |name: &[u8]| self.fields.iter().any(|field| self.names[field.id] == name);
        let other = [&b""[..], b"a", b"b"].into_iter();
        let other = other.chain(self.names.iter().copied().take(NAMES));
        for name in other.filter(|name| !is_field(name)) {
            let ours = reader.lookup(dict, self.object, name);
            agree("a name that no pair has", ours, absent())?;
        }
        Ok(())
    }

    /// The Rust takes the object, has its names in the same order, and reads each child where it was
    /// laid.
    fn read_by_the_rust(&self, children: &[Variant]) -> Compared {
        let theirs = match VariantObject::try_new(self.metadata.clone(), self.object) {
            Ok(theirs) => theirs,
            Err(error) => return differ("a written object, read back", shown(self.object), error),
        };
        agree("how many fields it has", theirs.len(), children.len())?;
        agree(
            "how many bytes it keeps",
            theirs.value.len(),
            self.object.len(),
        )?;
        let starts: Vec<usize> = self.starts().collect();
        for index in self.asked() {
            let name = self.name(&self.fields[index]);
            agree(
                "a written field's name",
                theirs.field_name(index),
                Some(name),
            )?;
            let laid = &self.object[starts[index]..];
            let due = Variant::try_new_with_metadata(self.metadata.clone(), laid);
            let is_same = match (theirs.get(name), due) {
                (Some(theirs), Ok(due)) => same_value(&theirs, &due),
                _ => false,
            };
            agree("the child of a written field, by get", is_same, true)?;
        }
        Ok(())
    }

    /// The Rust takes the object with other children, and reads them where ours were laid.
    fn read_with_other_children(&self) -> Compared {
        let copy = traced(self.object).expect("an object that has all of its bytes");
        let theirs = match VariantObject::try_new(self.metadata.clone(), &copy) {
            Ok(theirs) => theirs,
            Err(error) => return differ("a written layer, read back", shown(self.object), error),
        };
        agree("how many fields it has", theirs.len(), self.fields.len())?;
        let starts: Vec<usize> = self.starts().collect();
        for index in self.asked() {
            let value = theirs.get(self.name(&self.fields[index]));
            let start = value.and_then(|value| traced_start(&value, &copy));
            agree(
                "where get reads a written field",
                start,
                Some(starts[index]),
            )?;
        }
        Ok(())
    }

    /// The Rust's builder writes the same, where each child is a value and nothing more, and each id is
    /// the one that it finds.
    fn built(&self, children: &[Variant], tally: &mut Tally) -> Compared {
        let is_whole = |field: &Field| own_length(field.child) == Ok(field.child.len());
        if !self.fields.iter().all(is_whole) || !self.has_their_ids() {
            tally.composed_unbuilt += 1;
            return Ok(());
        }
        let names = self.fields.iter().map(|field| self.name(field));
        let theirs = built(self.metadata, names.zip(children.iter().cloned()));
        if theirs != self.object {
            return differ("the builder's bytes", shown(self.object), shown(&theirs));
        }
        tally.composed_built += 1;
        Ok(())
    }

    /// Whether the Rust finds each field's own id for its name: in an unsorted dictionary it takes the
    /// first of a name.
    fn has_their_ids(&self) -> bool {
        if self.metadata.is_sorted() {
            return true;
        }
        self.names.len() <= WALKED
            && self.fields.iter().all(|field| {
                let entry = self.metadata.get_entry(self.name(field));
                entry.is_some_and(|(id, _)| id as usize == field.id)
            })
    }
}
