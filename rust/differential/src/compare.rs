//! What must agree, on document 01's differential domain.
//!
//! Of a dictionary: it is accepted by both or by none; the counts and the trimmed ends are equal;
//! the name of an entry number is the same bytes of the dictionary; and the reason for which the
//! Rust refuses is our number.
//!
//! Of an object over an accepted dictionary: the Rust accepts it exactly when our layer does and
//! the Rust accepts each child that we find; then counts, trimmed ends and names in
//! field order are equal, each field is the value read from our child bytes, and a lookup finds
//! exactly what `get` yields, with an id whose entry is the query, stands where the Rust reads the
//! field's name and, in a sorted dictionary, is the one that `get_entry` finds; so does the row of
//! the same name among all that are looked for. The same is asked of a copy with children that the
//! Rust accepts wherever they have bytes (see [`traced`]), which gives a verdict on the layer alone,
//! and places: the copy is accepted exactly when our layer is, and of the reasons to refuse it the
//! Rust gives the same one first. So no layer of ours that is accepted has a child of no bytes, and
//! 27 and 28 are told apart by the Rust's words; at which field, by [`bad_offsets`].
//!
//! The fields of an accepted layer are what a lookup of all of their names finds, in one call: each
//! in its order, with the field's own id. So every field of every object is compared, whatever the
//! listing says. The listing has the same ids and starts, and each child's own length as the Rust
//! tells it, or is refused with 43 for a child that the Rust refuses: [`listing`](crate::listing) has
//! that. Each child is read as a value, and [`values`](crate::values) has what must agree of that. Of
//! a value as a whole tree, [`tree`](crate::tree) has it, [`path`](crate::path) of a path into one,
//! [`writing`](crate::writing) of a dictionary that is written, [`composing`](crate::composing) of an
//! object that is, and [`feeding`](crate::feeding) of a dictionary that comes in pieces.
//!
//! Of our own answers besides: each function gives the same refusal; an accepted layer's numbers
//! are those of its header; a lookup's id is that of its field; words after a listing, and all words
//! under a refusal, stay. Of many names at once, [`many`](crate::many) says the rest.
//!
//! Of larger inputs fewer entries and fields are asked for one by one, since each such question is a
//! whole check.

use crate::composing::Composing;
use crate::feeding::Feeding;
use crate::lengths::Values;
use crate::listing::Listing;
use crate::many::Many;
use crate::original::{
    dictionary_number, layer_number, may_be_object_number, place_in, same_value, traced,
    traced_start, utf8_error, words,
};
use crate::ours::{Reader, absent, accepted, found, refused};
use crate::path::Followed;
use crate::reading::{DictionaryParts, ObjectParts};
use crate::tally::Tally;
use crate::tree::Whole;
use crate::values::Readings;
use crate::walk::Walk;
use crate::writing::Writing;
use crate::{Input, LARGE, shown};
use lichenhusk::{LIMIT, OK, Strip};
use parquet_variant::{Variant, VariantMetadata, VariantObject};
use std::cmp::Ordering;
use std::fmt::{self, Debug};

/// How many entries, or fields, of an input of so many bytes are asked for by name or number; of
/// more, some. An input without a large part is asked as much as ever.
fn asked(size: usize) -> usize {
    match size {
        _ if size <= 2 * LARGE => 24,
        _ if size <= 16 * LARGE => 4,
        _ => 1,
    }
}

/// What a lent word holds before a call.
pub const UNWRITTEN: u32 = 0xEEEE_EEEE;

/// Two answers that should agree and do not.
#[derive(Clone, Debug, PartialEq, Eq)]
pub struct Disagreement {
    /// What was asked.
    pub asked: String,
    /// What we answer.
    pub ours: String,
    /// What the Rust answers, or what follows from it.
    pub theirs: String,
}

impl fmt::Display for Disagreement {
    fn fmt(&self, to: &mut fmt::Formatter<'_>) -> fmt::Result {
        writeln!(to, "asked:    {}", self.asked)?;
        writeln!(to, "ours:     {}", self.ours)?;
        writeln!(to, "the Rust: {}", self.theirs)
    }
}

/// Nothing, or where two answers differ.
pub type Compared<T = ()> = Result<T, Disagreement>;

/// The difference between two answers.
pub fn differ<T>(asked: &str, ours: impl Debug, theirs: impl Debug) -> Compared<T> {
    Err(Disagreement {
        asked: asked.to_string(),
        ours: brief(ours),
        theirs: brief(theirs),
    })
}

/// The most letters that are said of an answer: a child may have millions of bytes.
const MOST_LETTERS: usize = 1000;

/// An answer in words, as far as that is of use.
fn brief(answer: impl Debug) -> String {
    struct Brief(String);
    impl fmt::Write for Brief {
        fn write_str(&mut self, text: &str) -> fmt::Result {
            let room = MOST_LETTERS.saturating_sub(self.0.len());
            self.0.extend(text.chars().take(room));
            match self.0.len() < MOST_LETTERS {
                true => Ok(()),
                false => Err(fmt::Error),
            }
        }
    }
    let mut brief = Brief(String::new());
    match fmt::write(&mut brief, format_args!("{answer:?}")) {
        Ok(()) => brief.0,
        Err(_) => brief.0 + "...",
    }
}

/// Nothing where two answers are equal.
pub fn agree<T: PartialEq + Debug>(asked: &str, ours: T, theirs: T) -> Compared {
    if ours == theirs {
        Ok(())
    } else {
        differ(asked, ours, theirs)
    }
}

/// A dictionary that was compared, for objects over it.
pub struct Known<'d> {
    dict: &'d [u8],
    /// Our answer to it.
    pub ours: Strip,
    theirs: Option<VariantMetadata<'d>>,
}

/// Compares all that can be asked of an input.
pub fn input(reader: &impl Reader, input: &Input, tally: &mut Tally) -> Compared {
    if let Some(given) = &input.names {
        return Writing { reader, given }.compare(tally);
    }
    let known = dictionary(reader, &input.dict, tally)?;
    match (&input.tree, &input.path) {
        (value, Some(text)) => {
            let value = value.as_deref().unwrap_or_default();
            path(reader, &known, value, text, tally)?;
        }
        (Some(value), None) => tree(reader, &known, value, tally)?,
        (None, None) => {}
    }
    if let Some(pairs) = &input.pairs {
        let composing = Composing {
            reader,
            dict: known.dict,
            ours: known.ours,
            metadata: known.theirs.as_ref(),
            pairs,
        };
        composing.compare(tally)?;
    }
    if let Some(cuts) = &input.pieces {
        let dict = known.dict;
        Feeding { reader, dict, cuts }.compare(tally)?;
    }
    match &input.object {
        Some(bytes) => object(reader, &known, bytes, input.query.as_deref(), tally),
        None => Ok(()),
    }
}

/// Compares what can be asked of a tree over a dictionary.
pub fn tree(reader: &impl Reader, known: &Known, value: &[u8], tally: &mut Tally) -> Compared {
    let whole = Whole {
        reader,
        dict: known.dict,
        ours: known.ours,
        metadata: known.theirs.as_ref(),
    };
    whole.of(value, tally)
}

/// Compares what can be asked of a path into a value over a dictionary.
pub fn path(
    reader: &impl Reader,
    known: &Known,
    value: &[u8],
    text: &[u8],
    tally: &mut Tally,
) -> Compared {
    let walk = Walk {
        dict: known.dict,
        dictionary: known.ours,
        value,
        path: text,
        fault: None,
    };
    let followed = Followed {
        reader,
        walk,
        metadata: known.theirs.as_ref(),
    };
    followed.compare(tally)
}

/// Compares what can be asked of a dictionary.
pub fn dictionary<'d>(
    reader: &impl Reader,
    dict: &'d [u8],
    tally: &mut Tally,
) -> Compared<Known<'d>> {
    let ours = reader.dictionary(dict);
    let theirs = dictionary_verdict(reader, dict, ours, tally)?;
    Ok(Known { dict, ours, theirs })
}

fn dictionary_verdict<'d>(
    reader: &impl Reader,
    dict: &'d [u8],
    ours: Strip,
    tally: &mut Tally,
) -> Compared<Option<VariantMetadata<'d>>> {
    if dict.len() > LIMIT {
        agree("a dictionary over the limit", ours, refused(10, 0))?;
        agree("a name of a refused dictionary", reader.name(dict, 0), ours)?;
        tally.over_limit += 1;
        return Ok(None);
    }
    match VariantMetadata::try_new(dict) {
        Ok(theirs) => {
            let numbers = accepted(theirs.len(), 0, theirs.size());
            agree("an accepted dictionary's numbers", ours, numbers)?;
            names(reader, dict, &theirs, tally)?;
            tally.dictionaries += 1;
            tally.large_dictionaries += is_large(dict);
            Ok(Some(theirs))
        }
        Err(error) => {
            if dictionary_number(dict, &error) != Some(ours.code) {
                return differ("a dictionary's verdict", ours, error);
            }
            agree("a refusal's words", ours, refused(ours.code, ours.place))?;
            dictionary_place(dict, ours, words(&error))?;
            agree("a name of a refused dictionary", reader.name(dict, 0), ours)?;
            Tally::refuse(&mut tally.dictionaries_refused, ours.code);
            tally.large_dictionaries_refused += is_large(dict);
            Ok(None)
        }
    }
}

/// Compares a refusal's place, where the Rust or its library can tell it.
fn dictionary_place(dict: &[u8], ours: Strip, theirs: &str) -> Compared {
    let place = ours.place as usize;
    let parts = || DictionaryParts::of(dict).expect("a count, since it is not short");
    match ours.code {
        10..=15 => agree("the place of a refusal that has none", place, 0),
        16 | 19 => {
            let prefix = utf8_error(dict).map(|error| error.valid_up_to());
            agree("the well-formed prefix", Some(place), prefix)
        }
        17 => {
            let offset = |entry| parts().offsets.number(dict, entry);
            let range = match (offset(place), offset(place + 1)) {
                (Some(start), Some(end)) => format!("range {start}..{end} "),
                _ => "an entry".to_string(),
            };
            if theirs.contains(&range) {
                return Ok(());
            }
            differ("the entry of bad offsets", ours, theirs)
        }
        _ => Ok(()),
    }
}

/// One for a large dictionary or object, to count it.
fn is_large(bytes: &[u8]) -> u64 {
    u64::from(bytes.len() > LARGE)
}

/// Numbers below a count, for an input of so many bytes: all of few, and of many the first, the
/// last and some between.
fn some_of(count: usize, size: usize) -> impl Iterator<Item = usize> {
    let step = count.div_ceil(asked(size)).max(1);
    let last = count.checked_sub(1).filter(|last| last % step != 0);
    (0..count).step_by(step).chain(last)
}

fn names(
    reader: &impl Reader,
    dict: &[u8],
    theirs: &VariantMetadata,
    tally: &mut Tally,
) -> Compared {
    for entry in some_of(theirs.len(), dict.len()) {
        let ours = reader.name(dict, entry);
        let Ok(name) = theirs.get(entry) else {
            return differ("an entry's name", ours, "none");
        };
        let start = place_in(name.as_bytes(), dict);
        let numbers = accepted(0, start, start + name.len());
        agree("an entry's name", ours, numbers)?;
        tally.names += 1;
    }
    for entry in [theirs.len(), theirs.len() + 1, usize::MAX] {
        let ours = reader.name(dict, entry);
        if let Ok(name) = theirs.get(entry) {
            return differ("an entry past the count", ours, name);
        }
        agree("an entry past the count", ours, refused(31, 0))?;
        tally.no_such_entry += 1;
    }
    Ok(())
}

/// The fields whose children have no bytes, as they would be refused: 27 past the region, 28 at its
/// end. The first of them is what is due, if ids and names are good.
pub fn bad_offsets(object: &[u8]) -> impl Iterator<Item = Strip> {
    let parts = ObjectParts::of(object);
    let region = parts.and_then(|parts| Some((parts.offsets, parts.region(object)?.len())));
    region.into_iter().flat_map(move |(offsets, length)| {
        let fields = 0..offsets.count - 1;
        fields.filter_map(move |field| {
            let number = match offsets.number(object, field)?.cmp(&length) {
                Ordering::Less => return None,
                Ordering::Equal => 28,
                Ordering::Greater => 27,
            };
            Some(refused(number, field as u32))
        })
    })
}

/// Compares what can be asked of an object over a dictionary.
pub fn object(
    reader: &impl Reader,
    known: &Known,
    bytes: &[u8],
    query: Option<&[u8]>,
    tally: &mut Tally,
) -> Compared {
    let layer = reader.layer(known.dict, bytes);
    let Some(metadata) = &known.theirs else {
        agree("an object over a refused dictionary", layer, known.ours)?;
        tally.over_refused += 1;
        return same_refusal(reader, known.dict, bytes, layer, tally);
    };
    if bytes.len() > LIMIT {
        agree("an object over the limit", layer, refused(20, 0))?;
        tally.over_limit += 1;
        return same_refusal(reader, known.dict, bytes, layer, tally);
    }
    if bytes.first().is_some_and(|header| header & 3 != 2) {
        agree("a value of another type", layer, refused(22, 0))?;
        tally.other_type += 1;
        return same_refusal(reader, known.dict, bytes, layer, tally);
    }
    let pair = Pair {
        reader,
        dict: known.dict,
        metadata,
        bytes,
        layer,
    };
    if layer.code == OK {
        pair.accepted(query, tally)
    } else {
        pair.refused(tally)
    }
}

/// Our lookups and our listing refuse as our layer does, and leave the words.
fn same_refusal(
    reader: &impl Reader,
    dict: &[u8],
    bytes: &[u8],
    layer: Strip,
    tally: &mut Tally,
) -> Compared {
    agree(
        "a lookup's refusal",
        reader.lookup(dict, bytes, b"a"),
        layer,
    )?;
    let mut words = [UNWRITTEN; 4];
    agree(
        "a listing's refusal",
        reader.list(dict, bytes, &mut words),
        layer,
    )?;
    agree("the words under a refusal", words, [UNWRITTEN; 4])?;
    let many = Many {
        reader,
        dict,
        object: bytes,
        layer,
    };
    many.refused(tally)
}

/// An object of the domain over a dictionary that both accept.
struct Pair<'a, 'd, R> {
    reader: &'a R,
    dict: &'d [u8],
    metadata: &'a VariantMetadata<'d>,
    bytes: &'a [u8],
    layer: Strip,
}

impl<'d, R: Reader> Pair<'_, 'd, R> {
    fn theirs<'v>(&self, bytes: &'v [u8]) -> Result<VariantObject<'d, 'v>, String> {
        VariantObject::try_new(self.metadata.clone(), bytes).map_err(|error| error.to_string())
    }

    fn refused(&self, tally: &mut Tally) -> Compared {
        let layer = self.layer;
        agree("a refusal's words", layer, refused(layer.code, layer.place))?;
        let Err(error) = VariantObject::try_new(self.metadata.clone(), self.bytes) else {
            return differ("an object's verdict", layer, "accepts");
        };
        if !may_be_object_number(&error, layer.code) {
            return differ("the reason to refuse an object", layer, error);
        }
        match traced(self.bytes) {
            Some(copy) => self.refused_alone(&copy, tally)?,
            None if layer.code > 24 => return differ("what is cut", layer, error),
            None => agree("the place of a refusal that has none", layer.place, 0)?,
        }
        Tally::refuse(&mut tally.objects_refused, layer.code);
        tally.large_objects_refused += is_large(self.bytes);
        same_refusal(self.reader, self.dict, self.bytes, layer, tally)
    }

    /// The layer alone is refused for the same reason, and the first field whose child has no bytes
    /// is the place.
    fn refused_alone(&self, copy: &[u8], tally: &mut Tally) -> Compared {
        let layer = self.layer;
        let Err(error) = VariantObject::try_new(self.metadata.clone(), copy) else {
            return differ("the layer alone", layer, "accepts");
        };
        if layer_number(&error) != Some(layer.code) {
            return differ("the reason to refuse the layer alone", layer, error);
        }
        if layer.code > 26 {
            let first = bad_offsets(self.bytes).next();
            agree("the first field without bytes", Some(layer), first)?;
        }
        tally.traced += 1;
        Ok(())
    }

    fn accepted(&self, query: Option<&[u8]>, tally: &mut Tally) -> Compared {
        self.numbers()?;
        self.have_bytes()?;
        let fields = self.placed()?;
        self.listing().of(&fields, tally)?;
        self.readings(&fields, tally)?;
        let lookups = self.lookups(&fields, query)?;
        self.whole(&fields, &lookups, tally)?;
        self.alone(&fields, &lookups, tally)?;
        self.ids(&fields, &lookups)?;
        self.many().accepted(&lookups, tally)?;
        tally.fields += fields.len() as u64;
        tally.large_objects += is_large(self.bytes);
        tally.together += lookups.len() as u64;
        lookups.iter().for_each(|lookup| lookup.count(tally));
        Ok(())
    }

    /// Each child is read from its start to the trimmed end, as a lookup hands it back.
    fn readings(&self, fields: &[Placed], tally: &mut Tally) -> Compared {
        let readings = Readings {
            reader: self.reader,
            values: Values::of(self.metadata, self.bytes),
        };
        let end = self.layer.end as usize;
        fields.iter().try_for_each(|field| {
            let child = self.bytes.get(field.start..end).unwrap_or_default();
            readings.of(child, tally)
        })
    }

    fn many(&self) -> Many<'_, R> {
        Many {
            reader: self.reader,
            dict: self.dict,
            object: self.bytes,
            layer: self.layer,
        }
    }

    fn listing(&self) -> Listing<'_, 'd, R> {
        Listing {
            reader: self.reader,
            dict: self.dict,
            metadata: self.metadata,
            object: self.bytes,
            layer: self.layer,
        }
    }

    /// The numbers of an accepted layer are those of its parts.
    fn numbers(&self) -> Compared {
        let parts = ObjectParts::of(self.bytes);
        let region = parts.and_then(|parts| Some((parts, parts.region(self.bytes)?)));
        let Some((parts, region)) = region else {
            return differ("a layer that is cut", self.layer, "no parts");
        };
        let start = parts.offsets.end();
        let numbers = accepted(parts.ids.count, start, start + region.len());
        agree("a layer's numbers", self.layer, numbers)
    }

    /// Each child of an accepted layer has bytes, whether the Rust accepts what they say or not.
    fn have_bytes(&self) -> Compared {
        match bad_offsets(self.bytes).next() {
            None => Ok(()),
            Some(due) => differ("a layer with a child of no bytes", self.layer, due),
        }
    }

    /// Whether an id is that of a field whose name was looked for: its entry is the name, and stands
    /// where the Rust reads the field's; in a sorted dictionary the Rust's own search finds it.
    fn is_id(&self, id: usize, text: &str, field_name: &str) -> bool {
        let metadata = self.metadata;
        let found = |entry: (u32, &str)| entry.0 as usize == id;
        let is_it = |entry: &str| entry == text && std::ptr::eq(entry, field_name);
        metadata.get(id).is_ok_and(is_it)
            && (!metadata.is_sorted() || metadata.get_entry(text).is_some_and(found))
    }

    /// What a lookup of all fields' names finds: each field in its order, with its own id.
    fn placed(&self) -> Compared<Vec<Placed>> {
        let parts = ObjectParts::of(self.bytes).expect("parts, since its numbers are theirs");
        let id = |field: usize| parts.ids.number(self.bytes, field);
        let ids: Vec<usize> = (0..parts.ids.count).filter_map(id).collect();
        let name = |&id: &usize| self.metadata.get(id).map_err(|error| error.to_string());
        let names: Vec<&str> = match ids.iter().map(name).collect() {
            Ok(names) => names,
            Err(error) => return differ("the ids of an accepted layer", self.layer, error),
        };
        let mut placed = Vec::with_capacity(ids.len());
        for ((field, id), row) in ids
            .into_iter()
            .enumerate()
            .zip(self.many().rows_of(&names)?)
        {
            let (start, end) = (row.start as usize, self.layer.end as usize);
            agree(
                "among all fields' names, a field",
                row,
                found(field, id, start, end),
            )?;
            placed.push(Placed { id: row.id, start });
        }
        Ok(placed)
    }

    /// The names that are looked for: the fields', others of the dictionary, and names near these.
    fn queries(&self, fields: &[Placed], query: Option<&[u8]>) -> Vec<Vec<u8>> {
        let size = self.dict.len() + self.bytes.len();
        let name = |entry: usize| self.metadata.get(entry).unwrap_or_default().as_bytes();
        let mut queries: Vec<Vec<u8>> = vec![b"".to_vec(), b"\xFF".to_vec()];
        queries.extend(query.map(<[u8]>::to_vec));
        for field in some_of(fields.len(), size) {
            let name = name(fields[field].id as usize);
            queries.push(name.to_vec());
            queries.push([name, b"\0"].concat());
            queries.push(name[..name.len().saturating_sub(1)].to_vec());
        }
        let entries = some_of(self.metadata.len(), size);
        queries.extend(entries.map(|entry| name(entry).to_vec()));
        queries
    }

    /// Our lookups, of each name alone and of all at once.
    fn lookups(&self, fields: &[Placed], query: Option<&[u8]>) -> Compared<Vec<Lookup>> {
        let queries = self.queries(fields, query);
        let rows = self.many().rows_of(&queries)?;
        let ask = |(query, row): (Vec<u8>, Strip)| Lookup {
            ours: self.reader.lookup(self.dict, self.bytes, &query),
            query,
            row,
        };
        Ok(queries.into_iter().zip(rows).map(ask).collect())
    }

    /// The id that a lookup finds is its field's.
    fn ids(&self, fields: &[Placed], lookups: &[Lookup]) -> Compared {
        for Lookup { query, ours, .. } in lookups.iter().filter(|lookup| lookup.ours.code == OK) {
            let placed = fields.get(ours.number as usize).map(|field| field.id);
            if placed != Some(ours.id) {
                return differ(&format!("the id of {}", shown(query)), ours.id, placed);
            }
        }
        Ok(())
    }

    /// The object as it is: accepted exactly when each child is, and then the same throughout.
    fn whole(&self, fields: &[Placed], lookups: &[Lookup], tally: &mut Tally) -> Compared {
        let end = self.layer.end as usize;
        let children = fields.iter().all(|field| self.value(field.start).is_some());
        let theirs = self.theirs(self.bytes);
        if theirs.is_ok() != children {
            let asked = format!("an object whose children the Rust accepts: {children}");
            return differ(&asked, self.layer, theirs.map(|_| "accepts"));
        }
        let Ok(theirs) = theirs else {
            tally.child_refused += 1;
            return Ok(());
        };
        agree("the trimmed end", end, theirs.value.len())?;
        let is_at = |value: &Variant, start: usize| {
            let ours = self.value(start);
            ours.is_some_and(|ours| same_value(value, &ours))
        };
        self.fields(&theirs, fields, is_at)?;
        self.gets(&theirs, lookups, is_at)?;
        tally.objects += 1;
        Ok(())
    }

    /// The value that the Rust reads from a place of ours to the trimmed end.
    fn value(&self, start: usize) -> Option<Variant<'d, '_>> {
        let child = self.bytes.get(start..self.layer.end as usize)?;
        Variant::try_new_with_metadata(self.metadata.clone(), child).ok()
    }

    /// The layer alone, by a copy with children that tell where they are.
    fn alone(&self, fields: &[Placed], lookups: &[Lookup], tally: &mut Tally) -> Compared {
        let copy = traced(self.bytes).expect("all parts, since its numbers are theirs");
        let theirs = match self.theirs(&copy) {
            Ok(theirs) => theirs,
            Err(error) => return differ("the layer alone", self.layer, error),
        };
        let end = theirs.value.len();
        agree("the trimmed end", self.layer.end as usize, end)?;
        let is_at = |value: &Variant, start: usize| traced_start(value, &copy) == Some(start);
        self.fields(&theirs, fields, is_at)?;
        self.gets(&theirs, lookups, is_at)?;
        tally.traced += 1;
        Ok(())
    }

    /// Names in field order by our ids, and each field's value by its start.
    fn fields(
        &self,
        theirs: &VariantObject<'d, '_>,
        fields: &[Placed],
        is_at: impl Fn(&Variant, usize) -> bool,
    ) -> Compared {
        agree("the field count", fields.len(), theirs.len())?;
        for (index, field) in fields.iter().enumerate() {
            let ours = self.metadata.get(field.id as usize).ok();
            let name = theirs.field_name(index);
            let place = |name: Option<&str>| name.map(|name| place_in(name.as_bytes(), self.dict));
            agree("a field's name", ours, name)?;
            agree("the place of a field's name", place(ours), place(name))?;
            match theirs.field(index) {
                Some(value) if is_at(&value, field.start) => {}
                value => return differ("a field's child", field, value),
            }
        }
        Ok(())
    }

    /// A lookup finds what `get` yields, and nothing exactly where that is nothing; so does the row
    /// of its name among all of them.
    fn gets(
        &self,
        theirs: &VariantObject,
        lookups: &[Lookup],
        is_at: impl Fn(&Variant, usize) -> bool,
    ) -> Compared {
        for Lookup { query, ours, row } in lookups {
            let text = std::str::from_utf8(query).ok();
            let value = text.and_then(|text| Some((text, theirs.get(text)?)));
            for (asked, ours) in [("the field", ours), ("among all names, the field", row)] {
                let agrees = match &value {
                    None => *ours == absent(),
                    Some((text, value)) => {
                        self.is_found(theirs, ours, text) && is_at(value, ours.start as usize)
                    }
                };
                if !agrees {
                    return differ(&format!("{asked} {}", shown(query)), ours, value);
                }
            }
        }
        Ok(())
    }

    /// Whether an answer is that of a field that was found, with its id; from where its child is
    /// read is not asked.
    fn is_found(&self, theirs: &VariantObject, ours: &Strip, text: &str) -> bool {
        let (field, id) = (ours.number as usize, ours.id as usize);
        let (start, end) = (ours.start as usize, self.layer.end as usize);
        let name = theirs.field_name(field);
        *ours == found(field, id, start, end) && name.is_some_and(|name| self.is_id(id, text, name))
    }
}

/// A field by our answers.
#[derive(Clone, Copy, Debug)]
pub struct Placed {
    /// The entry of the dictionary that is its name.
    pub id: u32,
    /// Where its child starts in the object.
    pub start: usize,
}

/// A name, our answer to it alone, and the one to it among others.
pub struct Lookup {
    /// The name.
    pub query: Vec<u8>,
    /// Our answer to it.
    pub ours: Strip,
    /// Its row among the answers to all names.
    row: Strip,
}

impl Lookup {
    /// Counts a lookup that agrees.
    fn count(&self, tally: &mut Tally) {
        match (self.ours.code, std::str::from_utf8(&self.query)) {
            (OK, _) => tally.found += 1,
            (_, Ok(_)) => tally.absent += 1,
            (_, Err(_)) => tally.not_text += 1,
        }
    }
}
