//! Answers of the Rust's, written down to be asked again where it is not at hand.
//!
//! A line is a case as `variant batch` reads it, then ` => ` and what the Rust says; the format is
//! in rust/README.md. Nothing of our side goes into a line.
//!
//! Of a whole tree the Rust says that it is accepted, and how long it is, or that it is refused; for
//! what, and of the value at which start, the [`reference`](crate::reference) says. Of a path it says for
//! what it refuses it or, into a tree that it accepts, which value it finds, or none; where that stands,
//! and why there is none, the [`walk`](crate::walk) says. Of names to be written it says what its builder
//! writes for them; which of them are no names, the library says. Of pairs to be written it says what its
//! builder writes for the fields, in the order of their names; which pairs are refused, and for what, the
//! plain writer says ([`pairs`](crate::pairs)), where the Rust refuses one of them too. Of a dictionary in
//! pieces it says what it says to the bytes that came, as many as there is room for.

use crate::composing;
use crate::cuts::Cuts;
use crate::cuttings;
use crate::damage::damaged;
use crate::extremes;
use crate::fixed;
use crate::generate::good;
use crate::given::{Given, set_of};
use crate::lengths::{FEW, Values};
use crate::original::{
    Reasons, dictionary_number, layer_number, path_number, place_in, same_value, told, traced,
    traced_start,
};
use crate::ours::{accepted, refused_at};
use crate::pairs::{Field, Pairs};
use crate::random::Random;
use crate::reading::{ObjectParts, own_length};
use crate::reference::{Tree, names_of};
use crate::tree::visits;
use crate::values::said_by;
use crate::walk::Walk;
use crate::writing::built;
use crate::{Input, hex, objects, paths, sets, trees};
use lichenhusk::{ABSENT, LIMIT, MORE, OK, Strip, WORDS_PER_NAME, WORDS_PER_STEP, run_of};
use parquet_variant::{Variant, VariantMetadata, VariantObject, VariantPath};
use std::collections::{BTreeMap, BTreeSet};
use std::fmt;

/// The seed where none is given.
pub const SEED: u64 = 60;

/// How many lines the repository keeps.
pub const KEPT: usize = 4_500;

/// One line in so many is a tree's, one a path's, one of names to be written, one of pairs, and one of
/// pieces.
const SHARE: usize = 15;

/// The longest line that is taken.
const LONGEST: usize = 130;

/// The most bytes in all: the program that replays the lines has room for 352,256.
pub const MOST_BYTES: usize = 352_000;

/// The most names at once: a reader of the lines has room for their rows.
const MOST_NAMES: usize = 3;

/// Inputs that are drawn before each class may have one line more.
const ROUND: usize = 3_000;

/// Lines of each class out of the numbers at the ends of their ranges, and of the trees that are always
/// the same.
const AT_FIRST: usize = 2;

/// What makes an input of a kind, and a damaged copy of it.
type Good = fn(&mut Random) -> Input;
type Damaged = fn(&mut Random, &Input) -> Input;

/// Rounds before giving up.
const ROUNDS: usize = 200;

/// So many lines at most, chosen over all answers and shapes, in order.
pub fn lines(seed: u64, most: usize) -> Vec<String> {
    let mut chosen = Chosen::new(most - 5 * (most / SHARE));
    for input in fixed::inputs() {
        chosen.take(&input, usize::MAX);
    }
    for input in extremes::inputs() {
        chosen.take(&input, AT_FIRST);
    }
    let mut random = Random::seeded(seed);
    for draw in 0..ROUNDS * ROUND {
        if !chosen.has_room() {
            break;
        }
        let whole = good(&mut random);
        let each = 1 + draw / ROUND;
        chosen.take(&damaged(&mut random, &whole), each);
        chosen.take(&whole, each);
    }
    chosen.most += most / SHARE;
    let trees = (trees::good as Good, trees::damaged as Damaged);
    chosen.take_more(&mut random, trees::fixed(), AT_FIRST, trees);
    chosen.most += most / SHARE;
    let paths = (paths::followed as Good, paths::damaged as Damaged);
    chosen.take_more(&mut random, paths::fixed(), 1, paths);
    chosen.most += most / SHARE;
    let names = (sets::good as Good, sets::damaged as Damaged);
    chosen.take_more(&mut random, sets::fixed(), 1, names);
    chosen.most += most / SHARE;
    let pairs = (objects::good as Good, objects::damaged as Damaged);
    chosen.take_more(&mut random, objects::fixed(), 1, pairs);
    chosen.most = most;
    let pieces = (cuttings::good as Good, cuttings::damaged as Damaged);
    chosen.take_more(&mut random, cuttings::fixed(), 1, pieces);
    chosen.lines.into_iter().collect()
}

/// The lines so far, and how many there are of each class.
struct Chosen {
    lines: BTreeSet<String>,
    classes: BTreeMap<String, usize>,
    bytes: usize,
    most: usize,
}

impl Chosen {
    fn new(most: usize) -> Chosen {
        Chosen {
            lines: BTreeSet::new(),
            classes: BTreeMap::new(),
            bytes: 0,
            most,
        }
    }

    fn has_room(&self) -> bool {
        self.lines.len() < self.most && self.bytes + LONGEST < MOST_BYTES
    }

    /// Takes trees, paths, names or pairs to be written, or pieces, in rounds as the others.
    fn take_more(
        &mut self,
        random: &mut Random,
        fixed: impl Iterator<Item = Input>,
        at_first: usize,
        (good, damaged): (Good, Damaged),
    ) {
        for input in fixed {
            self.take(&input, at_first);
        }
        for draw in 0..ROUNDS * ROUND {
            if !self.has_room() {
                break;
            }
            let whole = good(random);
            let each = at_first + 1 + draw / ROUND;
            self.take(&damaged(random, &whole), each);
            self.take(&whole, each);
        }
    }

    /// Takes an input's lines that are not too long, and whose class has fewer than so many.
    fn take(&mut self, input: &Input, each: usize) {
        if input.size() > LONGEST / 2 {
            return;
        }
        for answer in answers(input) {
            let line = answer.line();
            if self.has_room() && line.len() <= LONGEST && !self.lines.contains(&line) {
                self.count(line, answer.class(input), each);
            }
        }
    }

    fn count(&mut self, line: String, class: String, each: usize) {
        let count = self.classes.entry(class).or_default();
        if *count < each {
            *count += 1;
            self.bytes += line.len() + 1;
            self.lines.insert(line);
        }
    }
}

/// What the Rust says to a case.
#[derive(Clone, Debug, PartialEq, Eq)]
enum Says {
    /// A dictionary: entry count and trimmed end.
    Dictionary(usize, usize),
    /// A name: start and end.
    Name(usize, usize),
    /// An object: field count and trimmed end.
    Layer(usize, usize),
    /// The same of an object of which the Rust refuses a child, by what it says to the object with
    /// other children.
    Child(usize, usize),
    /// A field of an object: which, its id, and start and end of its child.
    Found(usize, usize, usize, usize),
    /// Nothing of that name.
    Absent,
    /// Many names of an object: its field count and trimmed end, and what is said to each name.
    Rows(usize, usize, Vec<Says>),
    /// A value: its kind, and its bits' two words or the start and end of its bytes.
    Value(u32, u32, u32),
    /// A tree: the strip that is due, of which the line has the end, or the number and the start.
    Tree(Strip),
    /// A path: the strip that is due, and of its steps how many there are.
    Path(Strip, usize),
    /// Names that are written: how many of them there are, and the dictionary.
    Writes(usize, Vec<u8>),
    /// Fields that are written: how many of them there are, where their children begin, and the object.
    Lays(usize, usize, Vec<u8>),
    /// Pieces of which so many bytes are held, and more are wanted.
    Wants(usize),
    /// Refused, by our number.
    Refused(u32),
}

impl fmt::Display for Says {
    fn fmt(&self, to: &mut fmt::Formatter<'_>) -> fmt::Result {
        match self {
            Says::Dictionary(count, end) | Says::Layer(count, end) => {
                write!(to, "accepts {count} {end}")
            }
            Says::Name(start, end) => write!(to, "at {start} {end}"),
            Says::Child(count, end) => write!(to, "child {count} {end}"),
            Says::Found(field, id, start, end) => write!(to, "found {field} {id} {start} {end}"),
            Says::Absent => write!(to, "absent"),
            Says::Rows(count, end, rows) => {
                write!(to, "rows {count} {end} :")?;
                rows.iter().try_for_each(|row| row.write_row(to))
            }
            Says::Value(kind, low, high) => write!(to, "reads {kind} {low} {high}"),
            Says::Tree(strip) if strip.code == OK => write!(to, "accepts 0 {}", strip.end),
            Says::Tree(strip) => write!(to, "refuses {} {}", strip.code, strip.start),
            Says::Path(strip, _) => match strip.code {
                OK => write!(
                    to,
                    "found {} {} {} {}",
                    strip.number, strip.id, strip.start, strip.end
                ),
                ABSENT => write!(to, "absent"),
                number => write!(to, "refuses {number}"),
            },
            Says::Writes(count, dict) => {
                write!(to, "writes {count} {} :", dict.len())?;
                dict.iter().try_for_each(|byte| write!(to, " {byte}"))
            }
            Says::Lays(count, start, object) => {
                write!(to, "lays {count} {start} {} :", object.len())?;
                object.iter().try_for_each(|byte| write!(to, " {byte}"))
            }
            Says::Wants(held) => write!(to, "wants {held}"),
            Says::Refused(number) => write!(to, "refuses {number}"),
        }
    }
}

impl Says {
    /// How many of many names are found.
    fn found(&self) -> usize {
        match self {
            Says::Rows(_, _, rows) => rows.iter().filter(|row| **row != Says::Absent).count(),
            _ => 0,
        }
    }

    /// The numbers of a name among many.
    fn write_row(&self, to: &mut fmt::Formatter<'_>) -> fmt::Result {
        match self {
            Says::Found(field, id, start, end) => write!(to, " 0 {field} {id} {start} {end}"),
            _ => write!(to, " 1 0 0 0 0"),
        }
    }
}

/// A case and what the Rust says to it.
struct Answer {
    case: String,
    says: Says,
}

impl Answer {
    fn line(&self) -> String {
        format!("{} => {}", self.case, self.says)
    }

    /// What is asked, what is answered, and the shapes by the headers of what was read.
    fn class(&self, input: &Input) -> String {
        if let Says::Path(strip, steps) = self.says {
            return path_class(strip.code, steps, input);
        }
        if let Some(given) = &input.names {
            return names_class(&self.says, given);
        }
        if let Some(pairs) = &input.pairs {
            return pairs_class(&self.says, &input.dict, pairs);
        }
        if let Some(cuts) = &input.pieces {
            return pieces_class(&self.says, &input.dict, cuts);
        }
        let (dict_bits, object_bits) = match (self.kind(), &self.says) {
            ("dictionary", _) => (WIDTH | SORTED, 0),
            ("value", _) => (0, 0),
            ("tree", _) => (SORTED, TREE_SHAPE),
            (_, Says::Refused(10..=19)) => (0, 0),
            ("all", says) if says.found() == 0 => (0, 0),
            ("name", _) => (WIDTH | SORTED, 0),
            _ => (SORTED, OBJECT_SHAPE),
        };
        let header = |bytes: &[u8], kept: u8| bytes.first().map(|byte| byte & kept);
        let dict = header(&input.dict, dict_bits);
        let value = input.tree.as_deref().or(input.object.as_deref());
        let object = header(value.unwrap_or_default(), object_bits);
        format!("{} {} {dict:?} {object:?}", self.kind(), self.answered())
    }

    fn kind(&self) -> &str {
        self.case.split(' ').next().unwrap_or_default()
    }

    /// The last byte of a value, in hex, where it is a number: its sign, and of a float most of its
    /// exponent.
    fn highest_byte(&self) -> Option<&str> {
        let is_number = matches!(self.says, Says::Value(3..=7 | 14, _, _));
        is_number.then(|| &self.case[self.case.len() - 2..])
    }

    /// The case of the answer, with the number if it is a refusal.
    fn answered(&self) -> String {
        let whole = format!("{:?}", self.says);
        match &self.says {
            Says::Refused(_) => whole,
            Says::Rows(_, _, rows) => format!("{} of {}", self.says.found(), rows.len()),
            Says::Value(kind, _, _) => format!("{kind} {:?}", self.highest_byte()),
            Says::Tree(strip) => format!("{} {}", strip.code, strip.start > 0),
            _ => whole.split('(').next().unwrap_or_default().to_string(),
        }
    }
}

/// The class of a path: by what is answered; of one that is read, by how many steps there are and by the
/// value's kind; and by how it is spelled, where that is all that is refused, or nothing.
fn path_class(code: u32, steps: usize, input: &Input) -> String {
    let path = input.path.as_deref().unwrap_or_default();
    let marks: Vec<u8> = PATH_MARKS
        .into_iter()
        .filter(|mark| path.contains(mark))
        .collect();
    let value = input.tree.as_deref().unwrap_or_default();
    let kind = value.first().map(|header| header & BASIC_TYPE);
    match code {
        10..=19 => format!("path {code}"),
        OK | ABSENT => format!("path {code} {} {kind:?} {marks:?}", steps.min(4)),
        70.. => format!("path {code} {marks:?}"),
        _ => format!("path {code} {} {kind:?}", steps.min(4)),
    }
}

/// The class of names to be written: by what is answered, how many are given and how many of these are
/// written, whether they are in order, and whether bytes come after them.
fn names_class(says: &Says, given: &Given) -> String {
    let count = given.ends.len().min(6);
    let goes_on = given.run.len() > given.ends.last().map_or(0, |&end| end as usize);
    match says {
        Says::Writes(written, _) => {
            let texts = given.texts().unwrap_or_default();
            let (sorted, plain) = (texts.is_sorted(), given.run.is_ascii());
            format!("write {count} {written} {sorted} {plain} {goes_on}")
        }
        _ => format!("write {says} {count} {:?} {goes_on}", given.texts().err()),
    }
}

/// The class of pairs to be written: by what is answered, and where it is not the dictionary that is
/// refused by how many there are, whether words are left over, and whether the dictionary says that it is
/// sorted; of those that are written, also by whether they are in order, and whether they share bytes.
fn pairs_class(says: &Says, dict: &[u8], given: &Pairs) -> String {
    let pairs = given.pairs();
    let (count, left_over) = (pairs.len().min(5), given.words.len() % 3);
    let sorted = dict.first().map(|header| header & SORTED);
    let shape = format!("{count} {left_over} {sorted:?}");
    match says {
        Says::Lays(..) => {
            let names = names_of(dict);
            let in_order = pairs.is_sorted_by_key(|[id, ..]| names[*id as usize]);
            let starts: BTreeSet<u32> = pairs.iter().map(|[_, start, _]| *start).collect();
            let shared = starts.len() < pairs.len();
            format!("write-object {shape} {in_order} {shared}")
        }
        Says::Refused(11..20) => format!("write-object {says}"),
        _ => format!("write-object {says} {shape}"),
    }
}

/// The class of pieces: by what is answered, how many there are, whether one has no bytes, whether all have
/// room, and by the width of a dictionary that is accepted or of which more is wanted.
fn pieces_class(says: &Says, dict: &[u8], cuts: &Cuts) -> String {
    let pieces: Vec<&[u8]> = cuts.pieces(dict).collect();
    let count = pieces.len().min(4);
    let empty = pieces.iter().any(|piece| piece.is_empty());
    let received = pieces.concat();
    let is_over = received.len() > cuts.room as usize;
    let width = received.first().map(|header| header & WIDTH);
    let (said, width) = match says {
        Says::Refused(number) => (*number, None),
        Says::Wants(_) => (MORE, width),
        _ => (OK, width),
    };
    format!("pieces {said} {count} {empty} {is_over} {width:?}")
}

/// The width's bits of a dictionary's header.
const WIDTH: u8 = 0xC0;
/// The bit of a dictionary's header that says sorted.
const SORTED: u8 = 0x10;
/// The bits of a value's header for its basic type, and of an object or a list the offsets' width.
const TREE_SHAPE: u8 = 0x0F;
/// What tells one spelling of a path from another.
const PATH_MARKS: [u8; 6] = *b".['\"\\+";
/// The bits of a value's header for its basic type.
const BASIC_TYPE: u8 = 0x03;
/// The bits of an object's header for both widths and the long count.
const OBJECT_SHAPE: u8 = 0x7C;

/// What the Rust and the reference say to a tree; nothing where one of them accepts it and the other
/// does not, or where the Rust cannot be asked.
fn of_tree(dict: &[u8], value: &[u8]) -> Option<Answer> {
    let says = match VariantMetadata::try_new(dict) {
        Err(error) => {
            let code = dictionary_number(dict, &error)?;
            // Where the place is one in the dictionary, the Rust does not tell it.
            (code < 16).then(|| refused_at(code, 0, 0))?
        }
        Ok(metadata) => {
            if visits(value, MOST_VISITS) == MOST_VISITS {
                return None;
            }
            let due = Tree::new(dict, value).verdict();
            let theirs = Variant::try_new_with_metadata(metadata, value);
            let is_same = match theirs {
                Ok(Variant::Object(theirs)) => due == accepted(0, 0, theirs.value.len()),
                Ok(Variant::List(theirs)) => due == accepted(0, 0, theirs.value.len()),
                theirs => (due.code == OK) == theirs.is_ok(),
            };
            is_same.then_some(due)?
        }
    };
    Some(Answer {
        case: format!("tree {} {}", hex(dict), hex(value)),
        says: Says::Tree(says),
    })
}

/// What the Rust and the walk say to a path; nothing where they differ, or where the Rust cannot be
/// asked.
fn of_path(dict: &[u8], value: &[u8], path: &[u8]) -> Option<Answer> {
    let (dictionary, metadata) = match VariantMetadata::try_new(dict) {
        Ok(metadata) => (accepted(metadata.len(), 0, metadata.size()), Some(metadata)),
        Err(error) => {
            let code = dictionary_number(dict, &error)?;
            // The place is not told, and no line has it.
            (refused_at(code, 0, 0), None)
        }
    };
    let walk = Walk {
        dict,
        dictionary,
        value,
        path,
        fault: None,
    };
    let (mut names, mut words) = (vec![0; path.len()], vec![0; WORDS_PER_STEP * path.len()]);
    let due = walk.answer(&mut names, &mut words);
    let theirs = std::str::from_utf8(path).ok().map(VariantPath::try_from);
    let is_same = match (theirs, metadata) {
        (None, _) => due.code == 70,
        (Some(Err(error)), _) => path_number(&error) == Some(due.code),
        (Some(Ok(_)), None) => (10..20).contains(&due.code),
        (Some(Ok(path)), Some(metadata)) => is_got(due, &metadata, value, &path)?,
    };
    is_same.then(|| Answer {
        case: format!("path {} {} {}", hex(dict), hex(value), hex(path)),
        says: Says::Path(due, walk.steps().map_or(0, |steps| steps.len())),
    })
}

/// Whether `get_path` finds the value that stands where an answer says, or none where that is absent or
/// 53; of a tree that the Rust refuses, whether the answer is a refusal too. Nothing where the Rust
/// cannot be asked.
fn is_got(
    due: Strip,
    metadata: &VariantMetadata,
    value: &[u8],
    path: &VariantPath,
) -> Option<bool> {
    if visits(value, MOST_VISITS) == MOST_VISITS {
        return None;
    }
    let read = |bytes| Variant::try_new_with_metadata(metadata.clone(), bytes).ok();
    let Some(whole) = read(value) else {
        return Some(!matches!(due.code, OK | ABSENT | 53));
    };
    let found = whole.get_path(path);
    Some(match (due.code, found) {
        (OK, Some(found)) => {
            let part = read(value.get(due.start as usize..due.end as usize)?);
            part.is_some_and(|part| same_value(&part, &found))
        }
        (ABSENT | 53, None) => true,
        _ => false,
    })
}

/// What is asked of names to be written: in room for their dictionary, with some to spare once in three
/// times by their lengths; and with a byte less once in four. Of no names there is no line, since the
/// Rust writes them otherwise.
fn of_names(given: &Given) -> Vec<Answer> {
    let Given { run, ends } = given;
    let answer = |room: usize, says: Says| {
        let ends: Vec<String> = ends.iter().map(|end| format!(" {end}")).collect();
        let case = format!("write {} {room}{}", hex(run), ends.concat());
        Answer { case, says }
    };
    let size = run.len() + ends.len();
    let Ok(texts) = given.texts() else {
        return vec![answer(size % 20, Says::Refused(45))];
    };
    if texts.is_empty() {
        return vec![];
    }
    let set = set_of(&texts);
    let dict = built(&set);
    let more = if size.is_multiple_of(3) { size % 5 } else { 0 };
    let short = answer(dict.len() - 1, Says::Refused(46));
    let short = size.is_multiple_of(4).then_some(short);
    let written = answer(dict.len() + more, Says::Writes(set.len(), dict));
    [written].into_iter().chain(short).collect()
}

/// What is asked of pairs to be written: in room for their object, with some to spare once in three times
/// by their lengths; and with a byte less once in four. Nothing where the Rust's builder is not to be
/// asked for the object, or where it refuses no pair of those that are refused.
fn of_pairs(dict: &[u8], pairs: &Pairs) -> Vec<Answer> {
    let answer = |room: usize, says: Says| {
        let words: Vec<String> = pairs.words.iter().map(|word| format!(" {word}")).collect();
        let (dict, bytes) = (hex(dict), hex(&pairs.bytes));
        let case = format!("write-object {dict} {bytes} {room}{}", words.concat());
        Answer { case, says }
    };
    let size = dict.len() + pairs.bytes.len() + pairs.words.len();
    let metadata = match VariantMetadata::try_new(dict) {
        Ok(metadata) => metadata,
        Err(error) => return vec![answer(size % 20, refused(dictionary_number(dict, &error)))],
    };
    let names = names_of(dict);
    let fields = match pairs.fields(&names) {
        Ok(fields) => fields,
        Err((number, place)) => {
            let is_refused = is_refused(&metadata, pairs, number, place);
            let refused = is_refused.then(|| answer(size % 20, Says::Refused(number)));
            return refused.into_iter().collect();
        }
    };
    let Some(object) = object_built(&metadata, &fields) else {
        return vec![];
    };
    let more = if size.is_multiple_of(3) { size % 5 } else { 0 };
    let short = answer(object.len() - 1, Says::Refused(46));
    let short = size.is_multiple_of(4).then_some(short);
    let children: usize = fields.iter().map(|field| field.child.len()).sum();
    let start = object.len() - children;
    let written = answer(object.len() + more, Says::Lays(fields.len(), start, object));
    [written].into_iter().chain(short).collect()
}

/// Whether the Rust, or its library, refuses a pair for what a number says.
fn is_refused(metadata: &VariantMetadata, pairs: &Pairs, number: u32, place: usize) -> bool {
    let pair @ [id, ..] = pairs.pairs()[place];
    let name = metadata.get(id as usize);
    match number {
        25 => name.is_err(),
        26 => {
            let before = &pairs.pairs()[..place];
            let mut names = before.iter().map(|[id, ..]| metadata.get(*id as usize));
            names.any(|other| matches!((other, &name), (Ok(other), Ok(name)) if other == *name))
        }
        45 => pairs.child(pair).is_none(),
        _ => {
            let child = pairs.child(pair).unwrap_or_default();
            Variant::try_new_with_metadata(metadata.clone(), child).is_err()
        }
    }
}

/// What the Rust's builder writes for fields; nothing where a child is no value or goes on after one, or
/// an id is not the one that it finds.
fn object_built(metadata: &VariantMetadata, fields: &[Field]) -> Option<Vec<u8>> {
    let named = fields.iter().map(|field| {
        let name = metadata.get(field.id).ok()?;
        let (id, _) = metadata.get_entry(name)?;
        let is_whole = own_length(field.child) == Ok(field.child.len());
        let child = Variant::try_new_with_metadata(metadata.clone(), field.child).ok()?;
        (id as usize == field.id && is_whole).then_some((name, child))
    });
    let named: Vec<_> = named.collect::<Option<_>>()?;
    Some(composing::built(metadata, named))
}

/// The most pieces of a line, and the most bytes of the dictionary: so there is room for all lines.
const MOST_PIECES: usize = 12;
const MOST_CUT: usize = 24;

/// What the Rust says to the bytes that came in pieces, as many as there is room for. Of no pieces there is
/// no line.
fn of_pieces(dict: &[u8], cuts: &Cuts) -> Vec<Answer> {
    let pieces: Vec<&[u8]> = cuts.pieces(dict).collect();
    if !(1..=MOST_PIECES).contains(&pieces.len()) || dict.len() > MOST_CUT {
        return vec![];
    }
    let (received, room) = (pieces.concat(), cuts.room as usize);
    let first = &received[..received.len().min(room)];
    let says = match dictionary(first) {
        Says::Refused(11 | 13) if received.len() > room => Says::Refused(44),
        Says::Refused(11 | 13) => Says::Wants(first.len()),
        says => says,
    };
    let pieces: Vec<String> = pieces
        .iter()
        .map(|piece| format!(" {}", hex(piece)))
        .collect();
    let case = format!("pieces {room}{}", pieces.concat());
    vec![Answer { case, says }]
}

/// The Rust is asked about trees in which fewer values are met.
const MOST_VISITS: usize = 10_000;

/// All that is asked of an input, as far as it is in the domain.
fn answers(input: &Input) -> Vec<Answer> {
    if let Some(given) = &input.names {
        return of_names(given);
    }
    let dict = &input.dict;
    if let Some(pairs) = &input.pairs {
        return of_pairs(dict, pairs);
    }
    if let Some(cuts) = &input.pieces {
        return of_pieces(dict, cuts);
    }
    if let Some(value) = &input.tree {
        let answer = match &input.path {
            Some(path) => of_path(dict, value, path),
            None => of_tree(dict, value),
        };
        return answer.into_iter().collect();
    }
    let mut all = Vec::new();
    if dict.len() > LIMIT {
        return all;
    }
    all.push(Answer {
        case: format!("dictionary {}", hex(dict)),
        says: dictionary(dict),
    });
    let count = VariantMetadata::try_new(dict).map_or(0, |metadata| metadata.len());
    for entry in [0, count / 2, count.saturating_sub(1), count] {
        all.push(Answer {
            case: format!("name {} {entry}", hex(dict)),
            says: name(dict, entry),
        });
    }
    let Some(object) = &input.object else {
        return all;
    };
    if object.len() > LIMIT || object.first().is_some_and(|header| header & 3 != 2) {
        return all;
    }
    all.extend(of_object(dict, object, input.query.as_deref()));
    all.extend(of_children(dict, object));
    all
}

/// What is asked of the first child and of the last, up to where the children end: how each is read.
fn of_children(dict: &[u8], object: &[u8]) -> Vec<Answer> {
    let parts = ObjectParts::of(object);
    let starts = parts.and_then(|parts| parts.starts(object));
    let (Ok(metadata), Some(starts)) = (VariantMetadata::try_new(dict), starts) else {
        return vec![];
    };
    let values = Values {
        metadata: &metadata,
        few: FEW,
    };
    let answer = |&start: &usize| {
        let bytes = object.get(start..)?;
        let case = format!("value {}", hex(bytes));
        let says = match said_by(values, bytes)? {
            Strip {
                code: OK,
                number,
                start,
                end,
                ..
            } => Says::Value(number, start, end),
            refusal => Says::Refused(refusal.code),
        };
        Some(Answer { case, says })
    };
    let ends = [starts.first(), starts.last()];
    ends.into_iter().flatten().filter_map(answer).collect()
}

/// What is asked of an object.
fn of_object(dict: &[u8], object: &[u8], query: Option<&[u8]>) -> Vec<Answer> {
    let mut all = Vec::new();
    let says = layer(dict, object);
    if let Says::Refused(_) = says {
        let case = names_case(dict, object, &[query.unwrap_or_default()], 1, 0);
        let says = says.clone();
        all.push(Answer { case, says });
    }
    let case = format!("layer {} {}", hex(dict), hex(object));
    all.push(Answer { case, says });
    if let Some(open) = Open::of(dict, object, query) {
        all.extend(open.lookups());
        all.extend(open.many());
    }
    all
}

/// The case of the first so many names, in room for their rows and so many words more.
fn names_case(
    dict: &[u8],
    object: &[u8],
    names: &[impl AsRef<[u8]>],
    asked: usize,
    more: usize,
) -> String {
    let (run, ends) = run_of(names).expect("names of few bytes");
    let (dict, object, run) = (hex(dict), hex(object), hex(&run));
    let room = WORDS_PER_NAME * asked + more;
    let ends: Vec<String> = ends[..asked].iter().map(|end| format!(" {end}")).collect();
    format!("all {dict} {object} {run} {room}{}", ends.concat())
}

/// A refusal by the number that the Rust's words tell: there is one for each of its reasons.
fn refused(number: Option<u32>) -> Says {
    Says::Refused(number.expect("words that tell a reason"))
}

fn dictionary(dict: &[u8]) -> Says {
    match VariantMetadata::try_new(dict) {
        Ok(metadata) => Says::Dictionary(metadata.len(), metadata.size()),
        Err(error) => refused(dictionary_number(dict, &error)),
    }
}

fn name(dict: &[u8], entry: usize) -> Says {
    let metadata = match VariantMetadata::try_new(dict) {
        Ok(metadata) => metadata,
        Err(error) => return refused(dictionary_number(dict, &error)),
    };
    match metadata.get(entry) {
        Ok(name) => {
            let start = place_in(name.as_bytes(), dict);
            Says::Name(start, start + name.len())
        }
        Err(_) => Says::Refused(31),
    }
}

/// What the Rust says to an object. If it is for a child's bytes, it takes a [`traced`] copy; if
/// something is cut, there is none, and that is what it refuses.
fn layer(dict: &[u8], object: &[u8]) -> Says {
    let metadata = match VariantMetadata::try_new(dict) {
        Ok(metadata) => metadata,
        Err(error) => return refused(dictionary_number(dict, &error)),
    };
    let error = match VariantObject::try_new(metadata.clone(), object) {
        Ok(theirs) => return Says::Layer(theirs.len(), theirs.value.len()),
        Err(error) => error,
    };
    let Some(copy) = traced(object) else {
        return refused(told(CUT_REASONS, &error));
    };
    match VariantObject::try_new(metadata, &copy) {
        Ok(theirs) => Says::Child(theirs.len(), theirs.value.len()),
        Err(error) => refused(layer_number(&error)),
    }
}

/// The reasons to refuse an object that is cut.
const CUT_REASONS: &Reasons = &[("empty", 21), ("extract", 23), ("overflow", 24)];

/// An object that the Rust accepts, to look for names in.
struct Open<'a> {
    dict: &'a [u8],
    object: &'a [u8],
    theirs: VariantObject<'a, 'a>,
    /// The object with other children, which tell where the Rust reads.
    copy: Vec<u8>,
    /// No name, the query, all fields' names, and names near these.
    names: Vec<String>,
}

impl<'a> Open<'a> {
    fn of(dict: &'a [u8], object: &'a [u8], query: Option<&[u8]>) -> Option<Open<'a>> {
        let metadata = VariantMetadata::try_new(dict).ok()?;
        let theirs = VariantObject::try_new(metadata, object).ok()?;
        let mut names = vec![String::new()];
        names.extend(query.and_then(|query| String::from_utf8(query.to_vec()).ok()));
        for field in (0..theirs.len()).filter_map(|field| theirs.field_name(field)) {
            names.push(field.to_string());
            names.push(format!("{field}a"));
        }
        Some(Open {
            dict,
            object,
            theirs,
            copy: traced(object)?,
            names,
        })
    }

    fn lookups(&self) -> Vec<Answer> {
        let (dict, object) = (hex(self.dict), hex(self.object));
        let answer = |name: &String| {
            let case = format!("lookup {dict} {object} {}", hex(name.as_bytes()));
            let says = self.lookup(name)?;
            Some(Answer { case, says })
        };
        self.names.iter().filter_map(answer).collect()
    }

    /// Up to three names at once, and none. How many, which, whether the run goes on after them and
    /// whether there is a word to spare, depends on the lengths, so that all of it comes.
    fn many(&self) -> Vec<Answer> {
        let size = self.dict.len() + self.object.len();
        let (asked, goes_on, more) = (1 + size % MOST_NAMES, size / 3 % 2 == 1, size / 6 % 2);
        let around = self.names.iter().cycle().skip(size % self.names.len());
        let mut names: Vec<&str> = around.take(asked).map(String::as_str).collect();
        if goes_on {
            names.push("~");
        }
        let answer = |asked: usize| {
            let case = names_case(self.dict, self.object, &names, asked, more);
            let rows = names[..asked].iter().map(|name| self.lookup(name));
            let (count, end) = (self.theirs.len(), self.theirs.value.len());
            let says = Says::Rows(count, end, rows.collect::<Option<_>>()?);
            Some(Answer { case, says })
        };
        [asked, 0].into_iter().filter_map(answer).collect()
    }

    /// What the Rust says to a name; nothing where the id cannot be told.
    fn lookup(&self, name: &str) -> Option<Says> {
        let theirs = &self.theirs;
        if theirs.get(name).is_none() {
            return Some(Says::Absent);
        }
        let field = (0..theirs.len()).find(|&field| theirs.field_name(field) == Some(name))?;
        let id = entry_of(&theirs.metadata, theirs.field_name(field)?)?;
        let alone = VariantObject::try_new(theirs.metadata.clone(), &self.copy).ok()?;
        let start = traced_start(&alone.get(name)?, &self.copy)?;
        Some(Says::Found(field, id, start, theirs.value.len()))
    }
}

/// The entry that stands where a field's name was read; nothing where two do, as names of no bytes
/// may.
fn entry_of(metadata: &VariantMetadata, name: &str) -> Option<usize> {
    let is_it = |&entry: &usize| {
        metadata
            .get(entry)
            .is_ok_and(|other| std::ptr::eq(other, name))
    };
    let mut entries = (0..metadata.len()).filter(is_it);
    let entry = entries.next()?;
    entries.next().is_none().then_some(entry)
}
