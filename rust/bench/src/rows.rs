//! What is measured: dictionaries, objects and the names that are looked for.

use differential::encode::{DictionaryShape, dictionary, least_width, plain_object};
use differential::random::Random;
use std::collections::BTreeSet;

/// One line of the table.
pub struct Row {
    /// What it is.
    pub label: String,
    /// The dictionary.
    pub dict: Vec<u8>,
    /// The object.
    pub object: Vec<u8>,
    /// The names, in the order in which they are asked for, again and again.
    pub names: Vec<String>,
}

/// About so many bytes are read to see that both sides find the same names.
const COMPARED_BYTES: usize = 1 << 28;

/// At least so many names are compared, however many bytes that takes.
const COMPARED_NAMES: usize = 64;

impl Row {
    /// Bytes of the dictionary and of the object.
    pub fn bytes(&self) -> usize {
        self.dict.len() + self.object.len()
    }

    /// How many of the names are compared: all, but few over a large message, which is checked
    /// from the start for each of them.
    pub fn compared(&self) -> usize {
        (COMPARED_BYTES / self.bytes()).clamp(COMPARED_NAMES, self.names.len())
    }
}

/// How names are made.
#[derive(Clone, Copy, Debug)]
pub enum Names {
    /// Twelve letters at random.
    Letters,
    /// Three to ten letters at random.
    Mixed,
    /// Forty bytes in common, then a number.
    Prefixed,
    /// Six characters of two bytes at random.
    TwoByte,
    /// A letter and a character of two bytes, four times.
    InTurn,
    /// Four characters of three bytes at random.
    ThreeByte,
    /// Time stamps of a year's readings, so many minutes apart.
    Stamps(usize),
}

/// Which entries the object has as fields.
#[derive(Clone, Copy, Debug, PartialEq)]
pub enum Fields {
    All,
    Middle,
}

/// Whether the names asked for are there.
#[derive(Clone, Copy, Debug, PartialEq)]
pub enum Asked {
    Present,
    Absent,
}

/// In which order a dictionary has its names.
#[derive(Clone, Copy, Debug, PartialEq)]
pub enum Order {
    Sorted,
    /// In no order.
    Shuffled,
    /// The second half before the first, each in order.
    Halves,
}

impl Order {
    /// What a label says of it.
    pub fn label(self) -> &'static str {
        match self {
            Order::Sorted => "sorted",
            Order::Shuffled => "unsorted",
            Order::Halves => "unsorted, in two halves",
        }
    }
}

/// What a row is but for the order of its dictionary: label, count of names, and the choices above.
pub type Kind = (&'static str, usize, Names, Fields, Asked);

/// Every line of the table.
pub fn rows() -> impl Iterator<Item = Row> {
    use Asked::*;
    use Fields::*;
    use Names::*;
    each_order([
        ("1 field", 1, Letters, All, Present),
        ("16 fields", 16, Letters, All, Present),
        ("255 fields", 255, Letters, All, Present),
        ("255 fields, absent names", 255, Letters, All, Absent),
        ("255 fields, 40-byte prefix", 255, Prefixed, All, Present),
        ("255 fields, 2-byte characters", 255, TwoByte, All, Present),
        ("4,000 names, 1 field", 4000, Letters, Middle, Present),
        (
            "4,000 names, 1 field, 2-byte characters",
            4000,
            TwoByte,
            Middle,
            Present,
        ),
        (
            "4,000 names, 1 field, 1 and 2 bytes in turn",
            4000,
            InTurn,
            Middle,
            Present,
        ),
        (
            "4,000 names, 1 field, 3-byte characters",
            4000,
            ThreeByte,
            Middle,
            Present,
        ),
        (
            "1,200 names, 1 field, 40-byte prefix",
            1200,
            Prefixed,
            Middle,
            Present,
        ),
    ])
}

/// The lines of some labels.
pub fn labelled(labels: &[&str]) -> impl Iterator<Item = Row> {
    let is_taken = |row: &Row| {
        let label = row.label.rsplit_once(", ").map(|(label, _)| label);
        label.is_some_and(|label| labels.contains(&label))
    };
    rows().filter(is_taken)
}

/// Messages with names of several lengths, which are not in the table.
pub fn mixed() -> impl Iterator<Item = Row> {
    let kind = |label, count| (label, count, Names::Mixed, Fields::All, Asked::Present);
    each_order([
        kind("16 fields, 3 to 10 letters", 16),
        kind("255 fields, 3 to 10 letters", 255),
    ])
}

/// Rows of kinds, sorted and unsorted.
fn each_order<const N: usize>(kinds: [Kind; N]) -> impl Iterator<Item = Row> {
    let both = |kind| [Order::Sorted, Order::Shuffled].map(|order| row(kind, order));
    kinds.into_iter().flat_map(both)
}

/// The row of a kind, with the dictionary in an order. Each child is an eight-bit integer.
pub fn row(kind: Kind, order: Order) -> Row {
    row_of(kind, order, |rank| vec![0x0C, rank as u8])
}

/// The same with other children, by the ranks of their names.
pub fn row_of(
    (label, count, names, fields, asked): Kind,
    order: Order,
    child: impl Fn(usize) -> Vec<u8>,
) -> Row {
    let mut random = Random::seeded(count as u64);
    let names = increasing(&mut random, count, names);
    let mut entries: Vec<usize> = (0..count).collect(); // the entry's name, by its rank
    match order {
        Order::Sorted => {}
        Order::Shuffled => random.shuffle(&mut entries),
        Order::Halves => entries.rotate_left(count / 2),
    }
    let chosen = match fields {
        Fields::All => 0..count,
        Fields::Middle => count / 2..count / 2 + 1,
    };
    let ids = &inverse(&entries)[chosen.clone()];
    let children: Vec<Vec<u8>> = chosen.clone().map(child).collect();
    Row {
        label: format!("{label}, {}", order.label()),
        dict: dictionary_of(&names, &entries, order == Order::Sorted),
        object: plain_object(ids, &children),
        names: asked_for(&mut random, &names[chosen], asked),
    }
}

/// The entry of each rank, by the rank of each entry.
fn inverse(entries: &[usize]) -> Vec<usize> {
    let mut ids = vec![0; entries.len()];
    for (entry, &rank) in entries.iter().enumerate() {
        ids[rank] = entry;
    }
    ids
}

fn increasing(random: &mut Random, count: usize, names: Names) -> Vec<String> {
    let mut all = BTreeSet::new();
    while all.len() < count {
        all.insert(match names {
            Names::Letters => (0..12).map(|_| letter(random)).collect(),
            Names::Mixed => (0..random.between(3, 10)).map(|_| letter(random)).collect(),
            Names::Prefixed => format!("{:_<40}{:04}", "station_meter_reading", all.len()),
            Names::TwoByte => (0..6).map(|_| two_byte(random)).collect(),
            Names::InTurn => (0..4).map(|_| in_turn(random)).collect(),
            Names::ThreeByte => (0..4).map(|_| three_byte(random)).collect(),
            Names::Stamps(apart) => stamp(all.len() * apart),
        });
    }
    all.into_iter().collect()
}

/// A letter from a to z.
pub fn letter(random: &mut Random) -> char {
    (b'a' + random.below(26) as u8) as char
}

/// A letter of the Greek or Cyrillic alphabets.
pub fn two_byte(random: &mut Random) -> char {
    char::from_u32(0x391 + random.below(0xC0) as u32).unwrap_or('Ω')
}

/// A letter, and one of the Greek or Cyrillic alphabets.
fn in_turn(random: &mut Random) -> String {
    format!("{}{}", letter(random), two_byte(random))
}

/// One of the signs from 4E00 to 9FFF.
pub fn three_byte(random: &mut Random) -> char {
    char::from_u32(0x4E00 + random.below(0x5200) as u32).unwrap_or('水')
}

/// Days of each month of a year that is no leap year.
const DAYS: [usize; 12] = [31, 28, 31, 30, 31, 30, 31, 31, 30, 31, 30, 31];

/// A minute of the year 2026, as a meter writes it: 2026-01-01T00:15.
fn stamp(minute: usize) -> String {
    let (hour, minute) = (minute / 60, minute % 60);
    let (mut day, hour) = (hour / 24, hour % 24);
    let mut month = 0;
    while DAYS[month] <= day {
        day -= DAYS[month];
        month += 1;
    }
    let (month, day) = (month + 1, day + 1);
    format!("2026-{month:02}-{day:02}T{hour:02}:{minute:02}")
}

fn dictionary_of(names: &[String], entries: &[usize], sorted: bool) -> Vec<u8> {
    let names: Vec<Vec<u8>> = entries
        .iter()
        .map(|&rank| names[rank].clone().into_bytes())
        .collect();
    let total: usize = names.iter().map(Vec::len).sum();
    let shape = DictionaryShape {
        width: least_width(total.max(names.len())),
        sorted,
        spare: false,
    };
    dictionary(&names, shape)
}

/// So many names are asked for in turn, so that no branch predictor learns them by heart.
const TURNS: usize = 4096;

fn asked_for(random: &mut Random, names: &[String], asked: Asked) -> Vec<String> {
    let pick = |name: &String| match asked {
        Asked::Present => name.clone(),
        Asked::Absent => format!("{}~", &name[..name.len() - 1]),
    };
    (0..TURNS)
        .map(|_| pick(&names[random.below(names.len())]))
        .collect()
}
