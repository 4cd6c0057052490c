//! What a run has seen, counted.

use crate::LARGE;
use crate::lengths::Told;
use crate::otherwise::Otherwise;
use crate::reading::{PAYLOADS, Unmeasured};
use lichenhusk::Strip;
use std::collections::BTreeMap;
use std::fmt;

/// Counts by kind.
#[derive(Clone, Debug, Default)]
pub struct Tally {
    /// Dictionaries that both accept.
    pub dictionaries: u64,
    /// Dictionaries that both refuse, by our number.
    pub dictionaries_refused: BTreeMap<u32, u64>,
    /// Entries whose names agree.
    pub names: u64,
    /// Entry numbers past the count, which both refuse.
    pub no_such_entry: u64,
    /// Objects that both accept.
    pub objects: u64,
    /// Objects that we accept and the Rust refuses for what a child's bytes say.
    pub child_refused: u64,
    /// Objects that both refuse, by our number.
    pub objects_refused: BTreeMap<u32, u64>,
    /// Objects over a dictionary that is refused.
    pub over_refused: u64,
    /// Copies with other children whose verdicts agree.
    pub traced: u64,
    /// Fields whose ids and starts agree.
    pub fields: u64,
    /// Listings that agree, and in which each child's own length does.
    pub listings: u64,
    /// Of these, the ones of objects with bytes that no child has.
    pub listings_apart: u64,
    /// Listings that are refused with 43, by what is wrong with the child.
    pub unlisted: BTreeMap<Unmeasured, u64>,
    /// Children whose own length agrees: primitives by their type.
    pub primitives: [u64; PAYLOADS.len()],
    /// The same of short strings, objects and lists.
    pub others: [u64; 3],
    /// Of these children, the ones that the Rust refuses for what they say.
    pub lengths_of_refused: u64,
    /// And the ones whose length the Rust cannot tell.
    pub lengths_untold: u64,
    /// Values whose readings agree, by their kind.
    pub values: BTreeMap<u32, u64>,
    /// Of these, the floats that are not a number.
    pub not_numbers: u64,
    /// And the ones that the Rust refuses for what they say.
    pub values_of_refused: u64,
    /// Values that both refuse, by our number.
    pub values_refused: BTreeMap<u32, u64>,
    /// Trees whose verdicts are the reference's, by our number.
    pub trees: BTreeMap<u32, u64>,
    /// Of these, the ones that both accept.
    pub trees_of_both: u64,
    /// The ones that one of both accepts, by what is otherwise.
    pub trees_otherwise: BTreeMap<Otherwise, u64>,
    /// The ones with so many ways through them that the Rust is not asked.
    pub trees_of_many_ways: u64,
    /// Trees over a dictionary that is refused.
    pub trees_over_refused: u64,
    /// Values in trees that both accept, each compared.
    pub tree_values: u64,
    /// Paths whose answers are those of the plain walk, by our number.
    pub paths: BTreeMap<u32, u64>,
    /// Of these, the ones that the Rust reads, in the same steps.
    pub paths_read: u64,
    /// And how many steps they have.
    pub path_steps: u64,
    /// Paths in a byte or a word of room too little, refused with 76.
    pub paths_without_room: u64,
    /// Paths at which `get_path` finds the value that we do.
    pub paths_found: u64,
    /// Of these, the ones to a leaf whose place a copy tells.
    pub paths_traced: u64,
    /// Paths at which it finds nothing, and we say absent or 53.
    pub paths_to_nothing: u64,
    /// Paths that the Rust reads, into values that it does not accept, or is not asked.
    pub paths_unasked: u64,
    /// Names of which a dictionary is written as the Rust's builder does it, by our number.
    pub written: BTreeMap<u32, u64>,
    /// How many names are read back of these dictionaries.
    pub written_names: u64,
    /// The same names in another order, some of them twice, which give the same bytes.
    pub written_again: u64,
    /// Dictionaries in a byte of room too little or in none, refused with 46.
    pub written_without_room: u64,
    /// The same bytes with a word of scratch too little.
    pub written_slowly: u64,
    /// Pairs of which the plain writer writes the same object, by our number.
    pub composed: BTreeMap<u32, u64>,
    /// Of these, the objects that are the builder's bytes.
    pub composed_built: u64,
    /// The ones whose children are values, and which the builder does not write.
    pub composed_unbuilt: u64,
    /// The ones with a child that is no value, which the Rust reads with other children.
    pub composed_of_no_values: u64,
    /// How many fields these objects have.
    pub composed_fields: u64,
    /// The same pairs in another order, or over other bytes, which give the same object.
    pub composed_again: u64,
    /// Objects in a byte of room too little or in none, refused with 46.
    pub composed_without_room: u64,
    /// The same object with a word of scratch too little.
    pub composed_slowly: u64,
    /// Pairs over a dictionary that is refused.
    pub composed_over_refused: u64,
    /// Dictionaries that come in pieces, each answer by the bytes received, by the last one's number.
    pub in_pieces: BTreeMap<u32, u64>,
    /// How many pieces they come in.
    pub pieces: u64,
    /// Of these, the ones of no bytes.
    pub pieces_of_no_bytes: u64,
    /// The ones that come when all is settled.
    pub pieces_after: u64,
    /// The ones of which there is no room for all bytes, and that settle all the same.
    pub pieces_over: u64,
    /// States that were made up.
    pub pieces_made_up: u64,
    /// Lookups that found what `get` yields.
    pub found: u64,
    /// Lookups that are absent where `get` yields nothing.
    pub absent: u64,
    /// Lookups of bytes that are no text, which are absent and cannot be asked of the Rust.
    pub not_text: u64,
    /// The same names asked together, whose rows are the lookups' answers.
    pub together: u64,
    /// Names of which an end falls or passes the run, refused at the first such name (45).
    pub bad_ends: u64,
    /// Dictionaries and objects over the limit (10, 20), which the Rust takes.
    pub over_limit: u64,
    /// Of the dictionaries that both accept, the large ones.
    pub large_dictionaries: u64,
    /// Of the dictionaries that both refuse, the large ones.
    pub large_dictionaries_refused: u64,
    /// Large objects that agree: as they are, or by a copy with other children.
    pub large_objects: u64,
    /// Of the objects that both refuse, the large ones.
    pub large_objects_refused: u64,
    /// Values of another basic type (22), which the Rust's `VariantObject` does not look at.
    pub other_type: u64,
}

impl Tally {
    /// Counts a number of ours.
    pub fn refuse(numbers: &mut BTreeMap<u32, u64>, number: u32) {
        *numbers.entry(number).or_default() += 1;
    }

    /// Counts a child whose own length agrees, by its header byte and what the Rust tells of it.
    pub fn measure(&mut self, header: u8, told: Told) {
        match header & 3 {
            0 => self.primitives[header as usize >> 2] += 1,
            basic_type => self.others[basic_type as usize - 1] += 1,
        }
        self.lengths_of_refused += u64::from(told == Told::Refuses);
        self.lengths_untold += u64::from(told == Told::Nothing);
    }

    /// Counts a value whose reading agrees.
    pub fn read(&mut self, reading: Strip) {
        *self.values.entry(reading.number).or_default() += 1;
        self.not_numbers += u64::from(match reading.number {
            7 => f64::from_bits(reading.bits()).is_nan(),
            14 => f32::from_bits(reading.start).is_nan(),
            _ => false,
        });
    }
}

/// The cases of a reading, in words, and their kinds.
const CASES: [(&str, &[u32]); 13] = [
    ("nulls", &[0]),
    ("truth values", &[1, 2]),
    ("integers of 8 bits", &[3]),
    ("integers of 16 bits", &[4]),
    ("integers of 32 bits", &[5]),
    ("integers of 64 bits", &[6]),
    ("single floats", &[14]),
    ("double floats", &[7]),
    (
        "payloads of other primitives",
        &[8, 9, 10, 11, 12, 13, 17, 18, 19, 20],
    ),
    ("binaries and strings", &[15, 16]),
    ("short strings", &[257]),
    ("objects", &[258]),
    ("lists", &[259]),
];

/// What is wrong with a child, in words.
fn in_words(unmeasured: Unmeasured) -> &'static str {
    match unmeasured {
        Unmeasured::Unknown => "of no known type",
        Unmeasured::Cut => "its header cut",
        Unmeasured::Sum => "past 32 bits",
        Unmeasured::Longer => "past the end",
    }
}

/// A number with commas between thousands.
pub fn grouped(number: u64) -> String {
    let digits = number.to_string();
    let mut text = String::new();
    for (index, digit) in digits.chars().enumerate() {
        if index > 0 && (digits.len() - index).is_multiple_of(3) {
            text.push(',');
        }
        text.push(digit);
    }
    text
}

impl fmt::Display for Tally {
    fn fmt(&self, to: &mut fmt::Formatter<'_>) -> fmt::Result {
        let mut line = |what: &str, count: u64| writeln!(to, "  {what:<52}{:>14}", grouped(count));
        line("dictionaries accepted by both", self.dictionaries)?;
        for (number, count) in &self.dictionaries_refused {
            line(&format!("dictionaries refused by both, {number}"), *count)?;
        }
        line("names by entry number", self.names)?;
        line("entry numbers past the count, 31", self.no_such_entry)?;
        line("objects accepted by both", self.objects)?;
        line(
            "objects accepted, a child refused by the Rust",
            self.child_refused,
        )?;
        for (number, count) in &self.objects_refused {
            line(&format!("objects refused by both, {number}"), *count)?;
        }
        line("objects over a refused dictionary", self.over_refused)?;
        line("objects with other children, the layer alone", self.traced)?;
        line("fields, each found by its name", self.fields)?;
        line("listings, each child's own length", self.listings)?;
        line("  with bytes that no child has", self.listings_apart)?;
        for (&unmeasured, count) in &self.unlisted {
            let what = format!("listings refused, 43: a child {}", in_words(unmeasured));
            line(&what, *count)?;
        }
        line("own lengths of primitives", self.primitives.iter().sum())?;
        let rarest = self.primitives.iter().min().copied();
        line("  of the rarest of the 21 types", rarest.unwrap_or(0))?;
        let [short_strings, objects, lists] = self.others;
        line("own lengths of short strings", short_strings)?;
        line("own lengths of objects", objects)?;
        line("own lengths of lists", lists)?;
        line(
            "own lengths of children that the Rust refuses",
            self.lengths_of_refused,
        )?;
        line("own lengths that the Rust cannot tell", self.lengths_untold)?;
        line("values read", self.values.values().sum())?;
        for (case, kinds) in CASES {
            let count = kinds.iter().filter_map(|kind| self.values.get(kind)).sum();
            line(&format!("  {case}"), count)?;
        }
        line("  of the floats, not a number", self.not_numbers)?;
        line("  of all, refused by the Rust", self.values_of_refused)?;
        for (number, count) in &self.values_refused {
            line(&format!("values refused by both, {number}"), *count)?;
        }
        for (number, count) in &self.trees {
            match number {
                0 => line("trees accepted", *count)?,
                _ => line(&format!("trees refused, {number}"), *count)?,
            }
        }
        line("  accepted by both", self.trees_of_both)?;
        for (otherwise, count) in &self.trees_otherwise {
            line(&format!("  by one: {}", otherwise.label()), *count)?;
        }
        line(
            "  of many ways, the Rust not asked",
            self.trees_of_many_ways,
        )?;
        line("  over a refused dictionary", self.trees_over_refused)?;
        line("values in trees, each compared", self.tree_values)?;
        for (number, count) in &self.paths {
            match number {
                0 => line("paths found", *count)?,
                1 => line("paths absent", *count)?,
                _ => line(&format!("paths refused, {number}"), *count)?,
            }
        }
        line("  read by both, in the same steps", self.paths_read)?;
        line("  their steps", self.path_steps)?;
        line("  found by get_path, the same value", self.paths_found)?;
        line("  of these, leaves whose place is told", self.paths_traced)?;
        line("  nothing by get_path, 1 or 53", self.paths_to_nothing)?;
        line("  into what the Rust does not accept", self.paths_unasked)?;
        line("paths without room, 76", self.paths_without_room)?;
        for (number, count) in &self.written {
            match number {
                0 => line("dictionaries written, the builder's bytes", *count)?,
                _ => line(&format!("dictionaries not written, {number}"), *count)?,
            }
        }
        line("  their names, read back by both", self.written_names)?;
        line("  again in another order, some twice", self.written_again)?;
        line("  again with too little scratch", self.written_slowly)?;
        line("  without room, 46", self.written_without_room)?;
        for (number, count) in &self.composed {
            match number {
                0 => line("objects written, the plain writer's bytes", *count)?,
                _ => line(&format!("objects not written, {number}"), *count)?,
            }
        }
        line("  the builder's bytes", self.composed_built)?;
        line("  not the builder's to write", self.composed_unbuilt)?;
        line(
            "  with a child that is no value",
            self.composed_of_no_values,
        )?;
        line("  their fields, read back by both", self.composed_fields)?;
        line("  again in another order or place", self.composed_again)?;
        line("  again with too little scratch", self.composed_slowly)?;
        line("  without room, 46", self.composed_without_room)?;
        line("  over a refused dictionary", self.composed_over_refused)?;
        for (number, count) in &self.in_pieces {
            match number {
                0 => line("dictionaries in pieces, accepted", *count)?,
                3 => line("dictionaries in pieces, more wanted", *count)?,
                _ => line(&format!("dictionaries in pieces, {number}"), *count)?,
            }
        }
        line("  their pieces, each answered", self.pieces)?;
        line("  of these, of no bytes", self.pieces_of_no_bytes)?;
        line("  when all is settled", self.pieces_after)?;
        line("  past the room, and settled", self.pieces_over)?;
        line("  states that were made up", self.pieces_made_up)?;
        line("lookups found", self.found)?;
        line("lookups absent", self.absent)?;
        line(
            "lookups of no text, absent (not to be asked there)",
            self.not_text,
        )?;
        line("the same names asked together", self.together)?;
        line("names whose ends fall or pass the run, 45", self.bad_ends)?;
        let large = format!("of more than {} bytes: dictionaries", grouped(LARGE as u64));
        line(&format!("{large} accepted"), self.large_dictionaries)?;
        line("  dictionaries refused", self.large_dictionaries_refused)?;
        line("  objects accepted", self.large_objects)?;
        line("  objects refused", self.large_objects_refused)?;
        line(
            "outside the domain: over the limit, 10 and 20",
            self.over_limit,
        )?;
        line(
            "outside the domain: another basic type, 22",
            self.other_type,
        )
    }
}
