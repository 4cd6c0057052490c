//! The clock: check and lookup together, the found field's id, its value, UTF-8 alone, many names of
//! one message, all of its fields, whole trees, paths, dictionaries and objects that are written, and
//! larger messages, ours and the Rust's, in one process; dictionaries in pieces, against copying them;
//! and, where it is asked for, trees that are made to take long, and dictionaries and objects of very many
//! names, ours alone.
//!
//! `cargo run --profile measured -p bench`; with `-- large`, or another word of `TABLES`, that
//! table alone

mod adversarial;
mod clock;
mod ids;
mod large;
mod listing;
mod many;
mod objects;
mod paths;
mod pieces;
mod rows;
mod sides;
mod texts;
mod trees;
mod values;
mod writing;

use adversarial::Taken;
use clock::SAMPLES;
use large::{FEW_SAMPLES, Line, MANY_BYTES, SIZES};
use std::process::{Command, exit};
use std::{env, fs};

/// The tables, in their order, and the word for each.
const TABLES: [(&str, fn()); 13] = [
    ("lookup", lookups),
    ("ids", ids_too),
    ("values", values_read),
    ("text", texts_alone),
    ("many", many_names),
    ("listing", || listings(&listing::SMALLER)),
    ("listing-large", || listings(&listing::LARGEST)),
    ("trees", whole_trees),
    ("paths", followed_paths),
    ("writing", written_dictionaries),
    ("objects", written_objects),
    ("pieces", dictionaries_in_pieces),
    ("large", large_messages),
];

/// Tables that are printed only where their word is given: they may take minutes.
const ALONE: [(&str, fn()); 3] = [
    ("adversarial", adversarial_trees),
    ("writing-large", large_dictionaries),
    ("objects-large", large_objects),
];

/// What the columns are, to be printed above them.
const LEGEND: &str = "\
Nanoseconds of a call, the median of its samples; the sides take turns within a row.
  ours      lichenhusk::lookup: dictionary check, layer check and lookup, in one call
  Rust      VariantMetadata::try_new, VariantObject::try_new and get
  children  Variant::try_new_with_metadata of each child, which VariantObject::try_new does too
  R-c       the column Rust less the column children: a difference, not a run of its own
  shallow   VariantMetadata::try_new, VariantObject::new and get: no check of ids, of the order of
            names, of offsets or of children, all but the last of which ours does
The ratios are ours to the column before them. Each child is an eight-bit integer.";

/// The same for the second table.
const IDS_LEGEND: &str = "\
The id of the found field, too.
  ours      lichenhusk::lookup, whose answer has it
  twice     lichenhusk::lookup, then lichenhusk::list_into for the field's id
  Rust      VariantMetadata::try_new, VariantObject::try_new and get, then get_entry for the id";

/// The same for the third table.
const VALUES_LEGEND: &str = "\
The value of a name, of sixteen fields.
  ours      lichenhusk::find and value: dictionary check, layer check, lookup and reading
  Rust      VariantMetadata::try_new, VariantObject::try_new and get, which reads the child
  alone     lichenhusk::value of a child that was found before
  R-alone   Variant::try_new_with_metadata of the same, over a dictionary that was checked before
The ratios are ours to the Rust's. Of texts and of objects the Rust checks what they say as well, and
ours does not.";

/// The same for the fourth table.
const TEXT_LEGEND: &str = "\
UTF-8 alone: a dictionary of one name.
  ours      lichenhusk::dictionary: the whole check of that dictionary
  Rust      std::str::from_utf8 of the name's bytes, and nothing else";

/// The same for the fifth table.
const MANY_LEGEND: &str = "\
Many names of one message, all of them there; each turn asks for others.
  ours      lichenhusk::lookup_all_into: dictionary check, layer check and all lookups, in one call;
            the names' run and ends are there before, and the words are lent
  Rust      VariantMetadata::try_new and VariantObject::try_new, then get of each name
  singly    lichenhusk::lookup of each name, which checks dictionary and layer each time
The names have twelve letters where nothing else is said.";

/// The same for the sixth table, and for the seventh, which is that of larger messages.
const LISTING_LEGEND: &str = "\
All fields of one message.
  ours      lichenhusk::list_into: dictionary check, layer check and listing, in one call; the words
            are lent
  Rust      VariantMetadata::try_new and VariantObject::try_new, then iter over all fields
  layer     lichenhusk::layer: what ours checks before it looks into the children
Names have twelve letters, children two bytes.";

/// The same for the table of trees.
const TREES_LEGEND: &str = "\
A value with all that is below it.
  ours      lichenhusk::check_tree: the dictionary and the whole tree, in one call; of more than 65,536
            bytes it allocates the marks
  Rust      Variant::try_new, which validates both in full
  /value    nanoseconds for each value in the tree";

/// The same for the table of paths.
const PATHS_LEGEND: &str = "\
What stands at a path: the path read, and followed into a value.
  ours      lichenhusk::path: path, dictionary and the layers on the way, in one call
  Rust      VariantPath::try_from, Variant::try_new, which validates the whole tree, and get_path
  shallow   VariantPath::try_from, VariantMetadata::try_new, Variant::new_with_metadata and get_path: no
            check of ids, of the order of names, of offsets or of children, all but the last of which
            ours does for each layer on the way
The ratios are ours to the column before them. Each turn asks for another path, out of 256.";

/// The same for the table of dictionaries that are written.
const WRITING_LEGEND: &str = "\
A dictionary of names, written.
  ours      lichenhusk::write_dictionary_into: checked, sorted, each name once, in one call; the names'
            run and ends are there before, and scratch and room are lent
  Rust      the names, as a Vec<&str>, by sort_unstable and dedup, then WritableMetadataBuilder: each
            name handed to it, and finish
  builder   WritableMetadataBuilder alone, on the names sorted before, each once
  whole     lichenhusk::write_dictionary of the same names: run, ends, scratch and room are allocated
  /name     nanoseconds for each name that is given
The ratios are ours, and last the column whole, to the Rust's. Names have twelve letters; each turn
writes others. The set that the builder keeps its names in is a stand-in for indexmap's, with a table
of the library's and its hash function.";

/// The same for the table of very many names.
const WRITING_LARGE_LEGEND: &str = "\
Dictionaries of very many names, lichenhusk::write_dictionary_into alone: milliseconds of a call, the
least of seven, or the one where it takes longer than two seconds; then nanoseconds for each name that
is given. Without scratch the time grows with the names times the different ones among them: where a
call is likely to take more than half a minute it is not made, and the time that the square of the
names tells is printed in brackets. Names have twelve letters.";

/// The same for the table of objects that are written.
const OBJECTS_LEGEND: &str = "\
An object of fields over a dictionary, written; and both of the same names and children.
  ours      lichenhusk::write_object_into: dictionary checked, fields sorted, in one call; bytes and
            pairs are there before, and scratch and room are lent
  Rust      VariantMetadata::try_new, then ObjectBuilder over a ReadOnlyMetadataBuilder: insert_bytes of
            each field, and finish; the names are parts of the dictionary, which it finds without
            comparing them
  writer    lichenhusk::ObjectWriter: names and children handed over, dictionary and object written
  builder   VariantBuilder: new_object, insert of each field, and finish of both
  /field    nanoseconds for each field
The ratios are ours to the Rust's, and the writer to the builder. Where fields come in no order, the
Rust leaves its dictionary unsorted and its children as they came. Each child is an eight-bit integer,
names have twelve letters; each turn writes others. The map that the builder keeps its fields in, and
the set for its names, are stand-ins for indexmap's, with a table of the library's and its hash
function.";

/// The same for the table of very many fields.
const OBJECTS_LARGE_LEGEND: &str = "\
Objects of very many fields, lichenhusk::write_object_into alone: milliseconds of a call, the least of
seven, or the one where it takes longer than two seconds; then nanoseconds for each field. Without
scratch the time grows with the square of the fields: where a call is likely to take more than half a
minute it is not made, and the time that the square tells is printed in brackets. Names have twelve
letters, over a sorted dictionary that has no others; each child is an eight-bit integer.";

/// The same for the table of dictionaries in pieces.
const PIECES_LEGEND: &str = "\
A dictionary in pieces of so many bytes: microseconds for all of them.
  ours      lichenhusk::raw::begin, then lichenhusk::raw::feed of each piece
  Pieces    lichenhusk::Pieces, the host's own type: new, then feed of each piece
  copy      copy_from_slice of each piece, then lichenhusk::dictionary of all bytes
  /piece    nanoseconds for each piece
The ratios are to the column copy. The Rust has no such call. Names have twelve letters.";

/// The same for the table of trees that are made to take long.
const ADVERSARIAL_LEGEND: &str = "\
Trees that are made to take long, lichenhusk::check_tree alone: milliseconds of a call, the least of
three, or the one where it takes longer than two seconds; then nanoseconds for a byte of dictionary
and value together. Where a call is likely to take more than two minutes, it is not made, and the
time that the square of the size tells is printed in brackets.";

/// The same for the last table.
const LARGE_LEGEND: &str = "\
Larger messages: microseconds of a call.
  ours      lichenhusk::lookup, or lichenhusk::lookup_all_into where 64 names are asked for at once
  Rust      VariantMetadata::try_new and VariantObject::try_new, then get of each name
  /B        nanoseconds for a byte of dictionary and object together
  children, R-c and shallow are those of the first table
Names are twelve letters at random, or the time stamps of a year's readings (2026-01-01T00:15), of
which neighbours have most bytes in common. An unsorted dictionary has its names in no order, or the
second half before the first; an object's fields are always in the order of their names. Numbers
take two bytes each in the smallest messages and three in the others, but for the ids of 35,040
fields, which take two.";

/// The same for what follows it.
const GROWTH_LEGEND: &str = "\
Growth: nanoseconds a byte in a message of about 64 KiB, and a byte's time in the larger ones as a
multiple of that. Where growth is linear it is 1.";

fn main() {
    let tables = tables(env::args().nth(1).as_deref());
    if tables.is_empty() {
        let words = TABLES.map(|(word, _)| word).join(", ");
        let alone = ALONE.map(|(word, _)| word).join(", ");
        eprintln!("the tables are {words}, and {alone}");
        exit(2);
    }
    println!("{}", machine());
    println!(
        "recipe: cargo run --profile measured -p bench; {SAMPLES} samples of each side, \
         {FEW_SAMPLES} above {} MiB",
        MANY_BYTES >> 20
    );
    for table in tables {
        println!();
        table();
    }
    println!("\nload after: {}", load());
}

/// The table of a word, or all of them.
fn tables(asked: Option<&str>) -> Vec<fn()> {
    let others = asked.map(|_| ALONE).into_iter().flatten();
    TABLES
        .into_iter()
        .chain(others)
        .filter(|&(word, _)| asked.is_none_or(|asked| asked == word))
        .map(|(_, table)| table)
        .collect()
}

/// The table of trees.
fn whole_trees() {
    println!("{TREES_LEGEND}\n");
    println!(
        "{:<46}{:>7}{:>9}{:>9}{:>14}{:>14}{:>7}{:>9}{:>9}",
        "row", "dict", "bytes", "values", "ours", "Rust", "ratio", "/value", "/value"
    );
    for row in trees::rows() {
        let [ours, theirs] = trees::measured(&row);
        let a_value = |nanos: f64| nanos / row.values as f64;
        println!(
            "{:<46}{:>7}{:>9}{:>9}{ours:>14.1}{theirs:>14.1}{:>7.2}{:>9.2}{:>9.2}",
            row.label,
            row.dict.len(),
            row.value.len(),
            row.values,
            ours / theirs,
            a_value(ours),
            a_value(theirs),
        );
    }
}

/// The table of paths.
fn followed_paths() {
    println!("{PATHS_LEGEND}\n");
    println!(
        "{:<46}{:>7}{:>9}{:>11}{:>14}{:>7}{:>11}{:>7}",
        "row", "dict", "bytes", "ours", "Rust", "ratio", "shallow", "ratio"
    );
    for row in paths::rows() {
        let [ours, whole, shallow] = paths::measured(&row);
        println!(
            "{:<46}{:>7}{:>9}{ours:>11.1}{whole:>14.1}{:>7.3}{shallow:>11.1}{:>7.2}",
            row.label,
            row.dict.len(),
            row.value.len(),
            ours / whole,
            ours / shallow,
        );
    }
}

/// The table of dictionaries that are written.
fn written_dictionaries() {
    println!("{WRITING_LEGEND}\n");
    println!(
        "{:<42}{:>7}{:>8}{:>12}{:>12}{:>7}{:>12}{:>7}{:>12}{:>7}{:>8}{:>8}",
        "row",
        "given",
        "bytes",
        "ours",
        "Rust",
        "ratio",
        "builder",
        "ratio",
        "whole",
        "ratio",
        "/name",
        "R/name"
    );
    for row in writing::rows() {
        let [ours, theirs, builder, whole] = writing::measured(&row);
        let a_name = |nanos: f64| nanos / row.given as f64;
        println!(
            "{:<42}{:>7}{:>8}{ours:>12.1}{theirs:>12.1}{:>7.2}{builder:>12.1}{:>7.2}{whole:>12.1}{:>7.2}{:>8.1}{:>8.1}",
            row.label,
            row.given,
            row.bytes,
            ours / theirs,
            ours / builder,
            whole / theirs,
            a_name(ours),
            a_name(theirs),
        );
    }
}

/// The table of objects that are written.
fn written_objects() {
    println!("{OBJECTS_LEGEND}\n");
    println!(
        "{:<28}{:>8}{:>8}{:>12}{:>12}{:>7}{:>12}{:>12}{:>7}{:>9}{:>9}",
        "row",
        "dict",
        "object",
        "ours",
        "Rust",
        "ratio",
        "writer",
        "builder",
        "ratio",
        "/field",
        "R/field"
    );
    for row in objects::rows() {
        let [ours, theirs, writer, builder] = objects::measured(&row);
        let a_field = |nanos: f64| nanos / row.fields as f64;
        let [dict, object] = row.bytes;
        println!(
            "{:<28}{dict:>8}{object:>8}{ours:>12.1}{theirs:>12.1}{:>7.2}{writer:>12.1}{builder:>12.1}{:>7.2}{:>9.1}{:>9.1}",
            row.label,
            ours / theirs,
            writer / builder,
            a_field(ours),
            a_field(theirs),
        );
    }
}

/// The table of dictionaries in pieces.
fn dictionaries_in_pieces() {
    println!("{PIECES_LEGEND}\n");
    println!(
        "{:<30}{:>10}{:>8}{:>12}{:>12}{:>12}{:>7}{:>7}{:>10}{:>10}",
        "row", "dict", "piece", "ours", "Pieces", "copy", "ratio", "ratio", "/piece", "c/piece"
    );
    for row in pieces::rows() {
        let [ours, wrapped, copied] = pieces::measured(&row).map(|nanos| nanos / 1000.0);
        let a_piece = |micros: f64| micros * 1000.0 / row.count() as f64;
        println!(
            "{:<30}{:>10}{:>8}{ours:>12.1}{wrapped:>12.1}{copied:>12.1}{:>7.2}{:>7.2}{:>10.1}{:>10.1}",
            row.label,
            row.dict.len(),
            row.piece,
            ours / copied,
            wrapped / copied,
            a_piece(ours),
            a_piece(copied),
        );
    }
}

/// The table of dictionaries of very many names.
fn large_dictionaries() {
    println!("{WRITING_LARGE_LEGEND}\n");
    println!(
        "{:<42}{:>10}{:>14}{:>10}",
        "names", "given", "ms", "ns/name"
    );
    writing::larger(print_written);
}

/// The table of objects of very many fields.
fn large_objects() {
    println!("{OBJECTS_LARGE_LEGEND}\n");
    println!(
        "{:<42}{:>10}{:>14}{:>10}",
        "fields", "given", "ms", "ns/field"
    );
    objects::larger(print_written);
}

/// A line of these two tables.
fn print_written((count, order, has_scratch, taken): &writing::Line) {
    let scratch = if *has_scratch {
        ""
    } else {
        ", without scratch"
    };
    let label = format!("{}{scratch}", order.label());
    match taken {
        writing::Taken::Time(time) => println!(
            "{label:<42}{count:>10}{:>14.3}{:>10.1}",
            time.as_secs_f64() * 1e3,
            time.as_secs_f64() * 1e9 / *count as f64,
        ),
        writing::Taken::About(time) => println!(
            "{label:<42}{count:>10}{:>14}",
            format!("({:.0} s)", time.as_secs_f64())
        ),
    }
}

/// The table of trees that are made to take long.
fn adversarial_trees() {
    println!("{ADVERSARIAL_LEGEND}\n");
    println!(
        "{:<52}{:>12}{:>12}{:>12}{:>10}  verdict",
        "tree", "dict", "value", "ms", "ns/B"
    );
    for (label, make) in adversarial::CASES {
        adversarial::taken(make, |taken| print_taken(label, taken));
    }
}

/// A line of that table.
fn print_taken(label: &str, taken: &Taken) {
    match taken {
        Taken::Time(dict, value, time, is_good) => println!(
            "{label:<52}{dict:>12}{value:>12}{:>12.2}{:>10.2}  {}",
            time.as_secs_f64() * 1e3,
            time.as_secs_f64() * 1e9 / (dict + value) as f64,
            if *is_good { "good" } else { "refused" },
        ),
        Taken::About(time) => {
            println!(
                "{label:<52}{:>36}",
                format!("({:.0} s)", time.as_secs_f64())
            )
        }
    }
}

/// The table of check and lookup together.
fn lookups() {
    println!("{LEGEND}\n");
    println!(
        "{:<55}{:>7}{:>7}{:>11}{:>11}{:>7}{:>11}{:>11}{:>7}{:>11}{:>7}",
        "row",
        "dict",
        "object",
        "ours",
        "Rust",
        "ratio",
        "children",
        "R-c",
        "ratio",
        "shallow",
        "ratio"
    );
    for row in rows::rows() {
        let [ours, whole, shallow, children] = sides::measured(&row, SAMPLES);
        let less = whole - children;
        println!(
            "{:<55}{:>7}{:>7}{ours:>11.1}{whole:>11.1}{:>7.2}{children:>11.1}{less:>11.1}{:>7.2}{shallow:>11.1}{:>7.2}",
            row.label,
            row.dict.len(),
            row.object.len(),
            ours / whole,
            ours / less,
            ours / shallow,
        );
    }
}

/// The table of ids.
fn ids_too() {
    println!("{IDS_LEGEND}\n");
    println!(
        "{:<55}{:>7}{:>7}{:>11}{:>11}{:>7}{:>11}{:>7}",
        "row", "dict", "object", "ours", "twice", "ratio", "Rust", "ratio"
    );
    for row in ids::taken() {
        let [ours, twice, theirs] = ids::measured(&row);
        println!(
            "{:<55}{:>7}{:>7}{ours:>11.1}{twice:>11.1}{:>7.2}{theirs:>11.1}{:>7.2}",
            row.label,
            row.dict.len(),
            row.object.len(),
            ours / twice,
            ours / theirs,
        );
    }
}

/// The table of values.
fn values_read() {
    println!("{VALUES_LEGEND}\n");
    println!(
        "{:<55}{:>7}{:>7}{:>11}{:>11}{:>7}{:>11}{:>11}{:>7}",
        "row", "dict", "object", "ours", "Rust", "ratio", "alone", "R-alone", "ratio"
    );
    for row in values::rows() {
        let [ours, theirs, alone, their_alone] = values::measured(&row);
        println!(
            "{:<55}{:>7}{:>7}{ours:>11.1}{theirs:>11.1}{:>7.2}{alone:>11.1}{their_alone:>11.1}{:>7.2}",
            row.label,
            row.dict.len(),
            row.object.len(),
            ours / theirs,
            alone / their_alone,
        );
    }
}

/// The table of UTF-8 alone.
fn texts_alone() {
    println!("{TEXT_LEGEND}\n");
    println!(
        "{:<55}{:>7}{:>18}{:>11}{:>7}",
        "row", "dict", "ours", "Rust", "ratio"
    );
    for text in texts::texts() {
        let [ours, library] = texts::measured(&text);
        println!(
            "{:<55}{:>7}{ours:>18.1}{library:>11.1}{:>7.2}",
            text.label,
            text.dict.len(),
            ours / library,
        );
    }
}

/// The table of many names.
fn many_names() {
    println!("{MANY_LEGEND}\n");
    println!(
        "{:<55}{:>7}{:>7}{:>11}{:>11}{:>7}{:>11}{:>7}",
        "row", "dict", "object", "ours", "Rust", "ratio", "singly", "ratio"
    );
    for row in many::messages() {
        for count in many::COUNTS {
            let [ours, theirs, singly] = many::measured(&row, count);
            println!(
                "{:<55}{:>7}{:>7}{ours:>11.1}{theirs:>11.1}{:>7.2}{singly:>11.1}{:>7.2}",
                format!("{}, {count} at once", row.label),
                row.dict.len(),
                row.object.len(),
                ours / theirs,
                ours / singly,
            );
        }
    }
}

/// A table of listings.
fn listings(kinds: &[rows::Kind]) {
    println!("{LISTING_LEGEND}\n");
    println!(
        "{:<40}{:>9}{:>9}{:>14}{:>14}{:>7}{:>14}{:>7}",
        "row", "dict", "object", "ours", "Rust", "ratio", "layer", "ratio"
    );
    for row in listing::messages(kinds) {
        let [ours, theirs, layer] = listing::measured(&row);
        println!(
            "{:<40}{:>9}{:>9}{ours:>14.1}{theirs:>14.1}{:>7.2}{layer:>14.1}{:>7.2}",
            row.label,
            row.dict.len(),
            row.object.len(),
            ours / theirs,
            ours / layer,
        );
    }
}

/// The table of larger messages, and how their times grow.
fn large_messages() {
    println!("{LARGE_LEGEND}\n");
    println!(
        "{:<55}{:>9}{:>9}{:>11}{:>11}{:>7}{:>8}{:>8}{:>11}{:>11}{:>7}{:>11}{:>7}",
        "row",
        "dict",
        "object",
        "ours",
        "Rust",
        "ratio",
        "ours/B",
        "Rust/B",
        "children",
        "R-c",
        "ratio",
        "shallow",
        "ratio"
    );
    let mut grown = Vec::new();
    for series in large::series() {
        let lines: Vec<Line> = series.lines().inspect(print_line).collect();
        grown.push((series.label, lines));
    }
    growth(&grown);
}

/// A line of that table.
fn print_line(line: &Line) {
    let micros = |nanos: f64| nanos / 1000.0;
    let [our_byte, their_byte] = line.a_byte();
    print!(
        "{:<55}{:>9}{:>9}{:>11.2}{:>11.2}{:>7.2}{our_byte:>8.3}{their_byte:>8.3}",
        line.label,
        line.dict,
        line.object,
        micros(line.ours),
        micros(line.theirs),
        line.ours / line.theirs,
    );
    if let Some([shallow, children]) = line.parts {
        let less = line.theirs - children;
        print!(
            "{:>11.2}{:>11.2}{:>7.2}{:>11.2}{:>7.2}",
            micros(children),
            micros(less),
            line.ours / less,
            micros(shallow),
            line.ours / shallow,
        );
    }
    println!();
}

/// How a byte's time grows in each series.
fn growth(grown: &[(String, Vec<Line>)]) {
    println!("\n{GROWTH_LEGEND}\n");
    let [_, larger, largest] = SIZES;
    println!(
        "{:<55}{:>9}{larger:>9}{largest:>9}{:>9}{larger:>9}{largest:>9}",
        "series", "ours", "Rust"
    );
    for (label, lines) in grown {
        print!("{label:<55}");
        for side in 0..2 {
            let first = lines[0].a_byte()[side];
            print!("{first:>9.3}");
            for line in &lines[1..] {
                print!("{:>9.2}", line.a_byte()[side] / first);
            }
        }
        println!();
    }
}

/// The processor, the compiler and what else the machine is doing.
fn machine() -> String {
    let cpus = fs::read_to_string("/proc/cpuinfo").unwrap_or_default();
    let count = cpus
        .lines()
        .filter(|line| line.starts_with("processor"))
        .count();
    // On Arm the processor's name is not in that file.
    let about = cpus + &said(&["lscpu"]).unwrap_or_default();
    let model = about
        .lines()
        .find(|line| line.to_lowercase().starts_with("model name"))
        .and_then(|line| line.split_once(':'))
        .map_or("unknown processor", |(_, model)| model.trim());
    let compiler = said(&["rustc", "--version"]);
    let compiler = compiler.as_deref().map_or("unknown rustc", str::trim);
    format!(
        "machine: {model}, {count} processors, {compiler}; load before: {}",
        load()
    )
}

/// What a command says.
fn said(words: &[&str]) -> Option<String> {
    let output = Command::new(words[0]).args(&words[1..]).output().ok()?;
    String::from_utf8(output.stdout).ok()
}

/// The load averages of one, five and fifteen minutes.
fn load() -> String {
    let text = fs::read_to_string("/proc/loadavg").unwrap_or_default();
    text.split(' ').take(3).collect::<Vec<_>>().join(" ")
}
