//! The C header says what this crate says: the same numbers, and an example that runs.

use lichenhusk::{
    ABSENT, Kind, LEVELS, LIMIT, MORE, OK, OWN_MARKS, Refusal, STRIP_BYTES, WORDS_PER_FIELD,
    WORDS_PER_NAME, WORDS_PER_PAIR, WORDS_PER_STEP,
};
use std::collections::BTreeMap;
use std::fmt::Debug;
use std::fs;
use std::path::{Path, PathBuf};
use std::process::Command;

fn include() -> PathBuf {
    Path::new(env!("CARGO_MANIFEST_DIR")).join("../../include")
}

fn header() -> String {
    fs::read_to_string(include().join("lichenhusk.h")).expect("the repository has the header")
}

/// The lines `LICHENHUSK_NAME = number` of the header.
fn constants() -> BTreeMap<String, u32> {
    header()
        .lines()
        .filter_map(|line| line.trim().trim_end_matches(',').split_once(" = "))
        .filter(|(name, _)| name.starts_with("LICHENHUSK_"))
        .map(|(name, number)| (name.to_string(), number.parse().expect("a number")))
        .collect()
}

/// The name that a case of [`Refusal`] or [`Kind`] has in C: its own in capitals, with lines between
/// words.
fn constant_of(case: impl Debug) -> String {
    let case = format!("{case:?}");
    let case = case.split(' ').next().expect("a name");
    let mut name = String::from("LICHENHUSK");
    for letter in case.chars() {
        if letter.is_ascii_uppercase() {
            name.push('_');
        }
        name.push(letter.to_ascii_uppercase());
    }
    name
}

#[test]
fn every_number_is_there() {
    let constants = constants();
    let mut known = BTreeMap::from([
        ("LICHENHUSK_OK".to_string(), OK),
        ("LICHENHUSK_ABSENT".to_string(), ABSENT),
        ("LICHENHUSK_MORE".to_string(), MORE),
        ("LICHENHUSK_LIMIT".to_string(), LIMIT as u32),
        ("LICHENHUSK_STRIP_BYTES".to_string(), STRIP_BYTES as u32),
        (
            "LICHENHUSK_WORDS_PER_FIELD".to_string(),
            WORDS_PER_FIELD as u32,
        ),
        (
            "LICHENHUSK_WORDS_PER_NAME".to_string(),
            WORDS_PER_NAME as u32,
        ),
        (
            "LICHENHUSK_WORDS_PER_STEP".to_string(),
            WORDS_PER_STEP as u32,
        ),
        (
            "LICHENHUSK_WORDS_PER_PAIR".to_string(),
            WORDS_PER_PAIR as u32,
        ),
        ("LICHENHUSK_EMPTY_BYTES".to_string(), 3),
        ("LICHENHUSK_LEVELS".to_string(), LEVELS as u32),
        ("LICHENHUSK_OWN_MARKS".to_string(), OWN_MARKS as u32),
    ]);
    let words = ["CODE", "NUMBER", "ID", "START", "END", "PLACE"];
    for (index, word) in words.into_iter().enumerate() {
        known.insert(format!("LICHENHUSK_{word}"), index as u32);
    }
    for refusal in (0..100).filter_map(|number| Refusal::of(number, 0)) {
        known.insert(constant_of(refusal), refusal.number());
    }
    for (number, kind) in (0..300).filter_map(|number| Some((number, Kind::of(number)?))) {
        known.insert(constant_of(kind), number);
    }
    let read = [
        "NULL", "TRUE", "FALSE", "INT8", "INT16", "INT32", "INT64", "DOUBLE",
    ];
    for (number, kind) in (0..).zip(read).chain([(14, "FLOAT")]) {
        known.insert(format!("LICHENHUSK_{kind}"), number);
    }
    assert_eq!(constants, known);
}

/// The program that stands in the header's first comment.
fn example() -> String {
    let header = header();
    let lines = header
        .lines()
        .skip_while(|line| !line.contains("AN EXAMPLE"));
    let code: Vec<&str> = lines
        .skip_while(|line| !line.contains("#include"))
        .take_while(|line| !line.contains("It prints"))
        .map(|line| line.trim_start_matches(" *"))
        .collect();
    code.join("\n")
}

fn compile(compiler: &str, language: &str, source: &Path, more: &[&str]) {
    let mut command = Command::new(compiler);
    command.args(["-Wall", "-Wextra", "-pedantic", "-Werror", "-x", language]);
    command.arg("-I").arg(include()).arg(source).args(more);
    let output = command.output().expect("a compiler");
    let said = String::from_utf8_lossy(&output.stderr);
    assert!(output.status.success(), "{compiler}: {said}");
}

fn is_there(compiler: &str) -> bool {
    Command::new(compiler).arg("--version").output().is_ok()
}

/// A folder of this test's own, for what a compiler writes.
fn folder() -> PathBuf {
    let folder = Path::new(env!("CARGO_TARGET_TMPDIR")).join("header");
    fs::create_dir_all(&folder).expect("a folder for the example");
    folder
}

#[test]
fn the_example_compiles_as_c_and_as_cpp() {
    let source = folder().join("syntax.c");
    fs::write(&source, example()).expect("room for the example");
    compile("cc", "c", &source, &["-std=c99", "-fsyntax-only"]);
    if is_there("c++") {
        compile("c++", "c++", &source, &["-std=c++11", "-fsyntax-only"]);
    } else {
        println!("skipped for C++: there is no c++ here");
    }
}

/// What a C program prints.
fn printed(name: &str, text: &str) -> String {
    let program = folder().join(name);
    let source = program.with_extension("c");
    fs::write(&source, text).expect("room for the program");
    let archive = env!("LICHENHUSK_LINKED_ARCHIVE");
    let program_text = program.to_str().expect("a plain path");
    let options = ["-std=c99", "-x", "none", archive, "-o", program_text];
    compile("cc", "c", &source, &options);
    let output = Command::new(&program).output().expect("the program runs");
    assert!(output.status.success());
    String::from_utf8(output.stdout).expect("text")
}

#[test]
fn the_example_runs() {
    assert_eq!(
        printed("example", &example()),
        "field 0, entry 0, bytes 8 to 10: -5\n"
    );
}

/// The example with its one name replaced by two, and another end for the second of them.
const MANY: &str = r#"
#include <stdio.h>
#include "lichenhusk.h"

int main(void)
{
    const uint8_t dict[] = {0x11, 2, 0, 4, 8, 'f', 'l', 'o', 'w', 'r', 'o', 'l', 'l'};
    const uint8_t object[] = {0x02, 2, 0, 1, 1, 0, 3, 4, 0x0C, 0xFB};
    const uint8_t names[] = {'r', 'o', 'l', 'l', 'r', 'o', 'l'};
    const uint32_t ends[] = {4, 7, 8};
    uint32_t words[2 * LICHENHUSK_WORDS_PER_NAME];
    uint8_t strip[LICHENHUSK_STRIP_BYTES];
    size_t k;

    if (lichenhusk_lookup_all(dict, sizeof dict, object, sizeof object, names, sizeof names,
                              ends, 2, words, 10, strip, sizeof strip) != LICHENHUSK_OK)
        return 1;
    printf("%u fields:", (unsigned) lichenhusk_word(strip, LICHENHUSK_NUMBER));
    for (k = 0; k < 10; k++)
        printf(" %u", (unsigned) words[k]);
    if (lichenhusk_lookup_all(dict, sizeof dict, object, sizeof object, names, sizeof names,
                              ends, 3, words, 10, strip, sizeof strip) != LICHENHUSK_NAMES_END)
        return 1;
    printf("; then name %u\n", (unsigned) lichenhusk_word(strip, LICHENHUSK_PLACE));
    return 0;
}
"#;

/// The object of the example listed, and then without the last byte of its first child.
const LIST: &str = r#"
#include <stdio.h>
#include "lichenhusk.h"

int main(void)
{
    const uint8_t dict[] = {0x11, 2, 0, 4, 8, 'f', 'l', 'o', 'w', 'r', 'o', 'l', 'l'};
    uint8_t object[] = {0x02, 2, 0, 1, 1, 0, 3, 4, 0x0C, 0xFB};
    uint32_t words[2 * LICHENHUSK_WORDS_PER_FIELD];
    uint8_t strip[LICHENHUSK_STRIP_BYTES];
    size_t k;

    if (lichenhusk_list(dict, sizeof dict, object, sizeof object, words, 6,
                        strip, sizeof strip) != LICHENHUSK_OK)
        return 1;
    for (k = 0; k < 6; k++)
        printf("%u ", (unsigned) words[k]);
    object[6] = 2;
    if (lichenhusk_list(dict, sizeof dict, object, sizeof object, words, 6,
                        strip, sizeof strip) != LICHENHUSK_CHILD_LENGTH)
        return 1;
    printf("then field %u\n", (unsigned) lichenhusk_word(strip, LICHENHUSK_PLACE));
    return 0;
}
"#;

/// Integers at their extremes, a double that is not a number, a text, and what is refused.
const VALUES: &str = r#"
#include <inttypes.h>
#include <stdio.h>
#include "lichenhusk.h"

static uint8_t strip[LICHENHUSK_STRIP_BYTES];

static void integer(const uint8_t *value, size_t length)
{
    if (lichenhusk_value(value, length, strip, sizeof strip) == LICHENHUSK_OK)
        printf("%u: %" PRId64 "\n", (unsigned) lichenhusk_word(strip, LICHENHUSK_NUMBER),
               lichenhusk_integer(strip));
}

int main(void)
{
    const uint8_t minus_five[] = {0x0C, 0xFB, 0xFF};
    const uint8_t least[] = {0x18, 0, 0, 0, 0, 0, 0, 0, 0x80};
    const uint8_t greatest[] = {0x18, 0xFF, 0xFF, 0xFF, 0xFF, 0xFF, 0xFF, 0xFF, 0x7F};
    const uint8_t nan[] = {0x1C, 1, 0, 0, 0, 0, 0, 0xF0, 0xFF};
    const uint8_t text[] = {0x11, 'f', 'l', 'o', 'w', 'e', 'r'};
    const uint8_t unknown[] = {(LICHENHUSK_UUID + 1) << 2};

    integer(minus_five, sizeof minus_five);
    integer(least, sizeof least);
    integer(greatest, sizeof greatest);
    if (lichenhusk_value(nan, sizeof nan, strip, sizeof strip) == LICHENHUSK_OK
        && lichenhusk_word(strip, LICHENHUSK_NUMBER) == LICHENHUSK_DOUBLE)
        printf("%016" PRIX64 "\n", lichenhusk_bits(strip));
    if (lichenhusk_value(text, sizeof text, strip, sizeof strip) == LICHENHUSK_OK
        && lichenhusk_word(strip, LICHENHUSK_NUMBER) == LICHENHUSK_SHORT_STRING)
        printf("%u to %u\n", (unsigned) lichenhusk_word(strip, LICHENHUSK_START),
               (unsigned) lichenhusk_word(strip, LICHENHUSK_END));
    if (lichenhusk_value(text, 4, strip, sizeof strip) == LICHENHUSK_VALUE_SHORT
        && lichenhusk_value(unknown, 1, strip, sizeof strip) == LICHENHUSK_VALUE_TYPE)
        printf("50 and 51\n");
    return 0;
}
"#;

/// The object of the example as a tree, with marks and without, then a string in a list in it that is
/// not UTF-8.
const TREE: &str = r#"
#include <stdio.h>
#include "lichenhusk.h"

static uint8_t strip[LICHENHUSK_STRIP_BYTES];

static unsigned word(enum lichenhusk_word_index which)
{
    return (unsigned) lichenhusk_word(strip, which);
}

int main(void)
{
    const uint8_t dict[] = {0x11, 2, 0, 4, 8, 'f', 'l', 'o', 'w', 'r', 'o', 'l', 'l'};
    const uint8_t object[] = {0x02, 2, 0, 1, 1, 0, 3, 4, 0x0C, 0xFB, 0xFF};
    const uint8_t deeper[] = {0x02, 1, 0, 0, 8, 0x03, 2, 0, 1, 3, 0x00, 0x05, 0x80};
    uint8_t marks[] = {1, 2, 3};

    if (lichenhusk_tree(dict, sizeof dict, object, sizeof object, marks, sizeof marks,
                        strip, sizeof strip) != LICHENHUSK_OK)
        return 1;
    printf("%u bytes, marks %u %u %u; ", word(LICHENHUSK_END),
           (unsigned) marks[0], (unsigned) marks[1], (unsigned) marks[2]);
    if (lichenhusk_tree(dict, sizeof dict, deeper, sizeof deeper, marks, 0,
                        strip, sizeof strip) != LICHENHUSK_VALUE_NOT_UTF8)
        return 1;
    printf("then the value at %u\n", word(LICHENHUSK_START));
    return 0;
}
"#;

/// What a piece of the header's code is put into.
const AROUND: [&str; 2] = [
    r#"
#include <stdio.h>
#include "lichenhusk.h"

int main(void)
{
    const uint8_t dict[] = {0x11, 2, 0, 4, 8, 'f', 'l', 'o', 'w', 'r', 'o', 'l', 'l'};
    uint8_t strip[LICHENHUSK_STRIP_BYTES];
"#,
    "    (void) dict;\n    return 0;\n}\n",
];

/// The piece of code after a line of the header does what is said there.
fn the_piece_prints(name: &str, said: &str, prints: &str) {
    let header = header();
    let mut lines = header.lines().skip_while(|line| !line.contains(said));
    let line = lines.next().expect("the header says so");
    assert_eq!(line.split('"').nth(1), Some(prints));
    let code = lines.take_while(|line| !line.contains("*/"));
    let code: Vec<&str> = code.map(|line| line.trim_start_matches(" *")).collect();
    let [before, after] = AROUND;
    let printed = printed(name, &[before, &code.join("\n"), "\n", after].concat());
    assert_eq!(printed.trim_end(), prints);
}

#[test]
fn the_example_of_a_path_runs() {
    let said = "With the example's dictionary, this prints \"-5\"";
    the_piece_prints("path", said, "-5");
}

#[test]
fn the_example_of_writing_runs() {
    let said = "This makes the example's dictionary, and prints";
    the_piece_prints("written", said, "2 names, 13 bytes");
}

#[test]
fn the_example_of_writing_an_object_runs() {
    let said = "With the example's dictionary, this prints \"2";
    the_piece_prints("object", said, "2 fields, 10 bytes");
}

#[test]
fn the_example_of_pieces_runs() {
    let said = "This takes the example's dictionary in, and prints";
    the_piece_prints("taken_in", said, "1 2 5 13 then 2 names");
}

/// A dictionary in three pieces, then one that comes after it; a store that is too short by a byte; and
/// strips that are no state: one that was not begun, and one that counts past its store.
const PIECES: &str = r#"
#include <stdio.h>
#include "lichenhusk.h"

static const uint8_t dict[] = {0x11, 2, 0, 4, 8, 'f', 'l', 'o', 'w', 'r', 'o', 'l', 'l'};
static uint8_t strip[LICHENHUSK_STRIP_BYTES];
static uint8_t store[14];

static void feed(size_t bytes, size_t from, size_t to)
{
    size_t k;

    printf("%u:", (unsigned) lichenhusk_feed(store, bytes, dict + from, to - from,
                                             strip, sizeof strip));
    printf(" %u %u ", (unsigned) lichenhusk_word(strip, LICHENHUSK_NUMBER),
           (unsigned) lichenhusk_word(strip, LICHENHUSK_END));
    for (k = 0; k < sizeof store; k++)
        printf("%02X", (unsigned) store[k]);
    printf("\n");
}

int main(void)
{
    feed(sizeof store, 0, 13);
    if (lichenhusk_begin(strip, sizeof strip) != LICHENHUSK_MORE)
        return 1;
    feed(sizeof store, 0, 5);
    feed(sizeof store, 5, 5);
    feed(sizeof store, 5, 13);
    feed(sizeof store, 0, 13);
    if (lichenhusk_begin(strip, sizeof strip) != LICHENHUSK_MORE)
        return 2;
    feed(12, 0, 12);
    feed(12, 12, 13);
    if (lichenhusk_begin(strip, sizeof strip) != LICHENHUSK_MORE)
        return 3;
    strip[4 * LICHENHUSK_NUMBER] = 13;
    feed(12, 0, 13);
    return lichenhusk_feed(store, 0, dict, 0, strip, 23) != LICHENHUSK_STRIP_TOO_SHORT;
}
"#;

#[test]
fn pieces_from_c() {
    let (none, header) = ("00".repeat(14), format!("1102000408{}", "00".repeat(9)));
    let whole = "1102000408666C6F77726F6C6C00";
    let lines = [
        format!("0: 0 0 {none}"),
        format!("3: 5 13 {header}"),
        format!("3: 5 13 {header}"),
        format!("0: 2 13 {whole}"),
        format!("0: 2 13 {whole}"),
        format!("3: 12 13 {whole}"),
        format!("44: 0 0 {whole}"),
        format!("44: 0 0 {whole}\n"),
    ];
    assert_eq!(printed("pieces", PIECES), lines.join("\n"));
}

/// Names written with scratch and without, then a name that is no text, and too little room, which both
/// leave it.
const WRITE: &str = r#"
#include <stdio.h>
#include "lichenhusk.h"

static uint8_t strip[LICHENHUSK_STRIP_BYTES];
static uint8_t room[14];

static uint32_t put(size_t scratch, size_t names, size_t bytes)
{
    const uint8_t run[] = {'r', 'o', 'l', 'l', 'f', 'l', 'o', 'w', 0xFF};
    const uint32_t ends[] = {4, 8, 8, 9};
    uint32_t order[4], spare[4];
    size_t k;

    for (k = 0; k < sizeof room; k++)
        room[k] = 7;
    return lichenhusk_write_dictionary(run, sizeof run, ends, names, order, scratch,
                                       spare, scratch, room, bytes, strip, sizeof strip);
}

static void print(void)
{
    size_t k;

    for (k = 0; k < sizeof room; k++)
        printf("%02X", (unsigned) room[k]);
}

int main(void)
{
    if (put(4, 2, sizeof room) != LICHENHUSK_OK)
        return 1;
    print();
    if (put(1, 2, 13) != LICHENHUSK_OK)
        return 2;
    printf(" ");
    print();
    if (put(4, 4, sizeof room) != LICHENHUSK_NAMES_END)
        return 3;
    printf("; name %u ", (unsigned) lichenhusk_word(strip, LICHENHUSK_PLACE));
    print();
    if (put(4, 3, 13) != LICHENHUSK_WRITE_NO_ROOM)
        return 4;
    printf("; no room ");
    print();
    printf("\n");
    return 0;
}
"#;

#[test]
fn writing_from_c() {
    let dict = "1102000408666C6F77726F6C6C07";
    let left = "07".repeat(14);
    assert_eq!(
        printed("write", WRITE),
        format!("{dict} {dict}; name 3 {left}; no room {left}\n")
    );
}

/// Two fields written with scratch and without, the second with a word left over; then, each leaving the
/// room, an id that is none before a range that passes the bytes, that range, a name twice, a child of no
/// bytes, and too little room.
const WRITE_OBJECT: &str = r#"
#include <stdio.h>
#include "lichenhusk.h"

static uint8_t strip[LICHENHUSK_STRIP_BYTES];
static uint8_t room[11];

static uint32_t put(const uint32_t *pairs, size_t words, size_t scratch, size_t bytes)
{
    const uint8_t dict[] = {0x11, 2, 0, 4, 8, 'f', 'l', 'o', 'w', 'r', 'o', 'l', 'l'};
    const uint8_t children[] = {0x04, 0x0C, 0xFB};
    uint32_t order[3], spare[3];
    size_t k;

    for (k = 0; k < sizeof room; k++)
        room[k] = 7;
    return lichenhusk_write_object(dict, sizeof dict, children, sizeof children, pairs, words,
                                   order, scratch, spare, scratch, room, bytes,
                                   strip, sizeof strip);
}

static void print(void)
{
    size_t k;

    for (k = 0; k < sizeof room; k++)
        printf("%02X", (unsigned) room[k]);
}

static void refused(void)
{
    printf(" %u at %u ", (unsigned) lichenhusk_word(strip, LICHENHUSK_CODE),
           (unsigned) lichenhusk_word(strip, LICHENHUSK_PLACE));
    print();
}

int main(void)
{
    const uint32_t good[] = {1, 0, 1, 0, 1, 3, 9};
    const uint32_t no_entry[] = {1, 0, 4, 2, 0, 1};
    const uint32_t twice[] = {1, 0, 4, 0, 0, 1, 1, 0, 1};
    const uint32_t empty[] = {1, 0, 1, 0, 3, 3};

    if (put(good, 6, 2, sizeof room) != LICHENHUSK_OK)
        return 1;
    print();
    if (put(good, 7, 1, 10) != LICHENHUSK_OK)
        return 2;
    printf(" ");
    print();
    if (put(no_entry, 6, 3, sizeof room) != LICHENHUSK_OBJECT_ID)
        return 3;
    refused();
    if (put(no_entry, 3, 3, sizeof room) != LICHENHUSK_NAMES_END)
        return 4;
    refused();
    if (put(twice, 9, 3, sizeof room) != LICHENHUSK_OBJECT_ORDER)
        return 5;
    refused();
    if (put(empty, 6, 3, sizeof room) != LICHENHUSK_OBJECT_CHILD_EMPTY)
        return 6;
    refused();
    if (put(good, 6, 3, 9) != LICHENHUSK_WRITE_NO_ROOM)
        return 7;
    refused();
    printf("\n");
    return 0;
}
"#;

#[test]
fn writing_an_object_from_c() {
    let object = "020200010002030CFB0407";
    let left = "07".repeat(11);
    let refused = ["25 at 1", "45 at 0", "26 at 2", "28 at 1", "46 at 0"];
    let refused = refused.map(|words| format!(" {words} {left}")).concat();
    assert_eq!(
        printed("write_object", WRITE_OBJECT),
        format!("{object} {object}{refused}\n")
    );
}

/// The steps of a path as they are written, one that goes into another kind, and one that is refused.
const STEPS: &str = r#"
#include <stdio.h>
#include "lichenhusk.h"

static uint8_t strip[LICHENHUSK_STRIP_BYTES];
static uint8_t names[8];
static uint32_t words[3 * LICHENHUSK_WORDS_PER_STEP];

static uint32_t follow(const char *path, size_t length)
{
    const uint8_t dict[] = {0x11, 2, 0, 4, 8, 'f', 'l', 'o', 'w', 'r', 'o', 'l', 'l'};
    const uint8_t value[] = {0x02, 1, 0, 0, 8, 0x03, 2, 0, 2, 3, 0x0C, 0xFB, 0x04};

    return lichenhusk_path(dict, sizeof dict, value, sizeof value,
                           (const uint8_t *) path, length, names, sizeof names,
                           words, sizeof words / sizeof words[0], strip, sizeof strip);
}

int main(void)
{
    size_t k;

    if (follow("flow[4294967297].x", 18) != LICHENHUSK_ABSENT)
        return 1;
    printf("%.5s:", (const char *) names);
    for (k = 0; k < 9; k++)
        printf(" %u", (unsigned) words[k]);
    if (follow("flow[1].roll", 12) != LICHENHUSK_STEP_KIND)
        return 2;
    printf("; step %u of another kind", (unsigned) lichenhusk_word(strip, LICHENHUSK_PLACE));
    if (follow("flow[1", 6) != LICHENHUSK_PATH_UNCLOSED
        || follow("flow.flow.x", 11) != LICHENHUSK_PATH_NO_ROOM)
        return 3;
    printf("; still %.8s\n", (const char *) names);
    return 0;
}
"#;

#[test]
fn paths_from_c() {
    assert_eq!(
        printed("steps", STEPS),
        "flowx: 0 0 4 1 1 1 0 4 5; step 2 of another kind; still flowroll\n"
    );
}

#[test]
fn a_tree_from_c() {
    assert_eq!(
        printed("tree", TREE),
        "10 bytes, marks 0 0 0; then the value at 11\n"
    );
}

#[test]
fn values_from_c() {
    let lines = [
        "3: -5",
        "6: -9223372036854775808",
        "6: 9223372036854775807",
        "FFF0000000000001",
        "1 to 5",
        "50 and 51\n",
    ];
    assert_eq!(printed("values", VALUES), lines.join("\n"));
}

#[test]
fn a_listing_from_c() {
    assert_eq!(printed("list", LIST), "0 8 2 1 7 1 then field 0\n");
}

#[test]
fn many_names_from_c() {
    assert_eq!(
        printed("many", MANY),
        "2 fields: 0 1 1 7 10 1 0 0 0 0; then name 2\n"
    );
}
