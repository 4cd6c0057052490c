//! Where the two sides differ, or the Rust differs from its own documentation: each with a small
//! input. These are known, and outside of what is compared.

use differential::composing;
use differential::encode::{self, ObjectShape, object as object_of, plain_object};
use differential::exhaustive::{all_bytes, each};
use differential::fixed::SORTED;
use differential::trees::nest;
use differential::writing::built;
use lichenhusk::{LEVELS, LIMIT, ObjectWriter, Refusal, Value};
use parquet_variant::{
    MAX_NESTING_DEPTH, Variant, VariantBuilder, VariantMetadata, VariantObject, VariantPath,
    VariantPathElement,
};
use std::panic::catch_unwind;
use std::time::{Duration, Instant};

fn rust_accepts(dict: &[u8], object: &[u8]) -> bool {
    let metadata = VariantMetadata::try_new(dict);
    metadata.is_ok_and(|metadata| VariantObject::try_new(metadata, object).is_ok())
}

/// 22: the Rust's object does not look at the basic type. No shorter value shows it.
#[test]
fn other_basic_types() {
    for object in [[0, 0, 0], [1, 0, 0], [3, 0, 0]] {
        assert!(rust_accepts(SORTED, &object));
        assert_eq!(lichenhusk::layer(SORTED, &object), Err(Refusal::ObjectType));
    }
    for length in 0..3 {
        each(length, &all_bytes(), &all_bytes(), |object| {
            assert!(!rust_accepts(SORTED, object), "{object:?}");
            Ok::<(), ()>(())
        })
        .unwrap();
    }
}

/// 19 and 16: the Rust's words are the same for a text that was cut and for one that is corrupt.
/// No shorter dictionary has a byte of text.
#[test]
fn cut_text() {
    let cut = [1, 1, 0, 1, 0xC3];
    let corrupt = [1, 1, 0, 1, 0xFF];
    let words = |dict: &[u8]| VariantMetadata::try_new(dict).unwrap_err().to_string();
    assert_eq!(words(&cut), words(&corrupt));
    let ours = |dict: &[u8]| lichenhusk::dictionary(dict).unwrap_err();
    assert_eq!(ours(&cut), Refusal::DictionaryTextCut { prefix: 0 });
    assert_eq!(ours(&corrupt), Refusal::DictionaryNotUtf8 { prefix: 0 });
}

/// The id is the field's own; the Rust's search in an unsorted dictionary finds the first entry of
/// that name. No shorter dictionary has two entries, and no shorter object that the Rust accepts a
/// field.
#[test]
fn ids_of_a_name_that_is_there_twice() {
    let (dict, object) = ([1, 2, 0, 0, 0], [2, 1, 1, 0, 1, 0]);
    assert!(rust_accepts(&dict, &object));
    let metadata = VariantMetadata::try_new(&dict).unwrap();
    assert_eq!(metadata.get_entry("").unwrap().0, 0);
    let found = lichenhusk::lookup(&dict, &object, b"").unwrap();
    assert_eq!(found.unwrap().id, 1);
}

/// A child of no known type, which we do not read; listed, it has no length.
#[test]
fn children_that_are_no_values() {
    let object = [2, 1, 0, 0, 1, 0xFC];
    assert!(!rust_accepts(SORTED, &object));
    assert_eq!(
        lichenhusk::child(SORTED, &object, b"flow"),
        Ok(Some(&[0xFC][..]))
    );
    let no_length = Refusal::ChildLength { field: 0 };
    assert_eq!(lichenhusk::list(SORTED, &object), Err(no_length));
}

/// The span of an only child over document 01's dictionary, and whether the Rust accepts the child.
fn listed(child: &[u8]) -> (Result<usize, Refusal>, bool) {
    let object = plain_object(&[0], &[child.to_vec()]);
    let fields = lichenhusk::list(SORTED, &object);
    let span = fields.map(|fields| fields[0].child.len());
    (span, rust_accepts(SORTED, &object))
}

/// A child that the Rust refuses for what it says has a length all the same, and is listed. Of the
/// last the Rust cannot tell the length, see `differential::lengths`; no shorter list is one without
/// elements whose offset is not 0.
#[test]
fn lengths_of_children_that_are_no_values() {
    for (why, child) in [
        ("a short string that is not UTF-8", &b"\x05\x80"[..]),
        ("a string that is not UTF-8", b"\x40\x01\x00\x00\x00\x80"),
        (
            "a decimal of too large a scale",
            b"\x20\x0A\x00\x00\x00\x00",
        ),
        ("a date out of the calendar", b"\x2C\xFF\xFF\xFF\x7F"),
        (
            "a time stamp out of the calendar",
            b"\x30\xFF\xFF\xFF\xFF\xFF\xFF\xFF\x7F",
        ),
        (
            "a time after the day",
            b"\x44\x00\x60\xD7\x1D\x14\x00\x00\x00",
        ),
        (
            "an object with an id of no entry",
            b"\x02\x01\x02\x00\x01\x00",
        ),
        (
            "an object with a child of no bytes",
            b"\x02\x01\x00\x00\x00",
        ),
        ("a list with an element of no bytes", b"\x03\x01\x00\x00"),
        (
            "a list with an element of no known type",
            b"\x03\x01\x00\x01\x54",
        ),
        ("an empty list with an offset above 0", b"\x03\x00\x01\x00"),
    ] {
        assert_eq!(listed(child), (Ok(child.len()), false), "{why}");
    }
    let last_of_the_day = b"\x44\xFF\x5F\xD7\x1D\x14\x00\x00\x00";
    assert_eq!(listed(last_of_the_day), (Ok(9), true));
}

/// 43 and a refusal of the Rust's, on what has no length.
#[test]
fn children_without_a_length() {
    for child in [
        &b"\x54"[..],
        b"\x0C",
        b"\x05",
        b"\x3C\x00\x00\x00",
        b"\x02",
        b"\x03\x00",
    ] {
        let refused = Err(Refusal::ChildLength { field: 0 });
        assert_eq!(listed(child), (refused, false), "{child:02X?}");
    }
}

/// Our reading of a value, by its kind's number, and whether the Rust reads it.
fn read(value: &[u8]) -> (Result<u32, Refusal>, bool) {
    let ours = lichenhusk::value(value).map(|value| match value {
        Value::Bytes { kind, .. } => kind.number(),
        number => panic!("the Rust refuses no number: {number:?}"),
    });
    let metadata = VariantMetadata::try_new(SORTED).unwrap();
    let theirs = Variant::try_new_with_metadata(metadata, value);
    (ours, theirs.is_ok())
}

/// What a value says is not looked at, and nothing but 50 and 51 refused; the Rust refuses these. Of
/// each kind no shorter value is refused for what it says.
#[test]
fn values_that_the_rust_does_not_read() {
    for (kind, value) in [
        (8, &b"\x20\x0A\x00\x00\x00\x00"[..]),
        (9, b"\x24\x13\x00\x00\x00\x00\x00\x00\x00\x00"),
        (10, &[&[0x28, 0x27][..], &[0; 16]].concat()),
        (11, b"\x2C\xFF\xFF\xFF\x7F"),
        (12, b"\x30\xFF\xFF\xFF\xFF\xFF\xFF\xFF\x7F"),
        (13, b"\x34\xFF\xFF\xFF\xFF\xFF\xFF\xFF\x7F"),
        (16, b"\x40\x01\x00\x00\x00\x80"),
        (17, b"\x44\x00\x60\xD7\x1D\x14\x00\x00\x00"),
        (257, b"\x05\x80"),
        (258, b"\x02\x01\x00\x00\x00"),
        (259, b"\x03\x00\x01\x00"),
    ] {
        assert_eq!(read(value), (Ok(kind), false), "{kind}");
    }
}

/// 50: a value whose own length passes 32 bits is refused though it has all of its bytes, of which
/// none but the first five are looked at; the Rust reads it. No shorter value shows it.
#[test]
fn values_of_four_gibibytes() {
    let held = u32::MAX - 4;
    let length = 5 + held as usize;
    if Vec::<u8>::new().try_reserve_exact(length).is_err() {
        println!("skipped: there are not so many bytes here");
        return;
    }
    let mut value = vec![0; length];
    value[..5].copy_from_slice(&[&[0x3C], &held.to_le_bytes()[..]].concat());
    assert_eq!(length, 1 << 32);
    assert_eq!(read(&value), (Err(Refusal::ValueShort), true));
    value[1] -= 1;
    assert_eq!(read(&value), (Ok(15), true));
}

/// 10 and 20: the Rust has no limit of length.
#[test]
fn long_buffers() {
    let padded = |bytes: &[u8]| [bytes, &vec![0; LIMIT + 1 - bytes.len()]].concat();
    let (dict, object) = (padded(SORTED), padded(&[2, 0, 0]));
    assert!(rust_accepts(&dict, &object));
    assert_eq!(
        lichenhusk::dictionary(&dict),
        Err(Refusal::DictionaryTooLong)
    );
    assert_eq!(
        lichenhusk::layer(SORTED, &object),
        Err(Refusal::ObjectTooLong)
    );
}

/// So many objects in one another about a null.
fn nested(depth: usize) -> Vec<u8> {
    let mut value = vec![0];
    for _ in 0..depth {
        value = plain_object(&[0], &[value]);
    }
    value
}

/// The Rust goes 128 deep; our layer does not go into the children, nor does our listing.
#[test]
fn nesting() {
    assert_eq!(MAX_NESTING_DEPTH, 128);
    assert!(rust_accepts(SORTED, &nested(128)));
    assert!(!rust_accepts(SORTED, &nested(129)));
    assert!(lichenhusk::layer(SORTED, &nested(129)).is_ok());
    assert!(lichenhusk::list(SORTED, &nested(129)).is_ok());
}

/// Our check of a whole tree over document 01's dictionary: its own length, or the number and the start
/// of what is refused; and whether the Rust's full validation accepts it.
fn tree(value: &[u8]) -> (Result<usize, (u32, usize)>, bool) {
    let ours = lichenhusk::check_tree(SORTED, value);
    let ours = ours.map_err(|refused| (refused.refusal.number(), refused.start));
    (ours, Variant::try_new(SORTED, value).is_ok())
}

/// What a leaf says is not judged, but for a text; the Rust refuses these, as it does alone. Of each
/// kind no shorter value is refused for what it says.
#[test]
fn leaves_that_the_rust_refuses() {
    for value in [
        &b"\x20\x0A\x00\x00\x00\x00"[..],
        b"\x20\x00\x00\xCA\x9A\x3B",
        b"\x24\x13\x00\x00\x00\x00\x00\x00\x00\x00",
        b"\x24\x00\x00\x00\x64\xA7\xB3\xB6\xE0\x0D",
        &[&[0x28, 0x27][..], &[0; 16]].concat(),
        &[&[0x28, 0][..], &10_i128.pow(38).to_le_bytes()].concat(),
        b"\x2C\xFF\xFF\xFF\x7F",
        b"\x30\xFF\xFF\xFF\xFF\xFF\xFF\xFF\x7F",
        b"\x34\xFF\xFF\xFF\xFF\xFF\xFF\xFF\x7F",
        b"\x44\x00\x60\xD7\x1D\x14\x00\x00\x00",
    ] {
        assert_eq!(tree(value), (Ok(value.len()), false), "{value:02X?}");
        let list = encode::list(&[value.to_vec()]);
        assert_eq!(tree(&list), (Ok(list.len()), false), "{value:02X?}");
    }
    // The last that it takes, of each.
    for value in [
        &b"\x20\x09\xFF\xC9\x9A\x3B"[..],
        b"\x24\x12\xFF\xFF\x63\xA7\xB3\xB6\xE0\x0D",
        &[&[0x28, 38][..], &(10_i128.pow(38) - 1).to_le_bytes()].concat(),
        &[&[0x2C][..], &95_026_236_i32.to_le_bytes()].concat(),
        b"\x44\xFF\x5F\xD7\x1D\x14\x00\x00\x00",
    ] {
        assert_eq!(tree(value), (Ok(value.len()), true), "{value:02X?}");
    }
}

/// A list's first offset may be above 0: the elements begin where it says. No shorter value is such a
/// list, and no shorter one that we accept is refused by the Rust.
#[test]
fn first_offsets_of_lists() {
    assert_eq!(tree(b"\x03\x00\x01\x00"), (Ok(4), false));
    assert_eq!(tree(b"\x03\x01\x01\x02\xFC\x00"), (Ok(6), false));
    assert_eq!(tree(b"\x03\x01\x00\x02\x00\xFC"), (Ok(6), true));
    for length in 0..4 {
        each(length, &all_bytes(), &all_bytes(), |value| {
            let (ours, theirs) = tree(value);
            assert_eq!(ours.is_ok(), theirs, "{value:02X?}");
            Ok::<(), ()>(())
        })
        .unwrap();
    }
}

/// Both refuse an element of no bytes; ours is the element's own refusal, at its place.
#[test]
fn empty_elements() {
    assert_eq!(tree(b"\x03\x01\x00\x00"), (Err((50, 4)), false));
    assert_eq!(tree(b"\x02\x01\x00\x00\x00"), (Err((28, 0)), false));
}

/// Which refusal is first: ours are all of a list's offsets before any of its elements; the Rust looks
/// into an element before it slices the next. Both refuse, and its words are the element's.
#[test]
fn offsets_before_elements() {
    let value = b"\x03\x03\x00\x01\x00\x01\x54";
    assert_eq!(tree(value), (Err((62, 0)), false));
    let error = Variant::try_new(SORTED, value).unwrap_err().to_string();
    assert!(error.contains("unknown primitive type"), "{error}");
}

/// 32 levels and 128: what has from 33 to 128 the Rust accepts, and we refuse with 52 at the 33rd. No
/// shorter value has so many: a list of one list adds four bytes while its region has fewer than 256.
#[test]
fn levels() {
    assert_eq!((LEVELS, MAX_NESTING_DEPTH), (32, 128));
    let lists = |levels| nest(levels, &[0], |_| true);
    let smallest = nest(32, b"\x03\x00\x00", |_| true);
    assert_eq!(
        (smallest.len(), tree(&smallest)),
        (131, (Err((52, 128)), true))
    );
    assert_eq!(tree(&lists(32)), (Ok(129), true));
    for levels in [33, 128] {
        let (ours, theirs) = tree(&lists(levels));
        assert!(matches!(ours, Err((52, _))) && theirs, "{levels}");
    }
    let (ours, theirs) = tree(&lists(129));
    assert!(matches!(ours, Err((52, _))) && !theirs);
    let objects = nest(33, &[0], |_| false);
    assert_eq!(tree(&objects), (Err((52, 160)), true));
}

/// 20: the Rust has no limit of length.
#[test]
fn long_trees() {
    let value = vec![0; LIMIT + 1];
    assert_eq!(tree(&value), (Err((20, 0)), true));
    assert_eq!(tree(&value[1..]), (Ok(1), true));
}

/// The time of the Rust's check doubles with each level of two fields that share a child, and ours
/// does not; the tree of 31 levels has 311 bytes.
#[test]
fn ways_through_a_tree() {
    let shared = |levels| {
        (0..levels).fold(vec![0], |child: Vec<u8>, _| {
            let shape = ObjectShape {
                id_width: 1,
                offset_width: 2,
                long_count: false,
                spare: false,
            };
            object_of(&[0, 1], &[0, 0, child.len()], &child, shape)
        })
    };
    let theirs = |levels| {
        let value = shared(levels);
        let run = |_| {
            let started = Instant::now();
            assert!(Variant::try_new(SORTED, &value).is_ok());
            started.elapsed()
        };
        (0..3).map(run).min().unwrap_or(Duration::ZERO)
    };
    let (quick, slow) = (theirs(9), theirs(14));
    assert!(slow > 8 * quick, "{quick:?} and {slow:?}");
    let deepest = shared(31);
    assert_eq!(deepest.len(), 311);
    let started = Instant::now();
    assert_eq!(lichenhusk::check_tree(SORTED, &deepest), Ok(311));
    assert!(started.elapsed() < Duration::from_secs(1));
}

/// Documented as free of panics on what was not validated, `get` panics all the same.
#[test]
fn get_panics() {
    for (why, object) in [
        ("an id of no entry", [2, 1, 2, 0, 0]),
        ("an offset past the region", [2, 1, 0, 1, 0]),
        ("a child of no bytes", [2, 1, 0, 0, 0]),
    ] {
        let get = move || {
            let object = VariantObject::new(VariantMetadata::new(SORTED), &object);
            object.get("flow").is_some()
        };
        assert!(catch_unwind(get).is_err(), "{why}");
    }
}

/// Documented to panic past the last field, `field` yields nothing.
#[test]
fn field_past_the_last() {
    let metadata = VariantMetadata::try_new(SORTED).unwrap();
    let object = VariantObject::try_new(metadata, &[2, 0, 0]).unwrap();
    assert_eq!(object.field(0), None);
}

/// The Rust's steps of a path, in words; nothing where it refuses it.
fn read_path(text: &str) -> Option<String> {
    let path = VariantPath::try_from(text).ok()?;
    let step = |element: &VariantPathElement| match element {
        VariantPathElement::Field { name } => format!("name {name}"),
        VariantPathElement::Index { index } => format!("index {index}"),
    };
    Some(path.iter().map(step).collect::<Vec<_>>().join(", "))
}

/// Documented as a field, a name in brackets without quotes is refused, by us too.
#[test]
fn paths_without_quotes() {
    assert_eq!(read_path("[a]"), None);
    assert_eq!(read_path("['a']").as_deref(), Some("name a"));
    assert_eq!(ours(&[0], "[a]"), Err((75, 0)));
}

/// Documented to be literal after a backslash, a quote closes all the same and a digit counts: quotes and
/// numbers are looked for when the backslashes are gone. Ours are the same.
#[test]
fn paths_with_backslashes() {
    for (text, due) in [
        (r"['\']", "name "),
        (r"[\'\']", "name "),
        (r"['a\']", "name a"),
        (r"[\0]", "index 0"),
        (r"[\+5]", "index 5"),
    ] {
        assert_eq!(read_path(text).as_deref(), Some(due), "{text}");
        assert_eq!(ours(&[0], text), Err((53, 0)), "{text}");
    }
    assert_eq!(read_path(r"[\]"), None);
}

/// Taken, and documented nowhere: a plus, zeros before a number, a name after a bracket without a dot, a
/// name of no bytes, quotes and spaces in a plain name. Ours are the same.
#[test]
fn paths_that_are_taken_besides() {
    for (text, due) in [
        ("[+0]", "index 0"),
        ("[00]", "index 0"),
        ("[0]a", "index 0, name a"),
        ("['']", "name "),
        ("['''']", "name ''"),
        ("'a'", "name 'a'"),
        (" ", "name  "),
    ] {
        assert_eq!(read_path(text).as_deref(), Some(due), "{text}");
        assert_eq!(ours(&[0], text), Err((53, 0)), "{text}");
    }
}

/// Start and end of what stands at a path, or nothing where it is absent; number and place of a refusal.
type Stands = Result<Option<(usize, usize)>, (u32, u32)>;

/// What stands at a path over document 01's dictionary.
fn ours(value: &[u8], text: &str) -> Stands {
    let found = lichenhusk::path(SORTED, value, text);
    let found = found.map_err(|refusal| (refusal.number(), refusal.place()))?;
    Ok(found.map(|found| (found.start, found.start + found.bytes.len())))
}

/// Whether the Rust finds something at a path; nothing where it refuses the path or the whole tree.
fn theirs(value: &[u8], text: &str) -> Option<bool> {
    let path = VariantPath::try_from(text).ok()?;
    let value = Variant::try_new(SORTED, value).ok()?;
    Some(value.get_path(&path).is_some())
}

/// Both answers.
fn both(value: &[u8], text: &str) -> (Stands, Option<bool>) {
    (ours(value, text), theirs(value, text))
}

/// 53: to the Rust, a step into a value of another kind finds nothing, as one to an absent field. No
/// shorter path has a step, and no shorter value is one.
#[test]
fn steps_into_another_kind() {
    assert_eq!(both(&[0], "a"), (Err((53, 0)), Some(false)));
    let object = [2, 1, 0, 0, 1, 0];
    for (text, step) in [("[0]", 0), ("flow.a", 1), ("flow[0]", 1)] {
        assert_eq!(
            both(&object, text),
            (Err((53, step)), Some(false)),
            "{text}"
        );
    }
    assert_eq!(both(&object, "a"), (Ok(None), Some(false)));
}

/// A path looks at the layers on its way alone, and reads nothing; the Rust's validation looks at the
/// whole tree.
#[test]
fn beside_a_path() {
    assert_eq!(both(&[], ""), (Ok(Some((0, 0))), None));
    let list = [3, 2, 0, 1, 2, 0x54, 0];
    assert_eq!(both(&list, "[1]"), (Ok(Some((6, 7))), None));
    assert_eq!(both(&list, "[0]"), (Ok(Some((5, 6))), None));
    // The levels of a tree, 32 and 128, are no limit to a path.
    let deep = nest(200, &[0], |_| true);
    let leaf = (deep.len() - 1, deep.len());
    assert_eq!(both(&deep, &"[0]".repeat(200)), (Ok(Some(leaf)), None));
}

/// A list's elements may begin after its region does, and have no bytes; the Rust refuses both. No
/// shorter list has an element.
#[test]
fn elements_at_a_path() {
    let empty = b"\x03\x01\x00\x00";
    assert_eq!(both(empty, "[0]"), (Ok(Some((4, 4))), None));
    let after = b"\x03\x01\x01\x02\xFC\x00";
    assert_eq!(both(after, "[0]"), (Ok(Some((5, 6))), None));
}

/// 20: the Rust has no limit of length. The empty path has none on either side.
#[test]
fn long_values_at_a_path() {
    let mut value = vec![0; LIMIT + 1];
    value[0] = 2;
    assert_eq!(both(&value, "a"), (Err((20, 0)), Some(false)));
    assert_eq!(both(&value, ""), (Ok(Some((0, LIMIT + 1))), Some(true)));
}

/// Documented to return nothing where a path is not found, `get_path` panics on what was not validated;
/// we refuse it by number, or find an element of no bytes. No shorter list has an element.
#[test]
fn get_path_panics() {
    for (why, value, text, due) in [
        (
            "an element of no bytes",
            &b"\x03\x01\x00\x00"[..],
            "[0]",
            Ok(Some((4, 4))),
        ),
        (
            "offsets that fall",
            b"\x03\x02\x00\x01\x00",
            "[1]",
            Err((62, 1)),
        ),
        (
            "a child of no bytes",
            b"\x02\x01\x00\x00\x00",
            "flow",
            Err((28, 0)),
        ),
        (
            "an id of no entry",
            b"\x02\x01\x02\x00\x00",
            "flow",
            Err((25, 0)),
        ),
    ] {
        let get = move || {
            let path = VariantPath::try_from(text).unwrap();
            Variant::new(SORTED, value).get_path(&path).is_some()
        };
        assert!(catch_unwind(get).is_err(), "{why}");
        assert_eq!(ours(value, text), due, "{why}");
    }
}

/// What the Rust's builder writes for names, and what we do.
fn both_written(names: &[&str]) -> (Vec<u8>, Result<Vec<u8>, Refusal>) {
    (built(names), lichenhusk::write_dictionary(names))
}

/// Of no names, the builder says that they are not sorted; the request says that they are. Nothing is
/// less than no names.
#[test]
fn a_dictionary_of_no_names() {
    assert_eq!(both_written(&[]), (vec![1, 0, 0], Ok(vec![0x11, 0, 0])));
    for dict in [[1, 0, 0], [0x11, 0, 0]] {
        assert!(VariantMetadata::try_new(&dict).is_ok_and(|theirs| theirs.is_empty()));
        assert_eq!(
            lichenhusk::dictionary(&dict).map(|dict| dict.entries),
            Ok(0)
        );
    }
}

/// The builder keeps names in the order in which they come, and says whether that is theirs; ours
/// sorts them. Two names are in some order, and no two have fewer bytes.
#[test]
fn names_that_come_in_another_order() {
    let (theirs, ours) = both_written(&["a", ""]);
    assert_eq!(theirs, [1, 2, 0, 1, 1, b'a']);
    assert_eq!(ours, Ok(vec![0x11, 2, 0, 0, 1, b'a']));
    let in_order = both_written(&["", "a"]);
    assert_eq!(in_order, (ours.clone().unwrap_or_default(), ours));
}

/// 10: the builder has no limit of length. The longest name that we write is LIMIT - 10 bytes long.
#[test]
fn a_dictionary_over_the_limit() {
    let long = "x".repeat(LIMIT - 9);
    let (theirs, ours) = both_written(&[&long]);
    assert_eq!(theirs.len(), LIMIT + 1);
    assert_eq!(ours, Err(Refusal::DictionaryTooLong));
    let (theirs, ours) = both_written(&[&long[1..]]);
    assert_eq!((theirs.len(), Ok(theirs)), (LIMIT, ours));
}

/// What the Rust's builder writes for fields over D, whose children are read first, and what we do.
fn both_composed(fields: &[(&str, &[u8])]) -> (Vec<u8>, Result<Vec<u8>, Refusal>) {
    let metadata = VariantMetadata::try_new(SORTED).expect("D");
    let value = |bytes| Variant::try_new_with_metadata(metadata.clone(), bytes).expect("a value");
    let named = fields.iter().map(|&(name, child)| (name, value(child)));
    let ours: ObjectWriter = fields.iter().copied().collect();
    (composing::built(&metadata, named), ours.finish_over(SORTED))
}

/// The builder lays children in the order in which they come, and ours in that of the names. Two fields
/// are in some order, and no value has fewer bytes.
#[test]
fn children_that_come_in_another_order() {
    let (theirs, ours) = both_composed(&[("roll", &[0]), ("flow", &[4])]);
    assert_eq!(theirs, [2, 2, 0, 1, 1, 0, 2, 0, 4]);
    assert_eq!(ours, Ok(vec![2, 2, 0, 1, 0, 1, 2, 4, 0]));
    assert!(rust_accepts(SORTED, &theirs) && lichenhusk::layer(SORTED, &theirs).is_ok());
    let (theirs, in_order) = both_composed(&[("flow", &[4]), ("roll", &[0])]);
    assert_eq!((Ok(theirs), in_order), (ours.clone(), ours));
}

/// A name that comes again: the builder takes the last, and leaves the bytes of the first where no field
/// has them; where it is told to, it refuses the second. Ours is 26.
#[test]
fn fields_of_one_name() {
    let mut builder = VariantBuilder::new().with_field_names(["flow", "roll"]);
    let mut object = builder.new_object();
    object.insert("flow", Variant::Null);
    object.insert("flow", Variant::BooleanTrue);
    object.finish();
    let (dict, theirs) = builder.finish();
    assert_eq!(
        (&dict[..], &theirs[..]),
        (SORTED, &[2, 1, 0, 1, 2, 0, 4][..])
    );
    let mut builder = VariantBuilder::new().with_validate_unique_fields(true);
    let mut object = builder.new_object();
    object.insert("flow", Variant::Null);
    assert!(object.try_insert("flow", Variant::BooleanTrue).is_err());
    let ours = lichenhusk::write_object(SORTED, [(0, [0]), (0, [4])]);
    assert_eq!(ours, Err(Refusal::ObjectOrder { field: 1 }));
}

/// Of entries with one name the builder takes the first; ours is the one that is given. Two names of no
/// bytes are the least that are one.
#[test]
fn the_second_entry_of_a_name() {
    let dict = [1, 2, 0, 0, 0];
    let metadata = VariantMetadata::try_new(&dict).expect("two names");
    let theirs = composing::built(&metadata, [("", Variant::Null)]);
    assert_eq!(theirs, [2, 1, 0, 0, 1, 0]);
    let ours = lichenhusk::write_object(&dict, [(1, [0])]);
    assert_eq!(ours, Ok(vec![2, 1, 1, 0, 1, 0]));
    // Handed the dictionary's names to add to, it has one of them left.
    let builder = VariantBuilder::new().with_metadata(metadata);
    let (dict, _) = builder.with_value(Variant::Null).finish();
    assert_eq!(dict, [0x11, 1, 0, 0]);
}

/// A child that goes on after its own encoding: the builder takes a value, and ours the bytes. Ours takes
/// what is no value, too, and the Rust then refuses the object.
#[test]
fn children_that_are_more_than_a_value() {
    let (theirs, ours) = both_composed(&[("flow", &[0, 9])]);
    assert_eq!(theirs, [2, 1, 0, 0, 1, 0]);
    assert_eq!(ours, Ok(vec![2, 1, 0, 0, 2, 0, 9]));
    let no_value = lichenhusk::write_object(SORTED, [(0, [0xFC])]).expect("any bytes");
    assert_eq!(no_value, [2, 1, 0, 0, 1, 0xFC]);
    assert!(!rust_accepts(SORTED, &no_value));
}

/// 20: the builder has no limit of length. The longest child of one field that we write has LIMIT - 9
/// bytes.
#[test]
fn an_object_over_the_limit() {
    let long = encode::binary(LIMIT - 8);
    let (theirs, ours) = both_composed(&[("flow", &long)]);
    assert_eq!(theirs.len(), LIMIT + 1);
    assert_eq!(ours, Err(Refusal::ObjectTooLong));
    let (theirs, ours) = both_composed(&[("flow", &encode::binary(LIMIT - 9))]);
    assert_eq!((theirs.len(), Ok(theirs)), (LIMIT, ours));
}

/// Of as many lists in one another as the Rust takes, both write an object, and the Rust refuses it: it
/// has one level more.
#[test]
fn a_child_of_all_levels() {
    let lists = |levels: usize| nest(levels - 1, b"\x03\x00\x00", |_| true);
    let (theirs, ours) = both_composed(&[("flow", &lists(MAX_NESTING_DEPTH))]);
    assert_eq!(ours, Ok(theirs.clone()));
    assert!(!rust_accepts(SORTED, &theirs) && lichenhusk::layer(SORTED, &theirs).is_ok());
    let (theirs, ours) = both_composed(&[("flow", &lists(MAX_NESTING_DEPTH - 1))]);
    assert!(rust_accepts(SORTED, &theirs));
    assert_eq!(ours, Ok(theirs));
}

/// The dictionary and the object of names, the child of each a null: by the Rust's builder, which is
/// handed some names before, and by our writer.
fn both_with_dictionaries(before: &[&str], names: &[&str]) -> [(Vec<u8>, Vec<u8>); 2] {
    let mut builder = VariantBuilder::new().with_field_names(before.iter().copied());
    let mut object = builder.new_object();
    for name in names {
        object.insert(name, Variant::Null);
    }
    object.finish();
    let writer: ObjectWriter = names.iter().map(|name| (name, [0])).collect();
    let ours = writer.finish().expect("names, and children of a byte");
    [builder.finish(), ours]
}

/// With the object of no fields the Rust's builder writes a dictionary that does not say that it is
/// sorted.
#[test]
fn no_fields_and_their_dictionary() {
    let [theirs, ours] = both_with_dictionaries(&[], &[]);
    assert_eq!(theirs, (vec![0x01, 0, 0], vec![0x02, 0, 0]));
    assert_eq!(ours, (vec![0x11, 0, 0], vec![0x02, 0, 0]));
}

/// The Rust's builder has the names in the order in which they come, and ids by that; handed the names in
/// order beforehand, or the fields in order, it writes the dictionary that ours does. One field is in
/// order, and of two names one has a byte at least.
#[test]
fn fields_in_another_order_and_their_dictionary() {
    let [theirs, ours] = both_with_dictionaries(&[], &["a", ""]);
    assert_eq!(theirs.0, [0x01, 2, 0, 1, 1, b'a']);
    assert_eq!(theirs.1, [2, 2, 1, 0, 1, 0, 2, 0, 0]);
    assert_eq!(ours.0, [0x11, 2, 0, 0, 1, b'a']);
    assert_eq!(ours.1, [2, 2, 0, 1, 0, 1, 2, 0, 0]);
    let [theirs, _] = both_with_dictionaries(&["", "a"], &["a", ""]);
    assert_eq!(theirs, (ours.0, vec![2, 2, 0, 1, 1, 0, 2, 0, 0]));
    for names in [&[""][..], &["a"], &["", "a"]] {
        let [theirs, ours] = both_with_dictionaries(&[], names);
        assert_eq!(theirs, ours, "{names:?}");
    }
}

/// Thirty-two fields that share one child, in one another so deep.
fn shared(names: &[Vec<u8>], depth: usize) -> Vec<u8> {
    let ids: Vec<usize> = (0..names.len()).collect();
    let shape = ObjectShape {
        id_width: 1,
        offset_width: 2,
        long_count: false,
        spare: false,
    };
    let mut value = vec![0];
    for _ in 0..depth {
        let mut offsets = vec![0; names.len()];
        offsets.push(value.len());
        value = object_of(&ids, &offsets, &value, shape);
    }
    value
}

/// Documented as linear in the bytes, the Rust's validation grows with the power of the depth
/// where children are shared.
#[test]
fn validation_is_not_linear() {
    let names: Vec<Vec<u8>> = (0..32).map(|n| vec![b'A' + n]).collect();
    let shape = differential::encode::DictionaryShape {
        width: 1,
        sorted: true,
        spare: false,
    };
    let dict = differential::encode::dictionary(&names, shape);
    let time = |depth| {
        let object = shared(&names, depth);
        let run = |_| {
            let started = Instant::now();
            assert!(rust_accepts(&dict, &object));
            started.elapsed()
        };
        (
            object.len(),
            (0..5).map(run).min().unwrap_or(Duration::ZERO),
        )
    };
    let ((short, quick), (long, slow)) = (time(2), time(3));
    assert!(long < 2 * short, "{long} and {short} bytes");
    assert!(slow > 8 * quick, "{slow:?} and {quick:?}");
}
