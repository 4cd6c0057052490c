//! Larger messages: every call on both sides of the limit, places that are the limit, and numbers
//! of more than two bytes.

mod common;

use common::{D, P, hex, padded};
use lichenhusk::{Dictionary, Found, LIMIT, Layer, Message, Refusal, STRIP_BYTES, Strip, raw};

/// The first length that was over the limit before it was raised.
const ONCE_TOO_LONG: usize = 65_537;

/// What every call answers, as text.
fn answers(dict: &[u8], object: &[u8]) -> Vec<String> {
    let mut words = [7; 10];
    let message = Message::new(dict, object);
    vec![
        format!("{:?}", lichenhusk::dictionary(dict)),
        format!("{:?}", lichenhusk::name(dict, 1)),
        format!("{:?}", lichenhusk::layer(dict, object)),
        format!("{:?}", lichenhusk::lookup(dict, object, b"roll")),
        format!("{:?}", lichenhusk::lookup(dict, object, b"rol")),
        format!("{:?}", lichenhusk::child(dict, object, b"flow")),
        format!(
            "{:?}",
            lichenhusk::lookup_all(dict, object, &["roll", "rol"])
        ),
        format!(
            "{:?} {words:?}",
            lichenhusk::lookup_all_into(dict, object, b"rolflow", &[3, 7], &mut words)
        ),
        format!("{:?}", lichenhusk::list(dict, object)),
        format!(
            "{:?} {words:?}",
            lichenhusk::list_into(dict, object, &mut words)
        ),
        format!("{:?}", message.children(["flow", "roll"])),
    ]
}

/// Bytes after the end make no difference, up to the limit, in any call.
#[test]
fn every_call_reads_up_to_the_limit() {
    let short = answers(&hex(D), &hex(P));
    assert!(short.iter().all(|answer| answer.starts_with("Ok")));
    for length in [ONCE_TOO_LONG, LIMIT] {
        let (dict, object) = (padded(D, length), padded(P, length));
        assert_eq!(answers(&dict, &hex(P)), short, "{length}");
        assert_eq!(answers(&hex(D), &object), short, "{length}");
        assert_eq!(answers(&dict, &object), short, "{length}");
    }
}

#[test]
fn no_call_reads_more() {
    let (dict, object) = (padded(D, LIMIT + 1), padded(P, LIMIT + 1));
    let all_are = |answers: &[String], refusal: Refusal| {
        let begins = format!("Err({refusal:?})");
        assert!(answers.iter().all(|answer| answer.starts_with(&begins)));
    };
    all_are(&answers(&dict, &hex(P)), Refusal::DictionaryTooLong);
    all_are(&answers(&dict, &object), Refusal::DictionaryTooLong);
    let refused = answers(&hex(D), &object);
    let (of_dictionary, of_object) = refused.split_at(2);
    assert_eq!(of_dictionary, &answers(&hex(D), &hex(P))[..2]);
    all_are(of_object, Refusal::ObjectTooLong);
}

/// Appends numbers of so many bytes each.
fn put(bytes: &mut Vec<u8>, width: usize, numbers: impl IntoIterator<Item = usize>) {
    for number in numbers {
        bytes.extend_from_slice(&number.to_le_bytes()[..width]);
    }
}

/// A sorted dictionary of "a" and of a name that goes on to the last byte of so many, with offsets
/// of a width; and where that name starts.
fn of_one_long_name(length: usize, width: usize) -> (Vec<u8>, usize) {
    let mut dict = vec![0x11 | (width as u8 - 1) << 6];
    let region = 1 + width + 3 * width;
    put(&mut dict, width, [2, 0, 1, length - region]);
    dict.push(b'a');
    let start = dict.len();
    dict.extend(vec![b'x'; length - start]);
    (dict, start)
}

#[test]
fn a_name_that_ends_with_the_longest_dictionary() {
    for width in [3, 4] {
        let (dict, start) = of_one_long_name(LIMIT, width);
        let whole = Dictionary {
            entries: 2,
            end: LIMIT,
        };
        assert_eq!(lichenhusk::dictionary(&dict), Ok(whole), "{width}");
        let name = lichenhusk::name(&dict, 1).unwrap();
        assert_eq!(
            (name.as_ptr(), name.len()),
            (dict[start..].as_ptr(), LIMIT - start)
        );
        let object = hex("02 01 01 00 01 00");
        let long = Found {
            field: 0,
            id: 1,
            start: 5,
            end: 6,
        };
        assert_eq!(lichenhusk::lookup(&dict, &object, name), Ok(Some(long)));
        let shorter = &name[1..];
        assert_eq!(
            lichenhusk::lookup_all(&dict, &object, &[shorter, name]),
            Ok(vec![None, Some(long)])
        );
        assert_eq!(
            lichenhusk::dictionary(&dict[..LIMIT - 1]),
            Err(Refusal::DictionaryShort)
        );
        let (longer, _) = of_one_long_name(LIMIT + 1, width);
        assert_eq!(
            lichenhusk::dictionary(&longer),
            Err(Refusal::DictionaryTooLong)
        );
    }
}

/// An object of so many bytes over D, with offsets of a width: the children of "flow" and "roll"
/// have the last so many bytes.
fn of_last_children(length: usize, width: usize, lasts: [usize; 2]) -> Vec<u8> {
    let mut object = vec![0x02 | (width as u8 - 1) << 2, 2, 0, 1];
    let region = length - object.len() - 3 * width;
    put(&mut object, width, lasts.map(|last| region - last));
    put(&mut object, width, [region]);
    object.extend(vec![0; region]);
    object
}

#[test]
fn children_that_end_with_the_longest_object() {
    let dict = hex(D);
    for width in [3, 4] {
        let object = of_last_children(LIMIT, width, [1, 2]);
        let layer = Layer {
            fields: 2,
            region: 4 + 3 * width,
            end: LIMIT,
        };
        assert_eq!(lichenhusk::layer(&dict, &object), Ok(layer), "{width}");
        let last = |field: usize, start| Found {
            field,
            id: field as u32,
            start,
            end: LIMIT,
        };
        let (flow, roll) = (last(0, LIMIT - 1), last(1, LIMIT - 2));
        assert_eq!(lichenhusk::lookup(&dict, &object, b"flow"), Ok(Some(flow)));
        assert_eq!(lichenhusk::lookup(&dict, &object, b"roll"), Ok(Some(roll)));
        assert_eq!(
            lichenhusk::lookup_all(&dict, &object, &["roll", "rol", "flow"]),
            Ok(vec![Some(roll), None, Some(flow)])
        );
        let [flow, roll] = Message::new(&dict, &object)
            .children(["flow", "roll"])
            .unwrap();
        assert_eq!(flow, Some(&object[LIMIT - 1..]));
        assert_eq!(roll, Some(&object[LIMIT - 2..]));
        let mut words = [7; 6];
        assert_eq!(lichenhusk::list_into(&dict, &object, &mut words), Ok(layer));
        assert_eq!(words, [0, LIMIT as u32 - 1, 1, 1, LIMIT as u32 - 2, 1]);
        assert_eq!(
            lichenhusk::layer(&dict, &object[..LIMIT - 1]),
            Err(Refusal::ObjectShort)
        );
        assert_eq!(
            lichenhusk::layer(&dict, &of_last_children(LIMIT + 1, width, [1, 2])),
            Err(Refusal::ObjectTooLong)
        );
    }
}

/// A child that would begin where the longest object ends.
#[test]
fn no_child_after_the_longest_object() {
    for width in [3, 4] {
        for (lasts, field) in [([0, 1], 0), ([1, 0], 1)] {
            let object = of_last_children(LIMIT, width, lasts);
            let begins = format!("Err({:?})", Refusal::ObjectChildEmpty { field });
            let answers = answers(&hex(D), &object);
            let mut of_object = answers[2..].iter();
            assert!(of_object.all(|answer| answer.starts_with(&begins)));
        }
    }
}

/// The end is the strip's fifth word, with its lowest byte first.
#[test]
fn the_strip_of_an_end_at_the_limit() {
    let mut bytes = [0xEE; STRIP_BYTES];
    let object = of_last_children(LIMIT, 3, [1, 2]);
    assert_eq!(raw::lookup(&hex(D), &object, b"flow", &mut bytes), 0);
    assert_eq!(
        bytes[12..20],
        [0xFF, 0xFF, 0xFF, 0x00, 0x00, 0x00, 0x00, 0x01]
    );
    assert_eq!(Strip::read(&bytes).end as usize, LIMIT);
}

/// More entries and fields than two bytes count.
const MANY: usize = 65_538;

/// A sorted dictionary of so many entries, each named by its number in six hex digits, and an
/// object that has all of them as fields, of one byte each. Counts, offsets and ids of a width; the
/// object's count takes four bytes.
fn of_many(width: usize) -> (Vec<u8>, Vec<u8>) {
    let mut dict = vec![0x11 | (width as u8 - 1) << 6];
    put(&mut dict, width, [MANY]);
    put(&mut dict, width, (0..=MANY).map(|entry| 6 * entry));
    (0..MANY).for_each(|number| dict.extend(named(number)));
    let mut object = vec![0x42 | (width as u8 - 1) << 2 | (width as u8 - 1) << 4];
    put(&mut object, 4, [MANY]);
    put(&mut object, width, (0..MANY).chain(0..=MANY));
    object.extend(vec![0; MANY]);
    (dict, object)
}

fn named(number: usize) -> Vec<u8> {
    format!("{number:06x}").into_bytes()
}

#[test]
fn more_entries_and_fields_than_two_bytes_count() {
    for width in [3, 4] {
        let (dict, object) = of_many(width);
        let entries = lichenhusk::dictionary(&dict).map(|dictionary| dictionary.entries);
        assert_eq!(entries, Ok(MANY));
        let layer = lichenhusk::layer(&dict, &object).unwrap();
        assert_eq!((layer.fields, layer.end), (MANY, object.len()));
        for number in [0, 65_535, 65_536, MANY - 1] {
            let name = named(number);
            assert_eq!(lichenhusk::name(&dict, number), Ok(&name[..]));
            let found = Some(Found {
                field: number,
                id: number as u32,
                start: layer.region + number,
                end: layer.end,
            });
            assert_eq!(lichenhusk::lookup(&dict, &object, &name), Ok(found));
            let absent = named(MANY);
            assert_eq!(
                lichenhusk::lookup_all(&dict, &object, &[&absent, &name]),
                Ok(vec![None, found])
            );
        }
        assert_eq!(lichenhusk::name(&dict, MANY), Err(Refusal::NoSuchEntry));
    }
}

/// Each field is listed, with its child of one byte.
#[test]
fn a_listing_of_more_fields_than_two_bytes_count() {
    for width in [3, 4] {
        let (dict, object) = of_many(width);
        let region = object.len() - MANY;
        let fields = lichenhusk::list(&dict, &object).unwrap();
        assert_eq!(fields.len(), MANY);
        for (number, field) in fields.into_iter().enumerate() {
            assert_eq!((field.id, field.start), (number as u32, region + number));
            assert_eq!(field.child, [0]);
        }
    }
}

/// A binary that ends with the longest object, and one that would end a byte after it.
#[test]
fn a_child_as_long_as_the_limit_leaves() {
    let head = [0x0A, 1, 0];
    let start = head.len() + 2 * 3;
    let region = LIMIT - start;
    let of_length = |length: usize| {
        let mut object = head.to_vec();
        put(&mut object, 3, [0, region]);
        object.push(15 << 2);
        put(&mut object, 4, [length]);
        object.resize(LIMIT, 0xFF);
        object
    };
    let object = of_length(region - 5);
    let fields = lichenhusk::list(&hex(D), &object).unwrap();
    assert_eq!(
        (fields[0].child.as_ptr(), fields[0].child.len()),
        (object[start..].as_ptr(), region)
    );
    let longer = of_length(region - 4);
    assert_eq!(
        lichenhusk::list(&hex(D), &longer),
        Err(Refusal::ChildLength { field: 0 })
    );
}

/// Refusals at an entry and at fields whose number takes more than two bytes.
#[test]
fn places_of_more_than_two_bytes() {
    let (dict, object) = of_many(3);
    let last = MANY as u32 - 1;
    let mut falls = dict.clone();
    falls[dict.len() - 6..].copy_from_slice(&named(0));
    assert_eq!(
        lichenhusk::dictionary(&falls),
        Err(Refusal::DictionaryOrder { entry: last })
    );
    let ids = 5;
    let offsets = ids + 3 * MANY;
    let with = |row: usize, number: usize| {
        let mut object = object.clone();
        let at = row + 3 * (MANY - 1);
        object[at..at + 3].copy_from_slice(&number.to_le_bytes()[..3]);
        lichenhusk::layer(&dict, &object)
    };
    let field = last;
    assert_eq!(with(ids, MANY), Err(Refusal::ObjectId { field }));
    assert_eq!(with(ids, MANY - 2), Err(Refusal::ObjectOrder { field }));
    assert_eq!(
        with(offsets, MANY + 1),
        Err(Refusal::ObjectOffset { field })
    );
    assert_eq!(
        with(offsets, MANY),
        Err(Refusal::ObjectChildEmpty { field })
    );
    assert!(with(offsets, MANY - 1).is_ok());
    let mut unknown = object.clone();
    *unknown.last_mut().expect("children") = 0xFC;
    assert_eq!(
        lichenhusk::list(&dict, &unknown),
        Err(Refusal::ChildLength { field })
    );
}
