//! Each number that is a refusal, given by real bytes, with its place and its words.

mod common;

use common::{D, P, hex, padded};
use lichenhusk::{LIMIT, Message, Refusal};

/// A refusal, its number, its place, and bytes that get it: a dictionary and, if it is the
/// object's, an object.
struct Row {
    refusal: Refusal,
    number: u32,
    place: u32,
    dict: Vec<u8>,
    object: Option<Vec<u8>>,
}

fn of_dictionary(refusal: Refusal, number: u32, place: u32, dict: Vec<u8>) -> Row {
    Row {
        refusal,
        number,
        place,
        dict,
        object: None,
    }
}

fn of_object(refusal: Refusal, number: u32, place: u32, object: Vec<u8>) -> Row {
    Row {
        refusal,
        number,
        place,
        dict: hex(D),
        object: Some(object),
    }
}

fn rows() -> Vec<Row> {
    use Refusal::*;
    vec![
        of_dictionary(DictionaryTooLong, 10, 0, padded(D, LIMIT + 1)),
        of_dictionary(DictionaryEmpty, 11, 0, hex("")),
        of_dictionary(DictionaryVersion, 12, 0, hex("10 00 00")),
        of_dictionary(DictionaryShort, 13, 0, hex("41 00 00 00")),
        of_dictionary(DictionaryOverflow, 14, 0, hex("C1 FF FF FF FF")),
        of_dictionary(DictionaryFirstOffset, 15, 0, hex("01 00 01 61")),
        of_dictionary(
            DictionaryNotUtf8 { prefix: 2 },
            16,
            2,
            hex("01 01 00 04 61 62 ED A0"),
        ),
        of_dictionary(
            DictionaryEntry { entry: 1 },
            17,
            1,
            hex("01 03 00 01 02 03 61 C3 A9"),
        ),
        of_dictionary(
            DictionaryOrder { entry: 2 },
            18,
            2,
            hex("11 03 00 01 02 03 61 62 61"),
        ),
        of_dictionary(
            DictionaryTextCut { prefix: 2 },
            19,
            2,
            hex("01 01 00 05 61 62 F0 90 80"),
        ),
        of_object(ObjectTooLong, 20, 0, padded(P, LIMIT + 1)),
        of_object(ObjectEmpty, 21, 0, hex("")),
        of_object(ObjectType, 22, 0, hex("03 00 00")),
        of_object(ObjectShort, 23, 0, hex("42 00 00 00")),
        of_object(ObjectOverflow, 24, 0, hex("42 FF FF FF FF")),
        of_object(ObjectId { field: 1 }, 25, 1, hex("02 02 00 02 00 00 01 00")),
        of_object(
            ObjectOrder { field: 1 },
            26,
            1,
            hex("02 02 01 00 00 00 01 00"),
        ),
        of_object(
            ObjectOffset { field: 1 },
            27,
            1,
            hex("02 02 00 01 00 02 01 00"),
        ),
        of_object(
            ObjectChildEmpty { field: 1 },
            28,
            1,
            hex("02 02 00 01 00 01 01 00"),
        ),
    ]
}

fn answer(row: &Row) -> Option<Refusal> {
    match &row.object {
        None => lichenhusk::dictionary(&row.dict).err(),
        Some(object) => lichenhusk::layer(&row.dict, object).err(),
    }
}

#[test]
fn each_is_given() {
    for row in rows() {
        assert_eq!(answer(&row), Some(row.refusal));
        assert_eq!(row.refusal.number(), row.number);
        assert_eq!(row.refusal.place(), row.place);
    }
}

#[test]
fn each_is_carried_by_every_call() {
    let object = hex(P);
    for row in rows() {
        let object = row.object.as_deref().unwrap_or(&object);
        let refused = Some(row.refusal);
        let mut words = [7; 8];
        assert_eq!(lichenhusk::layer(&row.dict, object).err(), refused);
        assert_eq!(
            lichenhusk::lookup(&row.dict, object, b"flow").err(),
            refused
        );
        assert_eq!(lichenhusk::child(&row.dict, object, b"flow").err(), refused);
        assert_eq!(lichenhusk::find(&row.dict, object, b"flow").err(), refused);
        assert_eq!(lichenhusk::list(&row.dict, object).err(), refused);
        assert_eq!(
            lichenhusk::list_into(&row.dict, object, &mut words).err(),
            refused
        );
        assert_eq!(
            lichenhusk::lookup_all_into(&row.dict, object, b"flow", &[4], &mut words).err(),
            refused
        );
        assert_eq!(words, [7; 8], "a refusal leaves the words");
        let message = Message::new(&row.dict, object);
        assert_eq!(message.value("flow").err(), refused);
        assert_eq!(message.lookup_all(&["flow", "roll"]).err(), refused);
        assert_eq!(message.children(["flow", "roll"]).err(), refused);
        if row.object.is_none() {
            assert_eq!(lichenhusk::name(&row.dict, 0).err(), refused);
            assert_eq!(lichenhusk::name(&row.dict, usize::MAX).err(), refused);
        }
    }
}

#[test]
fn no_such_entry() {
    let dict = hex(D);
    for entry in [2, 3, 1 << 32, usize::MAX] {
        assert_eq!(lichenhusk::name(&dict, entry), Err(Refusal::NoSuchEntry));
    }
    assert_eq!(lichenhusk::name(&[1, 0, 0], 0), Err(Refusal::NoSuchEntry));
}

/// Of the listing alone: the other calls do not look into the children.
#[test]
fn no_length_of_a_child() {
    let (dict, object) = (hex(D), hex("02 02 00 01 00 01 02 00 FC"));
    let refused = Refusal::ChildLength { field: 1 };
    assert_eq!((refused.number(), refused.place()), (43, 1));
    assert_eq!(lichenhusk::list(&dict, &object), Err(refused));
    let mut words = [7; 8];
    let answer = lichenhusk::list_into(&dict, &object, &mut words);
    assert_eq!(answer, Err(refused));
    assert_eq!(words, [7; 8]);
    assert!(lichenhusk::layer(&dict, &object).is_ok());
}

/// Of a value that is read: 50 and 51, without a place, and nothing of them in what finds it.
#[test]
fn values_that_are_not_read() {
    for (refused, number, value) in [
        (Refusal::ValueShort, 50, &[0x0C][..]),
        (Refusal::ValueType, 51, &[0x54, 0, 0]),
    ] {
        assert_eq!((refused.number(), refused.place()), (number, 0));
        assert_eq!(lichenhusk::value(value), Err(refused));
        let length = value.len() as u8;
        let (dict, object) = (hex(D), [&[2, 1, 0, 0, length], value].concat());
        let found = lichenhusk::find(&dict, &object, b"flow").expect("a good layer");
        assert_eq!(found.bytes(), Some(value));
        assert_eq!(found.value(), Err(refused));
        let message = Message::new(&dict, &object);
        assert_eq!(message.value("flow"), Err(refused));
    }
}

#[test]
fn too_few_words() {
    let (dict, object) = (hex(D), hex(P));
    for room in 0..6 {
        let mut words = vec![7; room];
        let answer = lichenhusk::list_into(&dict, &object, &mut words);
        assert_eq!(answer, Err(Refusal::WordsTooFew));
        assert_eq!(words, vec![7; room]);
    }
    assert!(lichenhusk::list_into(&dict, &hex("02 00 00"), &mut []).is_ok());
}

#[test]
fn too_few_words_for_names() {
    let (dict, object) = (hex(D), hex(P));
    for room in 0..10 {
        let mut words = vec![7; room];
        let answer = lichenhusk::lookup_all_into(&dict, &object, b"flowrol", &[4, 7], &mut words);
        assert_eq!(answer, Err(Refusal::WordsTooFew));
        assert_eq!(words, vec![7; room]);
    }
    assert!(lichenhusk::lookup_all_into(&dict, &object, b"", &[], &mut []).is_ok());
}

#[test]
fn too_little_room() {
    for length in 0..3 {
        let mut room = vec![7; length];
        assert_eq!(lichenhusk::empty(&mut room), Err(Refusal::RoomTooSmall));
        assert_eq!(room, vec![7; length]);
    }
}

/// Every number has a case, every case its number and place, and no other number has one.
#[test]
fn numbers_and_cases_match() {
    let numbers: Vec<u32> = (0..=1000)
        .filter(|&number| Refusal::of(number, 5).is_some())
        .collect();
    let all: Vec<u32> = (10..=19)
        .chain(20..=28)
        .chain([31])
        .chain(40..=46)
        .chain(50..=54)
        .chain(60..=62)
        .chain(70..=76)
        .collect();
    assert_eq!(numbers, all);
    for number in all {
        let refusal = Refusal::of(number, 5).unwrap();
        assert_eq!(refusal.number(), number);
        let has_place = matches!(number, 16..=19 | 25..=28 | 43 | 45 | 53 | 62);
        assert_eq!(refusal.place(), if has_place { 5 } else { 0 });
        assert_eq!(
            Refusal::of(refusal.number(), refusal.place()),
            Some(refusal)
        );
    }
}

/// The words begin with the number and the place, and no two refusals have the same.
#[test]
fn each_says_what_it_is() {
    let mut seen = std::collections::HashSet::new();
    for number in 10..=76 {
        let Some(refusal) = Refusal::of(number, 6) else {
            continue;
        };
        let text = refusal.to_string();
        let head = format!("refused {number} at {}: ", refusal.place());
        let words = text.strip_prefix(&head).expect("number and place first");
        assert!(words.len() > 10, "{text}");
        if refusal.place() == 6 {
            assert!(words.contains('6'), "{text}");
        }
        assert!(seen.insert(words.to_string()), "{text}");
    }
    assert_eq!(seen.len(), 42);
    for refusal in [Refusal::DictionaryTooLong, Refusal::ObjectTooLong] {
        let text = refusal.to_string();
        assert!(text.ends_with("is longer than 16777216 bytes"), "{text}");
    }
}

#[test]
fn a_refusal_is_an_error() {
    fn read() -> Result<usize, Box<dyn std::error::Error>> {
        Ok(lichenhusk::dictionary(&[])?.entries)
    }
    let error = read().unwrap_err();
    assert_eq!(
        error.to_string(),
        "refused 11 at 0: the dictionary has no bytes"
    );
}
