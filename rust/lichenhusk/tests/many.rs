//! Many names at one check: worked cases, the order of refusals, and each row against the single
//! lookup.

mod common;

use common::{D, P, hex};
use lichenhusk::{Found, LIMIT, Layer, Message, Refusal, WORDS_PER_NAME};

/// What a lent word holds before a call.
const BEFORE: u32 = 7;

/// The answer to names, by their run and ends, and the words, two more than are needed.
fn asked(object: &[u8], run: &[u8], ends: &[u32]) -> (Result<Layer, Refusal>, Vec<u32>) {
    let mut words = vec![BEFORE; WORDS_PER_NAME * ends.len() + 2];
    let answer = lichenhusk::lookup_all_into(&hex(D), object, run, ends, &mut words);
    (answer, words)
}

/// The verdict on names over a dictionary and an object, with all words that they need.
fn verdict(dict: &str, object: &str, run: &[u8], ends: &[u32]) -> Result<Layer, Refusal> {
    let words = &mut vec![BEFORE; WORDS_PER_NAME * ends.len()];
    lichenhusk::lookup_all_into(&hex(dict), &hex(object), run, ends, words)
}

fn names_end(name: u32) -> Result<Layer, Refusal> {
    Err(Refusal::NamesEnd { name })
}

fn found(field: usize, id: u32, start: usize, end: usize) -> Option<Found> {
    Some(Found {
        field,
        id,
        start,
        end,
    })
}

#[test]
fn the_rows_of_p() {
    let (answer, words) = asked(&hex(P), b"rollrolflow", &[4, 7, 11]);
    assert_eq!(answer, lichenhusk::layer(&hex(D), &hex(P)));
    assert_eq!(words[..5], [0, 1, 1, 7, 10]);
    assert_eq!(words[5..10], [1, 0, 0, 0, 0]);
    assert_eq!(words[10..15], [0, 0, 0, 8, 10]);
    assert_eq!(words[15..], [BEFORE; 2]);
}

#[test]
fn names_of_any_kind() {
    let (dict, object) = (hex(D), hex(P));
    let (flow, roll) = (found(0, 0, 8, 10), found(1, 1, 7, 10));
    assert_eq!(
        lichenhusk::lookup_all(&dict, &object, &["flow", "roll"]),
        Ok(vec![flow, roll])
    );
    assert_eq!(
        lichenhusk::lookup_all(&dict, &object, &[b"roll"]),
        Ok(vec![roll])
    );
    let owned = [String::from("rol"), String::from("flow")];
    assert_eq!(
        lichenhusk::lookup_all(&dict, &object, &owned),
        Ok(vec![None, flow])
    );
}

#[test]
fn the_same_name_again() {
    let (_, words) = asked(&hex(P), b"rollrolroll", &[4, 7, 11]);
    assert_eq!(words[..5], [0, 1, 1, 7, 10]);
    assert_eq!(words[10..15], words[..5]);
}

#[test]
fn names_without_bytes() {
    let (answer, words) = asked(&hex(P), b"flow", &[0, 0, 4, 4]);
    assert!(answer.is_ok());
    let rows: Vec<_> = lichenhusk::rows_of(&words).collect();
    assert_eq!(rows, [None, None, found(0, 0, 8, 10), None]);
    let (dict, object) = (hex("11 02 00 00 01 61"), hex("02 02 00 01 00 01 02 00 00"));
    assert_eq!(
        lichenhusk::lookup_all(&dict, &object, &["", "a", ""]),
        Ok(vec![
            found(0, 0, 7, 9),
            found(1, 1, 8, 9),
            found(0, 0, 7, 9)
        ])
    );
}

#[test]
fn names_that_are_no_text() {
    let long = vec![b'f'; LIMIT + 1];
    let names = [&b"\xFF"[..], b"flow", b"\xC3", b"flow\0", &long];
    assert_eq!(
        lichenhusk::lookup_all(&hex(D), &hex(P), &names),
        Ok(vec![None, found(0, 0, 8, 10), None, None, None])
    );
}

#[test]
fn bytes_after_the_last_end() {
    let alone = asked(&hex(P), b"roll", &[4]);
    assert_eq!(asked(&hex(P), b"rollflow", &[4]), alone);
    assert_eq!(asked(&hex(P), b"roll\xFF\xC3", &[4]), alone);
    let (answer, words) = asked(&hex(P), b"roll", &[0]);
    assert!(answer.is_ok());
    assert_eq!(words, [1, 0, 0, 0, 0, BEFORE, BEFORE]);
}

/// Without names it is the layer's verdict, and the words stay.
#[test]
fn no_names() {
    for object in [P, "02 00 00", "", "00", "02 01 02 00 00", "02 01 00 00 00"] {
        let layer = lichenhusk::layer(&hex(D), &hex(object));
        let (answer, words) = asked(&hex(object), b"ignored", &[]);
        assert_eq!(answer, layer);
        assert_eq!(words, [BEFORE; 2]);
        let none: [&str; 0] = [];
        let rows = lichenhusk::lookup_all(&hex(D), &hex(object), &none);
        assert_eq!(rows, layer.map(|_| vec![]));
    }
    assert_eq!(verdict("02", P, b"", &[]), Err(Refusal::DictionaryVersion));
}

#[test]
fn an_end_that_falls() {
    assert_eq!(verdict(D, P, b"flowroll", &[4, 3]), names_end(1));
    assert_eq!(verdict(D, P, b"flowroll", &[4, 8, 0]), names_end(2));
    assert_eq!(verdict(D, P, b"flowroll", &[4, 4]).err(), None);
}

#[test]
fn an_end_that_passes_the_run() {
    assert_eq!(verdict(D, P, b"flowroll", &[4, 9]), names_end(1));
    assert_eq!(verdict(D, P, b"flowroll", &[u32::MAX]), names_end(0));
    assert_eq!(verdict(D, P, b"", &[0, 1]), names_end(1));
    assert_eq!(verdict(D, P, b"flowroll", &[4, 8]).err(), None);
}

/// The first such name is the place, whichever of the two it is, and whatever follows.
#[test]
fn the_first_of_several() {
    assert_eq!(verdict(D, P, b"flowroll", &[4, 2, 9]), names_end(1));
    assert_eq!(verdict(D, P, b"flowroll", &[9, 2, 1]), names_end(0));
    assert_eq!(verdict(D, P, b"flowroll", &[8, 7, 6, 5]), names_end(1));
    let mut ends: Vec<u32> = (0..100).collect();
    ends[60] = 0;
    ends[80] = 101;
    assert_eq!(verdict(D, P, &[b'x'; 99], &ends), names_end(60));
}

#[test]
fn ends_before_the_dictionary_and_the_object() {
    for (dict, object) in [
        ("", P),
        ("02", P),
        (D, ""),
        (D, "00"),
        (D, "02 01 02 00 00"),
        (D, "02 01 00 00 00"),
    ] {
        assert_eq!(verdict(dict, object, b"flow", &[5]), names_end(0));
        assert_eq!(verdict(dict, object, b"flow", &[4, 3]), names_end(1));
        let layer = lichenhusk::layer(&hex(dict), &hex(object));
        assert_eq!(verdict(dict, object, b"flow", &[4]), layer);
    }
}

#[test]
fn too_few_words_come_last() {
    let refusal = |dict: &str, object: &str, ends: &[u32]| {
        let words = &mut [BEFORE; 4];
        let answer = lichenhusk::lookup_all_into(&hex(dict), &hex(object), b"flow", ends, words);
        assert_eq!(words, &[BEFORE; 4]);
        answer.unwrap_err()
    };
    assert_eq!(refusal(D, P, &[5]), Refusal::NamesEnd { name: 0 });
    assert_eq!(refusal("02", P, &[4]), Refusal::DictionaryVersion);
    assert_eq!(refusal(D, "00", &[4]), Refusal::ObjectType);
    let past = Refusal::ObjectOffset { field: 0 };
    assert_eq!(refusal(D, "02 01 00 02 01 00", &[4]), past);
    let empty = Refusal::ObjectChildEmpty { field: 0 };
    assert_eq!(refusal(D, "02 01 00 01 01 00", &[4]), empty);
    assert_eq!(refusal(D, P, &[4]), Refusal::WordsTooFew);
}

/// More names than two bytes count. No limit is set to their number.
#[test]
fn seventy_thousand_names() {
    let names = vec!["roll"; 70_000];
    let rows = lichenhusk::lookup_all(&hex(D), &hex(P), &names);
    assert_eq!(rows, Ok(vec![found(1, 1, 7, 10); 70_000]));
}

/// The first name whose end is no number of 32 bits, before anything is copied.
#[test]
fn names_that_are_too_long_together() {
    let long = vec![b'x'; 1 << 20];
    let refused = |names: &[&[u8]]| lichenhusk::lookup_all(&hex(D), &hex(P), names).unwrap_err();
    let mut names = vec![&long[..]; 4096];
    assert_eq!(refused(&names), Refusal::NamesEnd { name: 4095 });
    names[7] = &long[1..];
    names.extend([&b""[..], b"x", b"y"]);
    assert_eq!(refused(&names), Refusal::NamesEnd { name: 4097 });
}

/// A dictionary and an object of so many fields, each named by its number, with every other
/// number an entry but no field.
fn of_fields(count: u16, sorted: bool) -> (Vec<u8>, Vec<u8>) {
    let mut order: Vec<u16> = (0..2 * count).collect();
    if !sorted {
        order.reverse();
    }
    let header = if sorted { 0x51 } else { 0x41 };
    let mut dict = vec![header];
    dict.extend((2 * count).to_le_bytes());
    dict.extend((0..=2 * count).flat_map(|entry| (4 * entry).to_le_bytes()));
    dict.extend(order.iter().flat_map(|number| named(*number)));
    let mut object = vec![0x16, count as u8];
    let id = |number: u16| order.iter().position(|&other| other == number).unwrap() as u16;
    object.extend((0..count).flat_map(|field| id(2 * field).to_le_bytes()));
    object.extend((0..=count).flat_map(|field| field.to_le_bytes()));
    object.extend((0..count).map(|field| field as u8));
    (dict, object)
}

/// The name of a number: four letters, in the order of the numbers.
fn named(number: u16) -> [u8; 4] {
    [12, 8, 4, 0].map(|shift| b'a' + (number >> shift & 15) as u8)
}

/// Each row is what the single lookup answers, of any number of names, present and absent in turn.
#[test]
fn each_row_is_the_single_lookup() {
    for count in [0, 1, 2, 3, 7, 8, 100, 255] {
        for sorted in [true, false] {
            let (dict, object) = of_fields(count, sorted);
            assert_eq!(
                lichenhusk::layer(&dict, &object).map(|layer| layer.fields),
                Ok(count as usize)
            );
            let names: Vec<_> = (0..2 * count + 2).map(named).collect();
            for some in [&names[..], &names[1..], &names[..1], &names[1..2], &[]] {
                let single = |name: &[u8; 4]| lichenhusk::lookup(&dict, &object, name);
                let singly: Result<Vec<_>, _> = some.iter().map(single).collect();
                assert_eq!(lichenhusk::lookup_all(&dict, &object, some), singly);
            }
            let rows = lichenhusk::lookup_all(&dict, &object, &names).unwrap();
            assert_eq!(rows.iter().flatten().count(), count as usize);
        }
    }
}

#[test]
fn the_children_of_a_message() {
    let (dict, object) = (hex(D), hex(P));
    let message = Message::new(&dict, &object);
    let [roll, rol, flow] = message.children(["roll", "rol", "flow"]).unwrap();
    assert_eq!(roll, Some(&object[7..10]));
    assert_eq!(rol, None);
    assert_eq!(flow, Some(&object[8..10]));
    assert_eq!(flow.map(<[u8]>::as_ptr), Some(object[8..].as_ptr()));
    assert_eq!(message.children::<0>([""; 0]), Ok([]));
}

/// A message is asked as the functions are.
#[test]
fn a_message_is_the_functions() {
    let dict = hex(D);
    for object in [P, "02 01 00 00 01 00", "02 01 00 00 00", "00"] {
        let object = hex(object);
        let message = Message::new(&dict, &object);
        assert_eq!(message.layer(), lichenhusk::layer(&dict, &object));
        assert_eq!(message.list(), lichenhusk::list(&dict, &object));
        for name in ["flow", "roll", "rol"] {
            let bytes = name.as_bytes();
            let child = lichenhusk::child(&dict, &object, bytes);
            assert_eq!(message.child(name), child);
            assert_eq!(message.children([name]), child.map(|child| [child]));
            let lookup = lichenhusk::lookup(&dict, &object, bytes);
            assert_eq!(message.lookup(name), lookup);
            assert_eq!(message.lookup_all(&[name]), lookup.map(|found| vec![found]));
        }
    }
}
