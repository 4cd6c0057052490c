//! Request f): the span of a field is its child's own encoded length, and 43 where it has none.

mod common;

use common::{D, P, hex};
use lichenhusk::{Field, Message, Refusal};

/// Bytes after the header byte, by primitive type. The four of types 15 and 16 are the length of
/// what follows them.
const PAYLOADS: [usize; 21] = [
    0, 0, 0, 1, 2, 4, 8, 8, 5, 9, 17, 4, 8, 8, 4, 4, 4, 8, 8, 8, 16,
];

/// The first type that is not known, and the last that a header byte can say.
const UNKNOWN: std::ops::RangeInclusive<u8> = 21..=63;

fn primitive(kind: u8) -> u8 {
    kind << 2
}

/// An object over D of "flow" and "roll", by their offsets, with such bytes for the children.
fn object(flow: u8, roll: u8, region: &[u8]) -> Vec<u8> {
    let end = u8::try_from(region.len()).expect("few bytes");
    [&[2, 2, 0, 1, flow, roll, end], region].concat()
}

fn list(object: &[u8]) -> Result<Vec<Field<'_>>, Refusal> {
    lichenhusk::list(&hex(D), object)
}

fn no_length<T>(field: u32) -> Result<T, Refusal> {
    Err(Refusal::ChildLength { field })
}

/// The own length of the child that these bytes begin with, where they are the only child's.
fn span(bytes: &[u8]) -> Result<usize, Refusal> {
    let end = u8::try_from(bytes.len()).expect("few bytes");
    let object = [&[2, 1, 0, 0, end], bytes].concat();
    let child = list(&object)?[0].child;
    assert_eq!(child, &bytes[..child.len()]);
    Ok(child.len())
}

/// A value has its length whatever follows it, and none where a byte is missing.
#[track_caller]
fn is_whole(value: &[u8]) {
    assert_eq!(span(value), Ok(value.len()), "{value:02X?}");
    let followed = [value, &[0xFC, 0xFF]].concat();
    assert_eq!(span(&followed), Ok(value.len()), "{value:02X?}");
    for cut in 1..value.len() {
        assert_eq!(span(&value[..cut]), no_length(0), "{cut} of {value:02X?}");
    }
}

#[test]
fn every_primitive_type() {
    for (kind, payload) in (0..).zip(PAYLOADS) {
        let payload = vec![0; payload];
        is_whole(&[&[primitive(kind)], &payload[..]].concat());
    }
}

#[test]
fn no_other_primitive_type() {
    for kind in UNKNOWN {
        for payload in [0, 1, 16, 40] {
            let value = [&[primitive(kind)], &vec![0; payload][..]].concat();
            assert_eq!(span(&value), no_length(0), "{kind}");
        }
    }
}

#[test]
fn types_that_hold_their_length() {
    for kind in [15, 16] {
        for held in [0, 1, 3, 200] {
            let value = [
                &[primitive(kind), held, 0, 0, 0],
                &vec![0xFF; held as usize][..],
            ];
            is_whole(&value.concat());
        }
        for length in [0xFF_u32, 0xFFFF, 0xFFFF_FFFA, 0xFFFF_FFFB, 0xFFFF_FFFF] {
            let value = [&[primitive(kind)], &length.to_le_bytes()[..], &[0; 8]];
            assert_eq!(span(&value.concat()), no_length(0), "{kind} {length}");
        }
    }
}

#[test]
fn short_strings() {
    for length in 0..64 {
        is_whole(&[&[length << 2 | 1], &vec![0xFF; length as usize][..]].concat());
    }
}

#[test]
fn objects() {
    is_whole(&hex(P));
    is_whole(&hex("02 00 00"));
    // Ids and children are not looked at; offsets and ids of two bytes, a count of four.
    is_whole(&hex("02 01 FF 09 02 FC FC"));
    is_whole(&hex("16 01 FF FF 00 00 01 00 FC"));
    is_whole(&hex("42 01 00 00 00 FF 00 01 FC"));
    // A count, and a last offset, with which a sum passes 32 bits.
    assert_eq!(span(&hex("7E FF FF FF FF 00 00 00 00")), no_length(0));
    assert_eq!(span(&hex("0E 00 FF FF FF FF 00 00")), no_length(0));
}

#[test]
fn lists() {
    is_whole(&hex("03 00 00"));
    is_whole(&hex("03 02 00 01 02 04 08"));
    // Elements are not looked at, nor offsets but for the last.
    is_whole(&hex("03 00 02 FC FC"));
    is_whole(&hex("03 02 09 08 01 FC"));
    // Offsets of two bytes, and a count of four, which bit 4 says and bit 6 does not.
    is_whole(&hex("07 01 00 00 01 00 FC"));
    is_whole(&hex("13 01 00 00 00 00 01 FC"));
    is_whole(&hex("43 01 00 01 FC"));
    assert_eq!(span(&hex("1F FF FF FF FF 00 00 00 00")), no_length(0));
    assert_eq!(span(&hex("0F 00 FF FF FF FF 00 00")), no_length(0));
}

/// What document 01's rule charged for: bytes that no child has, and other children.
#[test]
fn bytes_between_children_are_no_childs() {
    let region = hex("0C FB FF FF FF 04 FF");
    let apart = object(0, 5, &region);
    let field = |id, start, child| Field { id, start, child };
    assert_eq!(
        list(&apart),
        Ok(vec![field(0, 7, &[0x0C, 0xFB][..]), field(1, 12, &[0x04])])
    );
    let within = object(0, 1, &region[..2]);
    assert_eq!(list(&within), no_length(1), "FB is a list, and cut");
    let shared = object(0, 0, &region);
    let children = list(&shared).map(|fields| [fields[0].child, fields[1].child]);
    assert_eq!(children, Ok([&region[..2]; 2]));
}

/// The child is measured up to the trimmed end: bytes after it are none of its.
#[test]
fn bytes_after_the_end_are_no_childs() {
    let cut = hex("02 01 00 00 01 0C FB");
    assert_eq!(list(&cut), no_length(0));
}

#[test]
fn the_first_child_without_a_length() {
    let unknown = primitive(21);
    for (region, field) in [
        ([unknown, unknown], 0),
        ([unknown, 0], 0),
        ([0, unknown], 1),
    ] {
        assert_eq!(list(&object(0, 1, &region)), no_length(field));
    }
    // By the fields' order, not by that of the bytes.
    assert_eq!(list(&object(1, 0, &[unknown, unknown])), no_length(0));
    assert_eq!(list(&object(1, 0, &[unknown, 0])), no_length(1));
}

/// 43 is given before 41, and after all that is refused of the layer.
#[test]
fn the_order_of_refusals() {
    let (dict, unknown) = (hex(D), [primitive(21), 0]);
    for room in 0..8 {
        let mut words = vec![7; room];
        let listed = lichenhusk::list_into(&dict, &object(0, 1, &unknown), &mut words);
        assert_eq!(listed, no_length(0));
        assert_eq!(words, vec![7; room]);
    }
    let refused = |object: &[u8]| list(object).unwrap_err();
    let past = Refusal::ObjectOffset { field: 1 };
    assert_eq!(refused(&object(0, 3, &unknown)), past);
    let empty = Refusal::ObjectChildEmpty { field: 1 };
    assert_eq!(refused(&object(0, 2, &unknown)), empty);
    let swapped = [2, 2, 1, 0, 0, 1, 2, unknown[0], 0];
    assert_eq!(refused(&swapped), Refusal::ObjectOrder { field: 1 });
}

/// Only the listing asks for lengths.
#[test]
fn no_other_call_measures_children() {
    let (dict, object) = (hex(D), object(0, 1, &[primitive(21), primitive(21)]));
    let message = Message::new(&dict, &object);
    assert_eq!(message.list(), no_length(0));
    assert_eq!(message.layer().map(|layer| layer.fields), Ok(2));
    assert_eq!(message.lookup("roll").map(|roll| roll.is_some()), Ok(true));
    assert_eq!(message.child("flow"), Ok(Some(&object[7..])));
    let children = message.children(["flow", "roll"]);
    assert_eq!(children, Ok([Some(&object[7..]), Some(&object[8..])]));
}

/// The children live as long as the object; the dictionary may go before.
#[test]
fn children_outlive_the_dictionary() {
    let object = hex(P);
    let fields = list(&object).expect("document 01's");
    assert_eq!(fields[0].child.as_ptr(), object[8..].as_ptr());
    assert_eq!(fields[1].child.as_ptr(), object[7..].as_ptr());
}

#[test]
#[should_panic(expected = "out of range")]
fn words_of_another_object() {
    lichenhusk::fields_of(&hex(P), &[0, 8, 3]).for_each(drop);
}
