//! Document 01's worked cases, all of them, in its order, with those of document 02's requests.

mod common;

use common::{D, P, hex, padded};
use lichenhusk::{Dictionary, Field, Found, LIMIT, Layer, Refusal, STRIP_BYTES, Value, raw};

fn dictionary(text: &str) -> Result<Dictionary, Refusal> {
    lichenhusk::dictionary(&hex(text))
}

fn accepted(entries: usize, end: usize) -> Result<Dictionary, Refusal> {
    Ok(Dictionary { entries, end })
}

fn layer(object: &str) -> Result<Layer, Refusal> {
    lichenhusk::layer(&hex(D), &hex(object))
}

fn lookup(object: &str, name: &str) -> Result<Option<Found>, Refusal> {
    lichenhusk::lookup(&hex(D), &hex(object), name.as_bytes())
}

fn found(field: usize, id: u32, start: usize, end: usize) -> Result<Option<Found>, Refusal> {
    Ok(Some(Found {
        field,
        id,
        start,
        end,
    }))
}

#[test]
fn dictionaries_without_names() {
    assert_eq!(dictionary("01 00 00"), accepted(0, 3));
    assert_eq!(dictionary("01 00"), Err(Refusal::DictionaryShort));
    assert_eq!(dictionary("02 00 00"), Err(Refusal::DictionaryVersion));
}

#[test]
fn dictionaries_of_huge_counts() {
    assert_eq!(dictionary("C1 FD FF FF 3F"), Err(Refusal::DictionaryShort));
    assert_eq!(
        dictionary("C1 FE FF FF 3F"),
        Err(Refusal::DictionaryOverflow)
    );
}

#[test]
fn dictionaries_of_bad_names() {
    assert_eq!(dictionary("01 00 01"), Err(Refusal::DictionaryFirstOffset));
    assert_eq!(
        dictionary("01 01 00 01 FF"),
        Err(Refusal::DictionaryNotUtf8 { prefix: 0 })
    );
    assert_eq!(
        dictionary("01 01 00 01 C3"),
        Err(Refusal::DictionaryTextCut { prefix: 0 })
    );
    assert_eq!(
        dictionary("01 02 00 01 02 C3 A9"),
        Err(Refusal::DictionaryEntry { entry: 0 })
    );
    assert_eq!(
        dictionary("01 03 00 02 01 02 61 62"),
        Err(Refusal::DictionaryEntry { entry: 1 })
    );
}

#[test]
fn dictionaries_sorted_and_not() {
    assert_eq!(
        dictionary("11 02 00 01 02 61 61"),
        Err(Refusal::DictionaryOrder { entry: 1 })
    );
    assert_eq!(dictionary("01 02 00 01 02 61 61"), accepted(2, 7));
    assert_eq!(dictionary("11 02 00 00 01 61"), accepted(2, 6));
    let names = hex("11 02 00 00 01 61");
    assert_eq!(lichenhusk::name(&names, 0), Ok(&b""[..]));
    assert_eq!(lichenhusk::name(&names, 1), Ok(&b"a"[..]));
}

#[test]
fn the_names_of_d() {
    let dict = hex(D);
    assert_eq!(lichenhusk::dictionary(&dict), accepted(2, 13));
    assert_eq!(lichenhusk::name(&dict, 0), Ok(&b"flow"[..]));
    assert_eq!(lichenhusk::name(&dict, 1), Ok(&b"roll"[..]));
}

#[test]
fn the_fields_of_p() {
    assert_eq!(
        layer(P),
        Ok(Layer {
            fields: 2,
            region: 7,
            end: 10
        })
    );
    assert_eq!(lookup(P, "flow"), found(0, 0, 8, 10));
    assert_eq!(lookup(P, "roll"), found(1, 1, 7, 10));
    assert_eq!(lookup(P, "rol"), Ok(None));
}

#[test]
fn the_children_of_p() {
    let (dict, object) = (hex(D), hex(P));
    let child = |name: &[u8]| lichenhusk::child(&dict, &object, name);
    assert_eq!(child(b"flow"), Ok(Some(&object[8..10])));
    assert_eq!(child(b"roll"), Ok(Some(&object[7..10])));
    assert_eq!(child(b"rol"), Ok(None));
}

/// Request g): an eight-bit FB is minus five, and roll's 04 is true, whatever follows it.
#[test]
fn the_values_of_p() {
    let (dict, object) = (hex(D), hex(P));
    let value = |name: &[u8]| lichenhusk::find(&dict, &object, name)?.value();
    assert_eq!(value(b"flow"), Ok(Some(Value::I8(-5))));
    assert_eq!(value(b"roll"), Ok(Some(Value::Bool(true))));
    assert_eq!(value(b"rol"), Ok(None));
    let mut strip = [0xEE; STRIP_BYTES];
    assert_eq!(raw::value(&hex("0C FB"), &mut strip), 0);
    let whole = "00 00 00 00 03 00 00 00 00 00 00 00 FB FF FF FF FF FF FF FF 00 00 00 00";
    assert_eq!(strip, hex(whole)[..]);
}

#[test]
fn the_listing_of_p() {
    let mut words = [0; 6];
    lichenhusk::list_into(&hex(D), &hex(P), &mut words).unwrap();
    assert_eq!(words, [0, 8, 2, 1, 7, 1]);
    let field = |id, start, child| Field { id, start, child };
    assert_eq!(
        lichenhusk::list(&hex(D), &hex(P)),
        Ok(vec![field(0, 8, &[0x0C, 0xFB]), field(1, 7, &[0x04])])
    );
}

#[test]
fn the_strip_for_roll() {
    let mut strip = [0xEE; STRIP_BYTES];
    assert_eq!(raw::lookup(&hex(D), &hex(P), b"roll", &mut strip), 0);
    let whole = "00 00 00 00 01 00 00 00 01 00 00 00 07 00 00 00 0A 00 00 00 00 00 00 00";
    assert_eq!(strip, hex(whole)[..]);
}

/// The id is the field's own entry: not its number, and not the first entry of that name.
#[test]
fn ids_that_are_not_the_field() {
    assert_eq!(lookup("02 01 01 00 01 0C", "roll"), found(0, 1, 5, 6));
    assert_eq!(lookup("02 01 01 00 01 0C", "flow"), Ok(None));
    let (b_and_a, object) = (
        hex("01 02 00 01 02 62 61"),
        hex("02 02 01 00 00 01 02 FB FC"),
    );
    assert_eq!(
        lichenhusk::lookup(&b_and_a, &object, b"a"),
        found(0, 1, 7, 9)
    );
    assert_eq!(
        lichenhusk::lookup(&b_and_a, &object, b"b"),
        found(1, 0, 8, 9)
    );
    let (a_twice, second) = (hex("01 02 00 01 02 61 61"), hex("02 01 01 00 01 00"));
    assert_eq!(
        lichenhusk::lookup(&a_twice, &second, b"a"),
        found(0, 1, 5, 6)
    );
}

#[test]
fn p_cut_and_lengthened() {
    let object = hex(P);
    let cut = &object[..object.len() - 1];
    assert_eq!(lichenhusk::layer(&hex(D), cut), Err(Refusal::ObjectShort));
    for byte in 0..=255 {
        let mut longer = object.clone();
        longer.push(byte);
        assert_eq!(lichenhusk::layer(&hex(D), &longer), layer(P));
        for name in [&b"flow"[..], b"roll", b"rol"] {
            assert_eq!(
                lichenhusk::lookup(&hex(D), &longer, name),
                lichenhusk::lookup(&hex(D), &object, name)
            );
        }
        assert_eq!(
            lichenhusk::list(&hex(D), &longer),
            lichenhusk::list(&hex(D), &object)
        );
    }
}

#[test]
fn small_objects() {
    assert_eq!(layer("00"), Err(Refusal::ObjectType));
    assert_eq!(
        layer("02 00 00"),
        Ok(Layer {
            fields: 0,
            region: 3,
            end: 3
        })
    );
    let object = hex("02 01 00 00 01 00");
    assert_eq!(lookup("02 01 00 00 01 00", "flow"), found(0, 0, 5, 6));
    let child = lichenhusk::child(&hex(D), &object, b"flow").unwrap();
    let child = child.expect("a child of one byte is a child");
    assert_eq!(child, [0]);
    assert_eq!(child.as_ptr(), object[5..].as_ptr());
}

fn child_empty<T>(field: u32) -> Result<T, Refusal> {
    Err(Refusal::ObjectChildEmpty { field })
}

/// Request e): such an object is refused whichever name is asked for, and no child is handed back.
#[test]
fn children_of_no_bytes() {
    for object in ["02 01 00 00 00", "02 01 00 01 01 00"] {
        assert_eq!(layer(object), child_empty(0));
        let bytes = hex(object);
        for name in ["flow", "roll", "rol"] {
            assert_eq!(lookup(object, name), child_empty(0));
            let child = lichenhusk::child(&hex(D), &bytes, name.as_bytes());
            assert_eq!(child, child_empty(0));
        }
    }
}

/// Of 27 and 28 the first field's is given, whichever of the two it is.
#[test]
fn children_of_no_bytes_field_by_field() {
    let past = |field| Err(Refusal::ObjectOffset { field });
    let both = |first: u8, second: u8| {
        let object = [2, 2, 0, 1, first, second, 1, 0];
        lichenhusk::layer(&hex(D), &object).map(|layer| layer.fields)
    };
    assert_eq!(both(1, 2), child_empty(0));
    assert_eq!(both(2, 1), past(0));
    assert_eq!(both(0, 1), child_empty(1));
    assert_eq!(both(1, 0), child_empty(0));
    assert_eq!(both(1, 1), child_empty(0));
    assert_eq!(both(0, 2), past(1));
    assert_eq!(both(2, 0), past(0));
    assert_eq!(both(2, 2), past(0));
    assert_eq!(both(0, 0), Ok(2), "two fields share a child of one byte");
}

/// Ids and names of all fields are looked at before any offset.
#[test]
fn children_of_no_bytes_after_ids_and_names() {
    assert_eq!(
        layer("02 02 00 02 01 00 01 00"),
        Err(Refusal::ObjectId { field: 1 })
    );
    assert_eq!(
        layer("02 02 01 00 01 00 01 00"),
        Err(Refusal::ObjectOrder { field: 1 })
    );
}

/// An end in the middle of the bytes: what comes after it is no byte of a child.
#[test]
fn children_of_no_bytes_before_other_bytes() {
    assert_eq!(layer("02 01 00 00 00 0C FB"), child_empty(0));
    assert_eq!(layer("02 01 00 01 01 00 0C FB"), child_empty(0));
}

#[test]
fn objects_of_bad_ids() {
    assert_eq!(layer("02 01 02 00 00"), Err(Refusal::ObjectId { field: 0 }));
    assert_eq!(
        layer("02 02 01 00 00 00 00"),
        Err(Refusal::ObjectOrder { field: 1 })
    );
    assert_eq!(
        layer("02 02 00 00 00 00 00"),
        Err(Refusal::ObjectOrder { field: 1 })
    );
}

#[test]
fn objects_of_offsets_at_the_end() {
    assert_eq!(lookup("02 01 00 01 02 00 00", "flow"), found(0, 0, 6, 7));
    assert_eq!(
        layer("02 01 00 02 01 00"),
        Err(Refusal::ObjectOffset { field: 0 })
    );
}

#[test]
fn objects_of_huge_counts() {
    assert_eq!(layer("7E FE FF FF 1F"), Err(Refusal::ObjectShort));
    assert_eq!(layer("7E FF FF FF 1F"), Err(Refusal::ObjectOverflow));
}

#[test]
fn the_longest_dictionary() {
    let dict = padded(D, LIMIT);
    assert_eq!(lichenhusk::dictionary(&dict), accepted(2, 13));
    let longer = padded(D, LIMIT + 1);
    assert_eq!(
        lichenhusk::dictionary(&longer),
        Err(Refusal::DictionaryTooLong)
    );
}

#[test]
fn the_longest_object() {
    let object = padded(P, LIMIT);
    assert_eq!(lichenhusk::layer(&hex(D), &object), layer(P));
    let longer = padded(P, LIMIT + 1);
    assert_eq!(
        lichenhusk::layer(&hex(D), &longer),
        Err(Refusal::ObjectTooLong)
    );
}
