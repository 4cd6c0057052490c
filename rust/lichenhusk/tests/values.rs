//! Request g): a value is read as a number, or as the place of its bytes; 50 and 51, and nothing
//! else, are refused.

mod common;

use common::{D, P, hex};
use lichenhusk::{Field, Kind, Message, Refusal, STRIP_BYTES, Strip, Value, raw, value};

/// What is appended to a value to see that it changes nothing.
const AFTER: [&[u8]; 3] = [&[0x00], &[0xFC, 0xFF], &[0xFF; 20]];

/// The primitive types that are numbers: their own, and the bytes of each.
const INTEGERS: [(u8, usize); 4] = [(3, 1), (4, 2), (5, 4), (6, 8)];
const DOUBLE: u8 = 7;
const FLOAT: u8 = 14;

/// The primitive types of which the payload is given, and its bytes.
const PAYLOADS: [(Kind, usize); 10] = [
    (Kind::Decimal4, 5),
    (Kind::Decimal8, 9),
    (Kind::Decimal16, 17),
    (Kind::Date, 4),
    (Kind::Timestamp, 8),
    (Kind::TimestampNtz, 8),
    (Kind::TimeNtz, 8),
    (Kind::TimestampNanos, 8),
    (Kind::TimestampNtzNanos, 8),
    (Kind::Uuid, 16),
];

/// The two that hold the length of what follows.
const HELD: [Kind; 2] = [Kind::Binary, Kind::String];

/// The first type that is not known, and the last that a header byte can say.
const UNKNOWN: std::ops::RangeInclusive<u8> = 21..=63;

/// A primitive of a type's number and a payload.
fn primitive(kind: u8, payload: &[u8]) -> Vec<u8> {
    [&[kind << 2], payload].concat()
}

/// A primitive of a kind, whose payload is no two alike bytes.
fn of_kind(kind: Kind, length: usize) -> Vec<u8> {
    let payload: Vec<u8> = (0xF1..=0xFF).chain(0x01..).take(length).collect();
    primitive(kind.number() as u8, &payload)
}

/// A binary or a string of some bytes.
fn held(kind: Kind, bytes: &[u8]) -> Vec<u8> {
    let length = u32::try_from(bytes.len()).expect("few bytes");
    primitive(
        kind.number() as u8,
        &[&length.to_le_bytes(), bytes].concat(),
    )
}

/// The six words for a value, from a strip that held something else.
fn words(bytes: &[u8]) -> [u32; 6] {
    let mut strip = [0xEE; STRIP_BYTES];
    let code = raw::value(bytes, &mut strip);
    let strip = Strip::read(&strip);
    assert_eq!(strip.code, code);
    let Strip {
        number,
        id,
        start,
        end,
        place,
        ..
    } = strip;
    [code, number, id, start, end, place]
}

/// The value has these two numbers beside its kind, whatever follows it, and 50 where a byte is
/// missing.
#[track_caller]
fn reads(bytes: &[u8], kind: u32, [low, high]: [u32; 2]) {
    let due = [0, kind, 0, low, high, 0];
    assert_eq!(words(bytes), due, "{bytes:02X?}");
    for after in AFTER {
        assert_eq!(words(&[bytes, after].concat()), due, "{bytes:02X?}");
    }
    for cut in 0..bytes.len() {
        assert_eq!(words(&bytes[..cut]), short(), "{cut} of {bytes:02X?}");
    }
}

/// The same for the 64 bits of a number.
#[track_caller]
fn reads_bits(bytes: &[u8], kind: u8, bits: u64) {
    reads(bytes, kind.into(), [bits as u32, (bits >> 32) as u32]);
}

/// The same for a place.
#[track_caller]
fn reads_place(bytes: &[u8], kind: Kind, start: usize) {
    reads(bytes, kind.number(), [start as u32, bytes.len() as u32]);
    let longer = [bytes, &[0xFF]].concat();
    let place = &longer[start..bytes.len()];
    match value(&longer) {
        Ok(Value::Bytes { kind: read, bytes }) => {
            assert_eq!((read, bytes), (kind, place));
            assert_eq!(bytes.as_ptr(), place.as_ptr());
        }
        other => panic!("{other:?} of {longer:02X?}"),
    }
}

fn short() -> [u32; 6] {
    [50, 0, 0, 0, 0, 0]
}

#[test]
fn nulls_and_truth_values() {
    for (kind, due) in [
        (0, Value::Null),
        (1, Value::Bool(true)),
        (2, Value::Bool(false)),
    ] {
        let bytes = primitive(kind, &[]);
        reads_bits(&bytes, kind, 0);
        assert_eq!(value(&bytes), Ok(due));
    }
}

/// The least, the greatest and the numbers about 0 of each width, and one of which no two bytes are
/// alike, for their order.
#[test]
fn integers_at_their_extremes() {
    for (kind, width) in INTEGERS {
        let greatest = i64::MAX >> (64 - 8 * width);
        for number in [
            0,
            1,
            -1,
            -5,
            greatest,
            greatest - 1,
            -greatest,
            -greatest - 1,
            0x0102_0304_0506_0788 & greatest,
            0x7F6E_5D4C_3B2A_1908 & greatest,
        ] {
            let bytes = primitive(kind, &number.to_le_bytes()[..width]);
            reads_bits(&bytes, kind, number as u64);
            assert_eq!(value(&bytes).map(Value::integer), Ok(Some(number)));
        }
    }
}

#[test]
fn integers_keep_their_width() {
    assert_eq!(value(&hex("0C FB")), Ok(Value::I8(-5)));
    assert_eq!(value(&hex("0C 80")), Ok(Value::I8(i8::MIN)));
    assert_eq!(value(&hex("0C 7F")), Ok(Value::I8(i8::MAX)));
    assert_eq!(value(&hex("10 FB 00")), Ok(Value::I16(251)));
    assert_eq!(value(&hex("10 00 80")), Ok(Value::I16(i16::MIN)));
    assert_eq!(value(&hex("10 FF 7F")), Ok(Value::I16(i16::MAX)));
    assert_eq!(value(&hex("14 FB FF FF FF")), Ok(Value::I32(-5)));
    assert_eq!(value(&hex("14 00 00 00 80")), Ok(Value::I32(i32::MIN)));
    assert_eq!(value(&hex("14 FF FF FF 7F")), Ok(Value::I32(i32::MAX)));
    let least = hex("18 00 00 00 00 00 00 00 80");
    assert_eq!(value(&least), Ok(Value::I64(i64::MIN)));
    let greatest = hex("18 FF FF FF FF FF FF FF 7F");
    assert_eq!(value(&greatest), Ok(Value::I64(i64::MAX)));
    let above = hex("18 FF FF FF FF 00 00 00 00");
    assert_eq!(value(&above), Ok(Value::I64(0xFFFF_FFFF)));
}

/// A null, a truth value, a float and a place are no integers, whatever their bits are.
#[test]
fn what_is_no_integer() {
    for bytes in ["00", "04", "38 01 00 00 00", "2C 01 00 00 00", "05 61", P] {
        let value = value(&hex(bytes)).map(|value| value.integer());
        assert_eq!(value, Ok(None), "{bytes}");
    }
}

#[test]
fn every_integer_of_one_and_two_bytes() {
    for number in i8::MIN..=i8::MAX {
        let bytes = primitive(3, &number.to_le_bytes());
        assert_eq!(value(&bytes), Ok(Value::I8(number)));
    }
    for number in i16::MIN..=i16::MAX {
        let bytes = primitive(4, &number.to_le_bytes());
        assert_eq!(value(&bytes), Ok(Value::I16(number)));
    }
}

/// The bits of floats of so many bits, as many of them as the fraction has: both zeros, the
/// infinities, the least and the greatest of the subnormal and of the normal, and what is not a
/// number: quiet and signalling, with each bit of its payload alone and with all of them.
fn floats(bits: u32, fraction: u32) -> Vec<u64> {
    let sign = 1 << (bits - 1);
    let infinity = (sign - 1) >> fraction << fraction;
    let least_normal = 1 << fraction;
    let payloads = (0..fraction).map(|bit| infinity | 1 << bit);
    let others = [
        0,
        1,
        least_normal - 1,
        least_normal,
        infinity - 1,
        infinity,
        infinity | (least_normal - 1),
        infinity | least_normal >> 1 | 1,
        (infinity >> 1) & !(least_normal - 1),
        0x0102_0304_0506_0708 & (sign - 1),
    ];
    let plain: Vec<u64> = payloads.chain(others).collect();
    let negative: Vec<u64> = plain.iter().map(|bits| bits | sign).collect();
    [plain, negative].concat()
}

#[test]
fn doubles_keep_their_bits() {
    let all = floats(64, 52);
    let nans = all.iter().filter(|&&bits| f64::from_bits(bits).is_nan());
    assert_eq!(nans.count(), 2 * (52 + 2));
    for bits in all {
        let bytes = primitive(DOUBLE, &bits.to_le_bytes());
        reads_bits(&bytes, DOUBLE, bits);
        match value(&bytes) {
            Ok(Value::F64(float)) => assert_eq!(float.to_bits(), bits),
            other => panic!("{other:?} of {bytes:02X?}"),
        }
    }
}

#[test]
fn floats_keep_their_bits() {
    let all = floats(32, 23).into_iter().map(|bits| bits as u32);
    let nans = all.clone().filter(|&bits| f32::from_bits(bits).is_nan());
    assert_eq!(nans.count(), 2 * (23 + 2));
    for bits in all {
        let bytes = primitive(FLOAT, &bits.to_le_bytes());
        reads_bits(&bytes, FLOAT, bits.into());
        match value(&bytes) {
            Ok(Value::F32(float)) => assert_eq!(float.to_bits(), bits),
            other => panic!("{other:?} of {bytes:02X?}"),
        }
    }
}

#[test]
fn floats_of_plain_numbers() {
    for float in [0.0, -0.0, 1.5, -2.25e-300, f64::INFINITY, f64::MIN_POSITIVE] {
        let bytes = primitive(DOUBLE, &f64::to_le_bytes(float));
        assert_eq!(value(&bytes), Ok(Value::F64(float)));
    }
    for float in [0.0, -0.0, 1.5, -2.25e-30, f32::NEG_INFINITY, f32::MAX] {
        let bytes = primitive(FLOAT, &f32::to_le_bytes(float));
        assert_eq!(value(&bytes), Ok(Value::F32(float)));
    }
}

#[test]
fn places_of_payloads() {
    for (kind, length) in PAYLOADS {
        reads_place(&of_kind(kind, length), kind, 1);
    }
}

#[test]
fn places_after_a_length() {
    for kind in HELD {
        for length in [0, 1, 5, 300] {
            reads_place(&held(kind, &vec![0xFF; length]), kind, 5);
        }
    }
}

#[test]
fn places_of_short_strings() {
    for length in 0..64 {
        let bytes = [&[length << 2 | 1], &vec![0xFF; length as usize][..]].concat();
        reads_place(&bytes, Kind::ShortString, 1);
    }
}

/// The whole encoding, of which nothing but the length is looked at.
#[test]
fn places_of_objects_and_lists() {
    for object in [
        P,
        "02 00 00",
        "02 01 FF 09 02 FC FC",
        "16 01 FF FF 00 00 01 00 FC",
        "42 01 00 00 00 FF 00 01 FC",
    ] {
        reads_place(&hex(object), Kind::Object, 0);
    }
    for list in [
        "03 00 00",
        "03 02 00 01 02 04 08",
        "03 00 02 FC FC",
        "07 01 00 00 01 00 FC",
        "13 01 00 00 00 00 01 FC",
        "43 01 00 01 FC",
    ] {
        reads_place(&hex(list), Kind::List, 0);
    }
}

/// Longer than a dictionary or an object may be.
#[test]
fn there_is_no_limit_of_length() {
    let length = lichenhusk::LIMIT + 1;
    let bytes = held(Kind::Binary, &vec![0; length]);
    let end = (5 + length) as u32;
    assert_eq!(words(&bytes), [0, 15, 0, 5, end, 0]);
    assert_eq!(words(&bytes[..bytes.len() - 1]), short());
}

/// What the Rust refuses of texts, dates, times and decimals is none of ours.
#[test]
fn what_the_bytes_say_is_not_looked_at() {
    for (value, kind, start) in [
        ("05 80", Kind::ShortString, 1),
        ("40 01 00 00 00 FF", Kind::String, 5),
        ("20 FF FF FF FF FF", Kind::Decimal4, 1),
        ("2C FF FF FF 7F", Kind::Date, 1),
        ("44 FF FF FF FF FF FF FF FF", Kind::TimeNtz, 1),
        ("03 00 01 00", Kind::List, 0),
        ("02 01 00 00 00", Kind::Object, 0),
    ] {
        reads_place(&hex(value), kind, start);
    }
}

#[test]
fn no_other_primitive_type() {
    for kind in UNKNOWN {
        for payload in [0, 1, 16, 40] {
            let bytes = primitive(kind, &vec![0; payload]);
            assert_eq!(words(&bytes), [51, 0, 0, 0, 0, 0], "{kind}");
            assert_eq!(value(&bytes), Err(Refusal::ValueType), "{kind}");
        }
    }
}

#[test]
fn lengths_that_pass_the_bytes_or_32_bits() {
    for bytes in [
        "",
        "3C FF FF FF FF 00",
        "3C FA FF FF FF 00",
        "40 FB FF FF FF 00",
        "40 00 00 00",
        "FD 00",
        "02",
        "02 01 00 00",
        "0E 00 FF FF FF FF 00 00",
        "7E FF FF FF FF 00 00 00 00",
        "03 00",
        "0F 00 FF FF FF FF 00 00",
        "1F FF FF FF FF 00 00 00 00",
    ] {
        assert_eq!(words(&hex(bytes)), short(), "{bytes}");
        assert_eq!(value(&hex(bytes)), Err(Refusal::ValueShort), "{bytes}");
    }
}

/// The short way: a name that is there, one that is not, and what is refused of each.
#[test]
fn found_and_read() {
    let (dict, object) = (hex(D), hex(P));
    let find = |name: &[u8]| lichenhusk::find(&dict, &object, name);
    assert_eq!(
        find(b"flow").and_then(|flow| flow.value()),
        Ok(Some(Value::I8(-5)))
    );
    assert_eq!(
        find(b"roll").and_then(|roll| roll.value()),
        Ok(Some(Value::Bool(true)))
    );
    assert_eq!(find(b"rol").and_then(|rol| rol.value()), Ok(None));
    assert_eq!(
        find(b"roll").map(|roll| roll.bytes()),
        Ok(Some(&object[7..]))
    );
    assert_eq!(find(b"rol").map(|rol| rol.bytes()), Ok(None));
    let refused = lichenhusk::find(&dict, &[0], b"flow");
    assert_eq!(refused, Err(Refusal::ObjectType));
}

/// A child that goes on past the trimmed end is found, and not read: bytes after the end are none
/// of its.
#[test]
fn found_and_not_read() {
    let dict = hex(D);
    for (object, refusal) in [
        ("02 01 00 00 01 0C FB", Refusal::ValueShort),
        ("02 01 00 00 01 54 FB", Refusal::ValueType),
    ] {
        let object = hex(object);
        let flow = lichenhusk::find(&dict, &object, b"flow").expect("a good layer");
        assert_eq!(flow.bytes(), Some(&object[5..6]));
        assert_eq!(flow.value(), Err(refusal));
        let message = Message::new(&dict, &object);
        assert_eq!(message.value("flow"), Err(refusal));
        assert_eq!(message.value("roll"), Ok(None));
    }
}

/// What was read lives as long as the object; the dictionary and the name may go before.
#[test]
fn values_outlive_the_dictionary() {
    let object = hex("02 01 00 00 03 09 61 62");
    let text = {
        let (dict, name) = (hex(D), String::from("flow"));
        let found = lichenhusk::find(&dict, &object, name.as_bytes()).expect("a good object");
        found.value().expect("a good value")
    };
    let Some(Value::Bytes { bytes, .. }) = text else {
        panic!("a short string: {text:?}");
    };
    assert_eq!(bytes.as_ptr(), object[6..].as_ptr());
    assert_eq!(bytes, b"ab");
}

#[test]
fn listed_and_read() {
    let (dict, object) = (hex(D), hex(P));
    let fields = lichenhusk::list(&dict, &object).expect("document 01's");
    let values: Vec<_> = fields.into_iter().map(Field::value).collect();
    assert_eq!(values, [Ok(Value::I8(-5)), Ok(Value::Bool(true))]);
}

/// Every kind has its number, and no other number has one.
#[test]
fn kinds_and_numbers_match() {
    let numbers: Vec<u32> = (0..1000)
        .filter(|&number| Kind::of(number).is_some())
        .collect();
    let all: Vec<u32> = (8..=13).chain(15..=20).chain(257..=259).collect();
    assert_eq!(numbers, all);
    for number in all {
        assert_eq!(Kind::of(number).map(Kind::number), Some(number));
    }
}
