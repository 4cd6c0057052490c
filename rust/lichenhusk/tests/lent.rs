//! What is written to lent memory, and what stays, by the raw calls.

mod common;

use common::{D, P, hex};
use lichenhusk::{LIMIT, STRIP_BYTES, Strip, raw};

/// What a strip holds before a call, so that a byte that was not written shows.
const BEFORE: u8 = 0xEE;

/// An object over D whose second child has no bytes.
const CHILD_EMPTY: &str = "02 02 00 01 00 01 01 00";

/// An object over D whose second child is of no known type.
const CHILD_UNKNOWN: &str = "02 02 00 01 00 01 02 00 FC";

/// A call that fills a strip, and its name for messages.
type Call = (&'static str, fn(&mut [u8]) -> u32);

/// Each call that fills a strip, on bytes that are accepted.
fn calls() -> [Call; 13] {
    [
        ("lookup", |strip| {
            raw::lookup(&hex(D), &hex(P), b"roll", strip)
        }),
        ("dictionary", |strip| raw::dictionary(&hex(D), strip)),
        ("name", |strip| raw::name(&hex(D), 1, strip)),
        ("layer", |strip| raw::layer(&hex(D), &hex(P), strip)),
        ("list", |strip| {
            raw::list(&hex(D), &hex(P), &mut [0; 6], strip)
        }),
        ("lookup_all", |strip| {
            raw::lookup_all(&hex(D), &hex(P), b"roll", &[4], &mut [0; 5], strip)
        }),
        ("value", |strip| raw::value(&[0x0C, 0xFB], strip)),
        ("tree", |strip| {
            raw::tree(&hex(D), &hex(P), &mut [7; 3], strip)
        }),
        ("path", |strip| {
            let (names, words) = (&mut [7; 4], &mut [7; 3]);
            raw::path(&hex(D), &hex(P), b"roll", names, words, strip)
        }),
        ("write_dictionary", |strip| {
            let (order, spare, room) = (&mut [7; 2], &mut [7; 2], &mut [7; 14]);
            raw::write_dictionary(b"rollflow", &[4, 8], order, spare, room, strip)
        }),
        ("write_object", |strip| {
            let (order, spare, room) = (&mut [7; 2], &mut [7; 2], &mut [7; 14]);
            let pairs = [1, 0, 1, 0, 0, 1];
            raw::write_object(&hex(D), &[4], &pairs, order, spare, room, strip)
        }),
        ("begin", |strip| raw::begin(strip)),
        ("feed", |strip| {
            raw::begin(strip);
            raw::feed(&mut [7; 13], &hex(D), strip)
        }),
    ]
}

/// Each call that fills a strip, on bytes that are refused.
fn refused_calls() -> [Call; 12] {
    [
        ("lookup", |strip| raw::lookup(&[2], &hex(P), b"roll", strip)),
        ("dictionary", |strip| raw::dictionary(&[2], strip)),
        ("name", |strip| raw::name(&[2], 1, strip)),
        ("layer", |strip| raw::layer(&[2], &hex(P), strip)),
        ("list", |strip| raw::list(&[2], &hex(P), &mut [0; 6], strip)),
        ("lookup_all", |strip| {
            raw::lookup_all(&[2], &hex(P), b"roll", &[4], &mut [0; 5], strip)
        }),
        ("value", |strip| raw::value(&[0xFC], strip)),
        ("tree", |strip| raw::tree(&[2], &hex(P), &mut [7; 3], strip)),
        ("path", |strip| {
            let (names, words) = (&mut [7; 4], &mut [7; 3]);
            raw::path(&[2], &hex(P), b"roll", names, words, strip)
        }),
        ("write_dictionary", |strip| {
            let (order, spare, room) = (&mut [7; 1], &mut [7; 1], &mut [7; 14]);
            raw::write_dictionary(b"\xFF", &[1], order, spare, room, strip)
        }),
        ("write_object", |strip| {
            let (order, spare, room) = (&mut [7; 1], &mut [7; 1], &mut [7; 14]);
            raw::write_object(&hex(D), &[4], &[2, 0, 1], order, spare, room, strip)
        }),
        ("feed", |strip| {
            raw::begin(strip);
            raw::feed(&mut [7; 13], &[2], strip)
        }),
    ]
}

#[test]
fn a_short_strip_is_refused_first_and_left() {
    for (name, call) in calls().into_iter().chain(refused_calls()) {
        for length in 0..STRIP_BYTES {
            let mut strip = vec![BEFORE; length];
            assert_eq!(call(&mut strip), 40, "{name}");
            assert_eq!(strip, vec![BEFORE; length], "{name}");
        }
    }
}

#[test]
fn a_short_strip_leaves_the_words() {
    let mut words = [7; 6];
    assert_eq!(
        raw::list(&hex(D), &hex(P), &mut words, &mut [0; STRIP_BYTES - 1]),
        40
    );
    assert_eq!(words, [7; 6]);
    for ends in [&[4][..], &[5], &[]] {
        let strip = &mut [0; STRIP_BYTES - 1];
        let code = raw::lookup_all(&hex(D), &hex(P), b"roll", ends, &mut words, strip);
        assert_eq!(code, 40);
        assert_eq!(words, [7; 6]);
    }
}

#[test]
fn bytes_after_the_strip_stay() {
    for (name, call) in calls().into_iter().chain(refused_calls()) {
        for length in [STRIP_BYTES, STRIP_BYTES + 1, STRIP_BYTES + 4, 40] {
            let mut strip = vec![BEFORE; length];
            let code = call(&mut strip);
            assert_eq!(strip[..4], code.to_le_bytes(), "{name}");
            assert!(
                strip[STRIP_BYTES..].iter().all(|&byte| byte == BEFORE),
                "{name}"
            );
        }
    }
}

/// The six words of a call's answer, from a strip that held something else.
fn words_of(call: fn(&mut [u8]) -> u32) -> [u32; 6] {
    let mut bytes = [BEFORE; STRIP_BYTES];
    let code = call(&mut bytes);
    let strip = Strip::read(&bytes);
    assert_eq!(strip.code, code);
    [
        strip.code,
        strip.number,
        strip.id,
        strip.start,
        strip.end,
        strip.place,
    ]
}

#[test]
fn every_word_of_each_answer() {
    let answers = [
        [0, 1, 1, 7, 10, 0],
        [0, 2, 0, 0, 13, 0],
        [0, 0, 0, 9, 13, 0],
        [0, 2, 0, 7, 10, 0],
        [0, 2, 0, 7, 10, 0],
        [0, 2, 0, 7, 10, 0],
        [0, 3, 0, -5_i32 as u32, -1_i32 as u32, 0],
        [0, 0, 0, 0, 10, 0],
        [0, 1, 1, 7, 10, 0],
        [0, 2, 0, 0, 13, 0],
        [0, 2, 0, 7, 9, 0],
        [3, 0, 0, 0, 1, 0],
        [0, 2, 0, 0, 13, 0],
    ];
    for ((name, call), answer) in calls().into_iter().zip(answers) {
        assert_eq!(words_of(call), answer, "{name}");
    }
    let numbers = [12, 12, 12, 12, 12, 12, 51, 12, 12, 45, 25, 12];
    for ((name, call), number) in refused_calls().into_iter().zip(numbers) {
        assert_eq!(words_of(call), [number, 0, 0, 0, 0, 0], "{name}");
    }
}

#[test]
fn every_word_of_absence_and_of_a_placed_refusal() {
    assert_eq!(
        words_of(|strip| raw::lookup(&hex(D), &hex(P), b"rol", strip)),
        [1, 0, 0, 0, 0, 0]
    );
    assert_eq!(
        words_of(|strip| raw::lookup(&hex(D), &hex("02 02 01 00 00 00 00"), b"flow", strip)),
        [26, 0, 0, 0, 0, 1]
    );
    assert_eq!(
        words_of(|strip| raw::lookup(&hex(D), &hex(CHILD_EMPTY), b"flow", strip)),
        [28, 0, 0, 0, 0, 1]
    );
    assert_eq!(
        words_of(|strip| raw::name(&hex(D), 2, strip)),
        [31, 0, 0, 0, 0, 0]
    );
    assert_eq!(
        words_of(|strip| raw::list(&hex(D), &hex(P), &mut [0; 5], strip)),
        [41, 0, 0, 0, 0, 0]
    );
    assert_eq!(
        words_of(|strip| raw::list(&hex(D), &hex(CHILD_UNKNOWN), &mut [0; 6], strip)),
        [43, 0, 0, 0, 0, 1]
    );
    assert_eq!(
        words_of(|strip| raw::lookup_all(&hex(D), &hex(P), b"a", &[1], &mut [0; 4], strip)),
        [41, 0, 0, 0, 0, 0]
    );
    assert_eq!(
        words_of(|strip| raw::lookup_all(&hex(D), &hex(P), b"a", &[1, 0], &mut [0; 10], strip)),
        [45, 0, 0, 0, 0, 1]
    );
}

#[test]
fn words_after_the_listing_stay() {
    let mut words = [7; 9];
    let mut strip = [0; STRIP_BYTES];
    assert_eq!(raw::list(&hex(D), &hex(P), &mut words, &mut strip), 0);
    assert_eq!(words, [0, 8, 2, 1, 7, 1, 7, 7, 7]);
}

#[test]
fn words_after_the_rows_stay() {
    let mut words = [7; 13];
    let mut strip = [0; STRIP_BYTES];
    let (dict, object, run) = (hex(D), hex(P), b"rolroll");
    assert_eq!(
        raw::lookup_all(&dict, &object, run, &[3, 7], &mut words, &mut strip),
        0
    );
    assert_eq!(words, [1, 0, 0, 0, 0, 0, 1, 1, 7, 10, 7, 7, 7]);
}

/// Every kind of refusal: of the dictionary, the object, a child and the room.
#[test]
fn a_refusal_leaves_the_words_of_a_listing() {
    let refused = |number, dict: &[u8], object: &[u8], room| {
        let mut words = vec![7; room];
        let code = raw::list(dict, object, &mut words, &mut [0; STRIP_BYTES]);
        assert_eq!(code, number);
        assert_eq!(words, vec![7; room], "{number}");
    };
    let (dict, object) = (hex(D), hex(P));
    refused(12, &[2], &object, 6);
    refused(22, &dict, &[0], 6);
    refused(28, &dict, &hex(CHILD_EMPTY), 6);
    for room in [0, 3, 5, 6, 9] {
        refused(43, &dict, &hex(CHILD_UNKNOWN), room);
    }
    refused(41, &dict, &object, 5);
}

/// Every kind of refusal: of the ends, the dictionary, the object and the room.
#[test]
fn a_refusal_leaves_the_words() {
    let refused = |number, dict: &[u8], object: &[u8], ends: &[u32], room| {
        let mut words = vec![7; room];
        let mut strip = [0; STRIP_BYTES];
        let code = raw::lookup_all(dict, object, b"roll", ends, &mut words, &mut strip);
        assert_eq!(code, number);
        assert_eq!(words, vec![7; room], "{number}");
    };
    let (dict, object) = (hex(D), hex(P));
    refused(45, &dict, &object, &[5], 5);
    refused(45, &dict, &object, &[4, 3], 10);
    refused(12, &[2], &object, &[4], 5);
    refused(22, &dict, &[0], &[4], 5);
    refused(28, &dict, &hex(CHILD_EMPTY), &[4], 5);
    refused(41, &dict, &object, &[4], 4);
}

#[test]
fn the_empty_dictionary() {
    for length in 3..6 {
        let mut room = vec![BEFORE; length];
        assert_eq!(raw::empty(&mut room), 0);
        assert_eq!(room[..3], [1, 0, 0]);
        assert!(room[3..].iter().all(|&byte| byte == BEFORE));
        let dictionary = lichenhusk::dictionary(&room).unwrap();
        assert_eq!((dictionary.entries, dictionary.end), (0, 3));
    }
}

/// Empty slices of every kind: Rust's pointers to them are not null, and the calls take them.
#[test]
fn empty_slices() {
    let mut strip = [0; STRIP_BYTES];
    assert_eq!(raw::lookup(&[], &[], &[], &mut strip), 11);
    assert_eq!(raw::layer(&hex(D), &[], &mut strip), 21);
    assert_eq!(raw::lookup(&hex(D), &hex(P), &[], &mut strip), 1);
    assert_eq!(raw::list(&hex(D), &hex("02 00 00"), &mut [], &mut strip), 0);
    assert_eq!(raw::lookup_all(&[], &[], &[], &[], &mut [], &mut strip), 11);
    assert_eq!(
        raw::lookup_all(&hex(D), &hex(P), &[], &[], &mut [], &mut strip),
        0
    );
    assert_eq!(raw::value(&[], &mut strip), 50);
    let no_room = raw::write_dictionary(&[], &[], &mut [], &mut [], &mut [], &mut strip);
    assert_eq!(no_room, 46);
    assert_eq!(raw::dictionary(&[], &mut []), 40);
    assert_eq!(raw::value(&[], &mut []), 40);
    assert_eq!(raw::begin(&mut strip), 3);
    assert_eq!(raw::feed(&mut [], &[], &mut strip), 3);
    assert_eq!(raw::feed(&mut [], &[], &mut []), 40);
    assert_eq!(raw::empty(&mut []), 42);
}

/// A query of any bytes is a query, and finds an empty name too.
#[test]
fn queries_of_any_bytes() {
    let dict = hex("11 02 00 00 01 61");
    let object = hex("02 02 00 01 00 01 02 00 00");
    let field = |name: &[u8]| lichenhusk::lookup(&dict, &object, name).map(|f| f.map(|f| f.field));
    assert_eq!(field(b""), Ok(Some(0)));
    assert_eq!(field(b"a"), Ok(Some(1)));
    assert_eq!(field(b"a\0"), Ok(None));
    assert_eq!(field(b"\xFF"), Ok(None));
    assert_eq!(field(&vec![b'a'; LIMIT + 1]), Ok(None));
}
