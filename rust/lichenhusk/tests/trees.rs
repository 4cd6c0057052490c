//! The check of a value with all that is below it: each refusal with its place and start, the levels,
//! and the marks.

mod common;

use common::{D, P, hex, padded};
use lichenhusk::{
    LEVELS, LIMIT, Message, OWN_MARKS, Refusal, STRIP_BYTES, Strip, TreeRefusal, check_tree,
    check_tree_with, raw,
};

/// The own length, or the number, the place and the start of what is refused.
fn told(answer: Result<usize, TreeRefusal>) -> Result<usize, (u32, u32, usize)> {
    let TreeRefusal { refusal, start } = match answer {
        Ok(length) => return Ok(length),
        Err(refused) => refused,
    };
    Err((refusal.number(), refusal.place(), start))
}

/// The answer to a value over document 01's dictionary.
fn of(value: &[u8]) -> Result<usize, (u32, u32, usize)> {
    told(check_tree(&hex(D), value))
}

/// A list of one element.
fn list_of(element: &[u8]) -> Vec<u8> {
    let length = element.len() as u32;
    [&[0x0F, 1, 0, 0, 0, 0], &length.to_le_bytes()[..], element].concat()
}

/// An object of one field, "flow".
fn object_of(child: &[u8]) -> Vec<u8> {
    let length = child.len() as u32;
    [&[0x0E, 1, 0, 0, 0, 0, 0], &length.to_le_bytes()[..], child].concat()
}

/// So many lists in one another about a value; each adds ten bytes before it.
fn lists_about(value: &[u8], levels: usize) -> Vec<u8> {
    (0..levels).fold(value.to_vec(), |inner, _| list_of(&inner))
}

const LIST_HEAD: usize = 10;

/// Trees that are accepted, and their own lengths.
const GOOD: [(&str, usize); 24] = [
    (P, 10),
    ("00", 1),
    ("04", 1),
    ("0C FB", 2),
    ("01", 1),
    ("05 61", 2),
    ("09 C3 A9", 3),
    ("40 02 00 00 00 C3 A9", 7),
    ("02 00 00", 3),
    ("03 00 00", 3),
    ("03 01 00 01 00", 5),
    // Bytes after a value's own are ignored: of the whole, of an object's child, of an element.
    ("00 FF", 1),
    ("03 00 00 05 FF", 3),
    ("02 01 00 00 03 00 05 FF", 8),
    ("03 01 00 03 00 05 FF", 7),
    // What a binary, a decimal, a date says is not judged.
    ("3C 01 00 00 00 FF", 6),
    ("20 FF FF FF FF FF", 6),
    ("2C FF FF FF 7F", 5),
    ("30 FF FF FF FF FF FF FF 7F", 9),
    ("44 FF FF FF FF FF FF FF FF", 9),
    // A list's first offset may be above 0, of one without elements too.
    ("03 01 01 02 FF 00", 6),
    ("03 00 01 FF", 4),
    // Two fields share a child; a field's child stands inside another's.
    ("02 02 00 01 00 00 01 00", 8),
    ("02 02 00 01 00 04 05 03 01 00 01 00", 12),
];

#[test]
fn good_trees() {
    for (value, length) in GOOD {
        assert_eq!(of(&hex(value)), Ok(length), "{value}");
    }
}

/// Trees that are refused: number, place, and where the value starts.
const BAD: [(&str, u32, u32, usize); 47] = [
    ("", 50, 0, 0),
    ("0C", 50, 0, 0),
    ("05", 50, 0, 0),
    ("40 00 00 00", 50, 0, 0),
    ("40 02 00 00 00 61", 50, 0, 0),
    ("3C FF FF FF FF", 50, 0, 0),
    ("54", 51, 0, 0),
    ("FC", 51, 0, 0),
    ("05 FF", 54, 0, 0),
    ("05 C3", 54, 0, 0),
    ("40 01 00 00 00 80", 54, 0, 0),
    ("02", 23, 0, 0),
    ("02 01 00 00 01", 23, 0, 0),
    ("42 FF FF FF FF", 24, 0, 0),
    ("02 01 02 00 01 00", 25, 0, 0),
    ("02 02 01 00 00 00 01 00", 26, 1, 0),
    ("02 01 00 02 01 00", 27, 0, 0),
    ("02 01 00 00 00", 28, 0, 0),
    ("03", 60, 0, 0),
    ("13 00 00 00", 60, 0, 0),
    ("03 01 00", 60, 0, 0),
    ("03 01 00 02 00", 60, 0, 0),
    ("13 F9 FF FF FF", 60, 0, 0),
    ("13 FA FF FF FF", 61, 0, 0),
    ("17 FF FF FF 7F", 61, 0, 0),
    ("1F FE FF FF 3F", 61, 0, 0),
    ("0F 00 F7 FF FF FF", 60, 0, 0),
    ("0F 00 FA FF FF FF", 61, 0, 0),
    ("03 02 00 02 01 00 00", 62, 1, 0),
    ("03 01 02 01 00 00", 62, 0, 0),
    // Above the region's length, though not above the next, which is too.
    ("03 03 00 02 03 01 00 00 00", 62, 1, 0),
    ("03 02 02 02 01 00", 62, 0, 0),
    // An element of no bytes; a list's own checks come first.
    ("03 01 00 00", 50, 0, 4),
    ("03 02 00 00 01 00", 50, 0, 5),
    ("03 02 00 01 01 00", 50, 0, 6),
    ("03 03 00 00 02 01 00 00", 62, 2, 0),
    // In a list, in an object: the start is that of the value that is refused.
    ("03 01 00 02 05 FF", 54, 0, 4),
    ("03 02 00 01 02 00 54", 51, 0, 6),
    ("02 01 00 00 05 03 01 00 01 54", 51, 0, 9),
    ("02 01 00 00 06 02 01 02 00 01 00", 25, 0, 5),
    ("02 01 00 00 08 02 02 01 00 00 00 01 00", 26, 1, 5),
    ("03 01 00 05 02 01 00 00 00", 28, 0, 4),
    ("03 01 00 06 02 01 00 02 01 00", 27, 0, 4),
    ("02 01 00 00 07 03 02 00 02 01 00 00", 62, 1, 5),
    // A layer's own checks come before its children, and these in the order of the fields.
    ("02 02 01 00 00 00 01 54", 26, 1, 0),
    ("02 02 00 01 00 01 03 54 05 FF", 51, 0, 7),
    ("02 02 00 01 01 00 03 54 05 FF", 54, 0, 8),
];

#[test]
fn bad_trees() {
    for (value, number, place, start) in BAD {
        assert_eq!(of(&hex(value)), Err((number, place, start)), "{value}");
    }
}

/// Every number that a tree may get from its value is among them, but for those of length and depth.
#[test]
fn every_number_is_met() {
    let met = |number: u32| BAD.iter().any(|&(_, met, ..)| met == number);
    let numbers = (23..=28).chain([50, 51, 54]).chain(60..=62);
    assert!(numbers.into_iter().all(met));
}

/// What is refused of a nested value is refused of it alone, with 0 for the start.
#[test]
fn nested_as_alone() {
    for (value, number, place, start) in BAD.into_iter().filter(|row| !row.0.is_empty()) {
        let value = hex(value);
        for levels in [1, 2, 31] {
            let tree = lists_about(&value, levels);
            let start = LIST_HEAD * levels + start;
            let deep = of(&tree);
            if levels < 31 || start == LIST_HEAD * levels {
                assert_eq!(deep, Err((number, place, start)), "{tree:02X?}");
            }
        }
        let object = object_of(&value);
        assert_eq!(
            of(&object),
            Err((number, place, 11 + start)),
            "{object:02X?}"
        );
    }
}

/// Document 01's refusals of a dictionary come before all that is refused of the value, with the
/// start 0.
#[test]
fn the_dictionary_first() {
    for (dict, number, place) in [
        ("", 11, 0),
        ("10 00 00", 12, 0),
        ("41 00 00 00", 13, 0),
        ("C1 FF FF FF FF", 14, 0),
        ("01 00 01 61", 15, 0),
        ("01 01 00 04 61 62 ED A0", 16, 2),
        ("01 03 00 01 02 03 61 C3 A9", 17, 1),
        ("11 03 00 01 02 03 61 62 61", 18, 2),
        ("01 01 00 05 61 62 F0 90 80", 19, 2),
    ] {
        let over_limit = vec![0; LIMIT + 1];
        for value in [
            &hex(P)[..],
            &[],
            &[0x54],
            &hex("03 01 00 01 54"),
            &over_limit,
        ] {
            let answer = check_tree(&hex(dict), value);
            assert_eq!(told(answer), Err((number, place, 0)), "{dict}");
            assert!(answer.unwrap_err().is_of_dictionary());
        }
    }
    let dict = padded(D, LIMIT + 1);
    assert_eq!(told(check_tree(&dict, &[])), Err((10, 0, 0)));
}

/// 20 comes before what the value says; 16 MiB are read, bytes after the value's own among them.
#[test]
fn limits_of_length() {
    let mut value = vec![0x54; LIMIT + 1];
    assert_eq!(of(&value), Err((20, 0, 0)));
    assert_eq!(of(&value[..LIMIT]), Err((51, 0, 0)));
    value[0] = 0;
    assert_eq!(of(&value), Err((20, 0, 0)));
    assert_eq!(of(&value[..LIMIT]), Ok(1));
    // A binary of all bytes, as a list's element.
    let payload = (LIMIT - LIST_HEAD - 5) as u32;
    let binary = [
        &[0x3C][..],
        &payload.to_le_bytes(),
        &value[..payload as usize],
    ]
    .concat();
    let list = list_of(&binary);
    assert_eq!((list.len(), of(&list)), (LIMIT, Ok(LIMIT)));
    let text = [&[0x40][..], &binary[1..]].concat();
    assert_eq!(of(&list_of(&text)), Ok(LIMIT));
    let cut = &list_of(&text)[..LIMIT - 1];
    assert_eq!(of(cut), Err((60, 0, 0)));
}

/// 32 containers about a leaf are fine, and one about nothing; 33 are not, at the innermost's start.
#[test]
fn levels() {
    for leaf in ["00", "0C FB", "05 61"] {
        let tree = lists_about(&hex(leaf), LEVELS);
        assert_eq!(of(&tree), Ok(tree.len()));
    }
    for container in ["02 00 00", "03 00 00", P] {
        let deepest = lists_about(&hex(container), LEVELS - 1);
        assert_eq!(of(&deepest), Ok(deepest.len()), "{container}");
        let deeper = list_of(&deepest);
        let start = LIST_HEAD * LEVELS;
        assert_eq!(of(&deeper), Err((52, 0, start)), "{container}");
    }
    let objects = (0..LEVELS).fold(vec![0], |inner, _| object_of(&inner));
    assert_eq!(of(&objects), Ok(objects.len()));
    assert_eq!(of(&object_of(&objects)), Err((52, 0, 11 * LEVELS)));
}

/// 52 needs the first byte alone: it comes before the container's own checks, and no bytes are 50.
#[test]
fn at_the_deepest() {
    let start = LIST_HEAD * LEVELS;
    for (value, number) in [
        ("02", 52),
        ("03", 52),
        ("03 02 00 02 01 00 00", 52),
        ("", 50),
        ("54", 51),
        ("05 FF", 54),
        ("0C", 50),
    ] {
        let tree = lists_about(&hex(value), LEVELS);
        assert_eq!(of(&tree), Err((number, 0, start)), "{value}");
    }
}

/// What is good where fewer levels are above it is looked at again where there are more: the first
/// field's child is a part of the second's, which stands a level deeper there.
#[test]
fn met_again_deeper() {
    let shared = lists_about(&[0], LEVELS - 1);
    let child = list_of(&shared);
    let length = child.len() as u16;
    let [low, high] = length.to_le_bytes();
    let head = [0x06, 2, 0, 1, LIST_HEAD as u8, 0, 0, 0, low, high];
    let object = [&head[..], &child].concat();
    let start = head.len() + LIST_HEAD * (LEVELS - 1);
    assert_eq!(of(&object), Err((52, 0, start)));
    // In the other order it is met there first.
    let head = [0x06, 2, 0, 1, 0, 0, LIST_HEAD as u8, 0, low, high];
    assert_eq!(of(&[&head[..], &child].concat()), Err((52, 0, start)));
    let head = [0x06, 1, 0, LIST_HEAD as u8, 0, low, high];
    let alone = [&head[..], &child].concat();
    assert_eq!(of(&alone), Ok(alone.len()));
}

/// What is good with more bytes at hand is looked at again where there are fewer: a short string that
/// a field's child is by itself, and that an element has not all of.
#[test]
fn met_again_with_fewer_bytes() {
    let list = [0x03, 1, 0, 1, 0x05, 0x61];
    let head = [0x02, 2, 0, 1, 4, 0, 6];
    let object = [&head[..], &list].concat();
    assert_eq!(of(&object), Err((50, 0, 7 + 4)));
    let head = [0x02, 1, 0, 4, 6];
    assert_eq!(of(&[&head[..], &list].concat()), Ok(11));
}

/// Texts inside texts: each is judged by itself, whatever was found of another that it lies in.
#[test]
fn texts_in_texts() {
    // The region is a string of four bytes: a short string of two, a character of two.
    let region = [0x11, 0x09, 0x61, 0xC3, 0xA9];
    let object = |first: u8, second: u8| {
        let head = [0x02, 2, 0, 1, first, second, region.len() as u8];
        of(&[&head[..], &region].concat())
    };
    assert_eq!(object(0, 0), Ok(12));
    // From the second byte on: "a" and the first byte of the character.
    assert_eq!(object(0, 1), Err((54, 0, 8)));
    assert_eq!(object(1, 0), Err((54, 0, 8)));
}

/// What marks may hold before a call.
const HELD: [u8; 5] = [0, 1, 2, 33, 255];

/// The answer is the same whatever marks are lent, and they are 0 afterwards.
#[test]
fn marks() {
    let values = GOOD.iter().map(|row| hex(row.0));
    let values = values.chain(BAD.iter().map(|row| hex(row.0)));
    let deep = [LEVELS, LEVELS + 1].map(|levels| lists_about(&[0], levels));
    for value in values.chain(deep) {
        let answer = check_tree(&hex(D), &value);
        for count in [0, 1, value.len(), OWN_MARKS, OWN_MARKS + 1] {
            for held in HELD {
                let mut marks = vec![held; count];
                let with = check_tree_with(&hex(D), &value, &mut marks);
                assert_eq!(with, answer, "{count} marks of {held}");
                assert!(marks.iter().all(|&mark| mark == 0), "{count} of {held}");
            }
        }
    }
}

/// The same under a refusal of the dictionary, and of the length.
#[test]
fn marks_under_a_refusal() {
    let over_limit = vec![0; LIMIT + 1];
    for (dict, value) in [(&[][..], &[0][..]), (&hex(D), &over_limit)] {
        for count in [3, OWN_MARKS + 1] {
            let mut marks = vec![7; count];
            assert!(check_tree_with(dict, value, &mut marks).is_err());
            assert!(marks.iter().all(|&mark| mark == 0));
        }
    }
}

/// A larger value, with marks of fewer starts than it has and of all: its answer, and marks of 0.
#[test]
fn marks_of_a_larger_value() {
    let shared = [0x03, 2, 0, 1, 2, 0, 4];
    let count = 40_000_u32;
    let mut offsets = Vec::new();
    (0..=count).for_each(|k| offsets.extend((7 * k).to_le_bytes()));
    let good = [
        &[0x1F][..],
        &count.to_le_bytes(),
        &offsets,
        &shared.repeat(count as usize),
    ];
    let good = good.concat();
    let mut bad = good.clone();
    let last = good.len() - 1;
    bad[last] = 0x54;
    assert!(good.len() > 2 * OWN_MARKS);
    for (value, answer) in [(&good, Ok(good.len())), (&bad, Err((51, 0, last)))] {
        assert_eq!(of(value), answer);
        for count in [0, OWN_MARKS, OWN_MARKS + 1, value.len(), value.len() + 9] {
            let mut marks = vec![9; count];
            let with = check_tree_with(&hex(D), value, &mut marks);
            assert_eq!(told(with), answer, "{count}");
            assert!(marks.iter().all(|&mark| mark == 0), "{count}");
        }
    }
}

/// 31 levels of two fields that share a child: 2 to the 31st ways to the leaf.
#[test]
fn shared_children() {
    let mut tree = vec![0];
    for _ in 0..31 {
        let [low, high] = (tree.len() as u16).to_le_bytes();
        tree = [&[0x06, 2, 0, 1, 0, 0, 0, 0, low, high], &tree[..]].concat();
    }
    assert_eq!((tree.len(), of(&tree)), (311, Ok(311)));
    *tree.last_mut().unwrap() = 0x54;
    assert_eq!(of(&tree), Err((51, 0, 310)));
}

/// 40: nothing is written below 24 bytes of strip, to the marks neither.
#[test]
fn a_strip_that_is_too_short() {
    for length in 0..STRIP_BYTES {
        let (mut strip, mut marks) = (vec![7; length], [7; 5]);
        assert_eq!(raw::tree(&hex(D), &hex(P), &mut marks, &mut strip), 40);
        assert_eq!((strip, marks), (vec![7; length], [7; 5]));
    }
}

/// The whole strip, and bytes after it.
#[test]
fn the_strip() {
    let mut bytes = [7; STRIP_BYTES + 2];
    let strip = |value: &[u8], bytes: &mut [u8; STRIP_BYTES + 2]| {
        let code = raw::tree(&hex(D), value, &mut [], bytes);
        assert_eq!(bytes[STRIP_BYTES..], [7, 7]);
        let strip = Strip::read(bytes.first_chunk().unwrap());
        assert_eq!(strip.code, code);
        [
            strip.code,
            strip.number,
            strip.id,
            strip.start,
            strip.end,
            strip.place,
        ]
    };
    assert_eq!(strip(&hex(P), &mut bytes), [0, 0, 0, 0, 10, 0]);
    let nested = hex("02 01 00 00 08 02 02 01 00 00 00 01 00");
    assert_eq!(strip(&nested, &mut bytes), [26, 0, 0, 5, 0, 1]);
    assert_eq!(strip(&[], &mut bytes), [50, 0, 0, 0, 0, 0]);
}

/// The words, with the start where it is a value that is refused, and the refusal alone.
#[test]
fn words() {
    let dict = hex(D);
    let refused = check_tree(&dict, &hex("03 01 00 02 05 FF")).unwrap_err();
    assert_eq!(
        refused.to_string(),
        "refused 54 at 0: the value is a string that is not UTF-8 (the value starts at 4)"
    );
    assert_eq!(Refusal::from(refused), Refusal::ValueNotUtf8);
    let of_dictionary = check_tree(&[], &[]).unwrap_err();
    assert_eq!(
        of_dictionary.to_string(),
        "refused 11 at 0: the dictionary has no bytes"
    );
    let error: Box<dyn std::error::Error> = Box::new(refused);
    assert!(error.to_string().starts_with("refused 54"));
    assert_eq!(Message::new(&dict, &hex(P)).check_tree(), Ok(10));
}
