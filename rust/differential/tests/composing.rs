//! The parts of the comparison that are of objects to be written: what is due, the inputs, what the
//! builder writes, and shrinking.

use differential::fixed::{self, SORTED};
use differential::pairs::{Due, Pair, Pairs, length};
use differential::random::Random;
use differential::reference::names_of;
use differential::{Input, composing, encode, hex, objects, shrink};
use lichenhusk::LIMIT;
use parquet_variant::{Variant, VariantMetadata};
use std::collections::BTreeSet;
use std::time::Duration;

const PATIENCE: Duration = Duration::from_secs(60);

/// What is due for pairs, in document 02's words: an object, or the first pair of the first number.
#[test]
fn pairs_as_they_are_given() {
    let names: [&[u8]; 4] = [b"b", b"a", b"", b"b"];
    let due = |words: &[u32]| {
        let pairs = Pairs {
            bytes: vec![0x04, 0x0C, 0xFB],
            words: words.to_vec(),
        };
        let due = Due::of(&pairs, &names);
        (due.strip.code, due.strip.place, hex(&due.bytes))
    };
    for (words, object) in [
        (&[][..], "020000"),
        (&[9, 9], "020000"),
        (&[0, 0, 1], "020100000104"),
        (&[0, 0, 1, 1, 1, 3, 2], "02020100000203 0CFB04"),
        (&[2, 0, 3, 3, 1, 2], "02020203000304 040CFB0C"),
    ] {
        assert_eq!(due(words), (0, 0, object.replace(' ', "")), "{words:?}");
    }
    for (words, number, place) in [
        (&[4, 9, 0][..], 25, 0),
        (&[0, 0, 0, 3, 2, 1, 4, 0, 1], 25, 2),
        (&[0, 0, 0, 3, 2, 1], 26, 1),
        (&[0, 0, 0, 1, 2, 1], 45, 1),
        (&[0, 0, 0, 1, 0, 4], 45, 1),
        (&[0, 3, 3, 1, 2, 2], 28, 0),
        (&[0, 4, 4], 45, 0),
    ] {
        assert_eq!(due(words), (number, place, "-".to_string()), "{words:?}");
    }
    let pairs = Pairs::of(&[7; 3], &[[1, 0, 2]]);
    let mut room = [0xEE; 8];
    let strip = Due::of(&pairs, &names).in_room(&mut room);
    assert_eq!((strip.number, strip.start, strip.end), (1, 5, 7));
    assert_eq!(hex(&room), "02010100020707EE");
    let strip = Due::of(&pairs, &names).in_room(&mut room[..6]);
    assert_eq!((strip.code, strip.end), (46, 0));
}

/// Every row of words, and every row of pairs, once for each dictionary.
#[test]
fn each_row_of_words_and_of_pairs_once() {
    let mut rows = BTreeSet::new();
    for length in 0..=4 {
        objects::each_words(length, |input| -> Result<(), ()> {
            let words = input.pairs.as_ref().expect("pairs").words.clone();
            assert!(rows.insert((input.dict.clone(), words)));
            Ok(())
        })
        .unwrap();
    }
    let all: usize = (0..=4).map(|length| 5_usize.pow(length)).sum();
    assert_eq!(rows.len(), 2 * all);
    let mut pairs = BTreeSet::new();
    objects::each_row(|input| -> Result<(), ()> {
        let given = input.pairs.as_ref().expect("pairs");
        assert!(pairs.insert(given.words.clone()));
        Ok(())
    })
    .unwrap();
    let all: usize = (0..=3).map(|length| 25_usize.pow(length)).sum();
    assert_eq!(pairs.len(), all);
}

/// What is generated to be written as objects has every order, children that are shared, and words left
/// over; its damaged copies get every number.
#[test]
fn pairs_to_write_of_every_kind() {
    let mut random = Random::seeded(3);
    let (mut kinds, mut numbers) = (BTreeSet::new(), BTreeSet::new());
    for _ in 0..3_000 {
        let good = objects::good(&mut random);
        let bad = objects::damaged(&mut random, &good);
        let names = names_of(&good.dict);
        let given = good.pairs.as_ref().expect("pairs");
        let fields = given.fields(&names).expect("good pairs");
        let pairs = given.pairs();
        let in_order = pairs.is_sorted_by_key(|[id, ..]| names[*id as usize]);
        let starts: BTreeSet<u32> = pairs.iter().map(|[_, start, _]| *start).collect();
        kinds.insert(("in order", in_order));
        kinds.insert(("shared", starts.len() < pairs.len()));
        kinds.insert(("left over", given.words.len() > 3 * pairs.len()));
        kinds.insert(("many", pairs.len() > 255));
        kinds.insert(("sorted", good.dict[0] & 0x10 > 0));
        kinds.insert(("wide ids", fields.iter().any(|field| field.id > 255)));
        if VariantMetadata::try_new(&bad.dict).is_ok() {
            let due = Due::of(bad.pairs.as_ref().expect("pairs"), &names_of(&bad.dict));
            numbers.insert(due.strip.code);
        } else {
            numbers.insert(10);
        }
    }
    assert_eq!(kinds.len(), 2 * 6, "{kinds:?}");
    assert_eq!(numbers, BTreeSet::from([0, 10, 25, 26, 28, 45]));
}

/// The pairs about the limit make objects of the lengths that they are for.
#[test]
fn objects_about_the_limit() {
    let mut lengths = Vec::new();
    for input in objects::of_length() {
        let names = names_of(&input.dict);
        let pairs = input.pairs.expect("pairs");
        let fields = pairs.fields(&names);
        lengths.push(fields.map(|fields| length(&fields)));
    }
    let three = [LIMIT - 1, LIMIT, LIMIT + 1].map(Ok);
    let others = [Err((28, 1)), Ok(6)];
    let due = [&three[..], &three, &three, &others].concat();
    assert_eq!(lengths, due);
}

/// What the Rust's builder of objects writes: fields by their names, children as they come.
#[test]
fn what_the_builder_of_objects_writes() {
    let metadata = VariantMetadata::try_new(SORTED).unwrap();
    let written = |fields: &[(&str, i8)]| {
        let fields = fields.iter();
        let fields = fields.map(|&(name, number)| (name, Variant::Int8(number)));
        hex(&composing::built(&metadata, fields))
    };
    assert_eq!(written(&[]), "020000");
    let in_order = written(&[("flow", 1), ("roll", 2)]);
    assert_eq!(in_order, "020200010002040C010C02");
    let another = written(&[("roll", 2), ("flow", 1)]);
    assert_eq!(another, "020200010200040C020C01");
}

/// Of many pairs to write, the two that matter are left, over no more names and bytes than they need.
#[test]
fn shrinks_pairs_to_write() {
    let names: Vec<Vec<u8>> = (0..300).map(|n| format!("{n:03}").into_bytes()).collect();
    let dict = encode::dictionary(&names, fixed::shape(2, true));
    let mut pairs: Vec<Pair> = (0..300).map(|id| [id, id, id + 1]).collect();
    pairs.reverse();
    let mut bytes = vec![1; 300];
    bytes[77] = 9;
    let mut given = Pairs::of(&bytes, &pairs);
    given.words.push(5);
    let has_both = |input: &Input| {
        let Some(pairs) = &input.pairs else {
            return false;
        };
        let child = |pair: Pair| pairs.child(pair).unwrap_or_default();
        let is_nine = |pair: &Pair| child(*pair) == [9];
        let names = match VariantMetadata::try_new(&input.dict) {
            Ok(_) => names_of(&input.dict),
            Err(_) => return false,
        };
        let is_named = |[id, ..]: &Pair| names.get(*id as usize) == Some(&&b"200"[..]);
        pairs.pairs().iter().any(is_nine) && pairs.pairs().iter().any(is_named)
    };
    let small = shrink::smallest(Input::pairs(dict, given), PATIENCE, has_both);
    let due = Pairs::of(&[9], &[[1, 0, 0], [0, 0, 1]]);
    let two_names = b"\x41\x02\0\0\0\0\0\x03\x00200";
    assert_eq!(small, Input::pairs(two_names.to_vec(), due));
}
