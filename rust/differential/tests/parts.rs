//! The comparison's own parts: enumeration, shrinking, positions, lengths, and copies that tell
//! places.

use differential::compare::bad_offsets;
use differential::encode::{self, DictionaryShape, ObjectShape};
use differential::exhaustive::each;
use differential::given::{Given, set_of};
use differential::lengths::{FEW, Told, Values};
use differential::long_names::beginnings;
use differential::many::bad_ends;
use differential::original::{layer_number, traced, traced_start};
use differential::ours::{Archive, Reader, accepted, refused};
use differential::random::Random;
use differential::reading::{DictionaryParts, ObjectParts, PAYLOADS, Unmeasured, own_length};
use differential::reference::Tree;
use differential::spelling::{Spelling, Step, names_of, words_of};
use differential::tally::Tally;
use differential::tree::{children as children_of, visits};
use differential::values::{Readings, place};
use differential::writing::{built, dictionary_of};
use differential::{
    Input, LARGE, children, damage, extremes, fixed, generate, hex, large, otherwise, paths, sets,
    shrink, trees,
};
use indexmap::{IndexMap, IndexSet};
use lichenhusk::LIMIT;
use parquet_variant::{Variant, VariantMetadata, VariantObject};
use std::collections::BTreeSet;
use std::hash::{Hash, Hasher};
use std::time::Duration;

#[test]
fn each_string_once_in_order() {
    let mut seen = Vec::new();
    each(3, b"xy", b"012", |bytes| -> Result<(), ()> {
        seen.push(bytes.to_vec());
        Ok(())
    })
    .unwrap();
    assert_eq!(seen.len(), 2 * 3 * 3);
    assert_eq!(seen[0], b"x00");
    assert_eq!(seen[17], b"y22");
    assert!(seen.is_sorted());
    seen.dedup();
    assert_eq!(seen.len(), 18);
}

/// First bytes C2 to F4; of the longer characters, also with a second byte in its range; of the
/// longest, also with a third.
#[test]
fn each_beginning_of_a_character() {
    let all = beginnings();
    let of_length = |length| all.iter().filter(|bytes| bytes.len() == length).count();
    let twos = [32, 12 * 64, 32, 2 * 64].iter().sum::<usize>();
    let fours = [48, 3 * 64, 16].iter().sum::<usize>();
    assert_eq!(of_length(1), 0xF4 - 0xC2 + 1);
    assert_eq!(of_length(2), twos + fours);
    assert_eq!(of_length(3), 64 * fours);
    assert_eq!(all.len(), 51 + 1_216 + 16_384);
}

#[test]
fn the_empty_string_too() {
    let mut count = 0;
    each(0, b"x", b"y", |bytes| -> Result<(), ()> {
        assert!(bytes.is_empty());
        count += 1;
        Ok(())
    })
    .unwrap();
    assert_eq!(count, 1);
}

/// More than it takes.
const PATIENCE: Duration = Duration::from_secs(60);

/// Of many entries and fields, one is left with its name and its child: what counts the others goes
/// with them. (Of the object's header, the Rust does not ask that it says object.)
#[test]
fn shrinks_what_is_large() {
    let object = fixed::object_shape(3, 4, true);
    let input = fixed::all_fields(&fixed::numbered(70_000), fixed::shape(3, true), object);
    let has_field = |input: &Input| {
        let metadata = VariantMetadata::try_new(&input.dict).ok();
        let object = input.object.as_deref().unwrap_or_default();
        let theirs = metadata.and_then(|metadata| VariantObject::try_new(metadata, object).ok());
        theirs.is_some_and(|theirs| theirs.get("00ffff").is_some())
    };
    let small = shrink::smallest(input, PATIENCE, has_field);
    let dict = encode::dictionary(&[b"00ffff".to_vec()], fixed::shape(3, false));
    let mut object = encode::object(&[0], &[0, 1], &[0], object);
    object[0] &= !3;
    assert_eq!(small, Input::object(dict, object));
}

#[test]
fn shrinks_to_what_matters() {
    let input = Input {
        dict: b"many bytes and a Z between".to_vec(),
        object: Some(vec![9; 100]),
        query: Some(vec![1, 2, 3]),
        ..Input::default()
    };
    let has_z = |input: &Input| input.dict.contains(&b'Z') && input.object.is_some();
    let small = shrink::smallest(input, PATIENCE, has_z);
    assert_eq!(small, Input::object(b"Z".to_vec(), vec![]));
}

#[test]
fn positions_of_every_width() {
    let names = [b"ab".to_vec(), b"".to_vec(), b"c".to_vec()];
    for width in 1..=4 {
        let shape = DictionaryShape {
            width,
            sorted: false,
            spare: true,
        };
        let dict = encode::dictionary(&names, shape);
        let parts = DictionaryParts::of(&dict).unwrap();
        let offsets: Vec<_> = (0..4).map(|k| parts.offsets.number(&dict, k)).collect();
        assert_eq!(offsets, [Some(0), Some(2), Some(2), Some(3)]);
        assert_eq!(parts.region(&dict), Some(&b"abc"[..]));
        assert_eq!(parts.region(&dict[..dict.len() - 1]), None);
        let theirs = VariantMetadata::try_new(&dict).unwrap();
        assert_eq!(theirs.iter().collect::<Vec<_>>(), ["ab", "", "c"]);
    }
}

/// Objects of every header over a dictionary, with the children where the Rust reads them.
#[test]
fn traced_copies_of_every_shape() {
    let metadata = VariantMetadata::try_new(fixed::SORTED).unwrap();
    for header in 0..32 {
        let shape = ObjectShape {
            id_width: header % 4 + 1,
            offset_width: header / 4 % 4 + 1,
            long_count: header >= 16,
            spare: header % 3 == 0,
        };
        // The children are of an unknown type, which the Rust refuses.
        let object = encode::object(&[0, 1], &[1, 2, 3], &[0xFC; 3], shape);
        assert!(VariantObject::try_new(metadata.clone(), &object).is_err());
        let region = ObjectParts::of(&object).unwrap().offsets.end();
        let copy = traced(&object).unwrap();
        let theirs = VariantObject::try_new(metadata.clone(), &copy).unwrap();
        let start = |name| traced_start(&theirs.get(name).unwrap(), &copy);
        assert_eq!(start("flow"), Some(region + 1));
        assert_eq!(start("roll"), Some(region + 2));
    }
}

/// An object of two fields over document 01's dictionary, with a region of one byte.
fn of_offsets(offsets: [usize; 2], child: u8) -> Vec<u8> {
    let offsets = [offsets[0], offsets[1], 1];
    encode::object(
        &[0, 1],
        &offsets,
        &[child],
        fixed::object_shape(1, 1, false),
    )
}

/// Offsets of two fields, and what is due: 27 past the region, 28 at its end.
const BAD_OFFSETS: [([usize; 2], u32, u32); 7] = [
    ([1, 0], 28, 0),
    ([0, 1], 28, 1),
    ([1, 1], 28, 0),
    ([1, 2], 28, 0),
    ([2, 1], 27, 0),
    ([2, 2], 27, 0),
    ([0, 2], 27, 1),
];

/// Field by field, and ours is the first.
#[test]
fn offsets_that_leave_no_bytes() {
    for (offsets, number, field) in BAD_OFFSETS {
        let object = of_offsets(offsets, 0);
        let due = refused(number, field);
        assert_eq!(bad_offsets(&object).next(), Some(due), "{offsets:?}");
        assert_eq!(Archive.layer(fixed::SORTED, &object), due, "{offsets:?}");
    }
    let numbers = |offsets| bad_offsets(&of_offsets(offsets, 0)).collect::<Vec<_>>();
    assert_eq!(numbers([0, 0]), []);
    assert_eq!(numbers([1, 2]), [refused(28, 0), refused(27, 1)]);
    assert_eq!(bad_offsets(&[2, 1, 0]).count(), 0, "what is cut has none");
}

/// The Rust refuses them, too; of a copy, in words that tell which of the two it is, though the
/// child before is of an unknown type.
#[test]
fn traced_copies_without_bytes() {
    let metadata = VariantMetadata::try_new(fixed::SORTED).unwrap();
    for (offsets, number, _) in BAD_OFFSETS {
        let object = of_offsets(offsets, 0xFC);
        assert!(VariantObject::try_new(metadata.clone(), &object).is_err());
        let copy = traced(&object).unwrap();
        let error = VariantObject::try_new(metadata.clone(), &copy).unwrap_err();
        assert_eq!(layer_number(&error), Some(number), "{offsets:?}");
    }
}

#[test]
fn no_traced_copy_of_what_is_cut() {
    assert_eq!(traced(&[]), None);
    assert_eq!(traced(&[2]), None);
    assert_eq!(traced(&fixed::OBJECT[..9]), None);
    assert!(traced(fixed::OBJECT).is_some());
}

/// The generator keeps its word: most of its inputs are accepted, in every shape, and the same
/// seed gives the same.
#[test]
fn good_inputs_of_every_shape() {
    let mut random = Random::seeded(3);
    let mut again = Random::seeded(3);
    let mut headers = std::collections::BTreeSet::new();
    let mut accepted = 0;
    for _ in 0..6000 {
        let input = generate::good(&mut random);
        assert_eq!(input, generate::good(&mut again));
        let object = input.object.unwrap();
        let metadata = VariantMetadata::try_new(&input.dict).expect("a good dictionary");
        headers.insert((input.dict[0] & 0xD0, object[0] & 0x7C));
        accepted += usize::from(VariantObject::try_new(metadata, &object).is_ok());
    }
    assert_eq!(headers.len(), 4 * 2 * 4 * 4 * 2);
    assert!(accepted > 3000, "{accepted}");
}

/// So do larger messages: each has a large part, and most are accepted.
#[test]
fn larger_messages() {
    let mut random = Random::seeded(3);
    let mut again = Random::seeded(3);
    let mut parts = std::collections::BTreeSet::new();
    let mut accepted = 0;
    for _ in 0..30 {
        let input = large::good(&mut random);
        assert_eq!(input, large::good(&mut again));
        let object = input.object.unwrap();
        parts.insert((input.dict.len() > LARGE, object.len() > LARGE));
        let metadata = VariantMetadata::try_new(&input.dict).expect("a good dictionary");
        accepted += usize::from(VariantObject::try_new(metadata, &object).is_ok());
    }
    assert!(!parts.contains(&(false, false)));
    assert_eq!(parts.len(), 3);
    assert!(accepted > 15, "{accepted}");
}

/// Values of which the Rust tells the length, and how: as they are, or by a copy. Each is followed
/// by a byte.
const VALUES: [(&[u8], Told); 14] = [
    (b"\x00", Told::Accepts),
    (b"\x0C\xFB", Told::Accepts),
    (b"\x05\x61", Told::Accepts),
    (b"\x3C\x01\x00\x00\x00\xFF", Told::Accepts),
    (b"\x40\x01\x00\x00\x00\x61", Told::Accepts),
    (fixed::OBJECT, Told::Accepts),
    (b"\x03\x02\x00\x01\x02\x04\x08", Told::Accepts),
    // Not UTF-8; a decimal of too large a scale; a date out of the calendar.
    (b"\x05\xFF", Told::Refuses),
    (b"\x40\x01\x00\x00\x00\xFF", Told::Refuses),
    (b"\x20\xFF\x00\x00\x00\x00", Told::Refuses),
    (b"\x2C\xFF\xFF\xFF\x7F", Told::Refuses),
    // An id of no entry; an element of no known type, after a first offset that is not 0.
    (b"\x02\x01\x09\x00\x01\x00", Told::Refuses),
    (b"\x03\x01\x01\x02\x00\xFC", Told::Refuses),
    // No elements, and an offset that is not 0.
    (b"\x03\x00\x01\x00", Told::Nothing),
];

#[test]
fn lengths_that_the_rust_tells() {
    let metadata = &VariantMetadata::try_new(fixed::SORTED).unwrap();
    for (value, told) in VALUES {
        let child = [value, &[0x00]].concat();
        assert_eq!(own_length(&child), Ok(value.len()), "{value:02X?}");
        for few in [0, FEW] {
            let values = Values { metadata, few };
            assert_eq!(values.told(&child, value.len()), told, "{value:02X?}");
            assert!(told == Told::Nothing || values.takes(&child));
            assert!(!values.takes(&value[..value.len() - 1]), "{value:02X?}");
        }
    }
}

/// A length that is a byte too long is told, and one too short of each value that the Rust accepts.
#[test]
fn lengths_that_the_rust_denies() {
    let metadata = &VariantMetadata::try_new(fixed::SORTED).unwrap();
    let values = Values { metadata, few: FEW };
    for (value, told) in VALUES.iter().filter(|(_, told)| *told != Told::Nothing) {
        let child = [value, &[0x00][..]].concat();
        let denied = |length| values.told(&child, length) == Told::Otherwise;
        assert!(denied(value.len() + 1), "{value:02X?}");
        if *told == Told::Accepts && value.len() > 1 {
            assert!(denied(value.len() - 1), "{value:02X?}");
        }
    }
}

#[test]
fn values_without_a_length() {
    use Unmeasured::*;
    for (value, why) in [
        (&b""[..], Cut),
        (b"\x54", Unknown),
        (b"\xFC\x00", Unknown),
        (b"\x0C", Longer),
        (b"\x05", Longer),
        (b"\x3C\x00\x00\x00", Cut),
        (b"\x3C\x01\x00\x00\x00", Longer),
        (b"\x3C\xFA\xFF\xFF\xFF", Longer),
        (b"\x3C\xFB\xFF\xFF\xFF", Sum),
        (b"\x02\x01\x00\x00", Cut),
        (b"\x02\x01\x00\x00\x01", Longer),
        (b"\x7E\xFF\xFF\xFF\x1F", Sum),
        (b"\x03\x00", Cut),
        (b"\x03\x00\x01", Longer),
        (b"\x1F\xFE\xFF\xFF\x3F", Sum),
    ] {
        assert_eq!(own_length(value), Err(why), "{value:02X?}");
    }
}

/// The last children of inputs.
fn last_children(inputs: impl Iterator<Item = Input>) -> BTreeSet<Vec<u8>> {
    let child = |input: Input| input.object.map(|object| object[8..].to_vec());
    inputs.filter_map(child).collect()
}

/// Every header byte, with every payload that its type can have and one byte less.
#[test]
fn children_of_every_header_byte() {
    let all = last_children(children::fixed());
    for header in 0..=255_u8 {
        let payload = match header & 3 {
            0 => PAYLOADS.get(header as usize >> 2).copied().unwrap_or(0),
            1 => header as usize >> 2,
            _ => 2,
        };
        for length in [payload, 1 + payload, 2 + payload] {
            let value = [&[header], &vec![0; length.max(1) - 1][..]].concat();
            assert!(all.contains(&value), "{value:02X?}");
        }
    }
}

/// Numbers at the ends of their ranges, whole, cut and with bytes after them; of floats, what is not
/// a number too, quiet and signalling, of either sign.
#[test]
fn children_at_their_extremes() {
    let all = last_children(extremes::inputs());
    let has = |kind: u8, width: usize, bits: u64| {
        let value = [&[kind << 2], &bits.to_le_bytes()[..width]].concat();
        let longer = [&value[..], &[0xFC, 0xFF]].concat();
        let mut cut = (1..value.len()).map(|end| &value[..end]);
        let whole = all.contains(&value) && all.contains(&longer);
        assert!(whole && cut.all(|cut| all.contains(cut)), "{value:02X?}");
    };
    for (kind, width) in [(3, 1), (4, 2), (5, 4), (6, 8)] {
        let greatest = i64::MAX >> (64 - 8 * width);
        for number in [0, 1, -1, greatest, -greatest - 1] {
            has(kind, width, number as u64);
        }
    }
    for sign in [0, 1 << 63] {
        let (infinity, quiet) = (f64::INFINITY.to_bits(), f64::NAN.to_bits());
        for bits in [0, 1, infinity, infinity | 1, quiet, u64::MAX >> 1] {
            has(7, 8, sign | bits);
        }
    }
    for sign in [0, 1 << 31] {
        let (infinity, quiet) = (f32::INFINITY.to_bits(), f32::NAN.to_bits());
        for bits in [0, 1, infinity, infinity | 1, quiet, u32::MAX >> 1] {
            has(14, 4, (sign | bits).into());
        }
    }
}

/// The place of each kind of value that has one.
#[test]
fn places_of_values() {
    for (value, kind, start) in [
        (&b"\x20\x00\x00\x00\x00\x00"[..], 8, 1),
        (
            b"\x50\x00\x00\x00\x00\x00\x00\x00\x00\x00\x00\x00\x00\x00\x00\x00\x00",
            20,
            1,
        ),
        (b"\x3C\x01\x00\x00\x00\xFF", 15, 5),
        (b"\x40\x00\x00\x00\x00", 16, 5),
        (b"\x05a", 257, 1),
        (fixed::OBJECT, 258, 0),
        (b"\x03\x00\x00", 259, 0),
    ] {
        let due = accepted(kind, start, value.len());
        assert_eq!(place(value[0], value.len()), due, "{value:02X?}");
        assert_eq!(Archive.value(value), due, "{value:02X?}");
    }
}

/// Readings agree of what the Rust accepts, of what it refuses for what it says, and of what has no
/// length; and each is counted.
#[test]
fn readings_that_agree() {
    let metadata = &VariantMetadata::try_new(fixed::SORTED).unwrap();
    let readings = Readings {
        reader: &Archive,
        values: Values { metadata, few: FEW },
    };
    let mut tally = Tally::default();
    for (value, _) in VALUES {
        assert_eq!(readings.of(value, &mut tally), Ok(()), "{value:02X?}");
    }
    for value in [&b""[..], b"\x54", b"\x0C", b"\x03\x00\x01"] {
        assert_eq!(readings.of(value, &mut tally), Ok(()), "{value:02X?}");
    }
    let read: u64 = tally.values.values().sum();
    let refused = VALUES.iter().filter(|(_, told)| *told != Told::Accepts);
    assert_eq!(read, VALUES.len() as u64);
    assert_eq!(tally.values_of_refused, refused.count() as u64);
    assert_eq!(tally.values_refused, [(50, 3), (51, 1)].into());
}

#[test]
fn damage_damages() {
    let mut random = Random::seeded(4);
    let good = Input::object(fixed::SORTED.to_vec(), fixed::OBJECT.to_vec());
    let copies: Vec<Input> = (0..100)
        .map(|_| damage::damaged(&mut random, &good))
        .collect();
    let changed = copies.iter().filter(|&copy| *copy != good).count();
    assert!(changed > 80, "{changed}");
}

#[test]
fn ends_that_fall_or_pass_the_run() {
    let bad = |ends: &[u32]| bad_ends(b"flowroll", ends).collect::<Vec<u32>>();
    assert_eq!(bad(&[]), []);
    assert_eq!(bad(&[0, 4, 4, 8]), []);
    assert_eq!(bad(&[4, 3, 8, 9]), [1, 3]);
    assert_eq!(bad(&[9, 4, 8]), [0, 1]);
}

#[test]
fn bytes_in_hex() {
    assert_eq!(hex(&[]), "-");
    assert_eq!(hex(&[0, 0xAB]), "00AB");
}

/// Every primitive value of a few payloads: the Rust refuses it exactly where a predicate says that it
/// judges it otherwise, in the words that are told.
#[test]
fn leaves_judged_otherwise() {
    let metadata = VariantMetadata::try_new(fixed::SORTED).unwrap();
    let mut seen = BTreeSet::new();
    let inputs = trees::fixed().map(|input| input.tree.expect("a tree"));
    let mut random = Random::seeded(3);
    let generated = (0..20_000).map(|_| {
        let kind = random.below(PAYLOADS.len());
        let payload = (0..PAYLOADS[kind]).map(|_| random.byte());
        std::iter::once((kind as u8) << 2).chain(payload).collect()
    });
    let leaf = |value: &Vec<u8>| value.first().is_some_and(|header| header & 3 == 0);
    let whole = |value: &Vec<u8>| own_length(value).is_ok() && value[0] >> 2 != 16;
    let values: Vec<Vec<u8>> = inputs.chain(generated).collect();
    for value in values.iter().filter(|value| leaf(value) && whole(value)) {
        let theirs = Variant::try_new_with_metadata(metadata.clone(), value);
        match (otherwise::of_leaf(value), theirs) {
            (None, Ok(_)) => {}
            (Some(due), Err(error)) => {
                assert!(error.to_string().contains(due.words()), "{due:?}: {error}");
                seen.insert(due);
            }
            (due, theirs) => panic!("{}: {due:?} and {theirs:?}", hex(value)),
        }
    }
    use otherwise::Otherwise::*;
    assert_eq!(seen, BTreeSet::from([Scale, Digits, Date, Timestamp, Time]));
}

/// The reference says the same with a memory of what it found good and without.
#[test]
fn the_reference_remembers_nothing_wrong() {
    let mut random = Random::seeded(8);
    let mut refused = 0;
    for _ in 0..3_000 {
        let good = trees::good(&mut random);
        for input in [trees::damaged(&mut random, &good), good] {
            let (dict, value) = (&input.dict, input.tree.as_ref().expect("a tree"));
            let is_good = VariantMetadata::try_new(dict).is_ok();
            if !is_good || visits(value, 1_000) == 1_000 {
                continue;
            }
            let plain = Tree::new(dict, value).verdict();
            let remembering = Tree::new(dict, value).remembering().verdict();
            assert_eq!(plain, remembering, "{} {}", hex(dict), hex(value));
            refused += u64::from(plain.code != 0);
        }
    }
    assert!(refused > 1_000, "{refused}");
}

/// The ways through a tree: each value once for each way, no more than asked.
#[test]
fn ways_through_a_tree() {
    assert_eq!(visits(&[0], 100), 1);
    assert_eq!(visits(b"", 100), 1);
    assert_eq!(visits(&trees::nest(5, &[0], |_| true), 100), 6);
    // Of a field's child and its own: 1, 3, 5, 9, 15, .., as Fibonacci's numbers grow.
    let ways = |levels| visits(&trees::fibonacci(levels, &[0]), 1_000_000);
    assert_eq!((2..7).map(ways).collect::<Vec<_>>(), [5, 9, 15, 25, 41]);
    assert_eq!(visits(&trees::fibonacci(32, &[0]), 1_000), 1_000);
}

/// Generated trees have all that they are for.
#[test]
fn trees_of_every_shape() {
    let mut random = Random::seeded(5);
    let (mut headers, mut deepest) = (BTreeSet::new(), BTreeSet::new());
    for _ in 0..20_000 {
        let input = trees::good(&mut random);
        let value = input.tree.expect("a tree");
        if visits(&value, 5_000) < 5_000 {
            deepest.insert(met(&value, &mut headers));
        }
    }
    // Lists and objects of every offset and id width, both counts; every primitive type.
    for header in (0..=255_u8).filter(|header| header & 2 != 0) {
        let is_plain_list = header & 3 == 3 && header & 0xE0 == 0;
        if header & 3 == 2 || is_plain_list {
            assert!(headers.contains(&header), "{header:02X}");
        }
    }
    (0..PAYLOADS.len()).for_each(|kind| assert!(headers.contains(&((kind as u8) << 2))));
    assert!(
        (0..=33).all(|levels| deepest.contains(&levels)),
        "{deepest:?}"
    );
}

/// How many levels a tree has; the headers that are met are put in.
fn met(value: &[u8], headers: &mut BTreeSet<u8>) -> usize {
    headers.extend(value.first());
    if value.first().is_none_or(|header| header & 2 == 0) {
        return 0;
    }
    let places = children_of(value).map_or(vec![], |(_, places)| places);
    let below = places.into_iter().map(|place| met(&value[place], headers));
    1 + below.max().unwrap_or(0)
}

/// Paths that are spelled from steps are read as these, in every spelling; and others are refused.
#[test]
fn spellings_are_read_back() {
    let mut random = Random::seeded(3);
    let steps = [
        Step::Name(r"a]b\.c".to_string()),
        Step::Index(u64::MAX),
        Step::Name("é".to_string()),
        Step::Name(String::new()),
        Step::Name("a".to_string()),
        Step::Index(0),
    ];
    let read = |text: &[u8]| Spelling { fault: None }.steps(text);
    let mut seen = BTreeSet::new();
    for length in 0..=steps.len() {
        for _ in 0..200 {
            let text = paths::spelled(&mut random, &steps[..length]);
            assert_eq!(
                read(text.as_bytes()).as_deref(),
                Ok(&steps[..length]),
                "{text}"
            );
            seen.insert(text);
        }
    }
    assert!(seen.len() > 500, "{}", seen.len());
    assert_eq!(names_of(&steps), r"a]b\.céa".as_bytes());
    let words = [
        0,
        0,
        6,
        1,
        u32::MAX,
        u32::MAX,
        0,
        6,
        8,
        0,
        8,
        8,
        0,
        8,
        9,
        1,
        0,
        0,
    ];
    assert_eq!(words_of(&steps), words);
    for (number, text) in (70..).zip([&b"\xC3"[..], b".", b"a.", b"]", b"[", b"[]"]) {
        assert_eq!(read(text), Err(number));
    }
}

/// Paths into trees lead somewhere, by names and by indices, in several layers; and copies are other ones.
#[test]
fn paths_into_trees() {
    let mut random = Random::seeded(5);
    let (mut names, mut indices, mut deep, mut damaged) = (0, 0, 0, 0);
    for _ in 0..2_000 {
        let input = paths::followed(&mut random);
        let path = input.path.as_deref().unwrap();
        let steps = Spelling { fault: None }.steps(path).unwrap();
        for step in &steps {
            match step {
                Step::Name(_) => names += 1,
                Step::Index(_) => indices += 1,
            }
        }
        deep += usize::from(steps.len() > 2);
        damaged += usize::from(paths::damaged(&mut random, &input) != input);
    }
    assert!(
        names > 500 && indices > 500 && deep > 300,
        "{names}, {indices}, {deep}"
    );
    assert!(damaged > 1_500, "{damaged}");
}

/// Which names are texts, and the first that is none: by its bytes, or by its end.
#[test]
fn names_as_they_are_given() {
    let given = |run: &[u8], ends: &[u32]| Given {
        run: run.to_vec(),
        ends: ends.to_vec(),
    };
    let taken = given(b"flowrol\xFF", &[4, 4, 7]);
    assert_eq!(taken.texts(), Ok(vec!["flow", "", "rol"]));
    for (run, ends, place) in [
        (&b"ab"[..], &[1, 0][..], 1),
        (b"ab", &[1, 3], 1),
        (b"ab", &[u32::MAX], 0),
        (b"a\xFF", &[1, 2], 1),
        (b"\xC3\xA9", &[0, 1, 2], 1),
        (b"\xFFb", &[1, 0, 9], 0),
    ] {
        assert_eq!(given(run, ends).texts(), Err(place), "{run:?} {ends:?}");
    }
    assert_eq!(set_of(&["b", "", "a", "b"]), ["", "a", "b"]);
}

/// Every row of names, and every row of ends, once.
#[test]
fn each_row_of_names_and_of_ends_once() {
    let mut rows = BTreeSet::new();
    sets::each_row(|input| -> Result<(), ()> {
        let given = input.names.as_ref().expect("names");
        assert!(
            rows.insert(given.texts().expect("texts").join("|") + &given.ends.len().to_string())
        );
        Ok(())
    })
    .unwrap();
    assert_eq!(rows.len(), (0..=5).map(|length| 7_usize.pow(length)).sum());
    let mut ends = BTreeSet::new();
    sets::each_ends(b"ab", |given| -> Result<(), ()> {
        assert!(ends.insert(given.ends.clone()));
        Ok(())
    })
    .unwrap();
    assert_eq!(ends.len(), 1 + 4 + 16 + 64);
    assert!(ends.contains(&vec![3, 0, 2]), "past the run, and falling");
}

/// What is generated to be written has doubles and orders of every kind, and its damaged copies every
/// cause to be refused.
#[test]
fn names_to_write_of_every_kind() {
    let mut random = Random::seeded(3);
    let (mut kinds, mut causes) = (BTreeSet::new(), BTreeSet::new());
    for _ in 0..3_000 {
        let good = sets::good(&mut random);
        let bad = sets::damaged(&mut random, &good);
        let good = good.names.expect("names");
        let texts = good.texts().expect("good names are texts");
        let set = set_of(&texts);
        let is_long = good.run.len() > good.ends.last().map_or(0, |&end| end as usize);
        kinds.insert(("doubles", set.len() < texts.len()));
        kinds.insert(("sorted", texts.is_sorted()));
        kinds.insert(("no bytes", set.contains(&"")));
        kinds.insert(("plain", good.run.is_ascii()));
        kinds.insert(("bytes after", is_long));
        kinds.insert(("many", texts.len() > 255));
        let bad = bad.names.expect("names");
        if let Err(place) = bad.texts() {
            let begin = place.checked_sub(1).map_or(0, |before| bad.ends[before]);
            let end = bad.ends[place];
            causes.insert((end < begin, end as usize > bad.run.len()));
        }
    }
    assert_eq!(kinds.len(), 2 * 6, "{kinds:?}");
    assert_eq!(causes.len(), 3, "{causes:?}");
}

/// The names about the limit make dictionaries of the lengths that they are for.
#[test]
fn dictionaries_about_the_limit() {
    let mut lengths = Vec::new();
    for input in sets::of_length() {
        let given = input.names.expect("names");
        lengths.push(
            given
                .texts()
                .map(|texts| dictionary_of(&set_of(&texts)).len()),
        );
    }
    let three = [LIMIT - 1, LIMIT, LIMIT + 1].map(Ok);
    let due = [&three[..], &three, &[Err(1), Err(1)], &three[1..]].concat();
    assert_eq!(lengths, due);
}

/// What the Rust's builder writes: sorted where the names come in order, and no name twice.
#[test]
fn what_the_builder_writes() {
    assert_eq!(hex(&built(&["a", "b"])), "11020001026162");
    assert_eq!(hex(&built(&["a", "b", "a"])), "11020001026162");
    assert_eq!(hex(&built(&["b", "a"])), "01020001026261");
    assert_eq!(hex(&dictionary_of(&[])), "110000");
}

/// Of many names to write, the two that matter are left, with their bytes as small as they may be.
#[test]
fn shrinks_names_to_write() {
    let names: Vec<String> = (0..3_000).map(|number| format!("name {number}")).collect();
    let has_both = |input: &Input| {
        let texts = input.names.as_ref().and_then(|given| given.texts().ok());
        let texts = texts.unwrap_or_default();
        texts.contains(&"name 7") && texts.iter().any(|name| name.ends_with("99"))
    };
    let small = shrink::smallest(Input::names(Given::of(&names)), PATIENCE, has_both);
    assert_eq!(small, Input::names(Given::of(&["name 7", "99"])));
    let falls = |input: &Input| {
        let ends = input.names.as_ref().map(|given| &given.ends[..]);
        ends.is_some_and(|ends| !ends.is_sorted())
    };
    let given = |run: &[u8], ends: &[u32]| {
        Input::names(Given {
            run: run.to_vec(),
            ends: ends.to_vec(),
        })
    };
    let small = shrink::smallest(given(b"abcdef", &[1, 5, 3, 6]), PATIENCE, falls);
    assert_eq!(small, given(b"", &[1, 0]));
}

/// A thing with the hash of every other.
#[derive(Clone, Debug, PartialEq, Eq)]
struct Alike(u32);

impl Hash for Alike {
    fn hash<H: Hasher>(&self, _: &mut H) {}
}

/// The stand-in for the builder's set keeps things apart that have one hash, and forgets what it is cut
/// by.
#[test]
fn a_set_of_one_hash() {
    let mut set = IndexSet::default();
    for round in 0..2 {
        for number in 0..5 {
            assert_eq!(
                set.insert_full(Alike(number)),
                (number as usize, round == 0)
            );
        }
    }
    set.truncate(3);
    assert_eq!(set.insert_full(Alike(4)), (3, true));
    assert_eq!(set.insert_full(Alike(2)), (2, false));
    set.truncate(0);
    assert_eq!(set.insert_full(Alike(2)), (0, true));
    assert_eq!(set.iter().count(), 1);
}

/// The stand-in for the builder's map keeps keys apart that have one hash, finds them after it was
/// sorted, and forgets what it is cut by.
#[test]
fn a_map_of_one_hash() {
    let mut map = IndexMap::new();
    for number in [3, 1, 2] {
        assert_eq!(map.insert(Alike(number), number), None);
    }
    assert_eq!(map.insert(Alike(1), 7), Some(1));
    map.sort_by(|a, _, b, _| a.0.cmp(&b.0));
    let values: Vec<u32> = map.values().copied().collect();
    assert_eq!(values, [7, 2, 3]);
    assert_eq!(map.insert(Alike(3), 9), Some(3));
    map.truncate(1);
    assert_eq!((map.len(), map.insert(Alike(3), 4)), (1, None));
    assert_eq!(map.insert(Alike(1), 0), Some(7));
    assert_eq!(map.keys().map(|key| key.0).collect::<Vec<_>>(), [1, 3]);
}
