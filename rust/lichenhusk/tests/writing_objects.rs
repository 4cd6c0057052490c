//! Objects that are written: their bytes, each refusal with its place, what is lent, and that they are
//! read back.

mod common;

use common::{D, hex};
use lichenhusk::{
    LIMIT, Layer, Message, ObjectWriter, Refusal, STRIP_BYTES, Strip, Value, raw, write_dictionary,
    write_object, write_object_into,
};

/// What a lent byte and a lent word hold before a call.
const BYTE: u8 = 0xEE;
const WORD: u32 = 0xEEEE_EEEE;

/// An unsorted dictionary: "b", "a", the name of no bytes, and "b" again.
const UNSORTED: &str = "01 04 00 01 02 02 03 62 61 62";

/// An entry of the dictionary, and where a child starts and ends.
type Pair = [u32; 3];

/// The answer to pairs, with scratch enough, and the room, so many bytes.
fn written(
    dict: &[u8],
    bytes: &[u8],
    pairs: &[Pair],
    room: usize,
) -> (Result<Layer, Refusal>, Vec<u8>) {
    let (mut order, mut spare) = (vec![WORD; pairs.len()], vec![WORD; pairs.len()]);
    let mut room = vec![BYTE; room];
    let answer = write_object_into(dict, bytes, pairs, &mut order, &mut spare, &mut room);
    (answer, room)
}

/// The number and the place of a refusal, with scratch and without, which leaves all of a room of so many
/// bytes.
fn refused_in(dict: &[u8], bytes: &[u8], pairs: &[Pair], room: usize) -> (u32, u32) {
    let (answer, left) = written(dict, bytes, pairs, room);
    assert!(left.iter().all(|&byte| byte == BYTE), "{answer:?}");
    let mut left = vec![BYTE; room];
    let slowly = write_object_into(dict, bytes, pairs, &mut [], &mut [], &mut left);
    assert!(left.iter().all(|&byte| byte == BYTE), "{slowly:?}");
    assert_eq!(answer, slowly);
    let refusal = answer.unwrap_err();
    (refusal.number(), refusal.place())
}

/// The same in room enough, in none, and in a little.
fn refused(dict: &[u8], bytes: &[u8], pairs: &[Pair]) -> (u32, u32) {
    let refusal = refused_in(dict, bytes, pairs, 200);
    for room in [0, 1, 3] {
        assert_eq!(refused_in(dict, bytes, pairs, room), refusal);
    }
    refusal
}

/// The object of pairs that are taken.
fn object(dict: &[u8], bytes: &[u8], pairs: &[Pair]) -> Vec<u8> {
    let total: usize = pairs
        .iter()
        .map(|&[_, start, end]| (end - start) as usize)
        .sum();
    let (answer, mut room) = written(dict, bytes, pairs, 9 + 8 * pairs.len() + total);
    room.truncate(answer.unwrap_or_else(|refusal| panic!("{refusal}")).end);
    room
}

#[test]
fn worked_cases() {
    let bytes = [0x04, 0x0C, 0xFB];
    for (dict, pairs, due) in [
        (D, &[][..], "02 00 00"),
        ("01 00 00", &[], "02 00 00"),
        ("11 00 00", &[], "02 00 00"),
        (D, &[[0, 0, 1]], "02 01 00 00 01 04"),
        (D, &[[1, 1, 3]], "02 01 01 00 02 0C FB"),
        // Two fields, in their order and in the other.
        (D, &[[0, 1, 3], [1, 0, 1]], "02 02 00 01 00 02 03 0C FB 04"),
        (D, &[[1, 0, 1], [0, 1, 3]], "02 02 00 01 00 02 03 0C FB 04"),
        // The same bytes twice, and bytes that overlap.
        (D, &[[1, 0, 1], [0, 0, 1]], "02 02 00 01 00 01 02 04 04"),
        (
            D,
            &[[1, 0, 3], [0, 1, 2]],
            "02 02 00 01 00 01 04 0C 04 0C FB",
        ),
        // By names, not by ids: the empty name, a, b.
        (
            UNSORTED,
            &[[0, 0, 1], [1, 1, 2], [2, 2, 3]],
            "02 03 02 01 00 00 01 02 03 FB 0C 04",
        ),
        // Whichever of two entries with one name is given.
        (
            UNSORTED,
            &[[3, 0, 1], [1, 1, 2]],
            "02 02 01 03 00 01 02 0C 04",
        ),
    ] {
        let dict = hex(dict);
        assert_eq!(object(&dict, &bytes, pairs), hex(due), "{pairs:?}");
    }
}

/// One or two words after the last whole pair are no pair.
#[test]
fn a_cut_last_pair() {
    let (dict, bytes) = (hex(D), [0x04, 0x0C]);
    for (words, due) in [
        (&[9][..], "02 00 00"),
        (&[9, 9], "02 00 00"),
        (&[1, 0, 1, 9], "02 01 01 00 01 04"),
        (&[1, 0, 1, 1, 0], "02 01 01 00 01 04"),
    ] {
        let (mut room, mut strip) = ([BYTE; 9], [BYTE; STRIP_BYTES]);
        let code = raw::write_object(
            &dict,
            &bytes,
            words,
            &mut [],
            &mut [],
            &mut room,
            &mut strip,
        );
        let due = hex(due);
        assert_eq!((code, &room[..due.len()]), (0, &due[..]), "{words:?}");
        assert_eq!(Strip::read(&strip).number as usize, words.len() / 3);
    }
}

/// What is refused of the dictionary comes before all that is wrong with the pairs.
#[test]
fn dictionaries_that_are_refused() {
    let bad: [Pair; 3] = [[9, 0, 1], [0, 2, 1], [0, 0, 0]];
    for (dict, number, place) in [
        ("", 11, 0),
        ("02 00 00", 12, 0),
        ("01 00", 13, 0),
        ("C1 FF FF FF FF", 14, 0),
        ("01 00 01 61", 15, 0),
        ("01 01 00 04 61 62 ED A0", 16, 2),
        ("01 03 00 01 02 03 61 C3 A9", 17, 1),
        ("11 03 00 01 02 03 61 62 61", 18, 2),
        ("01 01 00 05 61 62 F0 90 80", 19, 2),
    ] {
        for pairs in [&[][..], &[[0, 0, 1]], &bad] {
            assert_eq!(refused(&hex(dict), &[0x04], pairs), (number, place));
        }
    }
    let mut long = hex(D);
    long.resize(LIMIT + 1, 0);
    assert_eq!(refused(&long, &[0x04], &bad), (10, 0));
    long.truncate(LIMIT);
    assert_eq!(refused(&long, &[0x04], &bad), (25, 0));
}

/// Each refusal of the pairs, at the first of them.
#[test]
fn the_first_bad_pair() {
    for (dict, pairs, number, place) in [
        // An id that is no entry.
        (D, &[[2, 0, 1]][..], 25, 0),
        (
            D,
            &[[0, 0, 1], [1, 0, 1], [u32::MAX, 0, 1], [2, 0, 1]],
            25,
            2,
        ),
        ("01 00 00", &[[0, 0, 1]], 25, 0),
        // A name that comes again: the later pair, of several the first of these.
        (D, &[[0, 0, 1], [0, 1, 2]], 26, 1),
        (D, &[[1, 0, 1], [0, 0, 1], [0, 0, 1], [1, 0, 1]], 26, 2),
        (D, &[[1, 0, 1], [0, 0, 1], [1, 0, 1], [0, 0, 1]], 26, 2),
        (D, &[[0, 0, 1], [0, 0, 1], [0, 0, 1]], 26, 1),
        // Two entries of one name.
        (UNSORTED, &[[0, 0, 1], [3, 0, 1]], 26, 1),
        (
            UNSORTED,
            &[[3, 0, 1], [2, 0, 1], [1, 0, 1], [0, 0, 1]],
            26,
            3,
        ),
        // A range that falls, and one that passes the bytes.
        (D, &[[0, 1, 0]], 45, 0),
        (D, &[[1, 0, 2], [0, 2, 1]], 45, 1),
        (D, &[[0, 0, 3]], 45, 0),
        (D, &[[1, 0, 1], [0, 3, 3]], 45, 1),
        (D, &[[0, u32::MAX, u32::MAX]], 45, 0),
        (D, &[[0, 9, 1], [1, 1, 9]], 45, 0),
        // A child of no bytes, at the start, inside, and at the end.
        (D, &[[0, 0, 0]], 28, 0),
        (D, &[[1, 0, 1], [0, 1, 1]], 28, 1),
        (D, &[[1, 2, 2], [0, 1, 1]], 28, 0),
    ] {
        let answer = refused(&hex(dict), &[0x04, 0x08], pairs);
        assert_eq!(answer, (number, place), "{pairs:?}");
    }
}

/// Each is looked for in all pairs before the next: a later pair's 25 comes before an earlier one's 26,
/// and so on to 28. Then 20, and last 46.
#[test]
fn the_order_of_refusals() {
    // A pair for each, the last refusal first.
    let (empty, range, double, no_entry) = ([0, 0, 0], [1, 2, 1], [0, 0, 1], [4, 0, 1]);
    let dict = hex("11 04 00 01 02 03 04 61 62 63 64");
    for (pairs, number, place) in [
        (&[empty, range, double, no_entry][..], 25, 3),
        (&[empty, range, double], 26, 2),
        (&[empty, range], 45, 1),
        (&[empty], 28, 0),
        // The later pair's 45 before the earlier one's 28, and not pair by pair.
        (&[[0, 1, 1], [1, 0, 1], [2, 0, 9]], 45, 2),
        (&[[0, 9, 9], [1, 0, 1], [0, 0, 1]], 26, 2),
        (&[[0, 0, 1], [0, 0, 1], [9, 0, 1]], 25, 2),
    ] {
        assert_eq!(refused(&dict, &[0x04], pairs), (number, place), "{pairs:?}");
    }
    // 28 before 20, whatever the room; 20 before 46.
    let long = vec![0; LIMIT];
    let whole = [0, 0, LIMIT as u32];
    for room in [0, 100, LIMIT + 100] {
        let pairs = [whole, [1, 5, 5]];
        assert_eq!(refused_in(&dict, &long, &pairs, room), (28, 1));
        assert_eq!(refused_in(&dict, &long, &[whole], room), (20, 0));
    }
    assert_eq!(refused_in(&dict, &[0x04], &[[3, 0, 1]], 5), (46, 0));
}

/// Room for just the object does, and more stays as it is; a byte less is refused.
#[test]
fn room() {
    let (dict, bytes) = (hex(D), [0x04, 0x0C, 0xFB]);
    for pairs in [&[][..], &[[1, 0, 3]], &[[1, 0, 1], [0, 1, 3]]] {
        let due = object(&dict, &bytes, pairs);
        for more in [0, 1, 5] {
            let (answer, room) = written(&dict, &bytes, pairs, due.len() + more);
            assert_eq!(answer.map(|layer| layer.end), Ok(due.len()));
            let (object, after) = room.split_at(due.len());
            assert_eq!((object, after), (&due[..], &vec![BYTE; more][..]));
        }
        for room in 0..due.len() {
            assert_eq!(refused_in(&dict, &bytes, pairs, room), (46, 0));
        }
    }
}

/// How much scratch of each of the two is lent, for so many pairs.
fn amounts(pairs: usize) -> Vec<[usize; 2]> {
    let mut amounts = vec![[0, 0], [0, pairs], [pairs, 0], [pairs, pairs]];
    amounts.push([pairs + 3, pairs + 1]);
    if pairs > 0 {
        amounts.extend([[pairs - 1, pairs], [pairs, pairs - 1], [1, 1]]);
    }
    amounts
}

/// Whatever scratch is lent and whatever it holds, the answer and the room are the same; and scratch
/// that is too little is not written.
#[test]
fn scratch() {
    let dict = write_dictionary((0..300).map(|n| format!("{n:03}"))).unwrap();
    let many: Vec<Pair> = (0..300).map(|n| [n * 7919 % 300, n % 2, 2]).collect();
    for pairs in [&[][..], &many[..1], &many[..5], &many] {
        let due = object(&dict, &[0x04, 0x08], pairs);
        for [order, spare] in amounts(pairs.len()) {
            for held in [0, 1, pairs.len() as u32, WORD, u32::MAX] {
                let (mut order, mut spare) = (vec![held; order], vec![held; spare]);
                let mut room = vec![BYTE; due.len() + 1];
                let answer = write_object_into(
                    &dict,
                    &[0x04, 0x08],
                    pairs,
                    &mut order,
                    &mut spare,
                    &mut room,
                );
                assert_eq!(answer.map(|layer| layer.end), Ok(due.len()));
                assert_eq!(room[..due.len()], due);
                assert_eq!(room[due.len()], BYTE);
                if order.len().min(spare.len()) < pairs.len() {
                    assert!(order.iter().chain(&spare).all(|&word| word == held));
                }
            }
        }
    }
}

/// Nor is it under a refusal.
#[test]
fn scratch_under_a_refusal() {
    let dict = hex(UNSORTED);
    for (pairs, number) in [
        ([[4, 0, 1], [0, 0, 1]], 25),
        ([[0, 0, 1], [3, 0, 1]], 26),
        ([[0, 0, 1], [1, 1, 0]], 45),
        ([[0, 0, 1], [1, 1, 1]], 28),
        ([[0, 0, 1], [1, 0, 1]], 46),
    ] {
        for [order, spare] in amounts(pairs.len()) {
            let (mut order, mut spare) = (vec![WORD; order], vec![WORD; spare]);
            let answer = write_object_into(&dict, &[4], &pairs, &mut order, &mut spare, &mut []);
            assert_eq!(answer.map_err(|refusal| refusal.number()), Err(number));
            if order.len().min(spare.len()) < pairs.len() {
                assert!(order.iter().chain(&spare).all(|&word| word == WORD));
            }
        }
    }
}

/// A dictionary of so many names of six letters, in the order of their entries.
fn numbered(count: usize) -> Vec<u8> {
    write_dictionary((0..count).map(|number| format!("{number:06x}"))).unwrap()
}

/// The bytes of an id and of an offset, and whether the count has four, by the header.
fn shape(object: &[u8]) -> (usize, usize, bool) {
    let header = object[0];
    assert_eq!(header & 0x83, 2, "an object, bit 7 is 0");
    let width = |shift: u8| 1 + (header >> shift & 3) as usize;
    (width(4), width(2), header & 0x40 > 0)
}

/// The count has four bytes from 256 fields on.
#[test]
fn the_long_count() {
    let dict = numbered(300);
    for (count, long) in [
        (1, false),
        (254, false),
        (255, false),
        (256, true),
        (300, true),
    ] {
        let pairs: Vec<Pair> = (0..count as u32).rev().map(|id| [id, 0, 1]).collect();
        let object = object(&dict, &[0x04], &pairs);
        let id_width = if count > 256 { 2 } else { 1 };
        let offset_width = if count > 255 { 2 } else { 1 };
        assert_eq!(shape(&object), (id_width, offset_width, long), "{count}");
        let count_bytes = if long { 4 } else { 1 };
        let region = 1 + count_bytes + id_width * count + offset_width * (count + 1);
        let layer = Layer {
            fields: count,
            region,
            end: region + count,
        };
        assert_eq!(lichenhusk::layer(&dict, &object), Ok(layer), "{count}");
    }
}

/// The width of ids is that of the largest that is used, however many entries there are.
#[test]
fn widths_by_the_largest_id() {
    let dict = numbered(65_538);
    for (ids, due) in [
        (&[0][..], 1),
        (&[255, 0], 1),
        (&[256], 2),
        (&[0, 256, 255], 2),
        (&[65_535, 1], 2),
        (&[65_536], 3),
        (&[3, 65_537], 3),
    ] {
        let pairs: Vec<Pair> = ids.iter().map(|&id| [id, 0, 1]).collect();
        let object = object(&dict, &[0x04], &pairs);
        assert_eq!(shape(&object), (due, 1, false), "{ids:?}");
    }
}

/// The width of offsets is that of all children together, whatever the last of them starts at and
/// however many bytes are lent.
#[test]
fn widths_by_the_total() {
    let (dict, bytes) = (hex(D), vec![0x04; 70_000]);
    for (first, second, due) in [
        (1, 0, 1),
        (255, 0, 1),
        (256, 0, 2),
        (254, 1, 1),
        (255, 1, 2),
        (1, 255, 2),
        (65_535, 0, 2),
        (65_534, 2, 3),
        (65_536, 0, 3),
    ] {
        let mut pairs = vec![[0, 7, 7 + first]];
        pairs.extend((second > 0).then_some([1, 0, second]));
        let object = object(&dict, &bytes, &pairs);
        assert_eq!(shape(&object), (1, due, false), "{first} and {second}");
    }
}

/// An object of just as many bytes as the limit is written, and one more is refused; what counts are the
/// bytes of the result, not those that are lent.
#[test]
fn results_about_the_limit() {
    // One field: header, count, id, and two offsets of three bytes.
    let (dict, head) = (hex(D), 1 + 1 + 1 + 2 * 3);
    let bytes = vec![0xAB; LIMIT + 5];
    let fits = (LIMIT - head) as u32;
    let (answer, room) = written(&dict, &bytes, &[[1, 5, 5 + fits]], LIMIT);
    let layer = Layer {
        fields: 1,
        region: head,
        end: LIMIT,
    };
    assert_eq!(answer, Ok(layer));
    assert_eq!(lichenhusk::layer(&dict, &room), Ok(layer));
    assert_eq!(
        refused_in(&dict, &bytes, &[[1, 5, 5 + fits]], LIMIT - 1),
        (46, 0)
    );
    let over = [[1, 5, 6 + fits]];
    assert_eq!(refused_in(&dict, &bytes, &over, LIMIT + 1), (20, 0));
    // Few bytes that are lent again and again, and many of which few are.
    let dict = numbered(20);
    let pairs: Vec<Pair> = (0..20).map(|id| [id, 0, 1 << 20]).collect();
    assert_eq!(refused_in(&dict, &bytes[..1 << 20], &pairs, LIMIT), (20, 0));
    assert_eq!(
        object(&dict, &bytes, &[[0, 3, 4]]),
        hex("02 01 00 00 01 AB")
    );
}

/// As many fields as there is room for: seven bytes each, one of them the child.
#[test]
fn very_many_fields() {
    let dict = write_dictionary((0..1_500_000).map(|number| format!("{number:06x}"))).unwrap();
    let most = (LIMIT - 8) / 7;
    let pairs = |count: u32| -> Vec<Pair> { (0..count).rev().map(|id| [id, 0, 1]).collect() };
    assert!(most > 1_500_000);
    let (answer, room) = written(&dict, &[0x04], &pairs(1_500_000), LIMIT);
    let layer = answer.unwrap();
    assert_eq!((layer.fields, layer.end), (1_500_000, 8 + 7 * 1_500_000));
    let object = &room[..layer.end];
    assert_eq!(lichenhusk::layer(&dict, object), Ok(layer));
    for id in [0, 1, 777_777, 1_499_999] {
        let found = lichenhusk::lookup(&dict, object, format!("{id:06x}").as_bytes());
        let found = found.map(|found| found.map(|found| (found.field, found.id)));
        assert_eq!(found, Ok(Some((id as usize, id))));
    }
}

/// What is written is read back: the layer with the same three numbers, each name with its child, and no
/// other name; and where the children are values, the whole is a good tree.
#[test]
fn it_is_read_back() {
    let names = ["zone", "", "flow", "é", "meter[2]", "\0", "a\u{10FFFF}"];
    let dict = write_dictionary(names).unwrap();
    let children = [
        &[0x00][..],
        &[0x04],
        &[0x0C, 0xFB],
        b"\x05x",
        &[0x03, 0, 0],
        &[0x02, 0, 0],
        b"\x15hello",
    ];
    let fields = names.iter().zip(children);
    let object = ObjectWriter::from_iter(fields.clone()).finish_over(&dict);
    let object = object.unwrap();
    let listed = lichenhusk::list(&dict, &object).unwrap();
    assert_eq!(listed.len(), names.len());
    for (name, child) in fields {
        let part = lichenhusk::child(&dict, &object, name.as_bytes());
        let part = part.unwrap().expect("a field of that name");
        assert!(part.starts_with(child), "{name}");
        let found = lichenhusk::lookup(&dict, &object, name.as_bytes());
        let found = found.unwrap().expect("a field of that name");
        assert_eq!(listed[found.field].child, child, "{name}");
    }
    for absent in [&b"flo"[..], b"flow1", b"\xFF"] {
        assert_eq!(lichenhusk::child(&dict, &object, absent), Ok(None));
    }
    assert_eq!(lichenhusk::check_tree(&dict, &object), Ok(object.len()));
}

/// Every order of five pairs gives the same bytes.
#[test]
fn any_order() {
    let dict = write_dictionary(["ab", "", "b", "é", "abc"]).unwrap();
    let bytes = *b"\x0C\xFB\x05x\x04";
    let pairs = [[0, 0, 2], [1, 2, 4], [2, 4, 5], [3, 0, 2], [4, 1, 5]];
    let due = object(&dict, &bytes, &pairs);
    let mut orders = 0;
    for number in 0..5_usize.pow(5) {
        let order: Vec<usize> = (0..5).map(|at| number / 5_usize.pow(at) % 5).collect();
        if (0..5).all(|pair| order.contains(&pair)) {
            let other: Vec<Pair> = order.iter().map(|&at| pairs[at]).collect();
            assert_eq!(object(&dict, &bytes, &other), due, "{order:?}");
            orders += 1;
        }
    }
    assert_eq!(orders, 120);
}

/// Sorted, reversed and in no order: names that begin alike in more bytes than are compared at once,
/// over a dictionary that is sorted and one that is not.
#[test]
fn names_that_begin_alike() {
    let name = |number: usize| format!("{:_<40}{:05}", "station_meter", number);
    let count = 2_000;
    let sorted = write_dictionary((0..count).map(name)).unwrap();
    let pairs: Vec<Pair> = (0..count as u32)
        .map(|id| [id, id % 3, 3 + id % 2])
        .collect();
    let bytes = [1, 2, 3, 4];
    let due = object(&sorted, &bytes, &pairs);
    let mut others = pairs.clone();
    others.reverse();
    assert_eq!(object(&sorted, &bytes, &others), due);
    let mixed: Vec<Pair> = (0..count).map(|at| pairs[at * 7919 % count]).collect();
    assert_eq!(object(&sorted, &bytes, &mixed), due);
    // The same names in the other order in the dictionary: other ids, and the same order of fields.
    let unsorted = reversed(&(0..count).map(name).collect::<Vec<_>>());
    let last = count as u32 - 1;
    let turned: Vec<Pair> = mixed.iter().map(|&[id, a, b]| [last - id, a, b]).collect();
    let other = object(&unsorted, &bytes, &turned);
    assert_eq!(other.len(), due.len());
    let children = |dict: &[u8], object: &[u8]| -> Vec<Vec<u8>> {
        let names: Vec<String> = (0..count).step_by(97).map(name).collect();
        let child = |name: &String| lichenhusk::child(dict, object, name.as_bytes());
        names
            .iter()
            .map(|name| child(name).unwrap().expect("a field").to_vec())
            .collect()
    };
    assert_eq!(children(&unsorted, &other), children(&sorted, &due));
}

/// An unsorted dictionary of names, the last first, its numbers of three bytes.
fn reversed(names: &[String]) -> Vec<u8> {
    let mut dict = vec![0x81];
    let mut number = |number: usize| dict.extend_from_slice(&number.to_le_bytes()[..3]);
    number(names.len());
    number(0);
    let mut end = 0;
    for name in names.iter().rev() {
        end += name.len();
        number(end);
    }
    let text: String = names.iter().rev().map(String::as_str).collect();
    dict.extend_from_slice(text.as_bytes());
    dict
}

/// A strip that is short is refused before anything else, and nothing at all is written.
#[test]
fn a_short_strip() {
    let dict = hex(D);
    for (dict, words) in [
        (&dict[..], &[1, 0, 1, 0, 0, 1][..]),
        (&dict, &[9, 0, 1]),
        (b"", &[]),
    ] {
        let (mut order, mut spare) = ([WORD; 2], [WORD; 2]);
        let (mut room, mut strip) = ([BYTE; 9], [BYTE; STRIP_BYTES - 1]);
        let code = raw::write_object(
            dict,
            &[0x04],
            words,
            &mut order,
            &mut spare,
            &mut room,
            &mut strip,
        );
        assert_eq!(code, 40);
        assert_eq!((order, spare), ([WORD; 2], [WORD; 2]));
        assert_eq!((room, strip), ([BYTE; 9], [BYTE; STRIP_BYTES - 1]));
    }
}

/// The six words of each answer.
#[test]
fn the_words_of_the_strip() {
    let long = vec![0; LIMIT];
    for (dict, pairs, words) in [
        (D, &[][..], [0, 0, 0, 3, 3, 0]),
        (D, &[1, 0, 1, 0, 1, 3], [0, 2, 0, 7, 10, 0]),
        ("01 00", &[], [13, 0, 0, 0, 0, 0]),
        ("11 03 00 01 02 03 61 62 61", &[], [18, 0, 0, 0, 0, 2]),
        (D, &[1, 0, 1, 2, 0, 1], [25, 0, 0, 0, 0, 1]),
        (D, &[1, 0, 1, 1, 0, 1], [26, 0, 0, 0, 0, 1]),
        (D, &[1, 0, 1, 0, 2, 1], [45, 0, 0, 0, 0, 1]),
        (D, &[1, 0, 1, 0, 2, 2], [28, 0, 0, 0, 0, 1]),
        (D, &[0, 0, LIMIT as u32], [20, 0, 0, 0, 0, 0]),
        (D, &[0, 0, 100], [46, 0, 0, 0, 0, 0]),
    ] {
        let (mut room, mut strip) = ([BYTE; 13], [BYTE; STRIP_BYTES]);
        let dict = hex(dict);
        let code = raw::write_object(&dict, &long, pairs, &mut [], &mut [], &mut room, &mut strip);
        let strip = Strip::read(&strip);
        let six = [
            strip.code,
            strip.number,
            strip.id,
            strip.start,
            strip.end,
            strip.place,
        ];
        assert_eq!((code, six), (words[0], words), "{pairs:?}");
    }
}

/// Entries and children, without words or scratch of the caller's.
#[test]
fn fields_by_their_entries() {
    let dict = hex(D);
    let due = hex("02 02 00 01 00 02 03 0C FB 04");
    let fields = [(1, vec![0x04]), (0, vec![0x0C, 0xFB])];
    assert_eq!(write_object(&dict, fields.clone()), Ok(due.clone()));
    let lent = fields.iter().map(|(id, child)| (*id, child));
    assert_eq!(write_object(&dict, lent.rev()), Ok(due));
    let none: [(u32, &[u8]); 0] = [];
    assert_eq!(write_object(&dict, none), Ok(hex("02 00 00")));
    for (fields, refusal) in [
        ([(0, &[1][..]), (2, &[1])], Refusal::ObjectId { field: 1 }),
        ([(1, &[1]), (1, &[1])], Refusal::ObjectOrder { field: 1 }),
        (
            [(0, &[]), (1, &[1])],
            Refusal::ObjectChildEmpty { field: 0 },
        ),
        ([(0, &[]), (u32::MAX, &[])], Refusal::ObjectId { field: 1 }),
    ] {
        assert_eq!(write_object(&dict, fields), Err(refusal));
    }
    let empty = write_object(&[], [(0, [1])]);
    assert_eq!(empty, Err(Refusal::DictionaryEmpty));
    let long = vec![0; LIMIT];
    let over = write_object(&dict, [(0, &long)]);
    assert_eq!(over, Err(Refusal::ObjectTooLong));
    let whole = write_object(&dict, [(0, &long[9..])]).unwrap();
    assert_eq!(whole.len(), LIMIT);
}

/// Children of more than 4,294,967,295 bytes together, of which nothing is copied: 20, before an entry
/// that is none.
#[test]
fn children_that_are_too_long_together() {
    let long = vec![0; 1 << 20];
    let fields = (0..4096).map(|_| (9, &long));
    assert_eq!(write_object(&hex(D), fields), Err(Refusal::ObjectTooLong));
}

/// Names of any kind, in any order, become a dictionary and an object.
#[test]
fn fields_by_their_names() {
    let due = (hex(D), hex("02 02 00 01 00 02 03 0C FB 04"));
    let mut writer = ObjectWriter::new();
    writer
        .field("roll", [0x04])
        .field(b"flow", vec![0x0C, 0xFB]);
    assert_eq!(writer.finish(), Ok(due.clone()));
    let owned = [
        (String::from("flow"), vec![0x0C, 0xFB]),
        (String::from("roll"), vec![0x04]),
    ];
    assert_eq!(
        owned.iter().cloned().collect::<ObjectWriter>().finish(),
        Ok(due.clone())
    );
    let mut extended = ObjectWriter::new();
    extended.extend(owned.iter().map(|(name, child)| (name, child)));
    assert_eq!(extended.finish(), Ok(due));
    assert_eq!(
        ObjectWriter::new().finish(),
        Ok((hex("11 00 00"), hex("02 00 00")))
    );
    // The name of no bytes is a name.
    let nameless = ObjectWriter::from_iter([("", [0x04])]).finish();
    assert_eq!(nameless, Ok((hex("11 01 00 00"), hex("02 01 00 00 01 04"))));
}

#[test]
fn fields_by_their_names_refused() {
    let finish = |fields: &[(&[u8], &[u8])]| {
        let writer: ObjectWriter = fields.iter().copied().collect();
        writer
            .finish()
            .map_err(|refusal| (refusal.number(), refusal.place()))
    };
    let (some, none) = (&[0x04][..], &[][..]);
    for (fields, refusal) in [
        // A name that is no text comes before one that comes again, and that before a child of no bytes.
        (
            &[(&b"a"[..], none), (b"a", some), (b"\xC3", some)][..],
            (45, 2),
        ),
        (&[(b"a", none), (b"b", some), (b"a", some)], (26, 2)),
        (&[(b"a", some), (b"b", none), (b"c", none)], (28, 1)),
    ] {
        assert_eq!(finish(fields), Err(refusal));
    }
    let long = vec![0; LIMIT];
    assert_eq!(finish(&[(b"a", &long)]), Err((20, 0)));
    assert_eq!(finish(&[(&long, some)]), Err((10, 0)));
}

/// Over a dictionary that is there: its refusals first, then a name that it has not; of entries with one
/// name, the first.
#[test]
fn fields_over_a_dictionary() {
    let over = |dict: &str, names: &[&str]| {
        let writer: ObjectWriter = names.iter().map(|name| (name, [0x04])).collect();
        writer.finish_over(&hex(dict))
    };
    let all = over(UNSORTED, &["b", "", "a"]);
    assert_eq!(all, Ok(hex("02 03 02 01 00 00 01 02 03 04 04 04")));
    assert_eq!(over(D, &["roll"]), Ok(hex("02 01 01 00 01 04")));
    assert_eq!(over(D, &[]), Ok(hex("02 00 00")));
    let absent = Refusal::ObjectId { field: 1 };
    for name in ["", "flo", "flow1", "rolm", "z"] {
        assert_eq!(over(D, &["roll", name, "roll"]), Err(absent), "{name}");
    }
    assert_eq!(
        over("11 00 00", &["a"]),
        Err(Refusal::ObjectId { field: 0 })
    );
    assert_eq!(over("01 00", &["a"]), Err(Refusal::DictionaryShort));
    let twice = over(UNSORTED, &["b", "a", "b"]);
    assert_eq!(twice, Err(Refusal::ObjectOrder { field: 2 }));
}

/// Names of a dictionary in each width are found, whatever order they stand in.
#[test]
fn entries_of_every_width() {
    for count in [3, 100, 12_000] {
        let names: Vec<String> = (0..count).map(|number| format!("{number:06x}")).collect();
        let (sorted, unsorted) = (write_dictionary(&names).unwrap(), reversed(&names));
        for number in [0, 1, count / 2, count - 1] {
            let writer = ObjectWriter::from_iter([(&names[number], [0x04])]);
            for (dict, id) in [(&sorted, number), (&unsorted, count - 1 - number)] {
                let object = writer.finish_over(dict).unwrap();
                let found = lichenhusk::lookup(dict, &object, names[number].as_bytes());
                assert_eq!(found.unwrap().map(|found| found.id as usize), Some(id));
            }
        }
    }
}

/// An object in an object, over one dictionary, and a path into it.
#[test]
fn objects_in_one_another() {
    let dict = write_dictionary(["site", "meter", "flow"]).unwrap();
    let mut value = vec![0x0C, 0xFB];
    for name in ["flow", "meter", "site"] {
        let writer = ObjectWriter::from_iter([(name, value)]);
        value = writer.finish_over(&dict).unwrap();
    }
    assert_eq!(lichenhusk::check_tree(&dict, &value), Ok(value.len()));
    let flow = Message::new(&dict, &value).value_at("site.meter.flow");
    assert_eq!(flow, Ok(Some(Value::I8(-5))));
}
