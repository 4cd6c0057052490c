//! Dictionaries that are written: their bytes, each refusal with its place, what is lent, and that they
//! are read back.

mod common;

use common::{D, hex};
use lichenhusk::{
    Dictionary, LIMIT, Refusal, STRIP_BYTES, Strip, Written, raw, run_of, write_dictionary,
    write_dictionary_into,
};

/// What a lent byte and a lent word hold before a call.
const BYTE: u8 = 0xEE;
const WORD: u32 = 0xEEEE_EEEE;

/// The answer to names by their run and ends, with scratch enough, and the room, so many bytes.
fn written(run: &[u8], ends: &[u32], bytes: usize) -> (Result<Written, Refusal>, Vec<u8>) {
    let (order, spare) = (&mut vec![WORD; ends.len()], &mut vec![WORD; ends.len()]);
    let mut room = vec![BYTE; bytes];
    let answer = write_dictionary_into(run, ends, order, spare, &mut room);
    (answer, room)
}

/// The refusal of names in so much room, which leaves all of it.
fn refused(run: &[u8], ends: &[u32], bytes: usize) -> Refusal {
    let (answer, room) = written(run, ends, bytes);
    assert!(room.iter().all(|&byte| byte == BYTE), "{answer:?}");
    answer.unwrap_err()
}

fn names_end(name: u32) -> Refusal {
    Refusal::NamesEnd { name }
}

/// The dictionary of names that are taken.
fn dict(names: &[&str]) -> Vec<u8> {
    write_dictionary(names).unwrap_or_else(|refusal| panic!("{names:?}: {refusal}"))
}

#[test]
fn worked_cases() {
    for (names, bytes) in [
        (&[][..], "11 00 00"),
        (&[""], "11 01 00 00"),
        (&["a"], "11 01 00 01 61"),
        (&["flow", "roll"], D),
        (&["roll", "flow"], D),
        (&["roll", "flow", "roll", "flow"], D),
        (&["", "a", ""], "11 02 00 00 01 61"),
        (&["b", "ab", "a"], "11 03 00 01 03 04 61 61 62 62"),
        // A name is above its own beginnings, and shorter names may be above longer ones.
        (
            &["ab", "b", "abc", "a"],
            "11 04 00 01 03 06 07 61 61 62 61 62 63 62",
        ),
        (&["é", "z", "\0"], "11 03 00 01 02 04 00 7A C3 A9"),
        // By bytes: U+FFFF before U+10000, which in two 16-bit units is the other way about.
        (
            &["\u{10000}", "\u{FFFF}"],
            "11 02 00 03 07 EF BF BF F0 90 80 80",
        ),
    ] {
        assert_eq!(dict(names), hex(bytes), "{names:?}");
    }
}

/// Names of every kind that is a string of bytes, owned or not, out of any iterator.
#[test]
fn names_of_any_kind() {
    let owned = [String::from("roll"), String::from("flow")];
    assert_eq!(write_dictionary(&owned), Ok(hex(D)));
    assert_eq!(write_dictionary(owned), Ok(hex(D)));
    assert_eq!(write_dictionary([b"roll", b"flow"]), Ok(hex(D)));
    let split = "roll flow roll".split(' ');
    assert_eq!(write_dictionary(split), Ok(hex(D)));
    let bytes: Vec<Vec<u8>> = vec![b"flow".to_vec(), b"roll".to_vec()];
    assert_eq!(write_dictionary(bytes.iter()), Ok(hex(D)));
}

#[test]
fn bytes_after_the_last_end() {
    let (answer, room) = written(b"flowroll\xFF\xC3", &[4, 8], 20);
    assert_eq!(
        answer,
        Ok(Written {
            count: 2,
            length: 13
        })
    );
    assert_eq!(room[..13], hex(D));
    let none = written(b"\xFF", &[], 5);
    assert_eq!(
        none.0,
        Ok(Written {
            count: 0,
            length: 3
        })
    );
    assert_eq!(none.1, [0x11, 0, 0, BYTE, BYTE]);
}

/// 45 for each of its three causes.
#[test]
fn the_first_bad_name() {
    for (run, ends, name) in [
        (&b"flowroll"[..], &[4, 3][..], 1),
        (b"flowroll", &[4, 8, 0], 2),
        (b"flowroll", &[4, 9], 1),
        (b"flowroll", &[u32::MAX], 0),
        (b"", &[0, 0, 1], 2),
        (b"\xFF", &[1], 0),
        (b"a\xC3", &[1, 2], 1),
        (b"ab\xED\xA0\x80", &[1, 2, 5], 2),
        // The run is text, and its names are not: a character is cut in two.
        (b"\xC3\xA9", &[1, 2], 0),
        (b"a\xC3\xA9", &[1, 2, 3], 1),
        // Of several the first, whichever of the three it is.
        (b"a\xFFb", &[1, 2, 1], 1),
        (b"a\xFFb", &[1, 0, 2], 1),
        (b"a\xFFb", &[9, 2, 1], 0),
        (b"ab\xFF", &[1, 2, 9], 2),
    ] {
        for room in [0, 3, 100] {
            assert_eq!(
                refused(run, ends, room),
                names_end(name),
                "{run:?} {ends:?}"
            );
        }
    }
    assert_eq!(
        write_dictionary([&b"a"[..], b"\xC3", b"\xFF"]),
        Err(names_end(1))
    );
}

/// A bad name after very many good ones, which are checked before any is sorted.
#[test]
fn a_bad_name_far_on() {
    let mut names: Vec<Vec<u8>> = (0..70_000).rev().map(named).collect();
    names[69_999] = b"\x80".to_vec();
    assert_eq!(write_dictionary(&names), Err(names_end(69_999)));
    names[65_536] = b"\xF4\x90\x80\x80".to_vec();
    assert_eq!(write_dictionary(&names), Err(names_end(65_536)));
}

/// The name of a number: six letters, in the order of the numbers.
fn named(number: usize) -> Vec<u8> {
    format!("{number:06x}").into_bytes()
}

/// Room for just the dictionary does, and more stays as it is; a byte less is refused.
#[test]
fn room() {
    for names in [&[][..], &["a"], &["flow", "roll", "flow"], &["", "é"]] {
        let due = dict(names);
        let (run, ends) = run_of(names).unwrap();
        for more in [0, 1, 5] {
            let (answer, room) = written(&run, &ends, due.len() + more);
            assert_eq!(answer.map(|written| written.length), Ok(due.len()));
            let (dict, after) = room.split_at(due.len());
            assert_eq!((dict, after), (&due[..], &vec![BYTE; more][..]));
        }
        for bytes in 0..due.len() {
            assert_eq!(refused(&run, &ends, bytes), Refusal::WriteNoRoom);
        }
    }
}

/// 45 before 10, and 10 before 46.
#[test]
fn the_order_of_refusals() {
    let mut run = vec![b'a'; LIMIT];
    run.push(0xFF);
    let (long, last) = (LIMIT as u32, LIMIT as u32 + 1);
    for room in [0, LIMIT + 100] {
        assert_eq!(refused(&run, &[long, last], room), names_end(1));
        assert_eq!(refused(&run, &[long, 0], room), names_end(1));
        let too_long = Refusal::DictionaryTooLong;
        assert_eq!(refused(&run, &[long], room), too_long);
    }
    assert_eq!(refused(&run, &[long, last], 3), names_end(1));
    assert_eq!(refused(b"a", &[1], 4), Refusal::WriteNoRoom);
}

/// How much scratch of each of the two is lent, for so many names.
fn amounts(names: usize) -> Vec<[usize; 2]> {
    let mut amounts = vec![[0, 0], [0, names], [names, 0], [names, names]];
    amounts.push([names + 3, names + 1]);
    if names > 0 {
        amounts.extend([[names - 1, names], [names, names - 1], [1, 1]]);
    }
    amounts
}

/// Whatever scratch is lent and whatever it holds, the answer and the room are the same; and scratch
/// that is too little is not written.
#[test]
fn scratch() {
    let many: Vec<String> = (0..300).map(|n| format!("{}", n * 7919 % 100)).collect();
    let many: Vec<&str> = many.iter().map(String::as_str).collect();
    for names in [&[][..], &["a"], &["roll", "flow", "roll", ""], &many] {
        let due = dict(names);
        let (run, ends) = run_of(names).unwrap();
        for [order, spare] in amounts(names.len()) {
            for held in [0, 1, names.len() as u32, WORD, u32::MAX] {
                let (mut order, mut spare) = (vec![held; order], vec![held; spare]);
                let mut room = vec![BYTE; due.len() + 1];
                let answer =
                    write_dictionary_into(&run, &ends, &mut order, &mut spare, &mut room).unwrap();
                assert_eq!(answer.length, due.len());
                assert_eq!(room[..due.len()], due);
                assert_eq!(room[due.len()], BYTE);
                if order.len().min(spare.len()) < names.len() {
                    assert!(order.iter().chain(&spare).all(|&word| word == held));
                }
            }
        }
    }
}

/// Without scratch the refusals are the same, too.
#[test]
fn refusals_without_scratch() {
    let long = vec![b'a'; LIMIT];
    for (run, ends, number, place) in [
        (&b"flowroll"[..], &[4, 3][..], 45, 1),
        (b"\xC3\xA9", &[2, 1], 45, 1),
        (b"\xC3\xA9", &[1, 2], 45, 0),
        (&long, &[LIMIT as u32], 10, 0),
        (b"flowroll", &[4, 8], 46, 0),
    ] {
        let room = &mut [BYTE; 12];
        let refusal = write_dictionary_into(run, ends, &mut [], &mut [], room).unwrap_err();
        assert_eq!((refusal.number(), refusal.place()), (number, place));
        assert_eq!(room, &[BYTE; 12]);
    }
}

/// How many bytes a number has in a dictionary, by its header.
fn width(dict: &[u8]) -> usize {
    assert_eq!(dict[0] & 0x3F, 0x11, "version 1, sorted, the other bit 0");
    1 + (dict[0] >> 6) as usize
}

/// The least width that holds the total. The count never asks for more: of 256 different names that are
/// text, all but one have bytes, and only 128 of these have no more than one.
#[test]
fn widths_by_the_total() {
    for (total, due) in [
        (0, 1),
        (255, 1),
        (256, 2),
        (65_535, 2),
        (65_536, 3),
        (LIMIT - 20, 3),
    ] {
        let name = vec![b'x'; total];
        let dict = write_dictionary([&name]).unwrap();
        assert_eq!(width(&dict), due, "{total}");
        assert_eq!(dict.len(), 1 + 3 * due + total);
        let twice = write_dictionary([&name, &name]);
        assert_eq!(twice, Ok(dict), "a name that is given twice counts once");
    }
}

#[test]
fn widths_by_the_count() {
    for (count, due) in [
        (100, 2),
        (255, 2),
        (256, 2),
        (65_535, 3),
        (65_536, 3),
        (65_537, 3),
    ] {
        let dict = write_dictionary((0..count).rev().map(named)).unwrap();
        assert_eq!(width(&dict), due, "{count}");
        assert_eq!(dict.len(), 1 + due * (count + 2) + 6 * count);
        let entries = lichenhusk::dictionary(&dict).map(|dictionary| dictionary.entries);
        assert_eq!(entries, Ok(count));
    }
    // Names of as few bytes as there can be: of none, of one, and of two.
    let ones = (0..128).map(|byte| vec![byte]);
    let twos = (0..126).map(|byte| vec![b'~', byte]);
    let names: Vec<Vec<u8>> = [vec![]].into_iter().chain(ones).chain(twos).collect();
    for (count, total, due) in [(129, 128, 1), (192, 254, 1), (193, 256, 2), (255, 380, 2)] {
        let some = &names[..count];
        assert_eq!(some.iter().map(Vec::len).sum::<usize>(), total);
        assert_eq!(width(&write_dictionary(some).unwrap()), due, "{count}");
    }
}

/// A result of just as many bytes as the limit is written, and one more is refused; what counts are the
/// bytes of the result, not those that are given.
#[test]
fn results_about_the_limit() {
    // Two names, and three numbers of three bytes each for the first.
    let head = 1 + 4 * 3;
    let long = vec![b'x'; LIMIT - head];
    let (fits, over) = (&long[..LIMIT - head - 1], &long[..]);
    let dict = write_dictionary([fits, b"a", fits, b"a"]).unwrap();
    assert_eq!(dict.len(), LIMIT);
    let whole = Dictionary {
        entries: 2,
        end: LIMIT,
    };
    assert_eq!(lichenhusk::dictionary(&dict), Ok(whole));
    assert_eq!(lichenhusk::name(&dict, 1), Ok(fits));
    let too_long = Refusal::DictionaryTooLong;
    assert_eq!(write_dictionary([over, b"a"]), Err(too_long));
    assert_eq!(write_dictionary([over, b"a", over]), Err(too_long));
    // In room of just the limit, and with one byte less.
    let (run, ends) = run_of(&[fits, b"a"]).unwrap();
    assert_eq!(written(&run, &ends, LIMIT).1, dict);
    assert_eq!(refused(&run, &ends, LIMIT - 1), Refusal::WriteNoRoom);
}

/// The same with as many names as there is room for: 11 bytes each, 3 of them an offset.
#[test]
fn very_many_names() {
    let name = |number: usize| format!("{number:08x}");
    let most = (LIMIT - 7) / 11;
    let dict = write_dictionary((0..most).rev().map(name)).unwrap();
    assert_eq!(dict.len(), 7 + 11 * most);
    for entry in [0, 1, most / 2, most - 1] {
        assert_eq!(lichenhusk::name(&dict, entry), Ok(name(entry).as_bytes()));
    }
    let refused = write_dictionary((0..=most).map(name));
    assert_eq!(refused, Err(Refusal::DictionaryTooLong));
}

/// Names of more than 4,294,967,295 bytes together, of which nothing is copied: 10, though they are one
/// name again and again, and before a name that is no text.
#[test]
fn names_that_are_too_long_together() {
    let long = vec![b'x'; 1 << 20];
    let mut names = vec![&long[..]; 4096];
    let too_long = Err(Refusal::DictionaryTooLong);
    assert_eq!(write_dictionary(&names), too_long);
    names.push(b"\xFF");
    assert_eq!(write_dictionary(&names), too_long);
}

/// What is read back of a dictionary is the set, sorted: by its count and end, by each number, and by
/// an object that has all names as fields, each found by its own.
#[test]
fn it_is_read_back() {
    let names = [
        "zone",
        "",
        "flow",
        "é",
        "meter[2]",
        "flow",
        "\0",
        "a\u{10FFFF}",
    ];
    let dict = dict(&names);
    let mut set: Vec<&str> = names.to_vec();
    set.sort_unstable();
    set.dedup();
    let whole = Dictionary {
        entries: set.len(),
        end: dict.len(),
    };
    assert_eq!(lichenhusk::dictionary(&dict), Ok(whole));
    let count = set.len() as u8;
    let object: Vec<u8> = [0x02, count]
        .into_iter()
        .chain(0..count)
        .chain(0..=count)
        .chain((0..count).map(|_| 0))
        .collect();
    for (entry, name) in set.iter().enumerate() {
        assert_eq!(lichenhusk::name(&dict, entry), Ok(name.as_bytes()));
        let found = lichenhusk::lookup(&dict, &object, name.as_bytes());
        let found = found.map(|found| found.map(|found| (found.field, found.id)));
        assert_eq!(found, Ok(Some((entry, entry as u32))), "{name}");
    }
    assert_eq!(
        lichenhusk::name(&dict, set.len()),
        Err(Refusal::NoSuchEntry)
    );
    assert_eq!(lichenhusk::lookup(&dict, &object, b"flo"), Ok(None));
    assert_eq!(
        lichenhusk::check_tree(&dict, &object),
        Ok(object.len()),
        "a tree over it"
    );
}

/// Six draws out of four names, whichever they are, and then the four: every order in which they can
/// come first, and some again and again.
#[test]
fn any_order_and_any_repeats() {
    let names = ["ab", "", "b", "é"];
    let due = dict(&names);
    for draw in 0..4_usize.pow(6) {
        let more = (0..6).map(|place| names[draw >> (2 * place) & 3]);
        let given: Vec<&str> = more.chain(names).collect();
        assert_eq!(dict(&given), due, "{given:?}");
    }
}

/// Sorted, reversed, all equal, and in no order: names that begin alike in more bytes than are
/// compared at once.
#[test]
fn names_that_begin_alike() {
    let name = |number: usize| format!("{:_<40}{:05}", "station_meter", number);
    let count = 2_000;
    let sorted: Vec<String> = (0..count).map(name).collect();
    let due = write_dictionary(&sorted).unwrap();
    assert_eq!(write_dictionary(sorted.iter().rev()), Ok(due.clone()));
    let mixed = (0..3 * count).map(|number| name(number * 7919 % count));
    assert_eq!(write_dictionary(mixed), Ok(due));
    let equal = vec![name(7); count];
    assert_eq!(write_dictionary(&equal), write_dictionary([name(7)]));
}

/// A strip that is short is refused before anything else, and nothing at all is written.
#[test]
fn a_short_strip() {
    for (run, ends) in [(&b"ba"[..], &[1, 2][..]), (b"b\xFF", &[1, 2]), (b"", &[1])] {
        let (mut order, mut spare) = ([WORD; 2], [WORD; 2]);
        let (mut room, mut strip) = ([BYTE; 9], [BYTE; STRIP_BYTES - 1]);
        let code = raw::write_dictionary(run, ends, &mut order, &mut spare, &mut room, &mut strip);
        assert_eq!(code, 40);
        assert_eq!((order, spare), ([WORD; 2], [WORD; 2]));
        assert_eq!((room, strip), ([BYTE; 9], [BYTE; STRIP_BYTES - 1]));
    }
}

/// The six words of each answer.
#[test]
fn the_words_of_the_strip() {
    let long = vec![b'a'; LIMIT];
    for (run, ends, words) in [
        (&b""[..], &[][..], [0, 0, 0, 0, 3, 0]),
        (b"rollflow", &[4, 8], [0, 2, 0, 0, 13, 0]),
        (b"aaaa", &[1, 2, 3, 4], [0, 1, 0, 0, 5, 0]),
        (b"a", &[1, 0], [45, 0, 0, 0, 0, 1]),
        (&long, &[LIMIT as u32], [10, 0, 0, 0, 0, 0]),
        (&long[..20], &[20], [46, 0, 0, 0, 0, 0]),
    ] {
        let (mut room, mut strip) = ([BYTE; 13], [BYTE; STRIP_BYTES]);
        let code = raw::write_dictionary(run, ends, &mut [], &mut [], &mut room, &mut strip);
        let Strip {
            code: first,
            number,
            id,
            start,
            end,
            place,
        } = Strip::read(&strip);
        assert_eq!([first, number, id, start, end, place], words);
        assert_eq!(code, first);
    }
}
