//! Paths: how they are read into steps, each refusal with its place, what is found and where, and
//! what is lent for the steps.

mod common;

use common::{D, P, hex, padded};
use lichenhusk::{
    LIMIT, Message, Reached, Refusal, STRIP_BYTES, Strip, Value, WORDS_PER_STEP, path, path_with,
    raw,
};

/// The object of "flow", a list of two: document 01's object, and a list of minus five. The list
/// starts at 5, the object at 10, the inner list at 20 and its element at 24.
const NESTED: &str =
    "02 01 00 00 15 03 02 00 0A 10 02 02 00 01 01 00 03 04 0C FB 03 01 00 02 0C FB";

/// What a byte and a word hold before a call.
const BYTE: u8 = 0xEE;
const WORD: u32 = 0xEEEE_EEEE;

/// A step, as the words and the names have it.
#[derive(Clone, Debug, PartialEq, Eq)]
enum Step {
    Name(String),
    Index(u64),
}

fn name(text: &str) -> Step {
    Step::Name(text.to_string())
}

/// The steps that are written, or the number of the refusal. Words and bytes after them stay, and
/// under a refusal all.
fn steps(text: &[u8]) -> Result<Vec<Step>, u32> {
    let mut names = vec![BYTE; text.len() + 2];
    let mut words = vec![WORD; WORDS_PER_STEP * text.len() + 2];
    match path_with(&hex(D), &[], text, &mut names, &mut words) {
        Err(refusal) if refusal.number() >= 70 => {
            assert!(names.iter().all(|&byte| byte == BYTE), "{text:?}");
            assert!(words.iter().all(|&word| word == WORD), "{text:?}");
            Err(refusal.number())
        }
        _ => Ok(read_back(&names, &words)),
    }
}

/// The steps of what was written to room that is longer.
fn read_back(names: &[u8], words: &[u32]) -> Vec<Step> {
    let (rows, _) = words.as_chunks::<WORDS_PER_STEP>();
    let written = rows.iter().take_while(|row| row[0] != WORD).count();
    let mut used = 0;
    let steps = rows[..written].iter().map(|&[kind, low, high]| match kind {
        0 => {
            assert_eq!(low as usize, used, "without gaps");
            used = high as usize;
            name(std::str::from_utf8(&names[low as usize..used]).expect("text"))
        }
        _ => Step::Index(u64::from(high) << 32 | u64::from(low)),
    });
    let steps = steps.collect();
    assert!(names[used..].iter().all(|&byte| byte == BYTE));
    assert!(
        words[WORDS_PER_STEP * written..]
            .iter()
            .all(|&word| word == WORD)
    );
    steps
}

/// Paths, and their steps by the Rust's rules.
fn spelled() -> Vec<(&'static str, Vec<Step>)> {
    use Step::Index;
    vec![
        ("", vec![]),
        ("a", vec![name("a")]),
        ("site.meter[2]", vec![name("site"), name("meter"), Index(2)]),
        ("a.b", vec![name("a"), name("b")]),
        ("[1]b", vec![Index(1), name("b")]),
        ("[1].b", vec![Index(1), name("b")]),
        ("[1][2]", vec![Index(1), Index(2)]),
        (
            "a['b.c'].d[2]['3']",
            vec![name("a"), name("b.c"), name("d"), Index(2), name("3")],
        ),
        ("['']", vec![name("")]),
        (r#"[""]"#, vec![name("")]),
        (r#"["a"]"#, vec![name("a")]),
        ("['''']", vec![name("''")]),
        (r#"['a"']"#, vec![name("a\"")]),
        (r"['a\]b']", vec![name("a]b")]),
        (r"['a\\b']", vec![name(r"a\b")]),
        (r"['\a\b']", vec![name("ab")]),
        // Backslashes are taken off before quotes are looked for.
        (r"['a\']", vec![name("a")]),
        (r"[\'a\']", vec![name("a")]),
        (r"[\5]", vec![Index(5)]),
        (r"[\+5]", vec![Index(5)]),
        ("['[']", vec![name("[")]),
        ("['é\\é']", vec![name("éé")]),
        // Outside of brackets a backslash and a quote are plain.
        (r"a\.b", vec![name(r"a\"), name("b")]),
        ("'a'", vec![name("'a'")]),
        (" a ", vec![name(" a ")]),
        ("é€😀", vec![name("é€😀")]),
        ("[0]", vec![Index(0)]),
        ("[007]", vec![Index(7)]),
        ("[+5]", vec![Index(5)]),
        ("[+000]", vec![Index(0)]),
        ("[4294967295]", vec![Index(u64::from(u32::MAX))]),
        ("[4294967296]", vec![Index(1 << 32)]),
        ("[18446744073709551615]", vec![Index(u64::MAX)]),
        ("[00018446744073709551615]", vec![Index(u64::MAX)]),
    ]
}

#[test]
fn steps_of_paths() {
    for (path, due) in spelled() {
        assert_eq!(steps(path.as_bytes()), Ok(due), "{path}");
    }
}

/// Paths that are refused.
const REFUSED: [(&[u8], u32); 46] = [
    (b"\xFF", 70),
    (b"\xC3", 70),
    (b".\x80", 70),
    (b"['\xED\xA0\x80']", 70),
    (b"a.\xF5", 70),
    (b".", 71),
    (b".a", 71),
    (b"..", 71),
    (b".[", 71),
    (b".]", 71),
    (b"a.", 72),
    (b"[0].", 72),
    (b"['a'].", 72),
    (b"a..", 73),
    (b"a..b", 73),
    (b"a.[0]", 73),
    (b"a.]", 73),
    (b"]", 73),
    (b"a]", 73),
    (b"a]b", 73),
    (b"[0]]", 73),
    (b"a].", 73),
    (b"[", 74),
    (b"a[", 74),
    (b"[1", 74),
    (b"['a'", 74),
    (b"[\\]", 74),
    (b"['a\\]", 74),
    (b"[1\\", 74),
    (b"[[", 74),
    (b"[]", 75),
    (b"[']", 75),
    (b"[\"]", 75),
    (b"['\"]", 75),
    (b"[a]", 75),
    (b"[x].", 75),
    (b"[x]]", 75),
    (b"[x][", 75),
    (b"[+]", 75),
    (b"[++1]", 75),
    (b"[-0]", 75),
    (b"[-1]", 75),
    (b"[ 1]", 75),
    (b"[1 ]", 75),
    (b"[18446744073709551616]", 75),
    (b"[99999999999999999999999999999999999999999]", 75),
];

#[test]
fn refused_paths() {
    for (path, number) in REFUSED {
        let text = String::from_utf8_lossy(path);
        assert_eq!(steps(path), Err(number), "{text}");
    }
}

/// A path is refused before the dictionary and the value are looked at, and before room is.
#[test]
fn the_path_first() {
    for (path, number) in REFUSED {
        for dict in ["", D] {
            let refused = path_with(&hex(dict), &[], path, &mut [], &mut []).unwrap_err();
            assert_eq!((refused.number(), refused.place()), (number, 0));
        }
    }
}

/// The number, place and start of what is refused.
fn refused(dict: &str, value: &[u8], text: &str) -> (u32, u32) {
    let refusal = path(&hex(dict), value, text).unwrap_err();
    (refusal.number(), refusal.place())
}

/// What stands at a path, by field, id, start and end; nothing where it is absent.
fn found(value: &[u8], text: &str) -> Option<[usize; 4]> {
    let found = path(&hex(D), value, text).unwrap_or_else(|refusal| panic!("{text}: {refusal}"));
    let place = |found: Reached| {
        let end = found.start + found.bytes.len();
        assert!(std::ptr::eq(found.bytes, &value[found.start..end]));
        [found.field, found.id as usize, found.start, end]
    };
    found.map(place)
}

#[test]
fn what_is_found() {
    let value = hex(NESTED);
    for (path, due) in [
        ("", Some([0, 0, 0, 26])),
        ("flow", Some([0, 0, 5, 26])),
        ("flow[0]", Some([0, 0, 10, 20])),
        ("flow[0].roll", Some([1, 1, 17, 20])),
        ("flow[0].flow", Some([0, 0, 18, 20])),
        ("flow[0]['flow']", Some([0, 0, 18, 20])),
        ("flow[1]", Some([1, 0, 20, 26])),
        ("flow[1][0]", Some([0, 0, 24, 26])),
        ("flow[+01][0]", Some([0, 0, 24, 26])),
        ("roll", None),
        ("flow[2]", None),
        ("flow[1][1]", None),
        ("flow[0].rol", None),
        ("flow[0]['']", None),
        // Past any list, whatever its low half says.
        ("flow[4294967296]", None),
        ("flow[18446744073709551615]", None),
        // What is absent is so whatever comes after.
        ("flow[2][0].x", None),
    ] {
        assert_eq!(found(&value, path), due, "{path}");
    }
}

/// An object's child goes on to the object's trimmed end, and an element to the next offset, which
/// cuts what is handed on.
#[test]
fn what_is_handed_down() {
    // An object in an object; bytes follow both.
    let objects = hex("02 01 00 00 07 02 01 01 00 01 00 FF EE");
    assert_eq!(found(&objects, "flow"), Some([0, 0, 5, 12]));
    assert_eq!(found(&objects, "flow.roll"), Some([0, 1, 10, 11]));
    // A list of one object, whose element has a byte too few for it, though the bytes are there.
    let cut = hex("03 02 00 05 06 02 01 00 00 01 00");
    assert_eq!(refused(D, &cut, "[0].flow"), (23, 0));
    assert_eq!(
        found(&hex("03 01 00 06 02 01 00 00 01 00"), "[0].flow"),
        Some([0, 0, 9, 10])
    );
    // Elements of no bytes are found, and no step goes into them.
    let empty = hex("03 02 00 00 01 00");
    assert_eq!(found(&empty, "[0]"), Some([0, 0, 5, 5]));
    assert_eq!(refused(D, &empty, "[0][0]"), (21, 0));
}

/// 53: an index into an object, a name into a list, either into a leaf; the place is the step.
#[test]
fn other_kinds() {
    let value = hex(NESTED);
    for (path, step) in [
        ("[0]", 0),
        ("flow.flow", 1),
        ("flow[0][0]", 2),
        ("flow[1].flow", 2),
        ("flow[0].roll.x", 3),
        ("flow[1][0][0]", 3),
    ] {
        assert_eq!(refused(D, &value, path), (53, step), "{path}");
        assert_eq!(
            lichenhusk::path(&hex(D), &value, path),
            Err(Refusal::StepKind { step })
        );
    }
    for leaf in ["00", "05 61", "54"] {
        assert_eq!(refused(D, &hex(leaf), "a"), (53, 0), "{leaf}");
        assert_eq!(refused(D, &hex(leaf), "[0]"), (53, 0), "{leaf}");
    }
}

/// A layer's own refusals, as the outermost and further in: the same number and place.
#[test]
fn layers_that_are_refused() {
    for (layer, step, number, place) in [
        ("02", "flow", 23, 0),
        ("02 01 00 00 01", "flow", 23, 0),
        ("42 FF FF FF FF", "flow", 24, 0),
        ("02 01 02 00 01 00", "flow", 25, 0),
        ("02 02 01 00 00 00 01 00", "flow", 26, 1),
        ("02 02 00 01 00 02 01 00", "flow", 27, 1),
        ("02 02 00 01 00 01 01 00", "flow", 28, 1),
        ("03", "[0]", 60, 0),
        ("03 01 00 02 00", "[0]", 60, 0),
        ("13 FA FF FF FF", "[0]", 61, 0),
        ("03 02 00 02 01 00 00", "[0]", 62, 1),
        ("03 03 00 02 03 01 00 00 00", "[0]", 62, 1),
        // Before absence.
        ("02 02 00 01 00 01 01 00", "x", 28, 1),
        ("03 02 00 02 01 00 00", "[9]", 62, 1),
    ] {
        let layer = hex(layer);
        assert_eq!(refused(D, &layer, step), (number, place), "{layer:02X?}");
        let head = [0x02, 1, 0, 0, layer.len() as u8];
        let object = [&head[..], &layer].concat();
        let inner = format!("flow.{step}").replace(".[", "[");
        assert_eq!(
            refused(D, &object, &inner),
            (number, place),
            "{object:02X?}"
        );
    }
}

/// What a path does not go into is not looked at.
#[test]
fn beside_the_path() {
    // The other field is of no known type, and so is what is found.
    let value = hex("02 02 00 01 00 01 02 54 54");
    assert_eq!(found(&value, "flow"), Some([0, 0, 7, 9]));
    let list = hex("03 02 00 01 02 54 00");
    assert_eq!(found(&list, "[1]"), Some([1, 0, 6, 7]));
    assert_eq!(
        path(&hex(D), &list, "[0]").unwrap().unwrap().value(),
        Err(Refusal::ValueType)
    );
}

/// The dictionary's refusals come after the path's and before all of the value's, of the empty path
/// too.
#[test]
fn the_dictionary_then_the_value() {
    for (dict, number, place) in [
        ("", 11, 0),
        ("10 00 00", 12, 0),
        ("41 00 00 00", 13, 0),
        ("C1 FF FF FF FF", 14, 0),
        ("01 00 01 61", 15, 0),
        ("01 01 00 04 61 62 ED A0", 16, 2),
        ("01 03 00 01 02 03 61 C3 A9", 17, 1),
        ("11 03 00 01 02 03 61 62 61", 18, 2),
        ("01 01 00 05 61 62 F0 90 80", 19, 2),
    ] {
        let over_limit = vec![0; LIMIT + 1];
        for value in [&hex(P)[..], &[], &[0x54], &over_limit] {
            for text in ["", "flow", "[0]"] {
                assert_eq!(refused(dict, value, text), (number, place), "{dict}");
            }
        }
    }
    let dict = padded(D, LIMIT + 1);
    assert_eq!(path(&dict, &[], ""), Err(Refusal::DictionaryTooLong));
}

/// 20 and 21 come before 53; the empty path takes any value.
#[test]
fn values_of_any_length() {
    let long = padded(P, LIMIT + 1);
    assert_eq!(refused(D, &long, "flow"), (20, 0));
    assert_eq!(refused(D, &long, "[0]"), (20, 0));
    assert_eq!(refused(D, &[], "flow"), (21, 0));
    assert_eq!(refused(D, &[], "[0]"), (21, 0));
    assert_eq!(found(&long[..LIMIT], "flow"), Some([0, 0, 8, 10]));
    for value in [&long[..], &[], &[0x54]] {
        assert_eq!(found(value, ""), Some([0, 0, 0, value.len()]));
    }
}

/// The whole value, though the strip's end has 32 bits.
#[test]
fn a_value_of_four_gibibytes() {
    let length = (1 << 32) + 5;
    if Vec::<u8>::new().try_reserve_exact(length).is_err() {
        println!("skipped: there are not so many bytes here");
        return;
    }
    let value = vec![0; length];
    let whole = path(&hex(D), &value, "").unwrap().unwrap();
    assert_eq!((whole.start, whole.bytes.len()), (0, length));
    let mut strip = [0; STRIP_BYTES];
    assert_eq!(
        raw::path(&hex(D), &value, b"", &mut [], &mut [], &mut strip),
        0
    );
    assert_eq!(Strip::read(&strip).end, 5);
    assert_eq!(refused(D, &value, "flow"), (20, 0));
}

/// Room for just the steps does; a word or a byte less is refused, and leaves both as they were.
#[test]
fn room() {
    let value = hex(P);
    for (text, due) in spelled() {
        let text = text.as_bytes();
        let total = due.iter().map(|step| match step {
            Step::Name(name) => name.len(),
            Step::Index(_) => 0,
        });
        let (total, count) = (total.sum(), WORDS_PER_STEP * due.len());
        let ask = |bytes: usize, room: usize| {
            let (mut names, mut words) = (vec![BYTE; bytes], vec![WORD; room]);
            let answer = path_with(&hex(D), &value, text, &mut names, &mut words);
            let is_left =
                names.iter().all(|&byte| byte == BYTE) && words.iter().all(|&word| word == WORD);
            (answer == Err(Refusal::PathNoRoom), is_left)
        };
        assert!(!ask(total, count).0, "{text:?}");
        assert!(!ask(total, count + 2).0, "{text:?}");
        if total > 0 {
            assert_eq!(ask(total - 1, count), (true, true), "{text:?}");
            assert_eq!(ask(0, count + 9), (true, true), "{text:?}");
        }
        for room in count.saturating_sub(3)..count {
            assert_eq!(ask(total, room), (true, true), "{text:?}");
        }
    }
}

/// 76 comes before the dictionary's refusals, and other refusals leave the steps.
#[test]
fn steps_under_a_refusal() {
    for (dict, value, text) in [
        ("", P, "flow[1]"),
        (D, "", "flow[1]"),
        (D, "00", "flow[1]"),
        (D, "02", "flow[1]"),
        (D, "02 00 00", "flow[1]"),
    ] {
        let (dict, value) = (hex(dict), hex(value));
        let (mut names, mut words) = ([BYTE; 5], [WORD; 7]);
        let answer = path_with(&dict, &value, text, &mut names, &mut words);
        assert!(answer == Ok(None) || answer.is_err());
        assert_eq!(names, *b"flow\xEE");
        assert_eq!(words, [0, 0, 4, 1, 1, 0, WORD]);
        let answer = path_with(&dict, &value, text, &mut names[..3], &mut words);
        assert_eq!(answer, Err(Refusal::PathNoRoom));
    }
}

/// A path of more bytes than there is room for on the stack, of many steps and of one.
#[test]
fn long_paths() {
    let lists = (0..40).fold(vec![0], |inner: Vec<u8>, _| {
        let length = inner.len() as u16;
        [&[0x07, 1, 0, 0], &length.to_le_bytes()[..], &inner].concat()
    });
    for length in [20, 21, 22, 40] {
        let path = "[0]".repeat(length);
        let found = found(&lists, &path);
        assert_eq!(found, Some([0, 0, 6 * length, lists.len()]), "{length}");
    }
    assert_eq!(refused(D, &lists, &"[0]".repeat(41)), (53, 40));
    for length in [63, 64, 65, 1000] {
        let long = "x".repeat(length);
        let dict = [
            &[0x41, 1, 0, 0, 0],
            &(length as u16).to_le_bytes()[..],
            long.as_bytes(),
        ];
        let answer = path(&dict.concat(), &[2, 1, 0, 0, 1, 0], &long);
        assert_eq!(answer.map(|found| found.unwrap().start), Ok(5), "{length}");
    }
}

/// 40: nothing is written below 24 bytes of strip, to names and words neither.
#[test]
fn a_strip_that_is_too_short() {
    for length in 0..STRIP_BYTES {
        let (mut strip, mut names, mut words) = (vec![7; length], [7; 5], [7; 7]);
        for text in [&b"flow[1]"[..], b"\xFF", b""] {
            let code = raw::path(&hex(D), &hex(P), text, &mut names, &mut words, &mut strip);
            assert_eq!(code, 40);
            assert_eq!((&strip, names, words), (&vec![7; length], [7; 5], [7; 7]));
        }
    }
}

/// The whole strip, and bytes after it.
#[test]
fn the_strip() {
    let value = hex(NESTED);
    for (text, due) in [
        ("flow[0].roll", [0, 1, 1, 17, 20, 0]),
        ("flow[1]", [0, 1, 0, 20, 26, 0]),
        ("", [0, 0, 0, 0, 26, 0]),
        ("flow[7]", [1, 0, 0, 0, 0, 0]),
        ("flow[0][0]", [53, 0, 0, 0, 0, 2]),
        ("flow[", [74, 0, 0, 0, 0, 0]),
    ] {
        let (mut names, mut words) = ([0; 9], [0; 9]);
        let mut bytes = [7; STRIP_BYTES + 2];
        let code = raw::path(
            &hex(D),
            &value,
            text.as_bytes(),
            &mut names,
            &mut words,
            &mut bytes,
        );
        assert_eq!(bytes[STRIP_BYTES..], [7, 7]);
        let strip = Strip::read(bytes.first_chunk().unwrap());
        let Strip {
            number,
            id,
            start,
            end,
            place,
            ..
        } = strip;
        assert_eq!([code, number, id, start, end, place], due, "{text}");
        assert_eq!(strip.code, code);
    }
}

/// Each refusal in words, by its number; text and bytes of every kind are taken for a path.
#[test]
fn words() {
    let words = |number| Refusal::of(number, 3).unwrap().to_string();
    assert_eq!(
        words(53),
        "refused 53 at 3: step 3 of the path is a name and the value no object, or an index and the \
         value no list"
    );
    for number in 70..=76 {
        assert!(
            words(number).starts_with(&format!("refused {number} at 0: ")),
            "{number}"
        );
        assert!(words(number).contains("path"), "{number}");
    }
    let (dict, value) = (hex(D), hex(NESTED));
    let message = Message::new(&dict, &value);
    let due = Ok(Some(Value::I8(-5)));
    assert_eq!(message.value_at("flow[1][0]"), due);
    assert_eq!(message.value_at(String::from("flow[1][0]")), due);
    assert_eq!(message.value_at(b"flow[1][0]"), due);
    assert_eq!(message.value_at(&b"flow[1][0]"[..]), due);
    assert_eq!(message.path("flow[1]").unwrap().unwrap().id, 0);
}

/// What is found lives as long as the value alone.
#[test]
fn lives_as_long_as_the_value() {
    let value = hex(NESTED);
    let found = {
        let dict = hex(D);
        let text = String::from("flow[1][0]");
        path(&dict, &value, &text).unwrap().unwrap()
    };
    assert_eq!(found.bytes, [0x0C, 0xFB]);
}
