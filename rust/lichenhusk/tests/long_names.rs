//! Long names with another byte at each of their places: 16 has that place, or the start of the
//! character there, however many bytes are judged at once; and so has 19, where the name ends
//! inside a character. And names with many bytes in common.

use lichenhusk::{Dictionary, Found, Refusal};

/// The dictionary of one name of up to 255 bytes.
fn of_one(name: &[u8]) -> Vec<u8> {
    [&[1, 1, 0, name.len() as u8], name].concat()
}

/// So long are the names at most: three blocks and a part of one.
const LONGEST: usize = 200;

/// Calls a function with each length and each place before it.
fn each_place(mut visit: impl FnMut(usize, usize)) {
    for length in 1..=LONGEST {
        (0..length).for_each(|place| visit(length, place));
    }
}

#[test]
fn a_byte_that_starts_no_character() {
    for other in [0x80, 0xC3, 0xFF] {
        each_place(|length, place| {
            let mut name = vec![b'a'; length];
            name[place] = other;
            let prefix = place as u32;
            let refusal = match (other, place + 1 == length) {
                (0xC3, true) => Refusal::DictionaryTextCut { prefix },
                _ => Refusal::DictionaryNotUtf8 { prefix },
            };
            assert_eq!(
                lichenhusk::dictionary(&of_one(&name)),
                Err(refusal),
                "{other:X} at {place} of {length}"
            );
        });
    }
}

/// A text of longer characters, cut after each of its bytes, and the same with a byte after it
/// that does not fit.
#[test]
fn a_text_that_was_cut() {
    for character in ["é", "€", "😀"] {
        let text = character.repeat(LONGEST).into_bytes();
        for length in 1..=LONGEST {
            let mut name = text[..length].to_vec();
            let whole = length % character.len() == 0;
            let prefix = (length - length % character.len()) as u32;
            let answer = lichenhusk::dictionary(&of_one(&name)).err();
            let cut = Refusal::DictionaryTextCut { prefix };
            assert_eq!(answer, (!whole).then_some(cut), "{character}, {length}");
            name.push(b'a');
            let answer = lichenhusk::dictionary(&of_one(&name)).err();
            let broken = Refusal::DictionaryNotUtf8 { prefix };
            assert_eq!(answer, (!whole).then_some(broken), "{character}, {length}");
        }
    }
}

#[test]
fn a_character_of_two_bytes() {
    each_place(|length, place| {
        let mut name = vec![b'a'; length + 1];
        name[place..place + 2].copy_from_slice("é".as_bytes());
        assert_eq!(
            lichenhusk::dictionary(&of_one(&name)),
            Ok(Dictionary {
                entries: 1,
                end: 4 + name.len()
            }),
            "at {place} of {length}"
        );
    });
}

#[test]
fn a_byte_that_is_in_no_character() {
    for character in ["é", "€", "😀"] {
        each_place(|length, place| {
            let mut name = character.repeat(LONGEST).into_bytes();
            name.truncate(length);
            name[place] = 0xFF;
            let prefix = (place - place % character.len()) as u32;
            assert_eq!(
                lichenhusk::dictionary(&of_one(&name)),
                Err(Refusal::DictionaryNotUtf8 { prefix }),
                "{character}, FF at {place} of {length}"
            );
        });
    }
}

/// Three names with so many bytes in common, in order: the dictionary and an object that has all.
fn with_common(length: usize) -> (Vec<String>, Vec<u8>, Vec<u8>) {
    let names: Vec<String> = ["", "a", "b"]
        .map(|tail| "x".repeat(length) + tail)
        .to_vec();
    let ends = [0, length, 2 * length + 1, 3 * length + 2].map(|end| end as u8);
    let dict = [&[0x11, 3][..], &ends, names.concat().as_bytes()].concat();
    let object = vec![2, 3, 0, 1, 2, 0, 1, 2, 3, 0, 0, 0];
    (names, dict, object)
}

#[test]
fn names_with_many_bytes_in_common() {
    for length in 1..=80 {
        let (names, dict, object) = with_common(length);
        for (field, name) in (0..).zip(&names) {
            let start = 9 + field;
            assert_eq!(
                lichenhusk::lookup(&dict, &object, name.as_bytes()),
                Ok(Some(Found {
                    field,
                    id: field as u32,
                    start,
                    end: 12
                })),
                "{length} in common, field {field}"
            );
        }
        let absent = "x".repeat(length) + "ab";
        assert_eq!(
            lichenhusk::lookup(&dict, &object, absent.as_bytes()),
            Ok(None)
        );
    }
}

#[test]
fn names_with_many_bytes_in_common_out_of_order() {
    for length in 1..=80 {
        let (_, mut dict, _) = with_common(length);
        let last = dict.len() - 1;
        dict[last] = b'a';
        assert_eq!(
            lichenhusk::dictionary(&dict),
            Err(Refusal::DictionaryOrder { entry: 2 }),
            "{length} in common"
        );
    }
}
