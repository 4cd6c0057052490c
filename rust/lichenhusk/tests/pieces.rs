//! Dictionaries that come in pieces: every cutting of a few, what is wanted of each beginning, stores of
//! every length, and states that were made up.

mod common;

use common::{D, hex, padded};
use lichenhusk::{
    Dictionary, Fed, LIMIT, MORE, Pieces, Refusal, STRIP_BYTES, Strip, raw, write_dictionary,
};

/// What a lent byte holds before a call.
const BYTE: u8 = 0xEE;

fn more(held: usize, wanted: usize) -> Fed {
    Fed::More { held, wanted }
}

fn good(entries: usize, end: usize) -> Fed {
    Fed::Settled(Ok(Dictionary { entries, end }))
}

fn refused(refusal: Refusal) -> Fed {
    Fed::Settled(Err(refusal))
}

/// The answers to pieces, one after another, and the store, of so many bytes.
fn fed(room: usize, pieces: &[&[u8]]) -> (Vec<Fed>, Vec<u8>) {
    let mut store = vec![BYTE; room];
    let mut taken = Pieces::new(&mut store);
    let answers = pieces.iter().map(|piece| taken.feed(piece)).collect();
    (answers, store)
}

/// Bytes in pieces that have one byte at least, by a number whose bits say after which bytes to cut.
fn cut(bytes: &[u8], cuts: usize) -> Vec<&[u8]> {
    let ends = (1..bytes.len()).filter(|end| cuts >> (end - 1) & 1 == 1);
    let mut begin = 0;
    let piece = |end| {
        let piece = &bytes[begin..end];
        begin = end;
        piece
    };
    ends.chain([bytes.len()]).map(piece).collect()
}

/// A dictionary, how many bytes are wanted of each of its beginnings, none first, as long as nothing is
/// settled; and what is settled with the next byte.
type Case = (&'static str, &'static [usize], Fed);

fn cases() -> [Case; 11] {
    let overflow = Refusal::DictionaryOverflow;
    let not_text = Refusal::DictionaryNotUtf8 { prefix: 0 };
    let text_cut = Refusal::DictionaryTextCut { prefix: 0 };
    [
        (
            D,
            &[1, 2, 5, 5, 5, 13, 13, 13, 13, 13, 13, 13, 13],
            good(2, 13),
        ),
        ("01 00 00", &[1, 2, 3], good(0, 3)),
        ("02 00 00", &[1], refused(Refusal::DictionaryVersion)),
        ("C1 FE FF FF 3F", &[1, 5, 5, 5, 5], refused(overflow)),
        (
            "01 00 01",
            &[1, 2, 3],
            refused(Refusal::DictionaryFirstOffset),
        ),
        ("01 01 00 01 FF", &[1, 2, 4, 4, 5], refused(not_text)),
        ("01 01 00 01 C3", &[1, 2, 4, 4, 5], refused(text_cut)),
        (
            "01 02 00 01 02 C3 A9",
            &[1, 2, 5, 5, 5, 7, 7],
            refused(Refusal::DictionaryEntry { entry: 0 }),
        ),
        (
            "11 02 00 01 02 61 61",
            &[1, 2, 5, 5, 5, 7, 7],
            refused(Refusal::DictionaryOrder { entry: 1 }),
        ),
        (
            "41 01 00 00 00 01 00 61",
            &[1, 3, 3, 7, 7, 7, 7, 8],
            good(1, 8),
        ),
        (
            "C1 00 00 00 00 00 00 00 00",
            &[1, 5, 5, 5, 5, 9, 9, 9, 9],
            good(0, 9),
        ),
    ]
}

/// What is due after so many bytes.
fn due((_, wanted, settled): &Case, received: usize) -> Fed {
    match wanted.get(received) {
        Some(&wanted) => more(received, wanted),
        None => *settled,
    }
}

/// Every cutting of each case, with three bytes after it, and with pieces of no bytes about each piece:
/// after each piece the answer is by the bytes received, and the store has those up to the end of the
/// piece that settled it.
#[test]
fn every_cutting() {
    let mut count = 0;
    for case in cases() {
        let mut bytes = hex(case.0);
        bytes.extend([0xFF, 0x61, 0xC3]);
        for cuts in 0..1 << (bytes.len() - 1) {
            let pieces = cut(&bytes, cuts);
            as_due(&case, &pieces);
            let apart: Vec<&[u8]> = pieces.iter().flat_map(|piece| [&[], *piece, &[]]).collect();
            as_due(&case, &apart);
            count += 1;
        }
    }
    assert_eq!(count, 37_344);
}

/// The answer to each of some pieces, and the store after them.
fn as_due(case: &Case, pieces: &[&[u8]]) {
    let bytes = pieces.concat();
    let (answers, store) = fed(bytes.len() + 1, pieces);
    let (mut received, mut written) = (0, 0);
    for (piece, answer) in pieces.iter().zip(answers) {
        if received < case.1.len() {
            written += piece.len();
        }
        received += piece.len();
        assert_eq!(answer, due(case, received), "{pieces:?}");
    }
    assert_eq!(store[..written], bytes[..written], "{pieces:?}");
    assert!(store[written..].iter().all(|&byte| byte == BYTE));
}

/// Nothing settles a count that no store has room for: offsets of almost 4 GiB.
#[test]
fn wanted_is_told_whatever_the_room() {
    let (answers, _) = fed(9, &[&hex("C1 FD FF FF 3F"), &[], &[0; 4], &[0]]);
    let wanted = 4_294_967_293;
    let no_room = refused(Refusal::PiecesNoRoom);
    assert_eq!(
        answers,
        [more(5, wanted), more(5, wanted), more(9, wanted), no_room]
    );
}

/// Every store, in single bytes and in one piece: just full, more is wanted; with a byte more it is 44.
#[test]
fn stores_of_every_length() {
    let dict = hex(D);
    let singly: Vec<&[u8]> = dict.chunks(1).collect();
    for room in 0..dict.len() + 3 {
        let (answers, store) = fed(room, &singly);
        let (whole, other_store) = fed(room, &[&dict]);
        let kept = room.min(dict.len());
        for (received, answer) in (1..).zip(answers) {
            match received <= room {
                true => assert_eq!(answer, due(&cases()[0], received)),
                false => assert_eq!(answer, refused(Refusal::PiecesNoRoom)),
            }
        }
        let last = match room < dict.len() {
            true => refused(Refusal::PiecesNoRoom),
            false => good(2, 13),
        };
        assert_eq!(whole, [last]);
        assert_eq!(store[..kept], dict[..kept]);
        assert_eq!(store, other_store);
    }
}

/// A piece that passes the store is judged by what there is room for, and may settle.
#[test]
fn more_than_there_is_room_for() {
    let mut dict = hex(D);
    dict.extend(b", and more");
    assert_eq!(fed(13, &[&dict]), (vec![good(2, 13)], hex(D)));
    let version = refused(Refusal::DictionaryVersion);
    assert_eq!(fed(1, &[&[2, 0, 0]]), (vec![version], vec![2]));
    let first = refused(Refusal::DictionaryFirstOffset);
    assert_eq!(
        fed(3, &[&[1], &[0, 1, 7]]),
        (vec![more(1, 2), first], vec![1, 0, 1])
    );
    // Of no room no byte can be judged, and a piece of none is no more than there is room for.
    let no_room = refused(Refusal::PiecesNoRoom);
    assert_eq!(
        fed(0, &[&[], &[2], &[]]),
        (vec![more(0, 1), no_room, no_room], vec![])
    );
}

/// A dictionary of one name that has so many bytes in all.
fn of_length(length: usize) -> Vec<u8> {
    let region = length - 17;
    let mut dict = vec![0xC1, 1, 0, 0, 0, 0, 0, 0, 0];
    dict.extend((region as u32).to_le_bytes());
    dict.resize(length - 4, b'n');
    dict.extend([b'm'; 4]);
    assert_eq!(dict.len(), length);
    dict
}

/// In a store that is larger than the limit, as many bytes as the limit are held, and 10 is not given.
#[test]
fn more_than_the_limit() {
    let room = LIMIT + 10;
    for (length, last) in [
        (LIMIT, good(1, LIMIT - 4)),
        (LIMIT + 4, good(1, LIMIT)),
        (LIMIT + 5, refused(Refusal::PiecesNoRoom)),
    ] {
        let dict = of_length(length);
        let (begin, end) = dict.split_at(LIMIT - 6);
        let (answers, store) = fed(room, &[begin, &end[..1], &end[1..], &[0]]);
        let wanted = length - 4;
        assert_eq!(
            answers[..2],
            [more(LIMIT - 6, wanted), more(LIMIT - 5, wanted)]
        );
        assert_eq!(answers[2..], [last; 2], "{length}");
        assert!(store[..LIMIT] == dict[..LIMIT]);
        assert_eq!(store[LIMIT..], [BYTE; 10]);
        assert_eq!(fed(room, &[&dict]).0, [last]);
    }
    let full = of_length(LIMIT + 5);
    let (begin, end) = full.split_at(LIMIT);
    let no_room = refused(Refusal::PiecesNoRoom);
    let (answers, _) = fed(room, &[begin, &[], &end[..1], &[]]);
    let wants = more(LIMIT, LIMIT + 1);
    assert_eq!(answers, [wants, wants, no_room, no_room]);
    let long = padded(D, LIMIT + 5);
    assert_eq!(fed(room, &[&long]).0, [good(2, 13)]);
}

/// What is settled stays, and what comes then is not written.
#[test]
fn settled_stays() {
    let no_room = Refusal::PiecesNoRoom;
    for (dict, room, settled) in [
        (&hex(D)[..], 20, good(2, 13)),
        (&[2], 20, refused(Refusal::DictionaryVersion)),
        (&[1, 0, 1], 20, refused(Refusal::DictionaryFirstOffset)),
        (&hex(D), 12, refused(no_room)),
    ] {
        let mut store = vec![BYTE; room];
        let mut pieces = Pieces::new(&mut store);
        assert_eq!(pieces.feed(dict), settled);
        for piece in [&b""[..], b"\x01\x00\x00", &hex(D), &[7; 100]] {
            assert_eq!(pieces.feed(piece), settled);
            assert_eq!((pieces.fed(), pieces.missing()), (settled, 0));
        }
        let written = dict.len().min(room);
        assert_eq!(store[..written], dict[..written]);
        assert!(store[written..].iter().all(|&byte| byte == BYTE));
    }
}

/// A host that reads as many bytes as are missing, or fewer, takes none after the dictionary.
#[test]
fn reading_what_is_missing() {
    let mut link = hex(D);
    link.extend([1, 0, 0]);
    for most in [1, 2, 3, 5, 100] {
        let (mut store, mut at) = ([BYTE; 20], 0);
        let mut pieces = Pieces::new(&mut store);
        while pieces.missing() > 0 {
            let piece = &link[at..][..pieces.missing().min(most)];
            pieces.feed(piece);
            at += piece.len();
        }
        assert_eq!((at, pieces.fed()), (13, good(2, 13)));
        assert_eq!(pieces.bytes(), Some(&hex(D)[..]));
        assert_eq!(pieces.into_bytes(), Some(&hex(D)[..]));
        assert_eq!(store[13..], [BYTE; 7]);
    }
}

/// There are no bytes of a dictionary that is not settled, or is refused.
#[test]
fn bytes_of_no_dictionary() {
    for (dict, missing) in [
        (&[][..], 1),
        (&[1], 1),
        (&[0x11, 2], 3),
        (&[2], 0),
        (&[1, 0, 1], 0),
    ] {
        let mut store = [BYTE; 20];
        let mut pieces = Pieces::new(&mut store);
        pieces.feed(dict);
        assert_eq!((pieces.bytes(), pieces.missing()), (None, missing));
        assert_eq!(pieces.into_bytes(), None);
    }
}

/// A dictionary of thousands of names, in pieces of several lengths, is the one that was cut.
#[test]
fn many_names() {
    let names: Vec<String> = (0..5_000)
        .map(|number| format!("name {number:05}"))
        .collect();
    let dict = write_dictionary(&names).unwrap();
    for length in [1, 7, 256, 65_536] {
        let mut store = vec![BYTE; dict.len()];
        let mut pieces = Pieces::new(&mut store);
        let mut held = 0;
        for piece in dict.chunks(length) {
            held += piece.len();
            match pieces.feed(piece) {
                Fed::Settled(answer) => {
                    assert_eq!((held, answer), (dict.len(), lichenhusk::dictionary(&dict)));
                }
                Fed::More { held: ours, wanted } => assert!(ours == held && held < wanted),
            }
        }
        assert_eq!(pieces.bytes(), Some(&dict[..]));
    }
}

#[test]
fn no_room_in_words() {
    let refusal = Refusal::of(44, 7).unwrap();
    assert_eq!((refusal.number(), refusal.place()), (44, 0));
    assert_eq!(
        refusal.to_string(),
        "refused 44 at 0: more bytes of the dictionary have come than there is room for, and they settle nothing"
    );
}

/// A state of which more is wanted, with any words beside what is held.
fn state(held: u32, [id, start, end, place]: [u32; 4]) -> Strip {
    Strip {
        code: MORE,
        number: held,
        id,
        start,
        end,
        place,
    }
}

/// The strip after a piece, by the raw call.
fn after(state: Strip, store: &mut [u8], piece: &[u8]) -> Strip {
    let mut bytes = state.bytes();
    let code = raw::feed(store, piece, &mut bytes);
    let strip = Strip::read(&bytes);
    assert_eq!(strip.code, code);
    strip
}

const NO_ROOM: Strip = Strip {
    code: 44,
    number: 0,
    id: 0,
    start: 0,
    end: 0,
    place: 0,
};

/// A state that counts past its store, or past the limit in a larger one, is 44, and nothing is written.
#[test]
fn a_state_past_its_store() {
    for room in [0, 1, 13] {
        for held in [room as u32 + 1, room as u32 + 7, u32::MAX] {
            for piece in [&[][..], &[2], &hex(D)] {
                let mut store = vec![BYTE; room];
                let strip = after(state(held, [0, 0, 1, 0]), &mut store, piece);
                assert_eq!((strip, store), (NO_ROOM, vec![BYTE; room]));
            }
        }
    }
    let mut store = vec![2; LIMIT + 10];
    let past = state(LIMIT as u32 + 1, [0; 4]);
    assert_eq!(after(past, &mut store, &[9]), NO_ROOM);
    assert!(store.iter().all(|&byte| byte == 2));
}

/// Whatever else the strip says, a state is answered by the bytes that it counts: what is wanted is told,
/// and not read back.
#[test]
fn other_words_of_a_state() {
    let dict = hex(D);
    for words in [[0; 4], [7; 4], [u32::MAX; 4], [0, 0, 13, 0], [1, 2, 0, 3]] {
        for held in 0..=dict.len() {
            for received in held..=dict.len() {
                let mut store = vec![BYTE; 15];
                store[..held].copy_from_slice(&dict[..held]);
                let strip = after(state(held as u32, words), &mut store, &dict[held..received]);
                let due = match due(&cases()[0], received) {
                    Fed::More { held, wanted } => state(held as u32, [0, 0, wanted as u32, 0]),
                    Fed::Settled(_) => Strip {
                        code: 0,
                        number: 2,
                        ..state(0, [0, 0, 13, 0])
                    },
                };
                assert_eq!(strip, due, "{words:?} {held} {received}");
                assert_eq!(store[..received], dict[..received]);
                assert_eq!(store[received..], [BYTE; 15][received..]);
            }
        }
    }
}

/// Every code but 3 is settled, whatever it says: strip and store stay. A strip that was not begun is one.
#[test]
fn a_settled_code_passes_through() {
    for code in [0, 1, 2, 4, 10, 11, 13, 40, 44, 77, u32::MAX] {
        for (number, other) in [(0, 0), (1, 9), (u32::MAX, u32::MAX)] {
            let settled = Strip {
                code,
                ..state(number, [other; 4])
            };
            let mut store = [BYTE; 13];
            assert_eq!(after(settled, &mut store, &hex(D)), settled);
            assert_eq!(store, [BYTE; 13]);
        }
    }
}

/// 40 comes first, for a state and for what is settled, and leaves strip and store.
#[test]
fn a_short_strip_leaves_the_store() {
    let mut begun = [0; STRIP_BYTES];
    assert_eq!(raw::begin(&mut begun), MORE);
    for bytes in [begun, [0; STRIP_BYTES]] {
        for length in 0..STRIP_BYTES {
            let (mut strip, mut store) = (bytes, [BYTE; 13]);
            let code = raw::feed(&mut store, &hex(D), &mut strip[..length]);
            assert_eq!((code, strip, store), (40, bytes, [BYTE; 13]));
        }
    }
}

/// A longer strip is a state by its first bytes, and the others stay, whatever is answered.
#[test]
fn bytes_after_the_state_stay() {
    let mut strip = [BYTE; STRIP_BYTES + 9];
    let mut store = [BYTE; 13];
    assert_eq!(raw::begin(&mut strip), MORE);
    for (piece, code) in [(&hex(D)[..4], MORE), (&hex(D)[4..], 0), (&[2], 0)] {
        assert_eq!(raw::feed(&mut store, piece, &mut strip), code);
        assert_eq!(strip[STRIP_BYTES..], [BYTE; 9]);
    }
    assert_eq!(store[..], hex(D));
}
