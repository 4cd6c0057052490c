//! The parts that a comparison of pieces is made of: where a dictionary is cut, what is wanted of a
//! beginning, the inputs, and how they are made smaller.

use differential::cuts::{Cuts, wanted};
use differential::cuttings;
use differential::fixed::SORTED;
use differential::ours::{Archive, Reader};
use differential::random::Random;
use differential::{Input, shrink};
use lichenhusk::LIMIT;
use parquet_variant::VariantMetadata;
use std::collections::BTreeSet;
use std::time::Duration;

/// Ends that fall or pass the dictionary make pieces of no bytes, and what is after the last end is none's.
#[test]
fn pieces_as_they_are_cut() {
    for (ends, pieces) in [
        (&[][..], &[][..]),
        (&[5], &[&b"abcde"[..]]),
        (&[0, 2, 2, 4], &[b"", b"ab", b"", b"cd"]),
        (&[3, 1, 4], &[b"abc", b"", b"d"]),
        (&[9, 2], &[b"abcde", b""]),
    ] {
        let cuts = Cuts::of(ends.iter().copied(), 9);
        let cut: Vec<&[u8]> = cuts.pieces(b"abcde").collect();
        assert_eq!(cut, pieces, "{ends:?}");
        assert_eq!((cuts.size(), cuts.room), (4 * ends.len(), 9));
    }
}

/// What is wanted of beginnings, in each width; of the same dictionary it grows with what is known.
#[test]
fn what_is_wanted() {
    for (begin, due) in [
        (&[][..], 1),
        (&[0x01], 2),
        (&[0x41], 3),
        (&[0x81, 9, 9], 4),
        (&[0xC1], 5),
        (&[0x01, 0], 3),
        (&[0x11, 2, 0, 4], 5),
        (&[0x11, 2, 0, 4, 8], 13),
        (&[0x41, 0xFF, 0xFF], 1 + 2 + 2 * 0x1_0000),
        (&[0xC1, 0xFD, 0xFF, 0xFF, 0x3F], 0xFFFF_FFFD),
    ] {
        assert_eq!(wanted(begin), due, "{begin:?}");
    }
    let each = (0..=SORTED.len()).map(|length| wanted(&SORTED[..length]));
    assert!(each.is_sorted());
}

/// Each cutting of a dictionary comes once in each of three rooms, with pieces of no bytes and without.
#[test]
fn each_cutting_once() {
    let (mut seen, mut count) = (BTreeSet::new(), 0);
    cuttings::each_cutting(|input| -> Result<(), ()> {
        let Cuts { ends, room } = input.pieces.clone().expect("pieces");
        assert_eq!(ends.last().map(|&end| end as usize), Some(input.dict.len()));
        count += 1;
        if input.dict.starts_with(SORTED) {
            assert!(seen.insert((ends, room)), "{input:?}");
        }
        Ok(())
    })
    .unwrap();
    assert_eq!(seen.len(), 2 * 3 * (1 << SORTED.len()));
    assert!(count > seen.len(), "others, too: {count}");
    let mut telling = BTreeSet::new();
    cuttings::each_telling(3, |input| -> Result<(), ()> {
        let Cuts { ends, room } = input.pieces.clone().expect("pieces");
        assert!(telling.insert((input.dict.clone(), ends, room)));
        Ok(())
    })
    .unwrap();
    assert_eq!(telling.len(), 4 * 6 * 6 * 4 * 3);
}

/// What is generated is cut in every way, and its damaged copies are other ones.
#[test]
fn pieces_of_every_kind() {
    let mut random = Random::seeded(3);
    let (mut kinds, mut others) = (BTreeSet::new(), 0);
    for _ in 0..3_000 {
        let good = cuttings::good(&mut random);
        let dict = &good.dict;
        let end = VariantMetadata::try_new(dict).expect("a good one").size();
        let cuts = good.pieces.as_ref().expect("pieces");
        let pieces: Vec<&[u8]> = cuts.pieces(dict).collect();
        let (count, room) = (pieces.len(), cuts.room as usize);
        kinds.insert(("no bytes", pieces.iter().any(|piece| piece.is_empty())));
        kinds.insert((
            "singly",
            count > 1 && pieces[..2].iter().all(|piece| piece.len() == 1),
        ));
        kinds.insert(("none", count == 0));
        kinds.insert(("all comes", pieces.concat().len() == dict.len()));
        kinds.insert(("room for it", room >= end));
        kinds.insert(("just room", room == end));
        kinds.insert(("a byte too little", room + 1 == end));
        kinds.insert(("bytes after", dict.len() > end));
        others += usize::from(cuttings::damaged(&mut random, &good) != good);
    }
    assert_eq!(kinds.len(), 2 * 8, "{kinds:?}");
    assert!(others > 2_500, "{others}");
}

/// Of the pieces about the limit there are some that come to it, pass it and stay below.
#[test]
fn pieces_about_the_limit() {
    let mut seen = Vec::new();
    for input in cuttings::of_length() {
        let cuts = input.pieces.as_ref().expect("pieces");
        let mut store = vec![0; cuts.room as usize];
        let mut state = Archive.begin();
        for piece in cuts.pieces(&input.dict) {
            state = Archive.feed(&mut store, piece, state);
        }
        let above = |number: usize| number as i64 - LIMIT as i64;
        seen.push((above(input.dict.len()), above(store.len()), state.code));
    }
    let due = [
        (0, -1, 44),
        (0, 0, 0),
        (0, 10, 0),
        (1, 0, 44),
        (1, 10, 44),
        (1, 10, 0),
        (1, 10, 0),
    ];
    assert_eq!(seen, due);
}

/// Of many pieces in a large store, the two that matter are left, and no more room than they need.
#[test]
fn shrinks_pieces() {
    let matters = |input: &Input| {
        let Some(cuts) = &input.pieces else {
            return false;
        };
        let pieces: Vec<&[u8]> = cuts.pieces(&input.dict).collect();
        let with = |byte| pieces.iter().position(|piece| piece.contains(&byte));
        cuts.room > 4 && with(b'f').is_some_and(|first| with(b'r').is_some_and(|last| first < last))
    };
    let cut = Input::pieces(SORTED.to_vec(), Cuts::of(0..=13, 1_000));
    let small = shrink::smallest(cut, Duration::from_secs(5), matters);
    assert_eq!(small, Input::pieces(b"fr".to_vec(), Cuts::of([1, 2], 5)));
}
