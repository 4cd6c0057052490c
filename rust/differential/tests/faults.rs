//! The comparison can fail: each wrong reader is told, by a small input on which the archive
//! itself agrees; and the archive passes what the wrong ones fail.

use differential::compare::Disagreement;
use differential::composing::Composing;
use differential::faults::{ALL, Fault, Faulty};
use differential::feeding::Feeding;
use differential::given::{Given, set_of};
use differential::miscomposing::Miscomposing;
use differential::misfeeding::Misfeeding;
use differential::miswriting::{Lent, Miswriting};
use differential::otherwise::Otherwise;
use differential::ours::{Archive, Reader};
use differential::pairs::Pairs;
use differential::path::Followed;
use differential::reading::Unmeasured;
use differential::run::{Part, Settings, disagreement, run};
use differential::tally::Tally;
use differential::walk::Walk;
use differential::writing::Writing;
use differential::{Input, LARGE, cuttings, fixed, hex, large, objects, paths, sets};
use lichenhusk::{LEVELS, LIMIT, OK};
use parquet_variant::VariantMetadata;
use std::collections::BTreeMap;
use std::process::Command;
use std::time::Duration;

/// A run that is short enough for a build without optimisation.
fn small() -> Settings {
    Settings {
        seed: 7,
        generated: 4_000,
        large: 8,
        trees: 4_000,
        paths: 4_000,
        written: 4_000,
        composed: 4_000,
        cut: 4_000,
        part: Part::All,
        every: 2,
        telling: 5,
        limit: Duration::from_secs(600),
        patience: Duration::from_secs(1),
    }
}

fn told(fault: Fault) -> (Input, Disagreement) {
    let faulty = Faulty {
        reader: Archive,
        fault,
    };
    let part = match fault {
        _ if fault.is_of_paths() => Part::Paths,
        _ if fault.is_of_writing() => Part::Writing,
        _ if fault.is_of_objects() => Part::Objects,
        _ if fault.is_of_pieces() => Part::Pieces,
        _ if asked_of_trees(fault).is_some() => Part::Trees,
        _ => Part::All,
    };
    let settings = Settings { part, ..small() };
    let outcome = run(&faulty, settings);
    outcome
        .disagreement
        .unwrap_or_else(|| panic!("{fault:?} is not told"))
}

#[test]
fn the_archive_passes() {
    let outcome = run(&Archive, small());
    assert_eq!(outcome.disagreement, None);
    assert!(!outcome.cut);
    assert!(outcome.tally.objects > 0 && outcome.tally.found > 0);
    for number in 25..=28 {
        let seen = outcome.tally.objects_refused.get(&number);
        assert!(seen.is_some_and(|&seen| seen > 20), "{number}: {seen:?}");
    }
    children_of_every_kind_are_seen(&outcome.tally);
    values_of_every_kind_are_seen(&outcome.tally);
    trees_of_every_kind_are_seen(&outcome.tally);
    paths_of_every_kind_are_seen(&outcome.tally);
    writing_of_every_kind_is_seen(&outcome.tally);
    objects_of_every_kind_are_seen(&outcome.tally);
    pieces_of_every_kind_are_seen(&outcome.tally);
}

/// Objects are written, as the Rust's builder does it and otherwise, in other orders and with too little
/// scratch and room, and each refusal is seen.
fn objects_of_every_kind_are_seen(tally: &Tally) {
    let numbers = [
        (0, 2_000),
        (20, 1),
        (25, 2_000),
        (26, 2_000),
        (28, 200),
        (45, 1_000),
    ];
    for (number, least) in numbers {
        let seen = tally.composed.get(&number);
        assert!(seen.is_some_and(|&seen| seen > least), "{number}: {seen:?}");
    }
    for (what, seen) in [
        ("built", tally.composed_built),
        ("not built", tally.composed_unbuilt),
        ("of no values", tally.composed_of_no_values),
        ("fields", tally.composed_fields),
        ("again", tally.composed_again),
        ("slowly", tally.composed_slowly),
        ("without room", tally.composed_without_room),
        ("over a refused dictionary", tally.composed_over_refused),
    ] {
        assert!(seen > 200, "{what}: {seen}");
    }
}

/// Dictionaries in pieces get every number that they may, and no other, and pieces come empty, after all is
/// settled and past the room.
fn pieces_of_every_kind_are_seen(tally: &Tally) {
    let numbers: Vec<u32> = tally.in_pieces.keys().copied().collect();
    assert_eq!(numbers, [0, 3, 12, 14, 15, 16, 17, 18, 19, 44]);
    for (number, &seen) in &tally.in_pieces {
        assert!(seen > 100, "{number}: {seen}");
    }
    for (what, seen) in [
        ("pieces", tally.pieces),
        ("of no bytes", tally.pieces_of_no_bytes),
        ("after", tally.pieces_after),
        ("past the room", tally.pieces_over),
        ("made up", tally.pieces_made_up),
    ] {
        assert!(seen > 1_000, "{what}: {seen}");
    }
}

/// Dictionaries are written, in other orders and with too little scratch and room, and each refusal is
/// seen.
fn writing_of_every_kind_is_seen(tally: &Tally) {
    for (number, least) in [(0, 10_000), (10, 1), (45, 10_000)] {
        let seen = tally.written.get(&number);
        assert!(seen.is_some_and(|&seen| seen > least), "{number}: {seen:?}");
    }
    for (what, seen) in [
        ("names", tally.written_names),
        ("again", tally.written_again),
        ("slowly", tally.written_slowly),
        ("without room", tally.written_without_room),
    ] {
        assert!(seen > 10_000, "{what}: {seen}");
    }
}

/// Paths get every number, are read and found by the Rust, and have too little room.
fn paths_of_every_kind_are_seen(tally: &Tally) {
    let dictionary = (10..=13).chain(15..=18);
    let layers = (20..=21).chain(23..=28).chain([53]).chain(60..=62);
    for number in [0, 1]
        .into_iter()
        .chain(dictionary)
        .chain(layers)
        .chain(70..=75)
    {
        let seen = tally.paths.get(&number);
        assert!(seen.is_some_and(|&seen| seen > 1), "{number}: {seen:?}");
    }
    for (what, seen) in [
        ("read", tally.paths_read),
        ("steps", tally.path_steps),
        ("found", tally.paths_found),
        ("traced", tally.paths_traced),
        ("to nothing", tally.paths_to_nothing),
        ("not asked", tally.paths_unasked),
        ("without room", tally.paths_without_room),
    ] {
        assert!(seen > 500, "{what}: {seen}");
    }
}

/// Trees get every number, and each thing is seen that the Rust judges otherwise.
fn trees_of_every_kind_are_seen(tally: &Tally) {
    let numbers = (23..=28).chain(50..=52).chain([0, 54]).chain(60..=62);
    for number in numbers {
        let seen = tally.trees.get(&number);
        assert!(seen.is_some_and(|&seen| seen > 10), "{number}: {seen:?}");
    }
    use Otherwise::*;
    for otherwise in [
        FirstOffset,
        Scale,
        Digits,
        Date,
        Timestamp,
        Time,
        Levels,
        Length,
    ] {
        let seen = tally.trees_otherwise.get(&otherwise);
        assert!(
            seen.is_some_and(|&seen| seen > 1),
            "{otherwise:?}: {seen:?}"
        );
    }
    let (both, values) = (tally.trees_of_both, tally.tree_values);
    assert!(both > 1_000 && values > 5_000, "{both} and {values}");
    let (ways, over) = (tally.trees_of_many_ways, tally.trees_over_refused);
    assert!(ways > 5 && over > 20, "{ways} and {over}");
}

/// Children of every kind are listed, and listings refused for every cause.
fn children_of_every_kind_are_seen(tally: &Tally) {
    for (kind, &seen) in tally.primitives.iter().enumerate() {
        assert!(seen > 50, "type {kind}: {seen}");
    }
    for (kind, &seen) in ["short strings", "objects", "lists"]
        .iter()
        .zip(&tally.others)
    {
        assert!(seen > 1_000, "{kind}: {seen}");
    }
    use Unmeasured::*;
    for why in [Unknown, Cut, Sum, Longer] {
        let seen = tally.unlisted.get(&why);
        assert!(seen.is_some_and(|&seen| seen > 1_000), "{why:?}: {seen:?}");
    }
    assert!(tally.listings > 10_000, "{}", tally.listings);
    assert!(tally.listings_apart > 1_000, "{}", tally.listings_apart);
    let (refused, untold) = (tally.lengths_of_refused, tally.lengths_untold);
    assert!(refused > 1_000 && untold > 0, "{refused} and {untold}");
}

/// Values of every kind are read, and both refusals are seen.
fn values_of_every_kind_are_seen(tally: &Tally) {
    for kind in (0..=20).chain(257..=259) {
        let seen = tally.values.get(&kind);
        assert!(seen.is_some_and(|&seen| seen > 100), "{kind}: {seen:?}");
    }
    for number in [50, 51] {
        let seen = tally.values_refused.get(&number);
        assert!(seen.is_some_and(|&seen| seen > 1_000), "{number}: {seen:?}");
    }
    let (not_numbers, refused) = (tally.not_numbers, tally.values_of_refused);
    assert!(not_numbers > 200, "{not_numbers}");
    assert!(refused > 1_000, "{refused}");
}

/// How many bytes the input that tells a fault has at most: few, unless the fault is one of length
/// or of a number's bytes.
fn most(fault: Fault) -> usize {
    let few = 24;
    let entries = 1 << 16;
    match fault {
        Fault::NoLimit | Fault::NoObjectLimit => LIMIT + 1 + few,
        Fault::OldLimit | Fault::OldObjectLimit => LARGE + 1 + few,
        Fault::PlacesOfTwoBytes => (1 << 16) + few,
        Fault::PlacesOfThreeBytes => (1 << 24) + few,
        // An offset of three bytes each, and names of none.
        Fault::CountsOfTwoBytes | Fault::IdsOfTwoBytes => 3 * entries + few,
        // With names, and as many fields: an id and an offset each.
        Fault::FieldsOfTwoBytes | Fault::RowsOfTwoBytes => (4 + 6 + 3 + 2) * entries + 2 * few,
        Fault::NoTreeLimit | Fault::NoStepLimit => LIMIT + 1 + few,
        // Lists in one another, of four bytes each, or objects, of five.
        Fault::OneLevelLess | Fault::OneLevelMore => 4 * (LEVELS + 1) + few,
        Fault::DepthAfterChecks | Fault::MarksWithoutLevels => 5 * (LEVELS + 1) + few,
        Fault::LimitBeforeNames
        | Fault::RoomBeforeLimit
        | Fault::LimitOfGiven
        | Fault::LimitOneLess
        | Fault::LimitOneMore => LIMIT + 1 + few,
        Fault::LengthOfTwoBytes => (1 << 16) + few,
        // A name of as many bytes as one of them does not count.
        Fault::WidthOfCount | Fault::HighestFirstInNumbers => (1 << 8) + few,
        Fault::WidthOfGiven => (1 << 8) + few,
        // Names of five bytes, and an end each.
        Fault::WrittenCountOfTwoBytes => (5 + 4) * entries + few,
        Fault::DoublesByEightBytes => few + 8,
        Fault::RoomBeforeObjectLimit
        | Fault::LimitOfChildren
        | Fault::LimitOfLent
        | Fault::ObjectLimitOneLess
        | Fault::ObjectLimitOneMore => LIMIT + 1 + 2 * few,
        Fault::ObjectLengthOfTwoBytes => (1 << 16) + few,
        // Names of no bytes, an offset of two bytes each.
        Fault::IdWidthOfEntries
        | Fault::IdWidthOfLastEntry
        | Fault::OneWidthForBoth
        | Fault::HighestFirstInObjects => (2 << 8) + 2 * few,
        Fault::OffsetWidthOfLent => (1 << 8) + 2 * few,
        // Names of six bytes at most, an offset each, and three words.
        Fault::IdWidthOfFields | Fault::LongCountAt255 => (6 + 2 + 12) * 256 + few,
        Fault::WrittenFieldsOfTwoBytes => (6 + 3 + 12) * entries + few,
        Fault::NoPiecesLimit | Fault::PiecesLimitOneLess | Fault::TenForNoRoom => {
            LIMIT + 1 + 2 * few
        }
        Fault::HeldOfTwoBytes => (1 << 16) + few,
        // A pair has twelve bytes, and four of them are needed.
        _ if fault.is_of_objects() => 3 * few,
        // A child of seventeen bytes, or without the last of them.
        Fault::ShortDecimals | Fault::NoUuids => few + 17,
        _ => few,
    }
}

#[test]
fn each_fault_is_told_by_a_small_input() {
    for fault in ALL {
        let (input, found) = told(fault);
        assert!(input.size() <= most(fault), "{fault:?}: {}", input.size());
        assert_eq!(disagreement(&Archive, &input), None, "{fault:?}");
        assert_ne!(found.ours, found.theirs, "{fault:?}");
        let of_lengths = asked_of_lengths(fault);
        assert_eq!(found.asked, of_lengths.unwrap_or(&found.asked), "{fault:?}");
        let of_trees = asked_of_trees(fault);
        assert_eq!(found.asked, of_trees.unwrap_or(&found.asked), "{fault:?}");
        let of_writing = asked_of_writing(fault);
        assert_eq!(found.asked, of_writing.unwrap_or(&found.asked), "{fault:?}");
        let of_objects = asked_of_objects(fault);
        assert_eq!(found.asked, of_objects.unwrap_or(&found.asked), "{fault:?}");
        let of_pieces = asked_of_pieces(fault);
        assert_eq!(found.asked, of_pieces.unwrap_or(&found.asked), "{fault:?}");
        let of_paths = asked_of_paths(fault);
        assert_eq!(found.asked, of_paths.unwrap_or(&found.asked), "{fault:?}");
        let of_values = asked_of_values(fault);
        assert!(found.asked.starts_with(of_values), "{fault:?}: {found}");
    }
}

/// What tells wrong lengths, or a wrong answer to a child without one.
fn asked_of_lengths(fault: Fault) -> Option<&'static str> {
    use Fault::*;
    match fault {
        SpansToNextOffset | NoHeldLength => Some("a field's id, start and span"),
        ShortDecimals
        | NoUuids
        | TakesAnotherType
        | ListCountsByObjectBit
        | UntrimmedChildren
        | ReadsTexts
        | LastUnmeasured => Some("a listing's answer"),
        RoomBeforeLengths => Some("a listing in too little room"),
        WritesUnmeasured => Some("that a listing's refusal leaves the words"),
        _ => None,
    }
}

/// How the question begins that tells a wrong reading of a value; nothing of another fault.
fn asked_of_values(fault: Fault) -> &'static str {
    match fault {
        Fault::UnknownIsShort | Fault::UnknownIsNull => "a value that is not read",
        Fault::ShortIsUnknown => "a value that is not read",
        _ if is_of_values(fault) => "to read ",
        _ => "",
    }
}

fn is_of_values(fault: Fault) -> bool {
    (Fault::ReadsUnsigned as usize..=Fault::RefusesTexts as usize).contains(&(fault as usize))
}

/// What tells a wrong answer to a tree; nothing of another fault.
fn asked_of_trees(fault: Fault) -> Option<&'static str> {
    match fault {
        Fault::TreeBeforeDictionary => Some("a tree over a refused dictionary"),
        Fault::KeepsMarks | Fault::KeepsMarksRefused => Some("marks after a check"),
        Fault::TrustsMarks => Some("a tree's verdict with marks"),
        _ if fault.is_of_paths() || fault.is_of_writing() => None,
        _ if fault.is_of_objects() || fault.is_of_pieces() => None,
        _ if fault as usize >= Fault::AcceptsAnyTree as usize => Some("a tree's verdict"),
        _ => None,
    }
}

/// What tells a wrong answer to a path; nothing of another fault.
fn asked_of_paths(fault: Fault) -> Option<&'static str> {
    use Fault::*;
    match fault {
        KeepsBackslashes
        | EscapesOutside
        | WritesRefusedPaths
        | LeavesUnderDictionary
        | LeavesUnderSteps
        | ClearsTheRest
        | GapsBetweenNames => Some("the bytes lent for names"),
        WritesWithoutRoom | LengthForEnd | SwapsIndexWords | SwapsStepKinds => {
            Some("the words lent for steps")
        }
        _ => fault.is_of_paths().then_some("what stands at a path"),
    }
}

/// What tells a wrong answer to names that are to be written; nothing of another fault.
fn asked_of_writing(fault: Fault) -> Option<&'static str> {
    use Fault::*;
    match fault {
        LeavesTheOrder
        | SortsByLength
        | SortsBackwards
        | SortsSigned
        | SortsByUnits
        | SaysUnsorted
        | SetsSpareBit
        | EmptyAsTheRust
        | HighestFirstInNumbers
        | FillsShortRoom
        | WritesBadNames
        | WritesOneAfter
        | ClearsTheRoom => Some("the room for a dictionary"),
        WritesShortScratch => Some("scratch that is too little"),
        _ => fault
            .is_of_writing()
            .then_some("a dictionary that is written"),
    }
}

/// What tells a wrong answer to pairs that are to be written; nothing of another fault.
fn asked_of_objects(fault: Fault) -> Option<&'static str> {
    use Fault::*;
    match fault {
        FieldsAsGiven
        | FieldsById
        | FieldsByLength
        | FieldsBackwards
        | FieldsSigned
        | PairsForIds
        | SwapsChildren
        | ChildrenAsGiven
        | IdWidthOfEntries
        | IdWidthOfLastEntry
        | IdWidthOneMore
        | SetsTopBit
        | HighestFirstInObjects
        | FillsShortObjectRoom
        | WritesRefusedHeader
        | WritesAfterObject
        | ClearsAfterObject
        | TrustsObjectOrder => Some("the room for an object"),
        WritesShortObjectScratch => Some("scratch that is too little for pairs"),
        _ => fault.is_of_objects().then_some("an object that is written"),
    }
}

/// What tells a wrong answer to pieces; nothing of another fault.
fn asked_of_pieces(fault: Fault) -> Option<&'static str> {
    use Fault::*;
    match fault {
        BeginsSettled | BeginsWithoutWanted => Some("the first state"),
        ForgetsHeld => Some("a state that was made up"),
        ReadsWantedBack | KeepsOtherWords => Some("a state with other words"),
        NoPiecesLimit | TakesPastStates => Some("a state past its store"),
        BeginsAgain | ForgetsNoRoom | UnknownIsNoRoom => Some("what is settled"),
        WritesAfterSettling | WritesPastStates | WritesAfterPiece | ClearsTheStore => {
            Some("the store for pieces")
        }
        _ => fault.is_of_pieces().then_some("a piece of a dictionary"),
    }
}

/// What tells a fault of pieces in runs from the first state.
fn told_from_the_first(fault: Fault) -> Option<String> {
    let reader = Faulty {
        reader: Archive,
        fault,
    };
    let asked = |input: Input| {
        let feeding = Feeding {
            reader: &reader,
            dict: &input.dict,
            cuts: input.pieces.as_ref()?,
        };
        let compared = feeding.from_the_first(&mut Tally::default());
        Some(compared.err()?.asked)
    };
    let inputs = cuttings::fixed().chain(cuttings::of_length());
    inputs.into_iter().find_map(asked)
}

/// States that are made up are not all that tells: a feeder that is wrong in a run is told by it. Those
/// that are wrong only where a state comes from elsewhere are right there.
#[test]
fn faults_of_pieces_without_states_made_up() {
    let right_in_runs = [
        Fault::ReadsWantedBack,
        Fault::UnknownIsNoRoom,
        Fault::TakesPastStates,
        Fault::WritesPastStates,
        Fault::KeepsOtherWords,
    ];
    for fault in ALL.into_iter().filter(|fault| fault.is_of_pieces()) {
        let told = told_from_the_first(fault);
        assert_eq!(told.is_none(), right_in_runs.contains(&fault), "{fault:?}");
    }
}

/// What a wrong feeder is told by, to the byte.
#[test]
fn pieces_that_tell() {
    for (fault, dict, ends, room) in [
        (Fault::CopiesToTheStart, "0100", &[1, 2][..], 2),
        (Fault::SettlesShort, "01", &[1], 1),
        (Fault::EmptyPieceEnds, "-", &[0], 0),
        (Fault::FullIsNoRoom, "-", &[0], 0),
        (Fault::MorePastRoom, "00", &[1], 0),
        (Fault::NoRoomFirst, "0000", &[2], 1),
        (Fault::HeaderIsEnough, "01010001", &[4], 4),
        (Fault::WantsNoLastOffset, "0100", &[2], 2),
    ] {
        let (input, _) = told(fault);
        let cuts = input.pieces.expect("pieces");
        let told = (hex(&input.dict), &cuts.ends[..], cuts.room);
        assert_eq!(told, (dict.to_string(), ends, room), "{fault:?}");
    }
}

/// A feeder without a fault passes, so that it is the fault that is told of each of the others.
#[test]
fn the_plain_feeder_answers_what_is_due() {
    let plain = Misfeeding {
        reader: &Archive,
        fault: None,
    };
    let mut count = 0;
    let mut same = |input: &Input| {
        let cuts = input.pieces.as_ref().expect("pieces");
        let (mut ours, mut theirs) = (vec![7; cuts.room as usize], vec![7; cuts.room as usize]);
        let (mut state, mut plain_state) = (Archive.begin(), plain.begin());
        assert_eq!(state, plain_state);
        for piece in cuts.pieces(&input.dict) {
            state = Archive.feed(&mut ours, piece, state);
            plain_state = plain.feed(&mut theirs, piece, plain_state);
            assert_eq!((state, &ours), (plain_state, &theirs), "{input:?}");
            count += 1;
        }
        Ok::<(), ()>(())
    };
    let small = cuttings::fixed().filter(|input| input.size() < LARGE);
    small.for_each(|input| same(&input).unwrap_or_default());
    cuttings::each_cutting(same).unwrap_or_default();
    assert!(count > 500_000, "{count}");
}

/// Whether a fault of writing is one in the bytes of a dictionary.
fn is_of_bytes(fault: Fault) -> bool {
    let of_bytes = Fault::AlwaysEmpty as usize..=Fault::HighestFirstInNumbers as usize;
    of_bytes.contains(&(fault as usize))
}

/// What a fault writes for names that are taken, read back by the Rust and by us.
fn told_by_reading_back(fault: Fault) -> Option<String> {
    let reader = Faulty {
        reader: Archive,
        fault,
    };
    let asked = |input: Input| {
        let given = &input.names?;
        let set = set_of(&given.texts().ok()?);
        let mut room = vec![0; given.run.len() + 4 * given.ends.len() + 9];
        let Given { run, ends } = given;
        let strip = reader.write_dictionary(run, ends, &mut [], &mut [], &mut room);
        let writing = Writing {
            reader: &Archive,
            given,
        };
        let dict = &room[..strip.end as usize];
        let compared = writing.reads_back(dict, &set, &mut Tally::default());
        Some(compared.err()?.asked)
    };
    sets::fixed().find_map(asked)
}

/// The builder's bytes are not all that tells: a wrong dictionary is not the set when it is read back,
/// but for those that say the same in other bytes.
#[test]
fn faults_of_writing_without_the_builder() {
    let same_names = [
        Fault::SetsSpareBit,
        Fault::WidthOfGiven,
        Fault::WidthOneMore,
    ];
    for fault in ALL.into_iter().filter(|&fault| is_of_bytes(fault)) {
        let told = told_by_reading_back(fault);
        assert_eq!(told.is_none(), same_names.contains(&fault), "{fault:?}");
    }
}

/// A writer without a fault passes, so that it is the fault that is told of each of the others.
#[test]
fn the_plain_writer_writes_what_is_due() {
    let mut count = 0;
    let mut same = |input: &Input| {
        let given = input.names.as_ref().expect("names");
        let Given { run, ends } = given;
        let length = run.len() + 4 * ends.len() + 9;
        for bytes in [length, 7, 0] {
            let (mut ours, mut theirs) = (vec![7; bytes], vec![7; bytes]);
            let strip = Archive.write_dictionary(run, ends, &mut [], &mut [], &mut ours);
            let lent = Lent {
                order: &mut [],
                spare: &mut [],
                room: &mut theirs,
            };
            let plain = Miswriting { fault: None }.answer(given, lent);
            assert_eq!((strip, ours), (plain, theirs), "{given:?}");
            count += 1;
        }
        Ok::<(), ()>(())
    };
    let small = sets::fixed().filter(|input| input.size() < LARGE);
    small.for_each(|input| same(&input).unwrap_or_default());
    sets::each_row(same).unwrap_or_default();
    assert!(count > 50_000, "{count}");
}

/// Whether a fault of objects is one in the bytes of an object.
fn is_of_object_bytes(fault: Fault) -> bool {
    let of_bytes = Fault::FieldsAsGiven as usize..=Fault::NoOffsetOfNoFields as usize;
    of_bytes.contains(&(fault as usize))
}

/// What a fault writes for pairs that are taken, read back by us and by the Rust, and held to the Rust's
/// builder.
fn told_without_the_plain_writer(fault: Fault) -> Option<String> {
    let reader = Faulty {
        reader: Archive,
        fault,
    };
    let asked = |input: Input| {
        let (dict, pairs) = (&input.dict, input.pairs.as_ref()?);
        let metadata = VariantMetadata::try_new(dict).ok()?;
        // Wider numbers and gaps need more room than is due.
        let mut room = vec![0; 2 * input.size() + 100];
        let strip = reader.write_object(dict, pairs, &mut [], &mut [], &mut room);
        if strip.code != OK {
            return None;
        }
        let composing = Composing {
            reader: &Archive,
            dict,
            ours: Archive.dictionary(dict),
            metadata: Some(&metadata),
            pairs,
        };
        let object = &room[..strip.end as usize];
        let compared = composing.reads_back(object, strip, &metadata, &mut Tally::default());
        Some(compared.err()?.asked)
    };
    let small = objects::fixed().filter(|input| input.size() < LARGE);
    small.into_iter().find_map(asked)
}

/// The plain writer is not all that tells: a wrong object is not the pairs' when it is read back, and one
/// that says the same in other bytes is not the builder's.
#[test]
fn faults_of_objects_without_the_plain_writer() {
    let same_fields = [
        Fault::IdWidthOfEntries,
        Fault::IdWidthOfLastEntry,
        Fault::IdWidthOfFields,
        Fault::IdWidthOneMore,
        Fault::OffsetWidthOneMore,
        Fault::OffsetWidthOfLent,
        Fault::OneWidthForBoth,
        Fault::LongCountAt255,
        Fault::LongCountOfFew,
        Fault::SetsTopBit,
    ];
    for fault in ALL.into_iter().filter(|&fault| is_of_object_bytes(fault)) {
        let told = told_without_the_plain_writer(fault);
        let told = told.unwrap_or_else(|| panic!("{fault:?} is not told"));
        let is_same = same_fields.contains(&fault);
        assert_eq!(told == "the builder's bytes", is_same, "{fault:?}: {told}");
    }
}

/// A writer of objects without a fault passes, so that it is the fault that is told of each of the
/// others.
#[test]
fn the_plain_writer_of_objects_writes_what_is_due() {
    let mut count = 0;
    let mut same = |input: &Input| {
        let (dict, pairs) = (&input.dict, input.pairs.as_ref().expect("pairs"));
        let plain = Miscomposing {
            dict,
            dictionary: Archive.dictionary(dict),
            fault: None,
        };
        let length = pairs.bytes.len() + 4 * pairs.words.len() + 9;
        for bytes in [length, 7, 0] {
            let (mut ours, mut theirs) = (vec![7; bytes], vec![7; bytes]);
            let strip = Archive.write_object(dict, pairs, &mut [], &mut [], &mut ours);
            let lent = Lent {
                order: &mut [],
                spare: &mut [],
                room: &mut theirs,
            };
            let plain = plain.answer(pairs, lent);
            assert_eq!((strip, ours), (plain, theirs), "{input:?}");
            count += 1;
        }
        Ok::<(), ()>(())
    };
    let small = objects::fixed().filter(|input| input.size() < LARGE);
    small.for_each(|input| same(&input).unwrap_or_default());
    objects::each_row(&mut same).unwrap_or_default();
    objects::each_words(5, same).unwrap_or_default();
    assert!(count > 60_000, "{count}");
}

/// What a wrong writer of objects is told by, to the word.
#[test]
fn pairs_that_tell() {
    for (fault, dict, words) in [
        (
            Fault::FieldsAsGiven,
            "010200000100",
            &[0, 0, 1, 1, 0, 1][..],
        ),
        (Fault::TakesCutPair, "010000", &[]),
        (Fault::EmptyBeforeRanges, "01010000", &[0, 1, 1]),
        (Fault::RangesWithEmpty, "010200000100", &[0, 0, 0, 1, 0, 1]),
        (Fault::DoublesById, "0102000000", &[0, 0, 0, 1, 0, 0]),
        (Fault::DoublesAtTheEarlier, "01010000", &[0, 0, 0, 0, 0, 0]),
        (Fault::WritesRefusedHeader, "010000", &[0, 0, 0]),
    ] {
        let (input, _) = told(fault);
        let pairs = input.pairs.expect("pairs");
        let told = (hex(&input.dict), &pairs.words[..]);
        assert_eq!(told, (dict.to_string(), words), "{fault:?}");
    }
}

/// What a wrong writer is told by, to the byte.
#[test]
fn names_that_tell() {
    for (fault, run, ends) in [
        (Fault::AlwaysEmpty, &b""[..], &[0][..]),
        (Fault::DropsLastName, b"\0", &[0, 1]),
        // The names are given again, some of them twice.
        (Fault::KeepsDoubles, b"", &[0]),
        (Fault::SortsByLength, b"\x01\0\0", &[1, 3]),
        (Fault::EmptyAsTheRust, b"", &[]),
        (Fault::ChecksWholeRun, b"\xC2\x80", &[1, 2]),
        (Fault::TakesFallingEnds, b"\0", &[1, 0]),
        (Fault::TakesPassingEnds, b"", &[1]),
    ] {
        let names = told(fault).0.names.expect("names");
        assert_eq!((&names.run[..], &names.ends[..]), (run, ends), "{fault:?}");
    }
}

/// Whether a fault of paths is one of which neither the Rust nor a lookup tells: of room, of bytes that
/// no step has, or of what is answered over a refused dictionary.
fn is_told_by_the_walk_alone(fault: Fault) -> bool {
    let room = Fault::RoomBeforePath as usize..=Fault::WritesRefusedPaths as usize;
    let others = [
        Fault::GapsBetweenNames,
        Fault::EmptyPathUnchecked,
        Fault::ValueBeforeDictionary,
    ];
    room.contains(&(fault as usize)) || others.contains(&fault)
}

/// What tells a fault where the plain walk has it, too: the Rust, and our own lookups.
fn told_without_the_walk(fault: Fault) -> Option<String> {
    let reader = Faulty {
        reader: Archive,
        fault,
    };
    let asked = |input: Input| {
        let path = input.path.as_deref()?;
        let dictionary = Archive.dictionary(&input.dict);
        let metadata = VariantMetadata::try_new(&input.dict).ok();
        let metadata = metadata.filter(|_| dictionary.code == OK);
        let walk = Walk {
            dict: &input.dict,
            dictionary,
            value: input.tree.as_deref()?,
            path,
            fault: Some(fault),
        };
        let followed = Followed {
            reader: &reader,
            walk,
            metadata: metadata.as_ref(),
        };
        Some(followed.compare(&mut Tally::default()).err()?.asked)
    };
    paths::fixed().chain(paths::of_length()).find_map(asked)
}

/// The plain walk is not all that tells: what is read wrong, the Rust's own reading does, and what is
/// followed wrong, its `get_path` and our lookups one after another.
#[test]
fn faults_of_paths_without_the_walk() {
    let (mut by_reading, mut by_following) = (0, 0);
    for fault in ALL.into_iter().filter(|fault| fault.is_of_paths()) {
        match told_without_the_walk(fault).as_deref() {
            Some("the steps of a path" | "a path's verdict" | "a path that is no text") => {
                by_reading += 1
            }
            Some("single lookups, one after another" | "a path by get_path") => by_following += 1,
            None if is_told_by_the_walk_alone(fault) => {}
            other => panic!("{fault:?} is told by {other:?}"),
        }
    }
    assert_eq!((by_reading, by_following), (33, 21));
}

#[test]
fn every_fault_is_tried() {
    for (index, fault) in ALL.into_iter().enumerate() {
        assert_eq!(
            fault as usize, index,
            "in the order of the enum, none left out"
        );
    }
    assert_eq!(Fault::NoPlaceInPieces as usize, ALL.len() - 1);
}

/// Of very many fields, the lookup of all their names is told, which stands for the listing.
#[test]
fn a_field_among_very_many() {
    let (_, found) = told(Fault::RowsOfTwoBytes);
    assert_eq!(found.asked, "among all fields' names, a field");
}

/// A reader as it was before 28 is told by its layer, by the smallest object that has a field.
#[test]
fn children_of_no_bytes() {
    let (input, found) = told(Fault::TakesEmptyChildren);
    assert_eq!(input.object, Some(vec![2, 1, 0, 0, 0]));
    assert_eq!(found.asked, "a layer with a child of no bytes");
}

/// 27 and 28 in another order are told by the Rust's words, and the field by the offsets.
#[test]
fn numbers_and_fields_of_no_bytes() {
    for (fault, asked) in [
        (Fault::PastIsEmpty, "the reason to refuse the layer alone"),
        (
            Fault::PastBeforeEmpty,
            "the reason to refuse the layer alone",
        ),
        (Fault::LastEmptyChild, "the first field without bytes"),
        (Fault::NoShortChildren, "an object's verdict"),
    ] {
        assert_eq!(told(fault).1.asked, asked, "{fault:?}");
    }
}

/// A reader as it was before 43 is told by the smallest object with a byte that no child has.
#[test]
fn bytes_that_no_child_has() {
    let (input, found) = told(Fault::SpansToNextOffset);
    assert_eq!(input.object, Some(vec![2, 1, 0, 0, 2, 0, 0]));
    assert_eq!(
        (found.ours, found.theirs),
        ("[0, 5, 2]".into(), "[0, 5, 1]".into())
    );
}

/// What is read wrong, to the byte: a value that tells it.
#[test]
fn values_that_tell() {
    for (fault, value) in [
        (Fault::ReadsUnsigned, "0C80"),
        (Fault::BinaryWithLength, "3C00000000"),
        (Fault::NoNegativeZero, "1C0000000000000080"),
        (Fault::QuietsFloats, "380000817F"),
    ] {
        let object = told(fault).0.object.expect("an object");
        let child = &object[object.len() - value.len() / 2..];
        assert_eq!(hex(child), value, "{fault:?}");
    }
}

/// What a wrong reader finds for an absent name, to the byte.
#[test]
fn absent_as_found() {
    let (input, found) = told(Fault::AbsentIsFound);
    assert_eq!(input.dict, [1, 0, 0], "a dictionary of no names");
    assert_eq!(input.object, Some(vec![2, 0, 0]), "an object of no fields");
    assert_eq!(found.asked, "the field -", "the empty name");
    assert_eq!(found.theirs, "None");
}

/// A panic is a disagreement, not the end of the run.
#[test]
fn a_panic_is_told() {
    struct Panics;
    impl differential::ours::Reader for Panics {
        fn dictionary(&self, _: &[u8]) -> lichenhusk::Strip {
            panic!("on purpose")
        }
        fn name(&self, _: &[u8], _: usize) -> lichenhusk::Strip {
            unreachable!()
        }
        fn layer(&self, _: &[u8], _: &[u8]) -> lichenhusk::Strip {
            unreachable!()
        }
        fn lookup(&self, _: &[u8], _: &[u8], _: &[u8]) -> lichenhusk::Strip {
            unreachable!()
        }
        fn list(&self, _: &[u8], _: &[u8], _: &mut [u32]) -> lichenhusk::Strip {
            unreachable!()
        }
        fn lookup_all(
            &self,
            _: &[u8],
            _: &[u8],
            _: &[u8],
            _: &[u32],
            _: &mut [u32],
        ) -> lichenhusk::Strip {
            unreachable!()
        }
        fn value(&self, _: &[u8]) -> lichenhusk::Strip {
            unreachable!()
        }
        fn tree(&self, _: &[u8], _: &[u8], _: &mut [u8]) -> lichenhusk::Strip {
            unreachable!()
        }
        fn path(
            &self,
            _: &[u8],
            _: &[u8],
            _: &[u8],
            _: &mut [u8],
            _: &mut [u32],
        ) -> lichenhusk::Strip {
            unreachable!()
        }
        fn write_dictionary(
            &self,
            _: &[u8],
            _: &[u32],
            _: &mut [u32],
            _: &mut [u32],
            _: &mut [u8],
        ) -> lichenhusk::Strip {
            unreachable!()
        }
        fn write_object(
            &self,
            _: &[u8],
            _: &Pairs,
            _: &mut [u32],
            _: &mut [u32],
            _: &mut [u8],
        ) -> lichenhusk::Strip {
            unreachable!()
        }
        fn begin(&self) -> lichenhusk::Strip {
            unreachable!()
        }
        fn feed(&self, _: &mut [u8], _: &[u8], _: lichenhusk::Strip) -> lichenhusk::Strip {
            unreachable!()
        }
    }
    let (input, found) = run(&Panics, small()).disagreement.expect("it panics");
    assert_eq!(input, Input::dictionary(vec![]));
    assert_eq!(found.theirs, "on purpose");
}

/// The command says so, and its exit status too.
#[test]
fn the_command_fails() {
    let output = Command::new(env!("CARGO_BIN_EXE_differential"))
        .args(["short", "--seed", "5", "--fault", "AlwaysAbsent"])
        .output()
        .expect("the command runs");
    let text = String::from_utf8(output.stdout).expect("text");
    assert_eq!(output.status.code(), Some(1));
    assert!(text.starts_with("seed 5\n"), "{text}");
    assert!(text.contains("DISAGREEMENT"), "{text}");
    assert!(text.contains("smallest input found"), "{text}");
    assert!(!text.contains("no disagreement"), "{text}");
}

/// What is not understood is not run.
#[test]
fn the_command_refuses_other_words() {
    for words in [
        &[][..],
        &["shorter"],
        &["short", "--seed"],
        &["short", "--seed", "x"],
        &["short", "--fault", "None"],
        &["replay"],
        &["replay", "many"],
    ] {
        let output = Command::new(env!("CARGO_BIN_EXE_differential"))
            .args(words)
            .output()
            .expect("the command runs");
        assert_eq!(output.status.code(), Some(2), "{words:?}");
        assert!(output.stdout.is_empty(), "{words:?}");
    }
}

/// How many dictionaries and how many objects of inputs have each length.
fn lengths(inputs: impl Iterator<Item = Input>) -> [BTreeMap<usize, usize>; 2] {
    let mut lengths = [BTreeMap::new(), BTreeMap::new()];
    for input in inputs {
        *lengths[0].entry(input.dict.len()).or_default() += 1;
        let object = input.object.unwrap_or_default();
        *lengths[1].entry(object.len()).or_default() += 1;
    }
    lengths
}

/// The inputs about the limits have the lengths that they are for, on both sides of them.
#[test]
fn inputs_at_the_limits() {
    let [dictionaries, objects] = lengths(fixed::inputs().into_iter());
    for length in [65_535, 65_536, 65_537] {
        assert_eq!(dictionaries[&length], 14, "{length}");
        assert_eq!(objects[&length], 7, "{length}");
    }
    let [dictionaries, objects] = lengths(large::fixed());
    for length in [LIMIT - 1, LIMIT + 1] {
        assert_eq!(dictionaries[&length], 10, "{length}");
        assert_eq!(objects[&length], 6, "{length}");
    }
    assert_eq!(
        dictionaries[&LIMIT],
        10 + 16,
        "with numbers past what there is"
    );
    assert_eq!(objects[&LIMIT], 6 + 6 + 18, "with the last children, too");
}
