//! Readers that are wrong on purpose, to see that the comparison tells.

use crate::LARGE;
use crate::compare::bad_offsets;
use crate::given::Given;
use crate::many::bad_ends;
use crate::miscomposing::Miscomposing;
use crate::misfeeding::Misfeeding;
use crate::miswriting::{Lent, Miswriting};
use crate::ours::{Reader, absent, accepted, found, refused, refused_at};
use crate::pairs::Pairs;
use crate::reading::{BINARY, ObjectParts, PAYLOADS, STRING, own_length};
use crate::reference::{Tree, Twist};
use crate::walk::Walk;
use lichenhusk::{ABSENT, LEVELS, LIMIT, OK, OWN_MARKS, Strip, WORDS_PER_FIELD, WORDS_PER_NAME};

/// What a wrong reader does wrong.
#[derive(Clone, Copy, Debug, PartialEq, Eq)]
pub enum Fault {
    /// Says 13 to every dictionary and what is over it.
    AlwaysShort,
    /// Finds field 0 where a name is absent.
    AbsentIsFound,
    /// Says absent to every name.
    AlwaysAbsent,
    /// Says field 0 of every name that it finds.
    AlwaysFieldZero,
    /// Gives the field as the id.
    FieldAsId,
    /// Gives field and id in each other's word.
    SwapsFieldAndId,
    /// Gives the first entry of that name, if it is one of the first few, whichever is the field's.
    FirstEntryAsId,
    /// Gives no id.
    NoId,
    /// Leaves an id where a name is absent.
    IdOfAbsent,
    /// Hands back the whole object as the child.
    WholeObject,
    /// Ends a child at the next larger offset.
    EndsAtNextOffset,
    /// Does not trim a dictionary's end.
    UntrimmedDictionary,
    /// Does not trim an object's end.
    UntrimmedObject,
    /// Says of the region that it starts with the object.
    NoRegion,
    /// Says a field more than there is.
    OneFieldMore,
    /// Takes the entry count from the header byte.
    CountFromHeader,
    /// Takes every entry number.
    AnyEntry,
    /// Cuts a name's last byte.
    CutsNames,
    /// Takes names that are not UTF-8.
    TakesAnyBytes,
    /// Says of bad UTF-8 that it begins a byte later.
    LatePlace,
    /// Says of a text that was cut that it is not UTF-8.
    CutIsBroken,
    /// Says of names that are not UTF-8 that they were cut.
    BrokenIsCut,
    /// Says of a text that was cut that it is so a byte later.
    LateCut,
    /// Takes offsets that cut a character.
    CutsCharacters,
    /// Takes a sorted dictionary that does not increase.
    TakesAnyOrder,
    /// Says short where a sum passes the u32 range.
    Wraps,
    /// Refuses a dictionary with an empty name.
    NoEmptyNames,
    /// Reads a dictionary over the limit.
    NoLimit,
    /// Reads an object over the limit.
    NoObjectLimit,
    /// Has the limit that was before, 65,536 bytes, for dictionaries.
    OldLimit,
    /// Has the limit that was before for objects.
    OldObjectLimit,
    /// Gives counts of entries and of fields in two bytes.
    CountsOfTwoBytes,
    /// Gives the field in two bytes.
    FieldsOfTwoBytes,
    /// Gives the fields of many names in two bytes.
    RowsOfTwoBytes,
    /// Gives the id in two bytes.
    IdsOfTwoBytes,
    /// Gives starts and ends in two bytes.
    PlacesOfTwoBytes,
    /// Gives starts and ends in three bytes.
    PlacesOfThreeBytes,
    /// Takes ids that name no entry.
    TakesAnyId,
    /// Takes fields in any order.
    TakesAnyFields,
    /// Takes a value of any basic type.
    TakesAnyType,
    /// Refuses an object in which two fields share a child.
    NoSharedChildren,
    /// Takes children of no bytes, in every call, as it was before 28.
    TakesEmptyChildren,
    /// Takes them where the first such field's offset is not the next one.
    EmptyByNextOffset,
    /// Says 28 where an offset is past the region.
    PastIsEmpty,
    /// Says 27 of any field before 28 of the first.
    PastBeforeEmpty,
    /// Says 28 at the last field whose child has no bytes.
    LastEmptyChild,
    /// Refuses an object with a child of one byte.
    NoShortChildren,
    /// Lists nothing and says that it did.
    ListsNothing,
    /// Lists spans of 0.
    NoSpans,
    /// Lists ids one too high.
    WrongIds,
    /// Writes a word after the listing.
    WritesPastListing,
    /// Writes a word though there is too little room.
    WritesUnderRefusal,
    /// Lists spans up to the next larger offset, and refuses none, as it was before 43.
    SpansToNextOffset,
    /// Has a byte less for type 10 in the table of the primitive types.
    ShortDecimals,
    /// Does not know type 20.
    NoUuids,
    /// Takes type 21 for one without a payload.
    TakesAnotherType,
    /// Leaves the four bytes of a binary's length out of the binary's own.
    NoHeldLength,
    /// Takes a list's count for one of four bytes by the bit that says so of an object's.
    ListCountsByObjectBit,
    /// Measures children up to the object's last byte in place of its trimmed end.
    UntrimmedChildren,
    /// Says 43 of a string that is not UTF-8, which has a length all the same.
    ReadsTexts,
    /// Says 41 before 43.
    RoomBeforeLengths,
    /// Says 43 at the last child without a length.
    LastUnmeasured,
    /// Writes a word though a child has no length.
    WritesUnmeasured,
    /// Gives the rows of many names in another order.
    RowsBackwards,
    /// Asks the first of many names again in place of the second.
    FirstNameTwice,
    /// Leaves the words of an absent name as they were lent.
    LeavesAbsentRows,
    /// Takes the bytes after the last end for a part of the last name.
    NoLastEnd,
    /// Writes a word after the rows.
    WritesPastRows,
    /// Says 41 before what is refused of the dictionary and the object.
    RoomBeforeLayer,
    /// Says 45 after what is refused of the dictionary.
    EndsAfterDictionary,
    /// Says 45 at the last name whose end is bad.
    LastBadEnd,
    /// Reads an integer of eight bits without its sign: FB is 251.
    ReadsUnsigned,
    /// Takes the sign of an integer from its lowest byte.
    SignOfLowestByte,
    /// Extends the sign of an integer to 32 bits, not to 64.
    HighNotExtended,
    /// Reads integers with their highest byte first.
    HighestByteFirst,
    /// Gives the halves of a double in each other's word.
    SwapsHalves,
    /// Gives one and the same for all doubles that are not a number.
    NoNanPayloads,
    /// Makes a float that is not a number a quiet one.
    QuietsFloats,
    /// Drops the sign of a double that is zero.
    NoNegativeZero,
    /// Takes a subnormal double for zero.
    NoSubnormals,
    /// Gives the bits of a float in the high half.
    FloatInHigh,
    /// Says true of false, and false of true.
    SwapsTruth,
    /// Begins the place of a binary with its length.
    BinaryWithLength,
    /// Begins the place of a short string with its header byte.
    TextWithHeader,
    /// Begins the place of an object after its header byte.
    ObjectWithoutHeader,
    /// Ends a place with the bytes that it is handed.
    UntrimmedPlaces,
    /// Says 50 of an unknown type.
    UnknownIsShort,
    /// Says 51 of a primitive that is cut.
    ShortIsUnknown,
    /// Reads type 21 as a null.
    UnknownIsNull,
    /// Says 50 of a string that is not UTF-8, whose bytes are all there.
    RefusesTexts,
    /// Accepts every tree whose value has an own length.
    AcceptsAnyTree,
    /// Never looks below the first layer of a tree.
    FirstLayerOnly,
    /// Refuses a container inside 31 others.
    OneLevelLess,
    /// Accepts a container inside 32 others.
    OneLevelMore,
    /// Says 52 after what is refused of the container itself.
    DepthAfterChecks,
    /// Does not look at the text of a string.
    StringsUnread,
    /// Does not look at the text of a short string.
    ShortStringsUnread,
    /// Says 54 of a binary that is not UTF-8.
    BinariesAsTexts,
    /// Says 62 of a list whose first offset is not 0, as the Rust refuses it.
    WantsFirstOffset,
    /// Takes an element that ends where it starts.
    TakesEmptyElements,
    /// Hands an element the bytes up to the end of its list.
    ElementsToEnd,
    /// Looks into an element before it looks at the offsets after it.
    ElementsBeforeOffsets,
    /// Does not hold an element's offset to the region's length.
    OffsetsAboveLast,
    /// Takes children in the order in which they lie.
    ChildrenAsTheyLie,
    /// Gives the start of the container that has the value which is refused.
    StartOfParent,
    /// Counts the start of that value from its container.
    StartInParent,
    /// Takes a start that was found good for good, whatever bytes are at hand.
    MarksUnmeasured,
    /// Takes a value that was found good for good, however deep it is met again.
    MarksWithoutLevels,
    /// Does not look at the ids of nested objects.
    NestedIdsUnread,
    /// Does not look at the order of names in nested objects.
    NestedOrderUnread,
    /// Says 50 of an object's child of no bytes, in place of the object's 28.
    EmptyChildrenAsValues,
    /// Gives the length of the bytes for that of the value.
    UntrimmedTrees,
    /// Reads a tree over the limit.
    NoTreeLimit,
    /// Says what is refused of the value before what is of the dictionary.
    TreeBeforeDictionary,
    /// Says 50 of a leaf of an unknown type.
    UnknownLeafIsShort,
    /// Says 23 and 24 of a list.
    ListsAsObjects,
    /// Says 62 without a place.
    NoElement,
    /// Leaves the marks as they were lent.
    KeepsMarks,
    /// Leaves them so under a refusal.
    KeepsMarksRefused,
    /// Takes a value whose start is marked before the check for good.
    TrustsMarks,
    /// Leaves the backslashes in what is in brackets.
    KeepsBackslashes,
    /// Closes a bracket at one that has a backslash before it.
    EscapedCloses,
    /// Looks for quotes before it takes the backslashes off.
    QuotesBeforeEscapes,
    /// Takes a closing bracket between quotes for a part of the name.
    QuotesHoldBrackets,
    /// Takes a name between quotes of two kinds.
    MixedQuotes,
    /// Takes one quote alone for a name of no bytes.
    OneQuote,
    /// Refuses a name of no bytes.
    NoEmptyQuotes,
    /// Does not know the double quote.
    SingleQuotesOnly,
    /// Takes what is in brackets without quotes for a name, as the Rust's documentation says.
    BareNames,
    /// Refuses an index with a plus before it.
    NoPlus,
    /// Takes many pluses.
    ManyPluses,
    /// Takes a minus.
    TakesMinus,
    /// Takes an index with spaces about it.
    TrimsNumbers,
    /// Takes no digits for 0.
    NoDigitsIsZero,
    /// Refuses an index that begins with a 0 and goes on.
    NoLeadingZeros,
    /// Takes the low 64 bits of an index.
    WrapsIndices,
    /// Refuses an index of more than 32 bits.
    IndicesOfFourBytes,
    /// Takes a closing bracket for a part of a name.
    ClosingInNames,
    /// Takes backslashes off outside of brackets.
    EscapesOutside,
    /// Says 73 of a name that follows a bracket without a dot.
    WantsDots,
    /// Takes a dot at the end.
    TakesTrailingDots,
    /// Says 73 of a dot at the end.
    TrailingIsUnexpected,
    /// Says 72 of a dot at the end before what is wrong earlier.
    TrailingDotFirst,
    /// Says 72 of a dot alone.
    LoneDotTrails,
    /// Says 75 before 74 of a bracket that is not closed.
    UnclosedLast,
    /// Takes a path that is not UTF-8.
    TakesAnyText,
    /// Says 70 after 71 to 75.
    TextLast,
    /// Says 76 before what is wrong with the path.
    RoomBeforePath,
    /// Says 76 after what is refused of the dictionary.
    RoomAfterDictionary,
    /// Says 76 where there are just as many words as are needed.
    WantsMoreWords,
    /// Says 76 where there are fewer bytes than the path has.
    WantsPathsBytes,
    /// Writes as much as there is room for, and goes on.
    WritesWhatFits,
    /// Writes under 76.
    WritesWithoutRoom,
    /// Writes under 70 to 75.
    WritesRefusedPaths,
    /// Writes no steps where the dictionary is refused.
    LeavesUnderDictionary,
    /// Writes none where a step is.
    LeavesUnderSteps,
    /// Clears what comes after the steps.
    ClearsTheRest,
    /// Leaves a byte after each name.
    GapsBetweenNames,
    /// Gives the length of a name for its end.
    LengthForEnd,
    /// Gives the halves of an index in each other's word.
    SwapsIndexWords,
    /// Says 1 of a name and 0 of an index.
    SwapsStepKinds,
    /// Says 21 before what is refused of the dictionary.
    ValueBeforeDictionary,
    /// Does not look at the dictionary where the path is empty.
    EmptyPathUnchecked,
    /// Says 21 of no bytes where the path is empty.
    EmptyPathReads,
    /// Stops at the first step.
    FirstStepOnly,
    /// Says absent of all that is there.
    NothingIsThere,
    /// Gives the first step's field.
    FieldOfFirstStep,
    /// Gives the id of the step before for an index.
    IdOfName,
    /// Counts starts from the layer.
    StartInLayer,
    /// Hands a child the bytes after its object's end.
    UntrimmedSteps,
    /// Hands an element the bytes up to the end of its list.
    ElementGoesOn,
    /// Takes an index into an object for its field.
    IndexesFields,
    /// Says absent of a step into a value of another kind, as the Rust does.
    OtherKindIsAbsent,
    /// Says 22 of it.
    OtherKindIsNoObject,
    /// Counts steps from 1.
    StepsFromOne,
    /// Says 53 without the step.
    NoStepNumber,
    /// Says 50 of a step into no bytes.
    EmptyIsShort,
    /// Goes into a value over the limit.
    NoStepLimit,
    /// Says what is refused of a layer without its place.
    NoPlaceInLayer,
    /// Gives the start of the layer that is refused.
    StartOfLayer,
    /// Says absent before what is refused of the layer.
    AbsentBeforeChecks,
    /// Looks at the offsets up to its element's alone.
    ChecksToElement,
    /// Takes the low 32 bits of an index for the element.
    LowWordOnly,
    /// Finds a field whose name begins with the one that is looked for.
    FindsBeginnings,
    /// Writes the empty dictionary, whatever names are given.
    AlwaysEmpty,
    /// Leaves the greatest of several names out.
    DropsLastName,
    /// Leaves a name of no bytes out.
    DropsEmptyNames,
    /// Writes a name as often as it is given.
    KeepsDoubles,
    /// Drops a name that is given again only where it is given twice in a row.
    DropsNeighboursAlone,
    /// Takes names for the same that begin with the same eight bytes.
    DoublesByEightBytes,
    /// Writes names in the order in which they are given.
    LeavesTheOrder,
    /// Writes shorter names before longer ones.
    SortsByLength,
    /// Writes names from the greatest to the least.
    SortsBackwards,
    /// Takes bytes for signed in the order of names.
    SortsSigned,
    /// Has names in the order of their 16-bit units.
    SortsByUnits,
    /// Leaves the bit out that says sorted.
    SaysUnsorted,
    /// Sets the bit 0x20.
    SetsSpareBit,
    /// Writes 01 00 00 for no names, as the Rust's builder does.
    EmptyAsTheRust,
    /// Takes the width of the count alone.
    WidthOfCount,
    /// Takes the width of the names as they are given, doubles counted.
    WidthOfGiven,
    /// Takes a byte more for each number than is needed.
    WidthOneMore,
    /// Writes numbers with their highest byte first.
    HighestFirstInNumbers,
    /// Answers how many names are given, doubles counted.
    CountOfGiven,
    /// Answers how many names are written in two bytes.
    WrittenCountOfTwoBytes,
    /// Answers the room's length.
    LengthOfRoom,
    /// Answers the length of the names alone.
    LengthOfNames,
    /// Answers the length in two bytes.
    LengthOfTwoBytes,
    /// Writes names that are not UTF-8.
    TakesAnyNames,
    /// Looks whether the names are UTF-8 one after another, not each by itself.
    ChecksWholeRun,
    /// Says 45 of bytes after the last end that are not UTF-8.
    ChecksTheRest,
    /// Takes the bytes after the last end for a part of the last name.
    TakesTheRest,
    /// Takes a name whose end falls for one of no bytes.
    TakesFallingEnds,
    /// Takes a name whose end passes the run for one up to its end.
    TakesPassingEnds,
    /// Says 45 at the last bad name.
    LastBadName,
    /// Counts names from 1 in 45's place.
    NamesFromOne,
    /// Says 45 at the first bad end before it looks at texts.
    EndsBeforeTexts,
    /// Says 10 of a run over the limit before 45.
    LimitBeforeNames,
    /// Says 46 before 45.
    RoomBeforeNames,
    /// Says 46 before 10.
    RoomBeforeLimit,
    /// Says 10 where the names as they are given pass the limit.
    LimitOfGiven,
    /// Refuses a dictionary of just as many bytes as the limit.
    LimitOneLess,
    /// Writes one of a byte more.
    LimitOneMore,
    /// Says 46 where there is just as much room as is needed.
    WantsAByteMore,
    /// Writes as much as there is room for under 46.
    FillsShortRoom,
    /// Writes a header under 45.
    WritesBadNames,
    /// Writes a byte after the dictionary.
    WritesOneAfter,
    /// Clears what comes after the dictionary.
    ClearsTheRoom,
    /// Says 46 where scratch is too little.
    RefusesWithoutScratch,
    /// Writes to scratch that is too little.
    WritesShortScratch,
    /// Takes what scratch held before for the order of the names.
    TrustsOrder,
    /// Writes fields in the order of the pairs.
    FieldsAsGiven,
    /// Writes fields in the order of their ids.
    FieldsById,
    /// Writes fields of shorter names before those of longer ones.
    FieldsByLength,
    /// Writes fields from the greatest name to the least.
    FieldsBackwards,
    /// Takes bytes for signed in the order of fields.
    FieldsSigned,
    /// Gives the number of the pair for the id.
    PairsForIds,
    /// Gives the first two fields each other's child.
    SwapsChildren,
    /// Lays children in the order of the pairs, as the Rust's builder does.
    ChildrenAsGiven,
    /// Lays children of the same bytes once.
    SharesChildren,
    /// Leaves a byte between children.
    GapsBetweenChildren,
    /// Takes the width of ids of how many entries the dictionary has.
    IdWidthOfEntries,
    /// Takes that of its last entry.
    IdWidthOfLastEntry,
    /// Takes that of how many fields there are, where it is more.
    IdWidthOfFields,
    /// Takes a byte more for each id than is needed.
    IdWidthOneMore,
    /// Takes a byte more for each offset than is needed.
    OffsetWidthOneMore,
    /// Takes the width of offsets of all bytes that are lent.
    OffsetWidthOfLent,
    /// Takes offsets to be no narrower than ids.
    OneWidthForBoth,
    /// Takes four bytes for a count of 255.
    LongCountAt255,
    /// Takes four bytes for every count.
    LongCountOfFew,
    /// Sets bit 7 of the header.
    SetsTopBit,
    /// Writes ids and offsets with their highest byte first.
    HighestFirstInObjects,
    /// Writes 02 00 for no fields.
    NoOffsetOfNoFields,
    /// Answers how many words are given.
    CountsWords,
    /// Answers how many fields are written in two bytes.
    WrittenFieldsOfTwoBytes,
    /// Leaves an id in the answer.
    LeavesAnId,
    /// Says of the region that it starts with the object that is written.
    NoRegionWritten,
    /// Answers the length of the room for an object.
    LengthOfObjectRoom,
    /// Answers the length of the children alone.
    LengthOfChildren,
    /// Answers the length of an object in two bytes.
    ObjectLengthOfTwoBytes,
    /// Takes a cut last pair, with 0 for what it has not.
    TakesCutPair,
    /// Says 45 of a cut last pair.
    RefusesCutPair,
    /// Does not look at the dictionary where there are no pairs.
    NoPairsUnchecked,
    /// Says 45 before what is refused of the dictionary.
    RangesBeforeDictionary,
    /// Says 45 before 25.
    RangesBeforeIds,
    /// Says 26 before 25.
    NamesBeforeIds,
    /// Says 45 before 26.
    RangesBeforeNames,
    /// Says 28 before 45.
    EmptyBeforeRanges,
    /// Looks for 45 and 28 of each pair before the next.
    RangesWithEmpty,
    /// Looks for all that is refused of each pair before the next.
    PairByPair,
    /// Takes an id that is the number of entries.
    TakesIdAtCount,
    /// Takes the last of pairs with one name.
    TakesDoubles,
    /// Says 26 of the same id alone.
    DoublesById,
    /// Says 26 of names that come twice in a row alone.
    DoublesOfNeighbours,
    /// Says 26 at the earlier pair.
    DoublesAtTheEarlier,
    /// Says 26 at the least name that comes again.
    DoublesByName,
    /// Says 26 of names that begin with the same eight bytes.
    DoublesByEight,
    /// Takes a range that falls for one of no bytes.
    TakesFallingRanges,
    /// Takes a range that passes the bytes for one up to their end.
    TakesPassingRanges,
    /// Says 45 where a start passes the bytes, and not for an end.
    LooksAtStartsAlone,
    /// Says 45 of a range that ends with the bytes.
    RefusesTheLastByte,
    /// Writes children of no bytes.
    TakesEmptyChildrenOfPairs,
    /// Says what is refused at the last bad pair.
    LastBadPair,
    /// Counts pairs from 1 in a refusal's place.
    PairsFromOne,
    /// Gives the word that a bad pair begins with.
    PairsByTheirWords,
    /// Gives the id as 25's place.
    IdAsPlace,
    /// Says what is refused of pairs without its place.
    NoPlaceOfPairs,
    /// Says 46 before the dictionary is looked at.
    ObjectRoomFirst,
    /// Says 46 before 20.
    RoomBeforeObjectLimit,
    /// Holds the children alone to the limit.
    LimitOfChildren,
    /// Holds the bytes that are lent to the limit.
    LimitOfLent,
    /// Refuses an object of just as many bytes as the limit.
    ObjectLimitOneLess,
    /// Writes an object of a byte more.
    ObjectLimitOneMore,
    /// Says 46 where there is just as much room as an object needs.
    WantsAByteMoreOfRoom,
    /// Writes as much of an object as there is room for under 46.
    FillsShortObjectRoom,
    /// Writes the first byte under a refusal of pairs.
    WritesRefusedHeader,
    /// Writes a byte after the object.
    WritesAfterObject,
    /// Clears what comes after the object.
    ClearsAfterObject,
    /// Says 46 where scratch is too little for pairs.
    NoObjectWithoutScratch,
    /// Writes to scratch that is too little for pairs.
    WritesShortObjectScratch,
    /// Takes what scratch held before for the order of the fields.
    TrustsObjectOrder,
    /// Begins pieces with a strip of zeros, which is settled.
    BeginsSettled,
    /// Says of no pieces that no bytes are wanted.
    BeginsWithoutWanted,
    /// Copies each piece to the store's start.
    CopiesToTheStart,
    /// Counts the last piece alone as held.
    ForgetsHeld,
    /// Says 13 where more is wanted.
    SettlesShort,
    /// Says 11 where more is wanted.
    SettlesEmpty,
    /// Takes a piece of no bytes for the end of all.
    EmptyPieceEnds,
    /// Says of names that end inside a character that more is wanted.
    CutTextIsMore,
    /// Says of a sum past 32 bits that more is wanted.
    SumIsMore,
    /// Accepts a dictionary in pieces by its offsets, before its names are there.
    HeaderIsEnough,
    /// Says 44 where the store is just full.
    FullIsNoRoom,
    /// Says that more is wanted where more has come than there is room for.
    MorePastRoom,
    /// Says 44 to a piece for which there is no room before it judges.
    NoRoomFirst,
    /// Copies nothing of a piece for which there is no room.
    DropsLongPieces,
    /// Leaves the store's last byte.
    LeavesLastByte,
    /// Judges the last piece alone.
    JudgesThePiece,
    /// Judges the whole store.
    JudgesTheStore,
    /// Judges what was held before the piece.
    JudgesBeforeCopying,
    /// Judges nothing before as many bytes are held as the strip says are wanted.
    ReadsWantedBack,
    /// Judges more bytes than the limit.
    NoPiecesLimit,
    /// Holds a byte fewer than the limit.
    PiecesLimitOneLess,
    /// Says 10 where more has come than the limit.
    TenForNoRoom,
    /// Takes a piece after an accepted dictionary for the next one's first.
    BeginsAgain,
    /// Copies pieces that come when all is settled.
    WritesAfterSettling,
    /// Forgets 44 with the next piece.
    ForgetsNoRoom,
    /// Says 44 to a code that it does not know.
    UnknownIsNoRoom,
    /// Takes a state that counts past its store for one that is full.
    TakesPastStates,
    /// Writes the piece under 44 to a state that counts past its store.
    WritesPastStates,
    /// Writes a byte after the piece.
    WritesAfterPiece,
    /// Clears what comes after the piece.
    ClearsTheStore,
    /// Says that a byte more than are held is wanted.
    WantsOneMore,
    /// Says how many bytes are wanted beside those that are held.
    WantsTheRest,
    /// Does not say how many bytes are wanted.
    WantsNothing,
    /// Says that no more bytes are wanted than there is room for.
    WantsWithinRoom,
    /// Says of the names how long they are, and not where they end.
    WantsNamesAlone,
    /// Wants the offsets without the last of them.
    WantsNoLastOffset,
    /// Wants a count of one byte, whatever the width.
    WantsShortCounts,
    /// Says how many bytes are wanted in two bytes.
    WantedOfTwoBytes,
    /// Says how many bytes are held in two bytes.
    HeldOfTwoBytes,
    /// Leaves the other words of a state where more is wanted.
    KeepsOtherWords,
    /// Says how many bytes are held for the count of an accepted one.
    HeldForCount,
    /// Says of an accepted one that it ends where the pieces do.
    UntrimmedPieces,
    /// Says what is refused of pieces without its place.
    NoPlaceInPieces,
}

/// Every fault.
pub const ALL: [Fault; 343] = [
    Fault::AlwaysShort,
    Fault::AbsentIsFound,
    Fault::AlwaysAbsent,
    Fault::AlwaysFieldZero,
    Fault::FieldAsId,
    Fault::SwapsFieldAndId,
    Fault::FirstEntryAsId,
    Fault::NoId,
    Fault::IdOfAbsent,
    Fault::WholeObject,
    Fault::EndsAtNextOffset,
    Fault::UntrimmedDictionary,
    Fault::UntrimmedObject,
    Fault::NoRegion,
    Fault::OneFieldMore,
    Fault::CountFromHeader,
    Fault::AnyEntry,
    Fault::CutsNames,
    Fault::TakesAnyBytes,
    Fault::LatePlace,
    Fault::CutIsBroken,
    Fault::BrokenIsCut,
    Fault::LateCut,
    Fault::CutsCharacters,
    Fault::TakesAnyOrder,
    Fault::Wraps,
    Fault::NoEmptyNames,
    Fault::NoLimit,
    Fault::NoObjectLimit,
    Fault::OldLimit,
    Fault::OldObjectLimit,
    Fault::CountsOfTwoBytes,
    Fault::FieldsOfTwoBytes,
    Fault::RowsOfTwoBytes,
    Fault::IdsOfTwoBytes,
    Fault::PlacesOfTwoBytes,
    Fault::PlacesOfThreeBytes,
    Fault::TakesAnyId,
    Fault::TakesAnyFields,
    Fault::TakesAnyType,
    Fault::NoSharedChildren,
    Fault::TakesEmptyChildren,
    Fault::EmptyByNextOffset,
    Fault::PastIsEmpty,
    Fault::PastBeforeEmpty,
    Fault::LastEmptyChild,
    Fault::NoShortChildren,
    Fault::ListsNothing,
    Fault::NoSpans,
    Fault::WrongIds,
    Fault::WritesPastListing,
    Fault::WritesUnderRefusal,
    Fault::SpansToNextOffset,
    Fault::ShortDecimals,
    Fault::NoUuids,
    Fault::TakesAnotherType,
    Fault::NoHeldLength,
    Fault::ListCountsByObjectBit,
    Fault::UntrimmedChildren,
    Fault::ReadsTexts,
    Fault::RoomBeforeLengths,
    Fault::LastUnmeasured,
    Fault::WritesUnmeasured,
    Fault::RowsBackwards,
    Fault::FirstNameTwice,
    Fault::LeavesAbsentRows,
    Fault::NoLastEnd,
    Fault::WritesPastRows,
    Fault::RoomBeforeLayer,
    Fault::EndsAfterDictionary,
    Fault::LastBadEnd,
    Fault::ReadsUnsigned,
    Fault::SignOfLowestByte,
    Fault::HighNotExtended,
    Fault::HighestByteFirst,
    Fault::SwapsHalves,
    Fault::NoNanPayloads,
    Fault::QuietsFloats,
    Fault::NoNegativeZero,
    Fault::NoSubnormals,
    Fault::FloatInHigh,
    Fault::SwapsTruth,
    Fault::BinaryWithLength,
    Fault::TextWithHeader,
    Fault::ObjectWithoutHeader,
    Fault::UntrimmedPlaces,
    Fault::UnknownIsShort,
    Fault::ShortIsUnknown,
    Fault::UnknownIsNull,
    Fault::RefusesTexts,
    Fault::AcceptsAnyTree,
    Fault::FirstLayerOnly,
    Fault::OneLevelLess,
    Fault::OneLevelMore,
    Fault::DepthAfterChecks,
    Fault::StringsUnread,
    Fault::ShortStringsUnread,
    Fault::BinariesAsTexts,
    Fault::WantsFirstOffset,
    Fault::TakesEmptyElements,
    Fault::ElementsToEnd,
    Fault::ElementsBeforeOffsets,
    Fault::OffsetsAboveLast,
    Fault::ChildrenAsTheyLie,
    Fault::StartOfParent,
    Fault::StartInParent,
    Fault::MarksUnmeasured,
    Fault::MarksWithoutLevels,
    Fault::NestedIdsUnread,
    Fault::NestedOrderUnread,
    Fault::EmptyChildrenAsValues,
    Fault::UntrimmedTrees,
    Fault::NoTreeLimit,
    Fault::TreeBeforeDictionary,
    Fault::UnknownLeafIsShort,
    Fault::ListsAsObjects,
    Fault::NoElement,
    Fault::KeepsMarks,
    Fault::KeepsMarksRefused,
    Fault::TrustsMarks,
    Fault::KeepsBackslashes,
    Fault::EscapedCloses,
    Fault::QuotesBeforeEscapes,
    Fault::QuotesHoldBrackets,
    Fault::MixedQuotes,
    Fault::OneQuote,
    Fault::NoEmptyQuotes,
    Fault::SingleQuotesOnly,
    Fault::BareNames,
    Fault::NoPlus,
    Fault::ManyPluses,
    Fault::TakesMinus,
    Fault::TrimsNumbers,
    Fault::NoDigitsIsZero,
    Fault::NoLeadingZeros,
    Fault::WrapsIndices,
    Fault::IndicesOfFourBytes,
    Fault::ClosingInNames,
    Fault::EscapesOutside,
    Fault::WantsDots,
    Fault::TakesTrailingDots,
    Fault::TrailingIsUnexpected,
    Fault::TrailingDotFirst,
    Fault::LoneDotTrails,
    Fault::UnclosedLast,
    Fault::TakesAnyText,
    Fault::TextLast,
    Fault::RoomBeforePath,
    Fault::RoomAfterDictionary,
    Fault::WantsMoreWords,
    Fault::WantsPathsBytes,
    Fault::WritesWhatFits,
    Fault::WritesWithoutRoom,
    Fault::WritesRefusedPaths,
    Fault::LeavesUnderDictionary,
    Fault::LeavesUnderSteps,
    Fault::ClearsTheRest,
    Fault::GapsBetweenNames,
    Fault::LengthForEnd,
    Fault::SwapsIndexWords,
    Fault::SwapsStepKinds,
    Fault::ValueBeforeDictionary,
    Fault::EmptyPathUnchecked,
    Fault::EmptyPathReads,
    Fault::FirstStepOnly,
    Fault::NothingIsThere,
    Fault::FieldOfFirstStep,
    Fault::IdOfName,
    Fault::StartInLayer,
    Fault::UntrimmedSteps,
    Fault::ElementGoesOn,
    Fault::IndexesFields,
    Fault::OtherKindIsAbsent,
    Fault::OtherKindIsNoObject,
    Fault::StepsFromOne,
    Fault::NoStepNumber,
    Fault::EmptyIsShort,
    Fault::NoStepLimit,
    Fault::NoPlaceInLayer,
    Fault::StartOfLayer,
    Fault::AbsentBeforeChecks,
    Fault::ChecksToElement,
    Fault::LowWordOnly,
    Fault::FindsBeginnings,
    Fault::AlwaysEmpty,
    Fault::DropsLastName,
    Fault::DropsEmptyNames,
    Fault::KeepsDoubles,
    Fault::DropsNeighboursAlone,
    Fault::DoublesByEightBytes,
    Fault::LeavesTheOrder,
    Fault::SortsByLength,
    Fault::SortsBackwards,
    Fault::SortsSigned,
    Fault::SortsByUnits,
    Fault::SaysUnsorted,
    Fault::SetsSpareBit,
    Fault::EmptyAsTheRust,
    Fault::WidthOfCount,
    Fault::WidthOfGiven,
    Fault::WidthOneMore,
    Fault::HighestFirstInNumbers,
    Fault::CountOfGiven,
    Fault::WrittenCountOfTwoBytes,
    Fault::LengthOfRoom,
    Fault::LengthOfNames,
    Fault::LengthOfTwoBytes,
    Fault::TakesAnyNames,
    Fault::ChecksWholeRun,
    Fault::ChecksTheRest,
    Fault::TakesTheRest,
    Fault::TakesFallingEnds,
    Fault::TakesPassingEnds,
    Fault::LastBadName,
    Fault::NamesFromOne,
    Fault::EndsBeforeTexts,
    Fault::LimitBeforeNames,
    Fault::RoomBeforeNames,
    Fault::RoomBeforeLimit,
    Fault::LimitOfGiven,
    Fault::LimitOneLess,
    Fault::LimitOneMore,
    Fault::WantsAByteMore,
    Fault::FillsShortRoom,
    Fault::WritesBadNames,
    Fault::WritesOneAfter,
    Fault::ClearsTheRoom,
    Fault::RefusesWithoutScratch,
    Fault::WritesShortScratch,
    Fault::TrustsOrder,
    Fault::FieldsAsGiven,
    Fault::FieldsById,
    Fault::FieldsByLength,
    Fault::FieldsBackwards,
    Fault::FieldsSigned,
    Fault::PairsForIds,
    Fault::SwapsChildren,
    Fault::ChildrenAsGiven,
    Fault::SharesChildren,
    Fault::GapsBetweenChildren,
    Fault::IdWidthOfEntries,
    Fault::IdWidthOfLastEntry,
    Fault::IdWidthOfFields,
    Fault::IdWidthOneMore,
    Fault::OffsetWidthOneMore,
    Fault::OffsetWidthOfLent,
    Fault::OneWidthForBoth,
    Fault::LongCountAt255,
    Fault::LongCountOfFew,
    Fault::SetsTopBit,
    Fault::HighestFirstInObjects,
    Fault::NoOffsetOfNoFields,
    Fault::CountsWords,
    Fault::WrittenFieldsOfTwoBytes,
    Fault::LeavesAnId,
    Fault::NoRegionWritten,
    Fault::LengthOfObjectRoom,
    Fault::LengthOfChildren,
    Fault::ObjectLengthOfTwoBytes,
    Fault::TakesCutPair,
    Fault::RefusesCutPair,
    Fault::NoPairsUnchecked,
    Fault::RangesBeforeDictionary,
    Fault::RangesBeforeIds,
    Fault::NamesBeforeIds,
    Fault::RangesBeforeNames,
    Fault::EmptyBeforeRanges,
    Fault::RangesWithEmpty,
    Fault::PairByPair,
    Fault::TakesIdAtCount,
    Fault::TakesDoubles,
    Fault::DoublesById,
    Fault::DoublesOfNeighbours,
    Fault::DoublesAtTheEarlier,
    Fault::DoublesByName,
    Fault::DoublesByEight,
    Fault::TakesFallingRanges,
    Fault::TakesPassingRanges,
    Fault::LooksAtStartsAlone,
    Fault::RefusesTheLastByte,
    Fault::TakesEmptyChildrenOfPairs,
    Fault::LastBadPair,
    Fault::PairsFromOne,
    Fault::PairsByTheirWords,
    Fault::IdAsPlace,
    Fault::NoPlaceOfPairs,
    Fault::ObjectRoomFirst,
    Fault::RoomBeforeObjectLimit,
    Fault::LimitOfChildren,
    Fault::LimitOfLent,
    Fault::ObjectLimitOneLess,
    Fault::ObjectLimitOneMore,
    Fault::WantsAByteMoreOfRoom,
    Fault::FillsShortObjectRoom,
    Fault::WritesRefusedHeader,
    Fault::WritesAfterObject,
    Fault::ClearsAfterObject,
    Fault::NoObjectWithoutScratch,
    Fault::WritesShortObjectScratch,
    Fault::TrustsObjectOrder,
    Fault::BeginsSettled,
    Fault::BeginsWithoutWanted,
    Fault::CopiesToTheStart,
    Fault::ForgetsHeld,
    Fault::SettlesShort,
    Fault::SettlesEmpty,
    Fault::EmptyPieceEnds,
    Fault::CutTextIsMore,
    Fault::SumIsMore,
    Fault::HeaderIsEnough,
    Fault::FullIsNoRoom,
    Fault::MorePastRoom,
    Fault::NoRoomFirst,
    Fault::DropsLongPieces,
    Fault::LeavesLastByte,
    Fault::JudgesThePiece,
    Fault::JudgesTheStore,
    Fault::JudgesBeforeCopying,
    Fault::ReadsWantedBack,
    Fault::NoPiecesLimit,
    Fault::PiecesLimitOneLess,
    Fault::TenForNoRoom,
    Fault::BeginsAgain,
    Fault::WritesAfterSettling,
    Fault::ForgetsNoRoom,
    Fault::UnknownIsNoRoom,
    Fault::TakesPastStates,
    Fault::WritesPastStates,
    Fault::WritesAfterPiece,
    Fault::ClearsTheStore,
    Fault::WantsOneMore,
    Fault::WantsTheRest,
    Fault::WantsNothing,
    Fault::WantsWithinRoom,
    Fault::WantsNamesAlone,
    Fault::WantsNoLastOffset,
    Fault::WantsShortCounts,
    Fault::WantedOfTwoBytes,
    Fault::HeldOfTwoBytes,
    Fault::KeepsOtherWords,
    Fault::HeldForCount,
    Fault::UntrimmedPieces,
    Fault::NoPlaceInPieces,
];

impl Fault {
    /// What it does otherwise than document 02 says of a tree, where that is one thing.
    fn twist(self) -> Option<Twist> {
        Some(match self {
            Fault::FirstLayerOnly => Twist::FirstLayer,
            Fault::DepthAfterChecks => Twist::DepthLast,
            Fault::StringsUnread => Twist::Unread(STRING),
            Fault::ShortStringsUnread => Twist::UnreadShort,
            Fault::BinariesAsTexts => Twist::BinaryText,
            Fault::WantsFirstOffset => Twist::FirstOffset,
            Fault::TakesEmptyElements => Twist::EmptyElements,
            Fault::ElementsToEnd => Twist::ElementsToEnd,
            Fault::ElementsBeforeOffsets => Twist::ElementsFirst,
            Fault::OffsetsAboveLast => Twist::LastOffset,
            Fault::ChildrenAsTheyLie => Twist::AsTheyLie,
            Fault::StartOfParent => Twist::StartOfParent,
            Fault::StartInParent => Twist::StartInParent,
            Fault::MarksUnmeasured => Twist::ByStart,
            Fault::MarksWithoutLevels => Twist::WithoutLevels,
            Fault::NestedIdsUnread => Twist::NestedIds,
            Fault::NestedOrderUnread => Twist::NestedOrder,
            Fault::EmptyChildrenAsValues => Twist::EmptyChildren,
            _ => return None,
        })
    }

    /// Whether it is one of paths, which [`spelling`](crate::spelling) and [`walk`](crate::walk) have.
    pub fn is_of_paths(self) -> bool {
        let of_paths = Fault::KeepsBackslashes as usize..=Fault::FindsBeginnings as usize;
        of_paths.contains(&(self as usize))
    }

    /// Whether it is one of a dictionary that is written, which [`miswriting`](crate::miswriting) has.
    pub fn is_of_writing(self) -> bool {
        let of_writing = Fault::AlwaysEmpty as usize..=Fault::TrustsOrder as usize;
        of_writing.contains(&(self as usize))
    }

    /// Whether it is one of an object that is written, which [`miscomposing`](crate::miscomposing) has.
    pub fn is_of_objects(self) -> bool {
        let of_objects = Fault::FieldsAsGiven as usize..=Fault::TrustsObjectOrder as usize;
        of_objects.contains(&(self as usize))
    }

    /// Whether it is one of a dictionary that comes in pieces, which [`misfeeding`](crate::misfeeding) has.
    pub fn is_of_pieces(self) -> bool {
        self as usize >= Fault::BeginsSettled as usize
    }

    /// How many levels it lets a tree have.
    fn levels(self) -> usize {
        match self {
            Fault::OneLevelLess => LEVELS - 1,
            Fault::OneLevelMore => LEVELS + 1,
            _ => LEVELS,
        }
    }
}

/// A dictionary of no names.
const EMPTY_DICTIONARY: [u8; 3] = [1, 0, 0];

/// The greatest numbers of two and of three bytes.
const TWO_BYTES: usize = 0xFFFF;
const THREE_BYTES: usize = 0xFF_FFFF;

/// An answer whose places keep the bits of a number.
fn with_places(strip: Strip, bits: usize) -> Strip {
    Strip {
        start: strip.start & bits as u32,
        end: strip.end & bits as u32,
        ..strip
    }
}

/// A reading whose number has other bits.
fn with_bits(strip: Strip, bits: u64) -> Strip {
    Strip {
        start: bits as u32,
        end: (bits >> 32) as u32,
        ..strip
    }
}

/// The lowest bytes of a number, so many, with the sign that a byte has; the others of its 64 bits
/// are that sign.
fn extended(bits: u64, width: usize, sign: u8) -> u64 {
    let others = u64::MAX << (8 * width - 1) << 1;
    match sign < 0x80 {
        true => bits & !others,
        false => bits | others,
    }
}

/// A copy of an object with a byte more at its end, so that a child of no bytes has one; nothing
/// where the last offset has no room for that.
fn longer(object: &[u8]) -> Option<Vec<u8>> {
    let parts = ObjectParts::of(object)?;
    let length = parts.region(object)?.len() + 1;
    let mut copy = object[..parts.offsets.end()].to_vec();
    let last = parts.offsets.count - 1;
    parts.offsets.write(&mut copy, last, length);
    copy.resize(copy.len() + length, 0);
    (length <= parts.offsets.greatest()).then_some(copy)
}

/// The answer to an object before 28, by that to its [`longer`] copy.
fn before_28(strip: Strip) -> Strip {
    match strip.code {
        OK => Strip {
            end: strip.end - 1,
            ..strip
        },
        28 => refused(27, strip.place),
        _ => strip,
    }
}

/// Where the children of an object that is accepted start.
fn starts(object: &[u8]) -> Vec<usize> {
    let starts = ObjectParts::of(object).and_then(|parts| parts.starts(object));
    starts.expect("an object that is accepted has its offsets")
}

/// The least of the starts that is above a start, or the end.
fn next_border(starts: &[usize], start: usize, end: usize) -> usize {
    let above = starts.iter().filter(|&&other| other > start);
    above.min().copied().unwrap_or(end)
}

/// A right reader with a fault put over its answers.
#[derive(Clone, Copy, Debug)]
pub struct Faulty<R> {
    /// The right one.
    pub reader: R,
    /// What is done wrong.
    pub fault: Fault,
}

impl<R: Reader> Faulty<R> {
    /// What takes pieces in by the fault.
    fn misfeeding(&self) -> Misfeeding<'_, R> {
        Misfeeding {
            reader: &self.reader,
            fault: Some(self.fault),
        }
    }

    /// The refusals that a fault turns into acceptance.
    fn takes(&self, code: u32) -> bool {
        match self.fault {
            Fault::TakesAnyBytes => code == 16 || code == 19,
            Fault::CutsCharacters => code == 17,
            Fault::TakesAnyOrder => code == 18,
            Fault::NoLimit => code == 10,
            Fault::NoObjectLimit => code == 20,
            Fault::TakesAnyType => code == 22,
            Fault::TakesAnyId => code == 25,
            Fault::TakesAnyFields => code == 26,
            Fault::AnyEntry => code == 31,
            _ => false,
        }
    }

    /// A fault that lies in the strip alone.
    fn wrong(&self, strip: Strip) -> Strip {
        match self.fault {
            Fault::AlwaysShort => refused(13, 0),
            Fault::LatePlace if strip.code == 16 => refused(16, strip.place + 1),
            Fault::CutIsBroken if strip.code == 19 => refused(16, strip.place),
            Fault::BrokenIsCut if strip.code == 16 => refused(19, strip.place),
            Fault::LateCut if strip.code == 19 => refused(19, strip.place + 1),
            Fault::Wraps if strip.code == 14 => refused(13, 0),
            Fault::Wraps if strip.code == 24 => refused(23, 0),
            Fault::PlacesOfTwoBytes => with_places(strip, TWO_BYTES),
            Fault::PlacesOfThreeBytes => with_places(strip, THREE_BYTES),
            _ if self.takes(strip.code) => accepted(0, 0, 0),
            _ => strip,
        }
    }

    /// The copy of an object that a fault reads in its place, where it takes a child of no bytes.
    fn taken(&self, dict: &[u8], object: &[u8]) -> Option<Vec<u8>> {
        let takes = match self.fault {
            Fault::TakesEmptyChildren => true,
            Fault::EmptyByNextOffset => {
                let first = bad_offsets(object).next()?.place as usize;
                let offsets = ObjectParts::of(object)?.offsets;
                offsets.number(object, first) != offsets.number(object, first + 1)
            }
            _ => false,
        };
        (takes && self.reader.layer(dict, object).code == 28)
            .then(|| longer(object))
            .flatten()
    }

    /// A fault in what is refused of an object.
    fn wrong_refused(&self, object: &[u8], strip: Strip) -> Strip {
        let mut bad = bad_offsets(object);
        let other = match (self.fault, strip.code) {
            (Fault::PastIsEmpty, 27) => Some(refused(28, strip.place)),
            (Fault::PastBeforeEmpty, 28) => bad.find(|other| other.code == 27),
            (Fault::LastEmptyChild, 28) => bad.filter(|other| other.code == 28).last(),
            _ => None,
        };
        other.unwrap_or_else(|| self.wrong(strip))
    }

    fn wrong_layer(&self, object: &[u8], strip: Strip) -> Strip {
        if strip.code != OK {
            return self.wrong_refused(object, strip);
        }
        let (fields, region) = (strip.number as usize, strip.start as usize);
        let end = strip.end as usize;
        match self.fault {
            Fault::OldObjectLimit if object.len() > LARGE => refused(20, 0),
            Fault::CountsOfTwoBytes => accepted(fields & TWO_BYTES, region, end),
            Fault::UntrimmedObject => accepted(fields, region, object.len()),
            Fault::NoRegion => accepted(fields, 0, end),
            Fault::OneFieldMore => accepted(fields + 1, region, end),
            Fault::NoSharedChildren => {
                let mut starts = starts(object);
                starts.sort_unstable();
                match starts.windows(2).any(|pair| pair[0] == pair[1]) {
                    true => refused(27, 0),
                    false => strip,
                }
            }
            Fault::NoShortChildren => {
                let short = starts(object).iter().position(|start| start + 1 == end);
                short.map_or(strip, |field| refused(28, field as u32))
            }
            _ => self.wrong(strip),
        }
    }

    /// Whether a fault lies in the lengths of children, or in what is due to those without.
    fn is_of_lengths(&self) -> bool {
        let of_lengths = Fault::SpansToNextOffset as usize..=Fault::WritesUnmeasured as usize;
        of_lengths.contains(&(self.fault as usize))
    }

    /// The length that a fault takes a child to have.
    fn wrong_length(&self, child: &[u8]) -> Option<usize> {
        let length = own_length(child).ok();
        let header = *child.first()?;
        match (self.fault, header & 3, header as usize >> 2) {
            (Fault::ShortDecimals, 0, 10) => Some(17).filter(|&length| length <= child.len()),
            (Fault::NoUuids, 0, 20) => None,
            (Fault::TakesAnotherType, 0, 21) => Some(1),
            (Fault::NoHeldLength, 0, BINARY) => length.map(|length| length - 4),
            (Fault::ReadsTexts, 0, STRING) => {
                length.filter(|&length| std::str::from_utf8(&child[5..length]).is_ok())
            }
            (Fault::ListCountsByObjectBit, 3, _) => {
                let mut copy = child.to_vec();
                copy[0] = header & !0x10 | header >> 2 & 0x10;
                own_length(&copy).ok()
            }
            _ => length,
        }
    }

    /// The spans of a fault, in the order of the fields.
    fn wrong_spans(&self, object: &[u8], starts: &[usize], end: usize) -> Vec<Option<usize>> {
        let end = match self.fault {
            Fault::UntrimmedChildren => object.len(),
            _ => end,
        };
        let span = |&start: &usize| match self.fault {
            Fault::SpansToNextOffset => Some(next_border(starts, start, end) - start),
            _ => self.wrong_length(&object[start..end]),
        };
        starts.iter().map(span).collect()
    }

    /// The listing of a fault in lengths, where the layer is accepted.
    fn wrong_listing(&self, dict: &[u8], object: &[u8], words: &mut [u32]) -> Option<Strip> {
        if !self.is_of_lengths() {
            return None;
        }
        let layer = self.reader.layer(dict, object);
        if layer.code != OK {
            return None;
        }
        let starts = starts(object);
        let spans = self.wrong_spans(object, &starts, layer.end as usize);
        let none = |span: &Option<usize>| span.is_none();
        let unmeasured = match self.fault {
            Fault::LastUnmeasured => spans.iter().rposition(none),
            _ => spans.iter().position(none),
        };
        let little = words.len() < WORDS_PER_FIELD * starts.len();
        match unmeasured {
            Some(_) if little && self.fault == Fault::RoomBeforeLengths => Some(refused(41, 0)),
            Some(field) => {
                if self.fault == Fault::WritesUnmeasured && !words.is_empty() {
                    words[0] = 0;
                }
                Some(refused(43, field as u32))
            }
            None if little => Some(refused(41, 0)),
            None => {
                let ids = ObjectParts::of(object)?.ids.numbers(object)?;
                let (listed, _) = words.as_chunks_mut();
                for (((words, id), start), span) in
                    listed.iter_mut().zip(ids).zip(starts).zip(spans)
                {
                    *words = [id, start, span?].map(|number| number as u32);
                }
                Some(layer)
            }
        }
    }

    /// The bits that a fault gives for a number, by its kind, its payload and the right ones.
    fn wrong_bits(&self, kind: u32, payload: &[u8], bits: u64) -> u64 {
        let width = payload.len();
        match (self.fault, kind) {
            (Fault::ReadsUnsigned, 3) => bits & 0xFF,
            (Fault::SignOfLowestByte, 3..=6) => extended(bits, width, payload[0]),
            (Fault::HighNotExtended, 3..=5) => bits & 0xFFFF_FFFF,
            (Fault::HighestByteFirst, 3..=6) => {
                let swapped = bits.swap_bytes() >> (64 - 8 * width);
                extended(swapped, width, payload[0])
            }
            (Fault::SwapsHalves, 7) | (Fault::FloatInHigh, 14) => bits.rotate_left(32),
            (Fault::NoNanPayloads, 7) if f64::from_bits(bits).is_nan() => f64::NAN.to_bits(),
            (Fault::QuietsFloats, 14) if f32::from_bits(bits as u32).is_nan() => bits | 1 << 22,
            (Fault::NoNegativeZero, 7) if f64::from_bits(bits) == 0.0 => 0,
            (Fault::NoSubnormals, 7) if f64::from_bits(bits).is_subnormal() => bits & 1 << 63,
            _ => bits,
        }
    }

    /// The place that a fault gives for a value, by the right answer.
    fn wrong_place(&self, value: &[u8], strip: Strip) -> Strip {
        let (kind, start) = (strip.number as usize, strip.start as usize);
        let end = strip.end as usize;
        match (self.fault, kind) {
            (Fault::BinaryWithLength, BINARY) => accepted(kind, 1, end),
            (Fault::TextWithHeader, 257) => accepted(kind, 0, end),
            (Fault::ObjectWithoutHeader, 258) => accepted(kind, 1, end),
            (Fault::UntrimmedPlaces, _) => accepted(kind, start, value.len()),
            (Fault::RefusesTexts, STRING) if std::str::from_utf8(&value[start..end]).is_err() => {
                refused(50, 0)
            }
            _ => strip,
        }
    }

    /// The answer of a fault to a tree over a good dictionary, by the right one.
    fn wrong_tree(&self, dict: &[u8], value: &[u8], strip: Strip) -> Strip {
        let (start, place) = (strip.start as usize, strip.place as usize);
        let twist = self.fault.twist();
        if twist.is_some() || self.fault.levels() != LEVELS {
            let tree = Tree::new(dict, value).remembering().twisted(twist);
            return tree.verdict_within(self.fault.levels());
        }
        match (self.fault, strip.code) {
            (Fault::AcceptsAnyTree, _) => {
                own_length(value).map_or(strip, |length| accepted(0, 0, length))
            }
            (Fault::UntrimmedTrees, OK) => accepted(0, 0, value.len()),
            (Fault::NoTreeLimit, 20) => self.reader.tree(dict, &value[..LIMIT], &mut []),
            (Fault::UnknownLeafIsShort, 51) => refused_at(50, start, place),
            (Fault::ListsAsObjects, 60) => refused_at(23, start, place),
            (Fault::ListsAsObjects, 61) => refused_at(24, start, place),
            (Fault::NoElement, 62) => refused_at(62, start, 0),
            _ => strip,
        }
    }

    /// A refusal of names that a fault gives where the right one is another, or none.
    fn wrong_refusal(&self, dict: &[u8], run: &[u8], ends: &[u32], room: usize) -> Option<Strip> {
        let bad = bad_ends(run, ends).last();
        match (self.fault, bad) {
            (Fault::RoomBeforeLayer, None) => {
                (room < WORDS_PER_NAME * ends.len()).then(|| refused(41, 0))
            }
            (Fault::EndsAfterDictionary, Some(_)) => {
                let strip = self.reader.dictionary(dict);
                (strip.code != OK).then_some(strip)
            }
            (Fault::LastBadEnd, Some(name)) => Some(refused(45, name)),
            _ => None,
        }
    }

    /// The ends that a fault takes for those that it is given.
    fn wrong_ends(&self, run: &[u8], ends: &[u32]) -> Vec<u32> {
        let mut taken = ends.to_vec();
        let are_good = bad_ends(run, ends).next().is_none();
        match taken.last_mut() {
            Some(last) if are_good && self.fault == Fault::NoLastEnd => *last = run.len() as u32,
            _ => {}
        }
        taken
    }

    /// Makes the rows of so many names wrong; what was lent is given.
    fn wrong_rows(&self, names: usize, words: &mut [u32], lent: &[u32]) {
        let (rows, _) = words.as_chunks_mut::<WORDS_PER_NAME>();
        match self.fault {
            Fault::RowsBackwards => rows[..names].reverse(),
            Fault::FirstNameTwice if names > 1 => rows[1] = rows[0],
            Fault::RowsOfTwoBytes => rows[..names]
                .iter_mut()
                .for_each(|[_, field, ..]| *field &= TWO_BYTES as u32),
            Fault::LeavesAbsentRows => {
                let (before, _) = lent.as_chunks();
                let both = rows[..names].iter_mut().zip(before);
                both.filter(|(row, _)| row[0] == ABSENT)
                    .for_each(|(row, before)| *row = *before);
            }
            Fault::WritesPastRows => {
                if let Some(word) = words.get_mut(WORDS_PER_NAME * names) {
                    *word = 0;
                }
            }
            _ => {}
        }
    }
}

impl<R: Reader> Reader for Faulty<R> {
    fn dictionary(&self, dict: &[u8]) -> Strip {
        let strip = self.reader.dictionary(dict);
        if strip.code != OK {
            return self.wrong(strip);
        }
        let empty_name = |entry| {
            let name = self.reader.name(dict, entry);
            name.start == name.end
        };
        let (entries, end) = (strip.number as usize, strip.end as usize);
        match self.fault {
            Fault::OldLimit if dict.len() > LARGE => refused(10, 0),
            Fault::CountsOfTwoBytes => accepted(entries & TWO_BYTES, 0, end),
            Fault::UntrimmedDictionary => accepted(entries, 0, dict.len()),
            Fault::CountFromHeader => accepted(dict[0] as usize & 15, 0, end),
            Fault::NoEmptyNames if (0..entries).any(empty_name) => refused(17, 0),
            _ => self.wrong(strip),
        }
    }

    fn name(&self, dict: &[u8], entry: usize) -> Strip {
        let strip = self.reader.name(dict, entry);
        match self.fault {
            Fault::CutsNames if strip.start < strip.end => {
                accepted(0, strip.start as usize, strip.end as usize - 1)
            }
            _ => self.wrong(strip),
        }
    }

    fn layer(&self, dict: &[u8], object: &[u8]) -> Strip {
        if let Some(taken) = self.taken(dict, object) {
            return before_28(self.reader.layer(dict, &taken));
        }
        self.wrong_layer(object, self.reader.layer(dict, object))
    }

    fn lookup(&self, dict: &[u8], object: &[u8], name: &[u8]) -> Strip {
        if let Some(taken) = self.taken(dict, object) {
            return before_28(self.reader.lookup(dict, &taken, name));
        }
        let strip = self.reader.lookup(dict, object, name);
        let (field, id) = (strip.number as usize, strip.id as usize);
        let (from, end) = (strip.start as usize, strip.end as usize);
        match (self.fault, strip.code) {
            (Fault::AbsentIsFound, ABSENT) => accepted(0, 0, 0),
            (Fault::AlwaysAbsent, OK) => absent(),
            (Fault::AlwaysFieldZero, OK) => found(0, id, from, end),
            (Fault::FieldAsId, OK) => found(field, field, from, end),
            (Fault::SwapsFieldAndId, OK) => found(id, field, from, end),
            (Fault::FirstEntryAsId, OK) => {
                let is_it = |&entry: &usize| {
                    let at = self.reader.name(dict, entry);
                    dict[at.start as usize..at.end as usize] == *name
                };
                // Each look is a whole check, so that not all entries are looked at.
                let first = (0..id.min(16)).find(is_it);
                found(field, first.unwrap_or(id), from, end)
            }
            (Fault::NoId, OK) => found(field, 0, from, end),
            (Fault::FieldsOfTwoBytes, OK) => found(field & TWO_BYTES, id, from, end),
            (Fault::IdsOfTwoBytes, OK) => found(field, id & TWO_BYTES, from, end),
            (Fault::IdOfAbsent, ABSENT) => Strip { id: 1, ..strip },
            (Fault::WholeObject, OK) => found(field, id, 0, end),
            (Fault::EndsAtNextOffset, OK) => {
                found(field, id, from, next_border(&starts(object), from, end))
            }
            _ => self.wrong_refused(object, strip),
        }
    }

    fn list(&self, dict: &[u8], object: &[u8], words: &mut [u32]) -> Strip {
        let room = words.len();
        if self.fault == Fault::ListsNothing {
            return self.reader.list(dict, object, &mut words.to_vec());
        }
        if let Some(taken) = self.taken(dict, object) {
            return before_28(self.reader.list(dict, &taken, words));
        }
        if let Some(strip) = self.wrong_listing(dict, object, words) {
            return strip;
        }
        let strip = self.wrong_layer(object, self.reader.list(dict, object, words));
        let listed = room.min(3 * strip.number as usize);
        match (self.fault, strip.code) {
            (Fault::NoSpans, OK) => words[..listed].chunks_mut(3).for_each(|field| field[2] = 0),
            (Fault::WrongIds, OK) => words[..listed]
                .chunks_mut(3)
                .for_each(|field| field[0] += 1),
            (Fault::WritesPastListing, OK) if listed < room => words[listed] = 0,
            (Fault::WritesUnderRefusal, 41) if room > 0 => words[0] = 0,
            _ => {}
        }
        strip
    }

    fn lookup_all(
        &self,
        dict: &[u8],
        object: &[u8],
        run: &[u8],
        ends: &[u32],
        words: &mut [u32],
    ) -> Strip {
        if let Some(strip) = self.wrong_refusal(dict, run, ends, words.len()) {
            return strip;
        }
        if let Some(taken) = self.taken(dict, object) {
            let strip = self.reader.lookup_all(dict, &taken, run, ends, words);
            let (rows, _) = words.as_chunks_mut::<WORDS_PER_NAME>();
            let found = rows.iter_mut().take(ends.len());
            let found = found.filter(|row| strip.code == OK && row[0] == OK);
            found.for_each(|[.., end]| *end -= 1);
            return before_28(strip);
        }
        let (lent, ends) = (words.to_vec(), self.wrong_ends(run, ends));
        let strip = self.reader.lookup_all(dict, object, run, &ends, words);
        if strip.code == OK {
            self.wrong_rows(ends.len(), words, &lent);
        }
        self.wrong_layer(object, strip)
    }

    fn value(&self, value: &[u8]) -> Strip {
        let strip = self.reader.value(value);
        match (self.fault, strip.code, strip.number) {
            (Fault::UnknownIsShort, 51, _) => refused(50, 0),
            (Fault::ShortIsUnknown, 50, _) if value.first().is_some_and(|byte| byte & 3 == 0) => {
                refused(51, 0)
            }
            (Fault::UnknownIsNull, 51, _) if value[0] >> 2 == 21 => accepted(0, 0, 0),
            (Fault::SwapsTruth, OK, kind @ 1..=2) => accepted(3 - kind as usize, 0, 0),
            (_, OK, kind @ (3..=7 | 14)) => {
                let payload = &value[1..][..PAYLOADS[kind as usize]];
                with_bits(strip, self.wrong_bits(kind, payload, strip.bits()))
            }
            (_, OK, 8..) => self.wrong_place(value, strip),
            _ => strip,
        }
    }

    fn tree(&self, dict: &[u8], value: &[u8], marks: &mut [u8]) -> Strip {
        let lent = marks.to_vec();
        let strip = self.reader.tree(dict, value, marks);
        match self.fault {
            Fault::KeepsMarks => marks.copy_from_slice(&lent),
            Fault::KeepsMarksRefused if strip.code != OK => marks.copy_from_slice(&lent),
            _ => {}
        }
        match (strip.code, self.fault) {
            (10..=19, Fault::TreeBeforeDictionary) => {
                let alone = self.reader.tree(&EMPTY_DICTIONARY, value, &mut []);
                if alone.code == OK { strip } else { alone }
            }
            (10..=19, _) => strip,
            _ if lent.len() > OWN_MARKS && self.fault == Fault::TrustsMarks => {
                match lent.first().is_some_and(|&mark| mark != 0) {
                    true => accepted(0, 0, own_length(value).unwrap_or(0)),
                    false => strip,
                }
            }
            _ => self.wrong_tree(dict, value, strip),
        }
    }

    fn path(
        &self,
        dict: &[u8],
        value: &[u8],
        path: &[u8],
        names: &mut [u8],
        words: &mut [u32],
    ) -> Strip {
        if !self.fault.is_of_paths() {
            return self.reader.path(dict, value, path, names, words);
        }
        let walk = Walk {
            dict,
            dictionary: self.reader.dictionary(dict),
            value,
            path,
            fault: Some(self.fault),
        };
        walk.answer(names, words)
    }

    fn write_dictionary(
        &self,
        run: &[u8],
        ends: &[u32],
        order: &mut [u32],
        spare: &mut [u32],
        room: &mut [u8],
    ) -> Strip {
        if !self.fault.is_of_writing() {
            return self.reader.write_dictionary(run, ends, order, spare, room);
        }
        let given = Given {
            run: run.to_vec(),
            ends: ends.to_vec(),
        };
        let fault = Some(self.fault);
        Miswriting { fault }.answer(&given, Lent { order, spare, room })
    }

    fn write_object(
        &self,
        dict: &[u8],
        pairs: &Pairs,
        order: &mut [u32],
        spare: &mut [u32],
        room: &mut [u8],
    ) -> Strip {
        if !self.fault.is_of_objects() {
            return self.reader.write_object(dict, pairs, order, spare, room);
        }
        let writer = Miscomposing {
            dict,
            dictionary: self.reader.dictionary(dict),
            fault: Some(self.fault),
        };
        writer.answer(pairs, Lent { order, spare, room })
    }

    fn begin(&self) -> Strip {
        match self.fault.is_of_pieces() {
            true => self.misfeeding().begin(),
            false => self.reader.begin(),
        }
    }

    fn feed(&self, store: &mut [u8], piece: &[u8], state: Strip) -> Strip {
        match self.fault.is_of_pieces() {
            true => self.misfeeding().feed(store, piece, state),
            false => self.reader.feed(store, piece, state),
        }
    }
}
