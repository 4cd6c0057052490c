//! Makes an input that disagrees as small as it can while it still disagrees.
//!
//! Of a large input hardly a byte can be left out alone, since offsets count on it. So entries,
//! fields and bytes of the regions are left out first, together with what counts them.

use crate::Input;
use crate::encode::put;
use crate::given::Given;
use crate::pairs::{Pair, Pairs};
use crate::reading::{DictionaryParts, ObjectParts, Row, list_offsets};
use crate::reference::{is_container, rows_of};
use crate::trees::nodes;
use lichenhusk::WORDS_PER_PAIR;
use std::ops::Range;
use std::slice::from_mut;
use std::time::{Duration, Instant};

/// Of more things than these, not every run of a length is tried, see [`tries`]; and of more bytes,
/// only the first are made smaller one by one: those that are shown.
const MANY: usize = 4096;
const FIRST: usize = 64;

/// How many runs of one length, of many things, may have to stay before shorter ones are tried. The
/// longer the input, the longer a try takes.
fn tries(size: usize) -> usize {
    (0x80_0000 / size).clamp(2, 32)
}

/// One of the byte strings of an input.
type Part = fn(&mut Input) -> Option<&mut Vec<u8>>;

const PARTS: [Part; 7] = [
    |input| Some(&mut input.names.as_mut()?.run),
    |input| Some(&mut input.pairs.as_mut()?.bytes),
    |input| input.query.as_mut(),
    |input| input.path.as_mut(),
    |input| input.object.as_mut(),
    |input| input.tree.as_mut(),
    |input| Some(&mut input.dict),
];

/// The numbers of an input that are words of their own: ends of names to write, words of pairs, ends of
/// pieces, and the room for these.
type Words = fn(&mut Input) -> Option<&mut [u32]>;

const WORDS: [Words; 4] = [
    |input| Some(&mut input.names.as_mut()?.ends),
    |input| Some(&mut input.pairs.as_mut()?.words),
    |input| Some(&mut input.pieces.as_mut()?.ends),
    |input| Some(from_mut(&mut input.pieces.as_mut()?.room)),
];

/// Things in an input of which runs can be left out: how many there are, and the input without a
/// run of them, if there is such a one.
struct Things {
    count: fn(&Input) -> Option<usize>,
    without: fn(&Input, Range<usize>) -> Option<Input>,
}

/// Names to write with their bytes, ends of them alone, and bytes of their run; pairs to write, words of
/// them, and bytes that are lent; fields, entries, and bytes of the object's region and of the
/// dictionary's; children of a tree, and bytes anywhere in it; ends of pieces, and bytes of them.
const THINGS: [Things; 14] = [
    Things {
        count: |input| Some(input.names.as_ref()?.ends.len()),
        without: |input, run| {
            let given = input.names.as_ref()?;
            let begin = run
                .start
                .checked_sub(1)
                .map_or(0, |before| given.ends[before]);
            let bytes = begin as usize..given.ends[run.end - 1] as usize;
            given.run.get(bytes.clone())?;
            let mut fewer = without_bytes(given, bytes);
            fewer.ends.drain(run);
            Some(Input::names(fewer))
        },
    },
    Things {
        count: |input| Some(input.names.as_ref()?.ends.len()),
        without: |input, run| {
            let mut fewer = input.names.clone()?;
            fewer.ends.drain(run);
            Some(Input::names(fewer))
        },
    },
    Things {
        count: |input| Some(input.names.as_ref()?.run.len()),
        without: |input, run| Some(Input::names(without_bytes(input.names.as_ref()?, run))),
    },
    Things {
        count: |input| Some(input.pairs.as_ref()?.pairs().len()),
        without: |input, run| {
            let words = run.start * WORDS_PER_PAIR..run.end * WORDS_PER_PAIR;
            without_words(input, words)
        },
    },
    Things {
        count: |input| Some(input.pairs.as_ref()?.words.len()),
        without: without_words,
    },
    Things {
        count: |input| Some(input.pairs.as_ref()?.bytes.len()),
        without: |input, run| {
            let mut fewer = input.pairs.clone()?;
            fewer.bytes.drain(run.clone());
            for [_, start, end] in fewer.words.as_chunks_mut().0 {
                count_on(start, &run);
                count_on(end, &run);
            }
            Some(Input::pairs(input.dict.clone(), fewer))
        },
    },
    Things {
        count: |input| Some(Apart::of_object(input.object.as_ref()?)?.ids.len()),
        without: |input, run| {
            let object = Apart::of_object(input.object.as_ref()?)?;
            Some(with_object(input, object.without_fields(run)))
        },
    },
    Things {
        count: |input| Some(Apart::of_dictionary(&input.dict)?.offsets.len() - 1),
        without: |input, run| {
            let dict = Apart::of_dictionary(&input.dict)?.without_entries(run.clone())?;
            let without = |bytes: &mut Vec<u8>| {
                if let Some(object) = Apart::of_object(bytes) {
                    *bytes = object.without_ids(run.clone()).bytes();
                }
            };
            let mut fewer = input.clone();
            fewer.dict = dict.bytes();
            fewer.object.iter_mut().for_each(without);
            let trees = fewer.tree.iter_mut().filter(|tree| is_object(tree));
            trees.for_each(without);
            if let Some(pairs) = &mut fewer.pairs {
                *pairs = without_ids(pairs, &run);
            }
            Some(fewer)
        },
    },
    Things {
        count: |input| Some(Apart::of_object(input.object.as_ref()?)?.region.len()),
        without: |input, run| {
            let object = Apart::of_object(input.object.as_ref()?)?;
            Some(with_object(input, object.without_bytes(run)))
        },
    },
    Things {
        count: |input| Some(Apart::of_dictionary(&input.dict)?.region.len()),
        without: |input, run| {
            let mut fewer = input.clone();
            fewer.dict = Apart::of_dictionary(&input.dict)?
                .without_bytes(run)
                .bytes();
            Some(fewer)
        },
    },
    Things {
        count: |input| Some(Apart::of_tree(input.tree.as_ref()?)?.offsets.len() - 1),
        without: |input, run| {
            let tree = Apart::of_tree(input.tree.as_ref()?)?;
            Some(with_tree(input, tree.without_fields(run).bytes()))
        },
    },
    Things {
        count: |input| input.tree.as_ref().map(Vec::len),
        without: |input, run| Some(with_tree(input, without_run(input.tree.as_ref()?, run))),
    },
    Things {
        count: |input| Some(input.pieces.as_ref()?.ends.len()),
        without: |input, run| {
            let mut fewer = input.clone();
            fewer.pieces.as_mut()?.ends.drain(run);
            Some(fewer)
        },
    },
    Things {
        count: |input| input.pieces.as_ref().map(|_| input.dict.len()),
        without: |input, run| {
            let mut fewer = input.clone();
            fewer.dict.drain(run.clone());
            for end in &mut fewer.pieces.as_mut()?.ends {
                count_on(end, &run);
            }
            Some(fewer)
        },
    },
];

/// Names to write without some bytes of their run: the ends count on.
fn without_bytes(given: &Given, bytes: Range<usize>) -> Given {
    let mut fewer = given.clone();
    fewer.run.drain(bytes.clone());
    for end in &mut fewer.ends {
        count_on(end, &bytes);
    }
    fewer
}

/// Makes a place the one that it is without a run of what is before it.
fn count_on(place: &mut u32, run: &Range<usize>) {
    let gone = (*place as usize).saturating_sub(run.start).min(run.len());
    *place -= gone as u32;
}

/// Pairs to write without some of their words.
fn without_words(input: &Input, run: Range<usize>) -> Option<Input> {
    let mut fewer = input.pairs.clone()?;
    fewer.words.drain(run);
    Some(Input::pairs(input.dict.clone(), fewer))
}

/// Pairs to write without those of some ids, where the entries of these are left out.
fn without_ids(pairs: &Pairs, run: &Range<usize>) -> Pairs {
    let (whole, left_over) = pairs.words.as_chunks::<WORDS_PER_PAIR>();
    let stays = |[id, ..]: &&Pair| !run.contains(&(*id as usize));
    let stay = whole.iter().filter(stays);
    let mut words = Vec::new();
    for &[mut id, start, end] in stay {
        count_on(&mut id, run);
        words.extend([id, start, end]);
    }
    words.extend(left_over);
    Pairs {
        bytes: pairs.bytes.clone(),
        words,
    }
}

fn with_tree(input: &Input, tree: Vec<u8>) -> Input {
    Input {
        tree: Some(tree),
        ..input.clone()
    }
}

fn is_object(value: &[u8]) -> bool {
    value.first().is_some_and(|header| header & 3 == 2)
}

/// A tree without a run of its bytes: the offsets of each container that has the run among its
/// children's bytes count on.
fn without_run(tree: &[u8], run: Range<usize>) -> Vec<u8> {
    let mut copy = tree.to_vec();
    for node in nodes(tree) {
        let bytes = &tree[node.clone()];
        let Some((_, offsets)) = rows_of(bytes).filter(|_| is_container(bytes)) else {
            continue;
        };
        let region = node.start + offsets.end();
        if run.start < region || node.end < run.end {
            continue;
        }
        let numbers = offsets.numbers(bytes).unwrap_or_default();
        for (index, number) in numbers.into_iter().enumerate() {
            let gone = (region + number).saturating_sub(run.start).min(run.len());
            offsets.write(&mut copy[node.clone()], index, number - gone);
        }
    }
    copy.drain(run);
    copy
}

fn with_object(input: &Input, object: Apart) -> Input {
    Input {
        object: Some(object.bytes()),
        ..input.clone()
    }
}

/// A dictionary or an object taken apart.
struct Apart {
    header: u8,
    /// Where the numbers stand; a dictionary has no ids.
    rows: [Row; 3],
    ids: Vec<usize>,
    offsets: Vec<usize>,
    /// What the offsets count, and the bytes after it.
    region: Vec<u8>,
}

impl Apart {
    fn of_dictionary(dict: &[u8]) -> Option<Apart> {
        let parts = DictionaryParts::of(dict)?;
        let no_ids = Row {
            at: parts.count.end(),
            width: 0,
            count: 0,
        };
        Apart::of(dict, [parts.count, no_ids, parts.offsets])
    }

    fn of_object(object: &[u8]) -> Option<Apart> {
        let parts = ObjectParts::of(object)?;
        Apart::of(object, [parts.count, parts.ids, parts.offsets])
    }

    /// The outermost layer of a tree.
    fn of_tree(tree: &[u8]) -> Option<Apart> {
        if is_object(tree) {
            return Apart::of_object(tree);
        }
        let offsets = list_offsets(tree).filter(|_| is_container(tree))?;
        let count = Row {
            at: 1,
            width: offsets.at - 1,
            count: 1,
        };
        let no_ids = Row {
            at: offsets.at,
            width: 0,
            count: 0,
        };
        Apart::of(tree, [count, no_ids, offsets])
    }

    fn of(bytes: &[u8], rows: [Row; 3]) -> Option<Apart> {
        let [_, ids, offsets] = rows;
        Some(Apart {
            header: *bytes.first()?,
            rows,
            ids: ids.numbers(bytes)?,
            offsets: offsets.numbers(bytes)?,
            region: bytes.get(offsets.end()..)?.to_vec(),
        })
    }

    fn bytes(&self) -> Vec<u8> {
        let mut bytes = vec![self.header];
        let count = [self.offsets.len() - 1];
        let numbers = [&count[..], &self.ids, &self.offsets];
        for (row, numbers) in self.rows.iter().zip(numbers) {
            numbers
                .iter()
                .for_each(|&number| put(&mut bytes, number, row.width));
        }
        bytes.extend_from_slice(&self.region);
        bytes
    }

    fn without_bytes(mut self, run: Range<usize>) -> Apart {
        for offset in &mut self.offsets {
            *offset -= run.len().min(offset.saturating_sub(run.start));
        }
        self.region.drain(run);
        self
    }

    /// Without some fields, or elements, which have no ids.
    fn without_fields(mut self, run: Range<usize>) -> Apart {
        if !self.ids.is_empty() {
            self.ids.drain(run.clone());
        }
        self.offsets.drain(run);
        self
    }

    /// Without the fields of some ids, where the entries of these are left out.
    fn without_ids(mut self, run: Range<usize>) -> Apart {
        let stays = |id: &usize| !run.contains(id);
        let mut ids = self.ids.iter();
        // The last offset is no field's.
        self.offsets.retain(|_| ids.next().is_none_or(stays));
        self.ids.retain(stays);
        for id in &mut self.ids {
            *id -= if *id < run.end { 0 } else { run.len() };
        }
        self
    }

    /// Without some entries and their names, if those are bytes of the region.
    fn without_entries(self, run: Range<usize>) -> Option<Apart> {
        let names = self.offsets[run.start]..self.offsets[run.end];
        self.region.get(names.clone())?;
        let mut fewer = self.without_bytes(names);
        fewer.offsets.drain(run);
        Some(fewer)
    }
}

/// The smallest input that was found in a time: by leaving parts out, then what they are made of,
/// then bytes, then by making bytes smaller, as long as one of these does.
pub fn smallest(input: Input, patience: Duration, disagrees: impl Fn(&Input) -> bool) -> Input {
    let mut search = Search {
        input,
        disagrees,
        until: Instant::now() + patience,
    };
    while search.round() {}
    search.input
}

struct Search<F> {
    input: Input,
    disagrees: F,
    until: Instant,
}

impl<F: Fn(&Input) -> bool> Search<F> {
    /// Tries everything once; true if something was made smaller.
    fn round(&mut self) -> bool {
        let before = self.input.clone();
        self.change(|input| input.query = None);
        self.change(|input| input.object = None);
        self.change(|input| input.tree = None);
        self.change(|input| input.path = None);
        self.change(|input| input.names = None);
        self.change(|input| input.pairs = None);
        self.change(|input| input.pieces = None);
        self.inner();
        for things in &THINGS {
            self.fewer(things);
        }
        for part in PARTS {
            self.shorter(part);
            self.lower(part);
        }
        for words in WORDS {
            self.lower_words(words);
        }
        self.input != before
    }

    /// Makes words smaller, of many the first: 0, half, or one less.
    fn lower_words(&mut self, words: Words) {
        let count = words(&mut self.input).map_or(0, |words| words.len());
        for at in 0..count.min(FIRST) {
            let word = words(&mut self.input).map_or(0, |words| words[at]);
            for smaller in [0, word / 2, word.saturating_sub(1)] {
                let set = |input: &mut Input| {
                    if let Some(words) = words(input) {
                        words[at] = smaller;
                    }
                };
                if !self.in_time() || self.change(set) {
                    break;
                }
            }
        }
    }

    /// Takes a value inside a tree for the tree.
    fn inner(&mut self) {
        let Some(tree) = self.input.tree.clone() else {
            return;
        };
        for node in nodes(&tree).into_iter().skip(1).rev() {
            let inner = with_tree(&self.input, tree[node].to_vec());
            if !self.in_time() || self.keep(inner) {
                return;
            }
        }
    }

    fn in_time(&self) -> bool {
        Instant::now() < self.until
    }

    /// Keeps an input if it is another one and still disagrees.
    fn keep(&mut self, candidate: Input) -> bool {
        let keeps = candidate != self.input && (self.disagrees)(&candidate);
        if keeps {
            self.input = candidate;
        }
        keeps
    }

    /// Keeps a change if the input still disagrees.
    fn change(&mut self, change: impl FnOnce(&mut Input)) -> bool {
        let mut candidate = self.input.clone();
        change(&mut candidate);
        self.keep(candidate)
    }

    fn bytes(&mut self, part: Part) -> &[u8] {
        part(&mut self.input).map_or(&[], |bytes| bytes)
    }

    /// Tries runs of so many things, the long ones first; a try says whether the run is gone.
    fn runs(&mut self, count: usize, mut gone: impl FnMut(&mut Self, Range<usize>) -> bool) {
        let (mut run, mut count) = (count, count);
        while run > 0 {
            let (mut at, mut stayed) = (0, 0);
            let most = match count {
                0..=MANY => usize::MAX,
                _ => tries(self.input.size()),
            };
            while at + run <= count && stayed < most && self.in_time() {
                if gone(self, at..at + run) {
                    count -= run;
                } else {
                    at += run;
                    stayed += 1;
                }
            }
            run /= 2;
        }
    }

    fn fewer(&mut self, things: &Things) {
        let count = (things.count)(&self.input).unwrap_or(0);
        self.runs(count, |search, run| {
            let fewer = (things.without)(&search.input, run);
            fewer.is_some_and(|fewer| search.keep(fewer))
        });
    }

    /// Leaves runs of bytes out.
    fn shorter(&mut self, part: Part) {
        let count = self.bytes(part).len();
        self.runs(count, |search, run| {
            search.change(|input| {
                if let Some(bytes) = part(input) {
                    bytes.drain(run);
                }
            })
        });
    }

    /// Makes bytes smaller: 0, without one of their bits, or one less; of many, first runs of them 0.
    fn lower(&mut self, part: Part) {
        let length = self.bytes(part).len();
        if length > MANY {
            self.runs(length, |search, run| {
                if search.bytes(part)[run.clone()].iter().any(|&byte| byte > 0) {
                    search.change(|input| {
                        if let Some(bytes) = part(input) {
                            bytes[run].fill(0);
                        }
                    });
                }
                false
            });
        }
        let singly = if length > MANY { FIRST } else { length };
        for at in 0..singly {
            let byte = self.bytes(part)[at];
            let without = (0..8).map(|bit| byte & !(1 << bit));
            let smaller = [0].into_iter().chain(without).chain(byte.checked_sub(1));
            for smaller in smaller.filter(|&smaller| smaller < byte) {
                let set = |input: &mut Input| {
                    if let Some(bytes) = part(input) {
                        bytes[at] = smaller;
                    }
                };
                if !self.in_time() || self.change(set) {
                    break;
                }
            }
        }
    }
}
