//! Many names at once: what must agree of our own answers. (That a row is what `get` yields,
//! [`compare`](crate::compare) has.)
//!
//! Of an object that is accepted: the strip is the layer's; the row of a name is the lookup's
//! answer to it, whatever names are asked with it, and of how many; words after the rows stay; and
//! room for less is refused with 41. Of an object that is refused: so are many names, whatever the
//! room. Of ends that fall or pass the run: 45 at the first such name, whatever the dictionary, the
//! object and the room. Every refusal leaves the words.

use crate::compare::{Compared, Lookup, UNWRITTEN, agree, differ};
use crate::ours::{Reader, refused};
use crate::shown;
use crate::tally::Tally;
use lichenhusk::{Strip, WORDS_PER_NAME, run_of};

/// A dictionary and an object, and our layer's answer to them.
pub struct Many<'a, R> {
    /// Our side.
    pub reader: &'a R,
    /// The dictionary's bytes.
    pub dict: &'a [u8],
    /// The object's bytes.
    pub object: &'a [u8],
    /// What our layer says.
    pub layer: Strip,
}

impl<R: Reader> Many<'_, R> {
    /// Our answers to names, in their order, of an object that is accepted.
    pub fn rows_of(&self, names: &[impl AsRef<[u8]>]) -> Compared<Vec<Strip>> {
        let (run, ends) = run_of(names).expect("fewer bytes than 32 bits count");
        self.rows(&run, &ends)
    }

    /// The same by run and ends.
    fn rows(&self, run: &[u8], ends: &[u32]) -> Compared<Vec<Strip>> {
        let mut words = vec![UNWRITTEN; WORDS_PER_NAME * ends.len() + 2];
        let strip = self.ask(run, ends, &mut words);
        agree("the strip of many names", strip, self.layer)?;
        let (rows, after) = words.as_chunks();
        agree("the words after the rows", after, &[UNWRITTEN; 2])?;
        Ok(rows.iter().copied().map(strip_of).collect())
    }

    fn ask(&self, run: &[u8], ends: &[u32], words: &mut [u32]) -> Strip {
        let Many { dict, object, .. } = *self;
        self.reader.lookup_all(dict, object, run, ends, words)
    }

    /// Names get a refusal, and the words are left.
    fn refuses(&self, run: &[u8], ends: &[u32], words: &mut [u32], strip: Strip) -> Compared {
        agree("the refusal of names", self.ask(run, ends, words), strip)?;
        let left = words.iter().all(|&word| word == UNWRITTEN);
        agree("that the words are left under a refusal", left, true)
    }

    /// Compares what is asked of an object that is refused: two names in too little room and in
    /// room enough, two of which one has a bad end, and none.
    pub fn refused(&self, tally: &mut Tally) -> Compared {
        let mut words = [UNWRITTEN; 2 * WORDS_PER_NAME];
        self.refuses(b"ab", &[1, 2], &mut words[1..], self.layer)?;
        self.refuses(b"ab", &[1, 2], &mut words, self.layer)?;
        self.refuses(b"ab", &[1, 3], &mut words, refused(45, 1))?;
        tally.bad_ends += 1;
        self.refuses(b"ab", &[], &mut words, self.layer)
    }

    /// Compares what is asked of an object that is accepted, by lookups of all names.
    pub fn accepted(&self, lookups: &[Lookup], tally: &mut Tally) -> Compared {
        let from = self.some_of(lookups.len());
        // From one name on and round to it again, which is thus there twice. Which it is depends on
        // the input, so that each kind of name comes to be the last, and the only one.
        let around = lookups.iter().cycle().skip(from);
        let asked: Vec<&Lookup> = around.take(lookups.len() + 1).collect();
        let names: Vec<&[u8]> = asked.iter().map(|lookup| &lookup.query[..]).collect();
        let (run, ends) = run_of(&names).expect("fewer bytes than 32 bits count");
        // An odd and an even number of names, one and none; the others' bytes are after the end.
        for count in [names.len(), names.len() - 1, 1, 0] {
            for (row, lookup) in self.rows(&run, &ends[..count])?.iter().zip(&asked) {
                if *row != lookup.ours {
                    let asked = format!("among {count} names, the field {}", shown(&lookup.query));
                    return differ(&asked, row, lookup.ours);
                }
            }
        }
        let mut words = vec![UNWRITTEN; WORDS_PER_NAME * ends.len()];
        self.refuses(&run, &ends, &mut words[1..], refused(41, 0))?;
        self.damaged_ends(&run, &ends, &mut words[1..], tally)
    }

    /// A number below a count, by the lengths of what is asked about.
    fn some_of(&self, count: usize) -> usize {
        (self.dict.len() + self.object.len()) % count
    }

    /// Compares what is answered to ends that were damaged; where they are good all the same, that
    /// they are taken.
    fn damaged_ends(
        &self,
        run: &[u8],
        ends: &[u32],
        words: &mut [u32],
        tally: &mut Tally,
    ) -> Compared {
        for damaged in damaged(run, ends, self.some_of(ends.len())) {
            match bad_ends(run, &damaged).next() {
                Some(name) => {
                    self.refuses(run, &damaged, words, refused(45, name))?;
                    tally.bad_ends += 1;
                }
                None => drop(self.rows(run, &damaged)?),
            }
        }
        Ok(())
    }
}

/// The answer that a row of words is.
fn strip_of([code, number, id, start, end]: [u32; WORDS_PER_NAME]) -> Strip {
    Strip {
        code,
        number,
        id,
        start,
        end,
        place: 0,
    }
}

/// The names whose ends fall or pass the run: 45 is given at the first of them.
pub fn bad_ends(run: &[u8], ends: &[u32]) -> impl Iterator<Item = u32> {
    let begins = [0].iter().chain(ends);
    let bad = |begin: u32, end: u32| end < begin || run.len() < end as usize;
    let names = (0..).zip(begins.zip(ends));
    names.filter_map(move |(name, (&begin, &end))| bad(begin, end).then_some(name))
}

/// Ends of which that of a name is past the run, is below where it begins (or far past the run,
/// where it begins at 0), or is 0; and all of them backwards.
fn damaged(run: &[u8], ends: &[u32], name: usize) -> [Vec<u32>; 4] {
    let with = |end: u32| {
        let mut copy = ends.to_vec();
        copy[name] = end;
        copy
    };
    let begin = name.checked_sub(1).map_or(0, |before| ends[before]);
    let mut backwards = ends.to_vec();
    backwards.reverse();
    [
        with(run.len() as u32 + 1),
        with(begin.wrapping_sub(1)),
        with(0),
        backwards,
    ]
}
