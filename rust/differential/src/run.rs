//! A run: inputs of every kind through the comparison, within a time.

use crate::compare::{self, Compared, Disagreement, Known};
use crate::cuts::Cuts;
use crate::damage::damaged;
use crate::exhaustive::{
    DICTIONARY_BYTES, DICTIONARY_HEADERS, OBJECT_BYTES, OBJECT_HEADERS, all_bytes, each,
};
use crate::fixed::{self, SORTED, UNSORTED};
use crate::generate::good;
use crate::given::Given;
use crate::long_names;
use crate::ours::Reader;
use crate::pairs::Pairs;
use crate::random::Random;
use crate::shrink::smallest;
use crate::tally::{Tally, grouped};
use crate::{Input, children, cuttings, extremes, large, objects, paths, sets, shown, trees};
use std::fmt;
use std::panic::{AssertUnwindSafe, catch_unwind};
use std::time::{Duration, Instant};

/// How much a run goes through.
#[derive(Clone, Copy, Debug)]
pub struct Settings {
    /// The seed of the generated inputs.
    pub seed: u64,
    /// How many inputs are generated, good ones and damaged ones together.
    pub generated: u64,
    /// How many larger messages are generated, good ones and damaged ones together.
    pub large: u64,
    /// How many trees are generated, good ones and damaged ones together.
    pub trees: u64,
    /// How many paths are generated, of each kind, good ones and damaged ones together.
    pub paths: u64,
    /// How many times names to write are generated, good ones and damaged ones together.
    pub written: u64,
    /// How many times pairs to write are generated, good ones and damaged ones together.
    pub composed: u64,
    /// How many dictionaries in pieces are generated, good ones and damaged ones together.
    pub cut: u64,
    /// What is gone through.
    pub part: Part,
    /// The length up to which every string of bytes is tried.
    pub every: usize,
    /// The length up to which every string of telling bytes is tried.
    pub telling: usize,
    /// When to stop all the same.
    pub limit: Duration,
    /// How long an input that disagrees is made smaller.
    pub patience: Duration,
}

/// Which inputs a run goes through.
#[derive(Clone, Copy, Debug, PartialEq, Eq)]
pub enum Part {
    /// All of them.
    All,
    /// Trees alone.
    Trees,
    /// Paths alone.
    Paths,
    /// Dictionaries that are written alone.
    Writing,
    /// Objects that are written alone.
    Objects,
    /// Dictionaries that come in pieces alone.
    Pieces,
}

/// Damaged copies of each good input.
const COPIES: usize = 3;

/// How a run ended.
pub struct Outcome {
    /// The inputs of each kind, and the time they took.
    pub kinds: Vec<(&'static str, u64, Duration)>,
    /// What was seen.
    pub tally: Tally,
    /// The longest time that one input took, and how many bytes it has.
    pub slowest: (Duration, usize),
    /// Whether the limit of time came before the end.
    pub cut: bool,
    /// An input that disagrees, made small, and where the answers differ.
    pub disagreement: Option<(Input, Disagreement)>,
}

impl Outcome {
    /// How many inputs were compared.
    pub fn inputs(&self) -> u64 {
        self.kinds.iter().map(|(_, count, _)| count).sum()
    }
}

/// Why a run stops before its end.
enum Stop {
    Time,
    Disagreement(Box<Input>),
}

type Going = Result<(), Stop>;

struct Run<'r, R> {
    reader: &'r R,
    settings: Settings,
    started: Instant,
    count: u64,
    outcome: Outcome,
}

/// Goes through all inputs of the settings.
pub fn run(reader: &impl Reader, settings: Settings) -> Outcome {
    let mut run = Run {
        reader,
        settings,
        started: Instant::now(),
        count: 0,
        outcome: Outcome {
            kinds: Vec::new(),
            tally: Tally::default(),
            slowest: (Duration::ZERO, 0),
            cut: false,
            disagreement: None,
        },
    };
    match run.all() {
        Ok(()) => {}
        Err(Stop::Time) => run.outcome.cut = true,
        Err(Stop::Disagreement(input)) => {
            let disagrees = |input: &Input| disagreement(reader, input).is_some();
            let small = smallest(*input, settings.patience, disagrees);
            let found = disagreement(reader, &small).expect("only what disagrees is kept");
            run.outcome.disagreement = Some((small, found));
        }
    }
    run.outcome
}

/// Where the two sides differ on an input; a panic of either side is a difference.
pub fn disagreement(reader: &impl Reader, input: &Input) -> Option<Disagreement> {
    caught(|| compare::input(reader, input, &mut Tally::default())).err()
}

fn caught<T>(comparison: impl FnOnce() -> Compared<T>) -> Compared<T> {
    catch_unwind(AssertUnwindSafe(comparison)).unwrap_or_else(|panic| {
        let text = panic.downcast_ref::<String>().cloned();
        let text = text.or_else(|| panic.downcast_ref::<&str>().map(|text| text.to_string()));
        Err(Disagreement {
            asked: "all that can be asked".to_string(),
            ours: "one of the two sides panics".to_string(),
            theirs: text.unwrap_or_default(),
        })
    })
}

impl<R: Reader> Run<'_, R> {
    fn all(&mut self) -> Going {
        match self.settings.part {
            Part::All => {
                self.few_bytes()?;
                self.small_trees()?;
                self.small_paths()?;
                self.larger_messages()?;
                self.larger_trees()?;
                self.larger_paths()?;
                self.small_writing()?;
                self.larger_writing()?;
                self.small_objects()?;
                self.larger_objects()?;
                self.small_pieces()?;
                self.larger_pieces()?;
                self.names_and_generated()
            }
            Part::Trees => {
                self.small_trees()?;
                self.larger_trees()
            }
            Part::Paths => {
                self.small_paths()?;
                self.larger_paths()
            }
            Part::Writing => {
                self.small_writing()?;
                self.larger_writing()
            }
            Part::Objects => {
                self.small_objects()?;
                self.larger_objects()
            }
            Part::Pieces => {
                self.small_pieces()?;
                self.larger_pieces()
            }
        }
    }

    fn few_bytes(&mut self) -> Going {
        self.kind(
            "fixed: worked cases, limits of length, nesting",
            Self::fixed,
        )?;
        self.kind("children of every header byte, whole and cut", |run| {
            children::fixed().try_for_each(|input| run.input(&input))
        })?;
        self.kind("children that are numbers, at their extremes", |run| {
            extremes::inputs().try_for_each(|input| run.input(&input))
        })?;
        self.kind("children generated, and damaged copies", |run| {
            run.generated(run.settings.generated / 4, children::good, damaged)
        })?;
        self.kind("every dictionary of few bytes", Self::every_dictionary)?;
        self.kind(
            "every object of few bytes, two dictionaries",
            Self::every_object,
        )?;
        self.kind(
            "every dictionary of telling bytes",
            Self::telling_dictionaries,
        )?;
        self.kind(
            "every object of telling bytes, two dictionaries",
            Self::telling_objects,
        )
    }

    fn small_trees(&mut self) -> Going {
        self.kind("trees: worked cases, levels, many ways", |run| {
            trees::fixed().try_for_each(|input| run.input(&input))
        })?;
        self.kind("every tree of telling bytes, two dictionaries", |run| {
            run.telling_trees()
        })?;
        self.kind("trees generated, and damaged copies", |run| {
            run.generated(run.settings.trees, trees::good, trees::damaged)
        })
    }

    fn small_paths(&mut self) -> Going {
        self.kind("paths: worked cases over good and bad layers", |run| {
            paths::fixed().try_for_each(|input| run.input(&input))
        })?;
        self.kind("every path of telling bytes", Self::telling_paths)?;
        self.kind("paths generated, and miswritten copies", |run| {
            run.generated(run.settings.paths, paths::written, paths::miswritten)
        })?;
        self.kind("paths into trees, and damaged copies", |run| {
            run.generated(run.settings.paths, paths::followed, paths::damaged)
        })
    }

    fn larger_paths(&mut self) -> Going {
        self.kind("paths into larger trees, and damaged copies", |run| {
            run.generated(run.settings.large / 10, paths::larger, paths::damaged)
        })?;
        self.kind("paths about the limit of length", |run| {
            paths::of_length().try_for_each(|input| run.input(&input))
        })
    }

    fn small_writing(&mut self) -> Going {
        self.kind("names to write: worked cases, ends of widths", |run| {
            sets::fixed().try_for_each(|input| run.input(&input))
        })?;
        self.kind("every row of few names to write, out of seven", |run| {
            sets::each_row(|input| run.input(input))
        })?;
        self.kind("every run of telling bytes to write, few ends", |run| {
            run.telling_runs()
        })?;
        self.kind("names to write generated, and damaged copies", |run| {
            run.generated(run.settings.written, sets::good, sets::damaged)
        })
    }

    fn larger_writing(&mut self) -> Going {
        self.kind("many and long names to write, and damaged copies", |run| {
            run.generated(run.settings.large / 10, sets::larger, sets::damaged)
        })?;
        self.kind("names to write about the limit of length", |run| {
            sets::of_length().try_for_each(|input| run.input(&input))
        })
    }

    fn small_objects(&mut self) -> Going {
        self.kind("objects to write: worked cases, ends of widths", |run| {
            objects::fixed().try_for_each(|input| run.input(&input))
        })?;
        self.kind("every row of few pairs to write", |run| {
            objects::each_row(|input| run.input(input))
        })?;
        self.kind("every row of telling words, two dictionaries", |run| {
            let longest = run.settings.telling;
            (0..=longest)
                .try_for_each(|length| objects::each_words(length, |input| run.input(input)))
        })?;
        self.kind("objects to write generated, and damaged copies", |run| {
            run.generated(run.settings.composed, objects::good, objects::damaged)
        })
    }

    fn larger_objects(&mut self) -> Going {
        self.kind("many and long children to write, damaged copies", |run| {
            run.generated(run.settings.large / 10, objects::larger, objects::damaged)
        })?;
        self.kind("objects to write about the limit of length", |run| {
            objects::of_length().try_for_each(|input| run.input(&input))
        })
    }

    fn small_pieces(&mut self) -> Going {
        self.kind(
            "pieces: worked cases in every room, ends of widths",
            |run| cuttings::fixed().try_for_each(|input| run.input(&input)),
        )?;
        self.kind("every cutting of short dictionaries", |run| {
            cuttings::each_cutting(|input| run.input(input))
        })?;
        self.kind("every cutting of dictionaries of telling bytes", |run| {
            let longest = run.settings.telling - 2;
            (0..=longest)
                .try_for_each(|length| cuttings::each_telling(length, |input| run.input(input)))
        })?;
        self.kind("pieces generated, and damaged copies", |run| {
            run.generated(run.settings.cut, cuttings::good, cuttings::damaged)
        })
    }

    fn larger_pieces(&mut self) -> Going {
        self.kind("larger dictionaries in pieces, and damaged copies", |run| {
            run.generated(run.settings.large / 10, cuttings::larger, cuttings::damaged)
        })?;
        self.kind("pieces about the limit of length", |run| {
            cuttings::of_length().try_for_each(|input| run.input(&input))
        })
    }

    fn larger_trees(&mut self) -> Going {
        self.kind("larger trees, generated, and damaged copies", |run| {
            run.generated(run.settings.large / 10, trees::larger, trees::damaged)
        })?;
        self.kind("trees about the limit of length", |run| {
            trees::of_length().try_for_each(|input| run.input(&input))
        })
    }

    fn larger_messages(&mut self) -> Going {
        self.kind("larger messages: widths' ends, limits of length", |run| {
            large::fixed().try_for_each(|input| run.input(&input))
        })
    }

    fn names_and_generated(&mut self) -> Going {
        self.kind("long names, plain but for a place or two", |run| {
            long_names::plain(|dict| run.dictionary(dict))
        })?;
        self.kind("long names, plain but for four bytes", |run| {
            long_names::fours(|dict| run.dictionary(dict))
        })?;
        self.kind("long names of longer characters, one byte changed", |run| {
            long_names::longer(|dict| run.dictionary(dict))
        })?;
        self.kind("names that end inside a character", |run| {
            long_names::cut(|dict| run.dictionary(dict))
        })?;
        self.kind("two names that begin alike", |run| {
            long_names::alike(|input| run.input(input))
        })?;
        self.kind("nine names that begin alike, each set of them", |run| {
            long_names::sets(|input| run.input(input))
        })?;
        self.kind("generated, and damaged copies", |run| {
            run.generated(run.settings.generated, good, damaged)
        })?;
        self.kind("larger messages, generated, and damaged copies", |run| {
            run.generated(run.settings.large, large::good, damaged)
        })
    }

    fn kind(&mut self, name: &'static str, go: fn(&mut Self) -> Going) -> Going {
        let started = Instant::now();
        self.count = 0;
        let going = go(self);
        let kind = (name, self.count, started.elapsed());
        self.outcome.kinds.push(kind);
        going
    }

    fn in_time(&self) -> Going {
        match self.started.elapsed() < self.settings.limit {
            true => Ok(()),
            false => Err(Stop::Time),
        }
    }

    /// Looks at the clock once in many inputs.
    fn sometimes_in_time(&self) -> Going {
        match self.count.is_multiple_of(4096) {
            true => self.in_time(),
            false => Ok(()),
        }
    }

    fn input(&mut self, input: &Input) -> Going {
        self.in_time()?;
        self.count += 1;
        let started = Instant::now();
        let tally = &mut self.outcome.tally;
        caught(|| compare::input(self.reader, input, tally))
            .map_err(|_| Stop::Disagreement(Box::new(input.clone())))?;
        let taken = started.elapsed();
        if taken > self.outcome.slowest.0 {
            self.outcome.slowest = (taken, input.size());
        }
        Ok(())
    }

    fn dictionary(&mut self, dict: &[u8]) -> Going {
        self.sometimes_in_time()?;
        self.count += 1;
        let tally = &mut self.outcome.tally;
        match caught(|| compare::dictionary(self.reader, dict, tally).map(drop)) {
            Ok(()) => Ok(()),
            Err(_) => Err(Stop::Disagreement(Box::new(Input::dictionary(
                dict.to_vec(),
            )))),
        }
    }

    fn object(&mut self, known: &Known, dict: &[u8], object: &[u8]) -> Going {
        self.sometimes_in_time()?;
        self.count += 1;
        let tally = &mut self.outcome.tally;
        match caught(|| compare::object(self.reader, known, object, None, tally)) {
            Ok(()) => Ok(()),
            Err(_) => Err(Stop::Disagreement(Box::new(Input::object(
                dict.to_vec(),
                object.to_vec(),
            )))),
        }
    }

    fn fixed(&mut self) -> Going {
        fixed::inputs()
            .iter()
            .try_for_each(|input| self.input(input))
    }

    fn every_dictionary(&mut self) -> Going {
        (0..=self.settings.every).try_for_each(|length| {
            each(length, &all_bytes(), &all_bytes(), |dict| {
                self.dictionary(dict)
            })
        })
    }

    fn telling_dictionaries(&mut self) -> Going {
        (4..=self.settings.telling).try_for_each(|length| {
            each(length, &DICTIONARY_HEADERS, &DICTIONARY_BYTES, |dict| {
                self.dictionary(dict)
            })
        })
    }

    fn every_object(&mut self) -> Going {
        let lengths = 0..=self.settings.every;
        self.objects(lengths.map(|length| (length, all_bytes().to_vec(), all_bytes().to_vec())))
    }

    fn telling_objects(&mut self) -> Going {
        let lengths = 4..=self.settings.telling;
        let heads = OBJECT_HEADERS.to_vec();
        let tails = OBJECT_BYTES.to_vec();
        self.objects(lengths.map(|length| (length, heads.clone(), tails.clone())))
    }

    /// Every short value of telling bytes, as a tree.
    fn telling_trees(&mut self) -> Going {
        let longest = self.settings.telling - 1;
        for dict in [SORTED, UNSORTED] {
            (0..=longest).try_for_each(|length| {
                each(length, &trees::HEADS, &trees::TAILS, |value| {
                    self.input(&Input::tree(dict.to_vec(), value.to_vec()))
                })
            })?;
        }
        Ok(())
    }

    /// Every short path of telling bytes.
    fn telling_paths(&mut self) -> Going {
        let longest = self.settings.telling - 2;
        (0..=longest).try_for_each(|length| {
            each(length, &paths::TELLING, &paths::TELLING, |text| {
                self.input(&paths::over_small(text))
            })
        })
    }

    /// Every short run of telling bytes, with every row of few ends.
    fn telling_runs(&mut self) -> Going {
        let longest = self.settings.telling - 2;
        (0..=longest).try_for_each(|length| {
            each(length, &sets::TELLING, &sets::TELLING, |bytes| {
                sets::each_ends(bytes, |given| self.input(&Input::names(given.clone())))
            })
        })
    }

    /// Every object of some lengths and alphabets, over both dictionaries.
    fn objects(&mut self, alphabets: impl Iterator<Item = (usize, Vec<u8>, Vec<u8>)>) -> Going {
        let alphabets: Vec<_> = alphabets.collect();
        for dict in [SORTED, UNSORTED] {
            let reader = self.reader;
            let Ok(known) = caught(|| compare::dictionary(reader, dict, &mut Tally::default()))
            else {
                return Err(Stop::Disagreement(Box::new(Input::dictionary(
                    dict.to_vec(),
                ))));
            };
            for (length, heads, tails) in &alphabets {
                each(*length, heads, tails, |object| {
                    self.object(&known, dict, object)
                })?;
            }
        }
        Ok(())
    }

    /// So many inputs, good ones of a kind and damaged copies of these.
    fn generated(
        &mut self,
        inputs: u64,
        good: fn(&mut Random) -> Input,
        damaged: fn(&mut Random, &Input) -> Input,
    ) -> Going {
        let mut random = Random::seeded(self.settings.seed);
        while self.count < inputs {
            let input = good(&mut random);
            self.input(&input)?;
            for _ in 0..COPIES {
                self.input(&damaged(&mut random, &input))?;
            }
        }
        Ok(())
    }
}

impl fmt::Display for Outcome {
    fn fmt(&self, to: &mut fmt::Formatter<'_>) -> fmt::Result {
        writeln!(to, "inputs")?;
        for (name, count, time) in &self.kinds {
            let seconds = time.as_secs_f64();
            writeln!(to, "  {name:<52}{:>14}  {seconds:>7.1} s", grouped(*count))?;
        }
        writeln!(to, "  {:<52}{:>14}", "in all", grouped(self.inputs()))?;
        writeln!(to, "answers that agree\n{}", self.tally)?;
        let (time, size) = self.slowest;
        let millis = time.as_secs_f64() * 1000.0;
        writeln!(
            to,
            "slowest input: {millis:.1} ms, {} bytes",
            grouped(size as u64)
        )?;
        if self.cut {
            writeln!(to, "cut short: the limit of time came before the end")?;
        }
        match &self.disagreement {
            None => writeln!(to, "no disagreement"),
            Some((input, found)) => write!(
                to,
                "DISAGREEMENT\n{found}smallest input found:\n{}",
                lines_of(input)
            ),
        }
    }
}

/// Of more ends, or words, the first are shown.
const SHOWN_ENDS: usize = 64;

/// An input for a reader, a line for each of its parts.
fn lines_of(input: &Input) -> String {
    let part = |name: &str, bytes: &[u8]| format!("  {name} {}\n", shown(bytes));
    if let Some(Given { run, ends }) = &input.names {
        let some = &ends[..ends.len().min(SHOWN_ENDS)];
        let ends = format!("  {} ends {some:?}\n", ends.len());
        return part("names     ", run) + &ends;
    }
    let mut text = part("dictionary", &input.dict);
    if let Some(object) = &input.object {
        text += &part("object    ", object);
    }
    if let Some(value) = &input.tree {
        text += &part("tree      ", value);
    }
    if let Some(path) = &input.path {
        text += &part("path      ", path);
    }
    if let Some(query) = &input.query {
        text += &part("name      ", query);
    }
    if let Some(Pairs { bytes, words }) = &input.pairs {
        let some = &words[..words.len().min(SHOWN_ENDS)];
        text += &part("bytes     ", bytes);
        text += &format!("  {} words of pairs {some:?}\n", words.len());
    }
    if let Some(Cuts { ends, room }) = &input.pieces {
        let some = &ends[..ends.len().min(SHOWN_ENDS)];
        text += &format!("  {} ends of pieces {some:?}, room {room}\n", ends.len());
    }
    text
}
