//! Dictionaries written: ours against the Rust's builder; and ours alone of very many names, with scratch
//! and without.

use crate::clock::{SAMPLES, medians};
use crate::rows::letter;
use differential::random::Random;
use differential::tally::grouped;
use lichenhusk::{Written, run_of, write_dictionary, write_dictionary_into};
use parquet_variant::WritableMetadataBuilder;
use std::cell::RefCell;
use std::collections::BTreeSet;
use std::hint::black_box;
use std::time::{Duration, Instant};

/// In which order names are given, and how often.
#[derive(Clone, Copy, Debug, PartialEq)]
pub enum Order {
    /// In their order.
    Sorted,
    /// In no order.
    Shuffled,
    /// From the greatest to the least.
    Reversed,
    /// In no order, each name four times.
    Fourfold,
    /// One name again and again.
    Equal,
}

impl Order {
    /// What a label says of it.
    pub fn label(self) -> &'static str {
        match self {
            Order::Sorted => "sorted",
            Order::Shuffled => "in no order",
            Order::Reversed => "reversed",
            Order::Fourfold => "in no order, each four times",
            Order::Equal => "all equal",
        }
    }

    /// So many names of twelve letters; how many are different, the order says.
    pub fn names(self, random: &mut Random, count: usize) -> Vec<String> {
        let different = match self {
            Order::Fourfold => count / FOUR,
            Order::Equal => 1,
            _ => count,
        };
        let mut set = BTreeSet::new();
        while set.len() < different {
            set.insert((0..12).map(|_| letter(random)).collect::<String>());
        }
        let set: Vec<String> = set.into_iter().collect();
        let mut names: Vec<String> = set.iter().cycle().take(count).cloned().collect();
        match self {
            Order::Sorted | Order::Equal => {}
            Order::Reversed => names.reverse(),
            Order::Shuffled | Order::Fourfold => random.shuffle(&mut names),
        }
        names
    }
}

/// How often each name is given that is given more than once.
const FOUR: usize = 4;

/// How many different names the dictionaries of the table have.
const COUNTS: [usize; 3] = [16, 255, 10_000];

/// About so many names are written in turn, in sets, so that no branch predictor learns an order by heart.
const TURNS: usize = 32_768;

/// Names that are written in one turn: as the Rust's builder takes them, and as our call does.
struct Set {
    names: Vec<String>,
    run: Vec<u8>,
    ends: Vec<u32>,
    /// The names in order, each once.
    sorted: Vec<String>,
}

impl Set {
    fn of(names: Vec<String>) -> Set {
        let (run, ends) = run_of(&names).expect("names of few bytes");
        let sorted: BTreeSet<String> = names.iter().cloned().collect();
        Set {
            names,
            run,
            ends,
            sorted: sorted.into_iter().collect(),
        }
    }
}

/// One line of the table.
pub struct Row {
    /// What it is.
    pub label: String,
    /// How many names are given.
    pub given: usize,
    /// How many bytes a dictionary has.
    pub bytes: usize,
    sets: Vec<Set>,
}

/// Every line of the table.
pub fn rows() -> impl Iterator<Item = Row> {
    let orders = [Order::Sorted, Order::Shuffled, Order::Fourfold];
    let kinds = COUNTS
        .into_iter()
        .flat_map(move |count| orders.map(|order| (count, order)));
    kinds.map(|(count, order)| row(count, order))
}

fn row(count: usize, order: Order) -> Row {
    let given = match order {
        Order::Fourfold => FOUR * count,
        _ => count,
    };
    let mut random = Random::seeded(count as u64);
    let sets = TURNS.div_ceil(given).max(2);
    let sets: Vec<Set> = (0..sets)
        .map(|_| Set::of(order.names(&mut random, given)))
        .collect();
    Row {
        label: format!("{} names, {}", grouped(count as u64), order.label()),
        given,
        bytes: look(&sets),
        sets,
    }
}

/// A look that all sides write the same; how many bytes a dictionary has, of names that are all of one
/// length.
fn look(sets: &[Set]) -> usize {
    let mut room = vec![0; write_dictionary(&sets[0].names).expect("good names").len()];
    for set in sets {
        let theirs = built(set.sorted.iter().map(String::as_str));
        assert_eq!(theirs, sorted_and_built(&set.names));
        assert_eq!(write_dictionary(&set.names).as_ref(), Ok(&theirs));
        let (mut order, mut spare) = (vec![0; set.ends.len()], vec![0; set.ends.len()]);
        let written = write_dictionary_into(&set.run, &set.ends, &mut order, &mut spare, &mut room);
        let due = Written {
            count: set.sorted.len(),
            length: theirs.len(),
        };
        assert_eq!((written, &room), (Ok(due), &theirs));
    }
    room.len()
}

/// What the Rust's builder writes for names in the order in which they come.
fn built<'n>(names: impl Iterator<Item = &'n str>) -> Vec<u8> {
    let mut builder: WritableMetadataBuilder = names.collect();
    builder.finish();
    builder.into_inner()
}

/// The same after they are sorted, and doubles dropped.
fn sorted_and_built(names: &[String]) -> Vec<u8> {
    let mut names: Vec<&str> = names.iter().map(String::as_str).collect();
    names.sort_unstable();
    names.dedup();
    built(names.into_iter())
}

/// Nanoseconds of our call into what is lent, of the Rust's with its sort, of the Rust's builder alone on
/// sorted names, and of our call that allocates.
pub fn measured(row: &Row) -> [f64; 4] {
    let scratch = || RefCell::new(vec![0; row.given]);
    let (order, spare, room) = (scratch(), scratch(), RefCell::new(vec![0; row.bytes]));
    let set = |turn: usize| black_box(&row.sets[turn % row.sets.len()]);
    medians(
        SAMPLES,
        [
            &|turn| {
                let Set { run, ends, .. } = set(turn);
                let (order, spare) = (&mut *order.borrow_mut(), &mut *spare.borrow_mut());
                let room = &mut *room.borrow_mut();
                let _ = black_box(write_dictionary_into(run, ends, order, spare, room));
                black_box(room);
            },
            &|turn| {
                black_box(sorted_and_built(&set(turn).names));
            },
            &|turn| {
                black_box(built(set(turn).sorted.iter().map(String::as_str)));
            },
            &|turn| {
                let _ = black_box(write_dictionary(&set(turn).names));
            },
        ],
    )
}

/// How many names the dictionaries of the larger table are written of, in which orders; and how many
/// fields the objects of theirs.
const LARGE: [usize; 3] = [1_000, 100_000, 1_000_000];
const LARGE_ORDERS: [Order; 4] = [
    Order::Shuffled,
    Order::Sorted,
    Order::Reversed,
    Order::Equal,
];

/// The same without scratch.
const SLOW: [usize; 4] = [1_000, 10_000, 100_000, 1_000_000];

/// A call is not made where the one before makes it likely that it takes longer.
const PATIENCE: Duration = Duration::from_secs(30);

/// What is known of so many names in an order.
pub enum Taken {
    /// The time.
    Time(Duration),
    /// Not timed; about so long, where time grows with the square.
    About(Duration),
}

/// A line of a larger table: how many names or fields, in which order, whether with scratch, and the
/// time.
pub type Line = (usize, Order, bool, Taken);

/// The lines of the larger table, told one after another.
pub fn larger(tell: impl Fn(&Line)) {
    larger_of(&LARGE_ORDERS, timed, tell);
}

/// The lines of some orders, timed by a function of how many names, or fields, there are, of the order and
/// of whether there is scratch.
pub fn larger_of(
    orders: &[Order],
    timed: fn(usize, Order, bool) -> Duration,
    tell: impl Fn(&Line),
) {
    for &order in orders {
        for count in LARGE {
            tell(&(count, order, true, Taken::Time(timed(count, order, true))));
        }
    }
    for &order in orders {
        let mut before = None;
        for count in SLOW {
            let about = before.map_or(Duration::ZERO, |(names, time)| square(names, time, count));
            let taken = match about > PATIENCE {
                true => Taken::About(about),
                false => {
                    let time = timed(count, order, false);
                    before = Some((count, time));
                    Taken::Time(time)
                }
            };
            tell(&(count, order, false, taken));
        }
    }
}

/// How long so many names may take by the time of fewer, where time grows with the square.
fn square(names: usize, time: Duration, count: usize) -> Duration {
    time.mul_f64((count as f64 / names as f64).powi(2))
}

fn timed(count: usize, order: Order, has_scratch: bool) -> Duration {
    let set = Set::of(order.names(&mut Random::seeded(count as u64), count));
    let words = if has_scratch { count } else { 0 };
    let (mut order, mut spare) = (vec![0; words], vec![0; words]);
    let mut room = vec![0; write_dictionary(&set.names).expect("good names").len()];
    least(|| {
        let started = Instant::now();
        let written = write_dictionary_into(&set.run, &set.ends, &mut order, &mut spare, &mut room);
        let time = started.elapsed();
        assert_eq!(written.map(|written| written.count), Ok(set.sorted.len()));
        time
    })
}

/// The least of some times, or the one where it is long.
pub fn least(mut run: impl FnMut() -> Duration) -> Duration {
    let mut least = run();
    for _ in 1..RUNS {
        if least < LONG {
            least = least.min(run());
        }
    }
    least
}

/// So many runs, where one is not longer than this.
const RUNS: usize = 7;
const LONG: Duration = Duration::from_secs(2);
