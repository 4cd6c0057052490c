//! Objects written: ours against the Rust's builders; and ours alone of very many fields, with scratch and
//! without.

use crate::clock::{SAMPLES, medians};
use crate::writing::{Line, Order, larger_of, least};
use differential::composing;
use differential::random::Random;
use differential::tally::grouped;
use lichenhusk::{ObjectWriter, WORDS_PER_PAIR, write_dictionary, write_object_into};
use parquet_variant::{Variant, VariantBuilder, VariantMetadata};
use std::cell::RefCell;
use std::collections::BTreeMap;
use std::hint::black_box;
use std::time::{Duration, Instant};

/// How many fields the objects of the table have.
const COUNTS: [usize; 4] = [1, 16, 255, 10_000];

/// About so many fields are written in turn, in sets, so that no branch predictor learns an order by
/// heart.
const TURNS: usize = 32_768;

/// Fields that are written in one turn: as our call takes them, and by their names.
struct Set {
    dict: &'static [u8],
    bytes: Vec<u8>,
    pairs: Vec<[u32; WORDS_PER_PAIR]>,
    /// Each name, which is a part of the dictionary, and its number.
    fields: Vec<(&'static str, i8)>,
}

impl Set {
    /// So many fields, whose names are in an order.
    fn of(random: &mut Random, count: usize, order: Order) -> Set {
        let names = order.names(random, count);
        // It stays until the program ends: the names are parts of it.
        let dict = write_dictionary(&names).expect("good names").leak();
        let metadata = VariantMetadata::try_new(dict).expect("a good dictionary");
        let entries: BTreeMap<&str, u32> = metadata.iter().zip(0..).collect();
        let mut set = Set {
            dict,
            bytes: vec![],
            pairs: vec![],
            fields: vec![],
        };
        for name in &names {
            let (&name, &id) = entries.get_key_value(&name[..]).expect("an entry");
            let (start, number) = (set.bytes.len() as u32, random.byte() as i8);
            set.bytes.extend(child(number));
            set.pairs.push([id, start, start + 2]);
            set.fields.push((name, number));
        }
        set
    }

    fn read(&self) -> VariantMetadata<'static> {
        VariantMetadata::try_new(self.dict).expect("a good dictionary")
    }

    /// The object by the Rust's builder, over the dictionary, which is checked first.
    fn built(&self) -> Vec<u8> {
        let fields = self.fields.iter();
        let fields = fields.map(|&(name, number)| (name, Variant::Int8(number)));
        composing::built(&self.read(), fields)
    }

    /// A dictionary and an object, by the Rust's builder of both.
    fn both_built(&self) -> (Vec<u8>, Vec<u8>) {
        let mut builder = VariantBuilder::new();
        let mut object = builder.new_object();
        for &(name, number) in &self.fields {
            object.insert(name, Variant::Int8(number));
        }
        object.finish();
        builder.finish()
    }

    /// The same by our writer.
    fn both_written(&self) -> (Vec<u8>, Vec<u8>) {
        let fields = self.fields.iter();
        let writer: ObjectWriter = fields
            .map(|&(name, number)| (name, child(number)))
            .collect();
        writer.finish().expect("good names, and children")
    }

    /// Our call into what is lent; how many bytes the object has.
    fn write(&self, order: &mut [u32], spare: &mut [u32], room: &mut [u8]) -> usize {
        let written = write_object_into(self.dict, &self.bytes, &self.pairs, order, spare, room);
        written.expect("good pairs, and room").end
    }
}

/// An eight-bit integer.
fn child(number: i8) -> [u8; 2] {
    [0x0C, number as u8]
}

/// One line of the table.
pub struct Row {
    /// What it is.
    pub label: String,
    /// How many fields there are.
    pub fields: usize,
    /// How many bytes a dictionary and an object have.
    pub bytes: [usize; 2],
    sets: Vec<Set>,
}

/// Every line of the table.
pub fn rows() -> impl Iterator<Item = Row> {
    let orders = [Order::Sorted, Order::Shuffled];
    let kinds = COUNTS
        .into_iter()
        .flat_map(move |count| orders.map(|order| (count, order)));
    // One field is in every order.
    let kinds = kinds.filter(|&kind| kind != (1, Order::Shuffled));
    kinds.map(|(count, order)| row(count, order))
}

fn row(count: usize, order: Order) -> Row {
    let mut random = Random::seeded(count as u64);
    let sets = TURNS.div_ceil(count).clamp(2, 4_096);
    let sets: Vec<Set> = (0..sets)
        .map(|_| Set::of(&mut random, count, order))
        .collect();
    let fields = if count == 1 { "field" } else { "fields" };
    Row {
        label: format!("{} {fields}, {}", grouped(count as u64), order.label()),
        fields: count,
        bytes: look(&sets, order),
        sets,
    }
}

/// A look that all sides write the same, but for where children lie that come in no order; how many bytes
/// a dictionary and an object have, of names that are all of one length.
fn look(sets: &[Set], order: Order) -> [usize; 2] {
    let (dict, object) = sets[0].both_written();
    let mut room = vec![0; object.len()];
    for set in sets {
        let count = set.fields.len();
        let length = set.write(&mut vec![0; count], &mut vec![0; count], &mut room);
        assert_eq!(set.both_written(), (set.dict.to_vec(), room.clone()));
        let (built, both) = (set.built(), set.both_built());
        if order == Order::Sorted {
            assert_eq!((&built, &both.0[..], &both.1), (&room, set.dict, &room));
        }
        assert_eq!(
            (length, both.0.len(), both.1.len()),
            (built.len(), dict.len(), length)
        );
        for (name, number) in set.fields.iter().step_by(count.div_ceil(8)) {
            for (dict, object) in [(set.dict, &built), (set.dict, &room), (&both.0, &both.1)] {
                let found = Variant::new(dict, object).get_object_field(name);
                assert_eq!(found, Some(Variant::Int8(*number)));
            }
        }
    }
    [dict.len(), object.len()]
}

/// Nanoseconds of our call into what is lent, of the Rust's builder over the same dictionary, of our
/// writer of dictionary and object, and of the Rust's builder of both.
pub fn measured(row: &Row) -> [f64; 4] {
    let scratch = || RefCell::new(vec![0; row.fields]);
    let (order, spare, room) = (scratch(), scratch(), RefCell::new(vec![0; row.bytes[1]]));
    let set = |turn: usize| black_box(&row.sets[turn % row.sets.len()]);
    medians(
        SAMPLES,
        [
            &|turn| {
                let (order, spare) = (&mut *order.borrow_mut(), &mut *spare.borrow_mut());
                let room = &mut *room.borrow_mut();
                black_box(set(turn).write(order, spare, room));
                black_box(room);
            },
            &|turn| {
                black_box(set(turn).built());
            },
            &|turn| {
                black_box(set(turn).both_written());
            },
            &|turn| {
                black_box(set(turn).both_built());
            },
        ],
    )
}

/// In which orders very many fields are given.
const LARGE_ORDERS: [Order; 3] = [Order::Shuffled, Order::Sorted, Order::Reversed];

/// The lines of the larger table, told one after another.
pub fn larger(tell: impl Fn(&Line)) {
    larger_of(&LARGE_ORDERS, timed, tell);
}

fn timed(count: usize, order: Order, has_scratch: bool) -> Duration {
    let set = Set::of(&mut Random::seeded(count as u64), count, order);
    let words = if has_scratch { count } else { 0 };
    let (mut order, mut spare) = (vec![0; words], vec![0; words]);
    let mut room = vec![0; set.both_written().1.len()];
    let length = room.len();
    least(|| {
        let started = Instant::now();
        let written = set.write(&mut order, &mut spare, &mut room);
        let time = started.elapsed();
        assert_eq!(written, length);
        time
    })
}
