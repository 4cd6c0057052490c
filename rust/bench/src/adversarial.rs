//! Trees that are made to take long: our call alone, by the clock, at three sizes.

use differential::encode::{self, DictionaryShape, ObjectShape, dictionary, least_width, put};
use lichenhusk::LEVELS;
use std::collections::HashSet;
use std::iter::once;
use std::time::{Duration, Instant};

/// A dictionary and a tree over it, of about so many bytes.
type Make = fn(usize) -> (Vec<u8>, Vec<u8>);

/// The trees, each with its label.
pub const CASES: [(&str, Make); 9] = [
    ("31 levels, all fields share the child", shared),
    (
        "31 levels, child and grandchild in turn",
        child_and_grandchild,
    ),
    ("strings in a string, the outermost first", |size| {
        texts(size, Order::OuterFirst)
    }),
    ("strings in a string, the innermost first", |size| {
        texts(size, Order::InnerFirst)
    }),
    (
        "strings in a string, after a longer one elsewhere",
        |size| texts(size, Order::AfterAnother),
    ),
    ("strings in two strings, in turn", |size| {
        texts(size, Order::InTurn)
    }),
    ("objects whose ids and offsets overlap", overlapping),
    ("lists in one another, many", deep_lists),
    ("objects of two names that differ at their ends", long_names),
];

/// The sizes, the last of them the limit.
pub const SIZES: [usize; 3] = [64 << 10, 1 << 20, 16 << 20];

/// A tree is not timed where the one before makes it likely that it takes longer.
const PATIENCE: Duration = Duration::from_secs(120);

/// What is known of a tree at a size.
pub enum Taken {
    /// The bytes of the dictionary and of the value, the time, and whether it was accepted.
    Time(usize, usize, Duration, bool),
    /// Not timed; about so long, where time grows with the square.
    About(Duration),
}

/// The times of a tree at each size, told one after another: the least of three, or the one where it
/// is long.
pub fn taken(make: Make, tell: impl Fn(&Taken)) {
    let mut before = None;
    for size in SIZES {
        let taken = match likely(before, size) {
            Some(about) if about > PATIENCE => Taken::About(about),
            _ => timed(make(size)),
        };
        tell(&taken);
        before = Some(taken);
    }
}

/// How long a tree of a size may take, by the one before, where time grows with the square.
fn likely(before: Option<Taken>, size: usize) -> Option<Duration> {
    match before? {
        Taken::Time(_, value, time, _) => Some(time.mul_f64((size as f64 / value as f64).powi(2))),
        Taken::About(time) => Some(time),
    }
}

fn timed((dict, value): (Vec<u8>, Vec<u8>)) -> Taken {
    let run = || {
        let started = Instant::now();
        let is_good = lichenhusk::check_tree(&dict, &value).is_ok();
        (started.elapsed(), is_good)
    };
    let (mut least, is_good) = run();
    for _ in 0..2 {
        if least < Duration::from_secs(2) {
            least = least.min(run().0);
        }
    }
    Taken::Time(dict.len(), value.len(), least, is_good)
}

/// A name for each number, in the same order; of bytes below 80 hex, three for all that are asked.
fn name(number: usize) -> Vec<u8> {
    [number >> 14 & 0x7F, number >> 7 & 0x7F, number & 0x7F]
        .map(|digit| digit as u8)
        .to_vec()
}

/// A sorted dictionary of so many names.
fn names(count: usize) -> Vec<u8> {
    let names: Vec<Vec<u8>> = (0..count).map(name).collect();
    let shape = DictionaryShape {
        width: least_width(3 * count),
        sorted: true,
        spare: false,
    };
    dictionary(&names, shape)
}

fn shape(ids: usize, size: usize) -> ObjectShape {
    ObjectShape {
        id_width: least_width(ids),
        offset_width: least_width(size),
        long_count: true,
        spare: false,
    }
}

/// So many objects in one another, which take about as many bytes each; their fields' places are the
/// child's, the grandchild's, and so on in turn, so many of them.
fn ladder(size: usize, rungs: usize) -> (Vec<u8>, Vec<u8>) {
    let levels = LEVELS - 1;
    let a_field = 2 * least_width(size);
    let fields = size / levels / a_field;
    let ids: Vec<usize> = (0..fields).collect();
    let mut value = vec![0];
    let mut starts = vec![0];
    for _ in 0..levels {
        let places = starts.iter().rev().take(rungs).cycle();
        let from_end = |start: &usize| value.len() - start - 1;
        let mut offsets: Vec<usize> = places.take(fields).map(from_end).collect();
        offsets.push(value.len());
        value = encode::object(&ids, &offsets, &value, shape(fields, size));
        starts.push(value.len() - 1);
    }
    (names(fields), value)
}

fn shared(size: usize) -> (Vec<u8>, Vec<u8>) {
    ladder(size, 1)
}

fn child_and_grandchild(size: usize) -> (Vec<u8>, Vec<u8>) {
    ladder(size, 2)
}

/// In which order strings come.
#[derive(Clone, Copy, PartialEq)]
enum Order {
    OuterFirst,
    InnerFirst,
    AfterAnother,
    InTurn,
}

/// The greatest number that is no more than another, and whose four bytes are all below 80 hex.
fn plain(most: usize) -> usize {
    let mut bytes = (most as u32).to_be_bytes();
    if let Some(first) = bytes.iter().position(|&byte| byte > 0x7F) {
        bytes[first..].fill(0x7F);
    }
    u32::from_be_bytes(bytes) as usize
}

/// So many bytes of so many strings, each of which has all that follow it in its text.
fn strings(count: usize, length: usize) -> Vec<u8> {
    let mut bytes = Vec::with_capacity(length);
    for string in 0..count {
        bytes.push(16 << 2);
        put(&mut bytes, plain(length - HEAD * (string + 1)), 4);
    }
    bytes.resize(length, b'a');
    bytes
}

/// The bytes of a string before its text.
const HEAD: usize = 5;

/// An object whose fields are strings in one another.
fn texts(size: usize, order: Order) -> (Vec<u8>, Vec<u8>) {
    // Half of the bytes are for the fields, with their strings' heads.
    let count = size / 22 / 2 * 2;
    let room = size - 2 * least_width(size) * count - 64;
    let (half, halves) = (count / 2, room / 2);
    let at = |start: usize, string: usize| start + HEAD * string;
    let (region, places): (Vec<u8>, Vec<usize>) = match order {
        Order::OuterFirst => (strings(count, room), (0..count).map(|k| at(0, k)).collect()),
        Order::InnerFirst => (
            strings(count, room),
            (0..count).rev().map(|k| at(0, k)).collect(),
        ),
        Order::AfterAnother => {
            let (first, second) = (strings(1, halves), strings(count - 1, halves - 1));
            let others = (0..count - 1).map(|k| at(halves, k));
            ([first, second].concat(), once(0).chain(others).collect())
        }
        Order::InTurn => {
            let both = [strings(half, halves), strings(half, halves)].concat();
            let in_turn = (0..half).flat_map(|k| [at(0, k), at(halves, k)]);
            (both, in_turn.collect())
        }
    };
    let ids: Vec<usize> = (0..count).collect();
    let offsets: Vec<usize> = places.into_iter().chain(once(region.len())).collect();
    let value = encode::object(&ids, &offsets, &region, shape(count, size));
    (names(count), value)
}

/// Objects that have one end of their ids: each has those of the one before it, and more before them,
/// among which the other's header stands. Their offsets begin at that end, and are 0 but for those
/// that tell an object's length, which increase. The dictionary is unsorted, so that its names can be
/// in the order in which the ids come to stand. Each object's own checks go through all of its ids.
fn overlapping(size: usize) -> (Vec<u8>, Vec<u8>) {
    // Six bytes a field; three bytes of names, and the low bytes of counts, are for so many.
    let objects = (size * 7 / 8 / 6 / STEP).clamp(1, 28 * 256 - 1);
    let mut region = heads(objects);
    let ids = settled(&mut region, objects);
    let dict = in_order_of(&ids);
    let mut places: Vec<usize> = (0..objects).map(|object| start(objects, object)).collect();
    for offset in lengths(objects) {
        put(&mut region, offset, 3);
    }
    // Nulls, for the children of the last.
    region.resize(region.len() + 4 * 3 * STEP + 2 * objects, 0);
    places.push(region.len());
    let own = &ids[ids.len() - objects..];
    (
        dict,
        encode::object(own, &places, &region, shape(1 << 23, size)),
    )
}

/// How many fields more an object has than the one before: so many that the middle byte of its count
/// is another.
const STEP: usize = 256;

/// How many fields one of the overlapping objects has. The low byte of the count is another for each
/// 256 objects, which the byte before the header tells apart.
fn fields(object: usize) -> usize {
    STEP * (object + 1) + object / 256
}

/// Where the ids of so many objects end.
fn end(objects: usize) -> usize {
    3 * (fields(objects - 1) + 4)
}

/// Where one of them starts.
fn start(objects: usize, object: usize) -> usize {
    end(objects) - 3 * fields(object) - HEADER
}

/// The bytes of an object before its ids.
const HEADER: usize = 5;

/// The headers of so many objects, where they stand among the ids.
fn heads(objects: usize) -> Vec<u8> {
    let mut bytes = vec![0; end(objects)];
    for object in 0..objects {
        let at = start(objects, object);
        bytes[at - 1] = object as u8;
        bytes[at] = 0x02 | 2 << 2 | 2 << 4 | 0x40;
        bytes[at + 1..at + HEADER].copy_from_slice(&(fields(object) as u32).to_le_bytes());
    }
    bytes
}

/// Fills ids in where no header stands, each another number than all others; and gives all of them in
/// their order.
fn settled(bytes: &mut [u8], objects: usize) -> Vec<usize> {
    let mut is_head = vec![false; bytes.len() / 3];
    for object in 0..objects {
        let at = start(objects, object);
        is_head[(at - 1) / 3..=(at + HEADER - 1) / 3].fill(true);
    }
    let (ids, _) = bytes.as_chunks_mut::<3>();
    let number = |id: &[u8; 3]| u32::from_le_bytes([id[0], id[1], id[2], 0]) as usize;
    let heads = ids.iter().zip(&is_head).filter(|(_, is_head)| **is_head);
    let taken: HashSet<usize> = heads.map(|(id, _)| number(id)).collect();
    let mut free = (0..).filter(|id: &usize| !taken.contains(id));
    for (id, _) in ids.iter_mut().zip(is_head).filter(|(_, is_head)| !is_head) {
        let next = free.next().expect("numbers go on");
        id.copy_from_slice(&next.to_le_bytes()[..3]);
    }
    ids.iter().map(number).collect()
}

/// The offsets that they share. No length is such that a child of one object would be a byte of
/// another's length: those stand some multiple of three times the step apart, and a little.
fn lengths(objects: usize) -> Vec<usize> {
    let mut lengths = (0..).filter(|length| (120..600).contains(&(length % (3 * STEP))));
    let mut offsets = vec![0; fields(objects - 1) + 1];
    for object in 0..objects {
        offsets[fields(object)] = lengths.next().expect("numbers go on");
    }
    offsets
}

/// An unsorted dictionary whose names increase in an order of ids; others have no bytes.
fn in_order_of(ids: &[usize]) -> Vec<u8> {
    let entries = ids.iter().max().map_or(0, |most| most + 1);
    let mut names = vec![Vec::new(); entries];
    for (index, &id) in ids.iter().enumerate() {
        names[id] = name(index);
    }
    let shape = DictionaryShape {
        width: least_width(3 * ids.len().max(entries)),
        sorted: false,
        spare: false,
    };
    dictionary(&names, shape)
}

/// A list of lists of 30 levels about a null each.
fn deep_lists(size: usize) -> (Vec<u8>, Vec<u8>) {
    let one = (0..LEVELS - 1).fold(vec![0], |inner: Vec<u8>, _| encode::list(&[inner]));
    let count = (size - 16) / (one.len() + least_width(size));
    let offsets: Vec<usize> = (0..=count).map(|k| k * one.len()).collect();
    let value = encode::list_of(&offsets, &one.repeat(count), least_width(size), true);
    (names(1), value)
}

/// Many objects of two fields over an unsorted dictionary of as many bytes: two names, which differ
/// in the last of them.
fn long_names(size: usize) -> (Vec<u8>, Vec<u8>) {
    let length = (size - 32) / 2;
    let mut pair = [vec![b'a'; length], vec![b'a'; length]];
    pair[1][length - 1] = b'b';
    let shape = DictionaryShape {
        width: least_width(size),
        sorted: false,
        spare: false,
    };
    let one = encode::plain_object(&[0, 1], &[vec![0], vec![0]]);
    let count = (size - 16) / (one.len() + least_width(size));
    let offsets: Vec<usize> = (0..=count).map(|k| k * one.len()).collect();
    let value = encode::list_of(&offsets, &one.repeat(count), least_width(size), true);
    (dictionary(&pair, shape), value)
}
