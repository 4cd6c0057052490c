//! Where the Rust judges a tree otherwise than document 02 does: each difference by a predicate of
//! its own, and the Rust's words for it. docs/DIFFERENCES.md has them.
//!
//! Of a tree that has none of these, and in which there are no more levels than the Rust's, the two
//! verdicts are the same.

use crate::reading::own_length;
use crate::reference::is_container;
use crate::tree::children;

/// What the Rust alone refuses, or we alone.
#[derive(Clone, Copy, Debug, PartialEq, Eq, PartialOrd, Ord)]
pub enum Otherwise {
    /// The Rust wants a list's first offset to be 0.
    FirstOffset,
    /// The Rust wants a decimal's scale to be no more than its digits.
    Scale,
    /// The Rust wants a decimal's number to have no more than its digits.
    Digits,
    /// The Rust wants a date to be one of its calendar's.
    Date,
    /// The Rust wants a time stamp of microseconds to be of its calendar.
    Timestamp,
    /// The Rust wants a time of day to be before its end.
    Time,
    /// We refuse a container inside 32 others, with 52; the Rust one inside 128.
    Levels,
    /// We refuse what is longer than our limit, with 10 and 20.
    Length,
}

impl Otherwise {
    /// The Rust's words, where it is the one that refuses.
    pub fn words(self) -> &'static str {
        match self {
            Otherwise::FirstOffset => "First offset is not zero",
            Otherwise::Scale => "is larger than max precision",
            Otherwise::Digits => "is wider than max precision",
            Otherwise::Date => "days into a NaiveDate",
            Otherwise::Timestamp => "microseconds into a",
            Otherwise::Time => "microseconds into a NaiveTime",
            Otherwise::Levels | Otherwise::Length => "",
        }
    }

    /// The same for a reader of the tally.
    pub fn label(self) -> &'static str {
        match self {
            Otherwise::FirstOffset => "a list's first offset",
            Otherwise::Scale => "a decimal's scale",
            Otherwise::Digits => "a decimal's digits",
            Otherwise::Date => "a date",
            Otherwise::Timestamp => "a time stamp",
            Otherwise::Time => "a time of day",
            Otherwise::Levels => "more than 32 levels, 52",
            Otherwise::Length => "over the limit, 10 and 20",
        }
    }
}

/// The first thing in a tree that the Rust alone refuses, in the order of its check, which is ours
/// where nothing is refused by both.
pub fn first_in(value: &[u8]) -> Option<Otherwise> {
    if !is_container(value) {
        return of_leaf(value);
    }
    let (offsets, places) = children(value)?;
    let is_list = value[0] & 1 == 1;
    if is_list && offsets.number(value, 0)? != 0 {
        return Some(Otherwise::FirstOffset);
    }
    places.into_iter().find_map(|place| first_in(&value[place]))
}

/// The bytes of a little-endian number, with its sign.
fn signed(bytes: &[u8]) -> i128 {
    let high = bytes.last().map_or(0, |&byte| byte as i8 as i128);
    let rest = &bytes[..bytes.len() - 1];
    let number = rest.iter().rev();
    number.fold(high, |sum, &byte| sum << 8 | i128::from(byte))
}

/// The days of the Rust's calendar: from the first of the year -262,143 to the last of 262,142.
const DAYS: std::ops::RangeInclusive<i128> = -96_465_292..=95_026_236;

const MICROS_A_DAY: i128 = 86_400_000_000;

/// What the Rust alone refuses of a leaf that has all of its bytes.
pub fn of_leaf(value: &[u8]) -> Option<Otherwise> {
    let own = &value[..own_length(value).ok()?];
    if own[0] & 3 != 0 {
        return None;
    }
    match own[0] >> 2 {
        8 => decimal(own, 9),
        9 => decimal(own, 18),
        10 => decimal(own, 38),
        11 => (!DAYS.contains(&signed(&own[1..]))).then_some(Otherwise::Date),
        12 | 13 => {
            let day = signed(&own[1..]).div_euclid(MICROS_A_DAY);
            (!DAYS.contains(&day)).then_some(Otherwise::Timestamp)
        }
        // Without a sign: what would be below 0 is after the end, too.
        17 => (!(0..MICROS_A_DAY).contains(&signed(&own[1..]))).then_some(Otherwise::Time),
        _ => None,
    }
}

/// A decimal of so many digits.
fn decimal(own: &[u8], digits: u32) -> Option<Otherwise> {
    if u32::from(own[1]) > digits {
        return Some(Otherwise::Scale);
    }
    let number = signed(&own[2..]);
    (number.unsigned_abs() >= 10_u128.pow(digits)).then_some(Otherwise::Digits)
}
