//! Objects for the readings of their children: numbers at the ends of their ranges and floats of
//! every class, and the other primitives of a fixed length with payloads in which each bit tells.

use crate::Input;
use crate::children::last_child;
use crate::reading::{BINARY, PAYLOADS, STRING};
use std::iter::once;

/// The primitive types of floats, and the bits of their fractions.
const FLOATS: [(usize, usize); 2] = [(7, 52), (14, 23)];

/// Each value as it is, with bytes after it, and each proper beginning of it.
pub fn inputs() -> impl Iterator<Item = Input> {
    let all = values().flat_map(|value| {
        let longer = [&value[..], &[0xFC, 0xFF]].concat();
        let cut: Vec<_> = (1..value.len()).map(|end| value[..end].to_vec()).collect();
        cut.into_iter().chain([value, longer])
    });
    all.map(|value| last_child(&value))
}

fn values() -> impl Iterator<Item = Vec<u8>> {
    let plain = (0..PAYLOADS.len()).filter(|&kind| kind != BINARY && kind != STRING);
    let plain = plain
        .flat_map(|kind| payloads(PAYLOADS[kind]).map(move |payload| primitive(kind, &payload)));
    let floats = FLOATS.into_iter().flat_map(|(kind, fraction)| {
        floats(PAYLOADS[kind], fraction).map(move |bits| {
            let payload = &bits.to_le_bytes()[..PAYLOADS[kind]];
            primitive(kind, payload)
        })
    });
    plain.chain(floats)
}

fn primitive(kind: usize, payload: &[u8]) -> Vec<u8> {
    [&[(kind as u8) << 2], payload].concat()
}

/// Payloads of so many bytes: no bit, all bits, each bit alone, all but each; and bytes of which no
/// two are alike, whose order tells. Of integers that has the least, the greatest and those about 0.
fn payloads(length: usize) -> impl Iterator<Item = Vec<u8>> {
    let fills = [0x00, 0xFF].into_iter().flat_map(move |fill| {
        let one_bit = (0..8 * length).map(move |bit| {
            let mut payload = vec![fill; length];
            payload[bit / 8] ^= 1 << (bit % 8);
            payload
        });
        once(vec![fill; length]).chain(one_bit)
    });
    let rising = (0x01..).take(length).collect();
    let falling = (0x80..0xFF).rev().take(length).collect();
    fills.chain([rising, falling])
}

/// Floats of so many bytes with a fraction of so many bits, of either sign and with the least or the
/// greatest exponent: with no bit of the fraction, each alone, and all of them. That is zero and the
/// subnormal, infinity and what is not a number, quiet or signalling.
fn floats(length: usize, fraction: usize) -> impl Iterator<Item = u64> {
    let sign = 1_u64 << (8 * length - 1);
    let infinity = (sign - 1) >> fraction << fraction;
    let alone = (0..fraction).map(|bit| 1 << bit);
    let fractions = alone.chain([0, (1 << fraction) - 1]);
    fractions.flat_map(move |low| [0, infinity, sign, sign | infinity].map(|high| high | low))
}
