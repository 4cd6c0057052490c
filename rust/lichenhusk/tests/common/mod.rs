//! What the tests share: bytes written in hex, and document 01's two samples.

#![allow(dead_code)] // each test file takes what it needs

/// The dictionary of the worked cases: "flow" and "roll", sorted.
pub const D: &str = "11 02 00 04 08 66 6C 6F 77 72 6F 6C 6C";

/// The object of the worked cases, which has both.
pub const P: &str = "02 02 00 01 01 00 03 04 0C FB";

/// The bytes of a text of hex pairs between spaces.
pub fn hex(text: &str) -> Vec<u8> {
    text.split_whitespace()
        .map(|pair| u8::from_str_radix(pair, 16).expect("two hex digits"))
        .collect()
}

/// Bytes with zeros after them, up to a length.
pub fn padded(text: &str, length: usize) -> Vec<u8> {
    let head = hex(text);
    let mut bytes = vec![0; length];
    bytes[..head.len()].copy_from_slice(&head);
    bytes
}
