//! Every string of bytes of a length over an alphabet.

/// Bytes that decide much in a dictionary: headers, small numbers, letters, a character's halves.
pub const DICTIONARY_HEADERS: [u8; 4] = [0x01, 0x11, 0x41, 0x51];
/// What follows such a header.
pub const DICTIONARY_BYTES: [u8; 6] = [0x00, 0x01, 0x02, 0x61, 0xC3, 0xA9];

/// Headers of objects: one-byte numbers, a wide offset, a wide id, a long count.
pub const OBJECT_HEADERS: [u8; 4] = [0x02, 0x06, 0x12, 0x42];
/// What follows such a header: small numbers, and a null, a true, and an empty object as children.
pub const OBJECT_BYTES: [u8; 5] = [0x00, 0x01, 0x02, 0x03, 0x04];

/// Every byte there is.
pub fn all_bytes() -> [u8; 256] {
    std::array::from_fn(|byte| byte as u8)
}

/// Calls a function with each string of so many bytes, the first of `heads`, the others of
/// `tails`, until it fails.
pub fn each<E>(
    length: usize,
    heads: &[u8],
    tails: &[u8],
    mut visit: impl FnMut(&[u8]) -> Result<(), E>,
) -> Result<(), E> {
    let alphabet = |index: usize| if index == 0 { heads } else { tails };
    let mut digits = vec![0; length];
    let mut bytes: Vec<u8> = (0..length).map(|index| alphabet(index)[0]).collect();
    loop {
        visit(&bytes)?;
        let mut index = length;
        loop {
            if index == 0 {
                return Ok(());
            }
            index -= 1;
            digits[index] += 1;
            if digits[index] < alphabet(index).len() {
                bytes[index] = alphabet(index)[digits[index]];
                break;
            }
            digits[index] = 0;
            bytes[index] = alphabet(index)[0];
        }
    }
}
