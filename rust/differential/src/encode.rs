//! Writers of dictionaries, objects and lists in every shape that their headers can say.

/// How a dictionary is written.
#[derive(Clone, Copy, Debug)]
pub struct DictionaryShape {
    /// Bytes of the count and of each offset, 1 to 4.
    pub width: usize,
    /// Whether it says that it is sorted.
    pub sorted: bool,
    /// The bit that nobody reads.
    pub spare: bool,
}

/// How an object is written.
#[derive(Clone, Copy, Debug)]
pub struct ObjectShape {
    /// Bytes of an id, 1 to 4.
    pub id_width: usize,
    /// Bytes of an offset, 1 to 4.
    pub offset_width: usize,
    /// Whether the count takes four bytes.
    pub long_count: bool,
    /// The bit that nobody reads.
    pub spare: bool,
}

/// The fewest bytes that hold a number.
pub fn least_width(number: usize) -> usize {
    match number {
        0..=0xFF => 1,
        0x100..=0xFFFF => 2,
        0x1_0000..=0xFF_FFFF => 3,
        _ => 4,
    }
}

/// Appends a number in so many bytes, the lowest first.
pub fn put(bytes: &mut Vec<u8>, number: usize, width: usize) {
    bytes.extend_from_slice(&number.to_le_bytes()[..width]);
}

/// The dictionary of names, in the order given.
pub fn dictionary(names: &[Vec<u8>], shape: DictionaryShape) -> Vec<u8> {
    let width_bits = ((shape.width - 1) as u8) << 6;
    let mut bytes = vec![1 | (shape.sorted as u8) << 4 | (shape.spare as u8) << 5 | width_bits];
    put(&mut bytes, names.len(), shape.width);
    let mut offset = 0;
    put(&mut bytes, offset, shape.width);
    for name in names {
        offset += name.len();
        put(&mut bytes, offset, shape.width);
    }
    names.iter().for_each(|name| bytes.extend_from_slice(name));
    bytes
}

/// The object of ids, offsets (one more than ids) and the children's bytes.
pub fn object(ids: &[usize], offsets: &[usize], region: &[u8], shape: ObjectShape) -> Vec<u8> {
    assert_eq!(offsets.len(), ids.len() + 1);
    let widths = (shape.offset_width - 1) << 2 | (shape.id_width - 1) << 4;
    let flags = (shape.long_count as u8) << 6 | (shape.spare as u8) << 7;
    let mut bytes = vec![2 | widths as u8 | flags];
    put(&mut bytes, ids.len(), if shape.long_count { 4 } else { 1 });
    ids.iter()
        .for_each(|&id| put(&mut bytes, id, shape.id_width));
    offsets
        .iter()
        .for_each(|&offset| put(&mut bytes, offset, shape.offset_width));
    bytes.extend_from_slice(region);
    bytes
}

/// The object of ids and children, in order and without gaps, in the least widths.
pub fn plain_object(ids: &[usize], children: &[Vec<u8>]) -> Vec<u8> {
    let (offsets, region) = laid_out(children);
    let shape = ObjectShape {
        id_width: least_width(ids.iter().copied().max().unwrap_or(0)),
        offset_width: least_width(region.len()),
        long_count: ids.len() > 255,
        spare: false,
    };
    object(ids, &offsets, &region, shape)
}

/// The binary value that has so many bytes in all, five of them for its type and length.
pub fn binary(length: usize) -> Vec<u8> {
    let mut bytes = vec![15 << 2];
    put(&mut bytes, length - 5, 4);
    bytes.resize(length, 0xAB);
    bytes
}

/// The list of elements.
pub fn list(elements: &[Vec<u8>]) -> Vec<u8> {
    let (offsets, region) = laid_out(elements);
    let width = least_width(region.len());
    list_of(&offsets, &region, width, elements.len() > 255)
}

/// The list of offsets (one more than elements) in so many bytes each, and the elements' bytes.
pub fn list_of(offsets: &[usize], region: &[u8], width: usize, long_count: bool) -> Vec<u8> {
    let mut bytes = vec![3 | ((width - 1) as u8) << 2 | (long_count as u8) << 4];
    let count_width = if long_count { 4 } else { 1 };
    put(&mut bytes, offsets.len() - 1, count_width);
    offsets
        .iter()
        .for_each(|&offset| put(&mut bytes, offset, width));
    bytes.extend_from_slice(region);
    bytes
}

/// Values one after another, and the offsets between them.
fn laid_out(values: &[Vec<u8>]) -> (Vec<usize>, Vec<u8>) {
    let mut offsets = vec![0];
    let mut region = Vec::new();
    for value in values {
        region.extend_from_slice(value);
        offsets.push(region.len());
    }
    (offsets, region)
}
