//! The functions of the archive as they are, on lent slices: codes and strips, no types.
//!
//! For a caller that keeps its own strips, and for seeing a code as it is given. The rest of
//! this crate is made of these.
//!
//! This module has all of the crate's `unsafe`, one call in each function. The same reasons
//! hold for each:
//!
//! - Each pointer comes from a slice with its length, so it is not null, is aligned, and is
//!   good for as many bytes or words as the length says.
//! - What is written is lent as `&mut`, so no other buffer of the call shares memory with it.
//! - The functions are proved to take any bytes, to reach for nothing outside of the buffers,
//!   to write only what is lent as `&mut`, to keep no pointer and to return.
//! - The declarations below are those of `include/lichenhusk.h`.

unsafe extern "C" {
    fn lichenhusk_lookup(
        dict: *const u8,
        dict_len: usize,
        object: *const u8,
        object_len: usize,
        name: *const u8,
        name_len: usize,
        strip: *mut u8,
        strip_len: usize,
    ) -> u32;

    fn lichenhusk_lookup_all(
        dict: *const u8,
        dict_len: usize,
        object: *const u8,
        object_len: usize,
        names: *const u8,
        names_len: usize,
        ends: *const u32,
        ends_len: usize,
        words: *mut u32,
        words_len: usize,
        strip: *mut u8,
        strip_len: usize,
    ) -> u32;

    fn lichenhusk_dictionary(
        dict: *const u8,
        dict_len: usize,
        strip: *mut u8,
        strip_len: usize,
    ) -> u32;

    fn lichenhusk_name(
        dict: *const u8,
        dict_len: usize,
        entry: usize,
        strip: *mut u8,
        strip_len: usize,
    ) -> u32;

    fn lichenhusk_layer(
        dict: *const u8,
        dict_len: usize,
        object: *const u8,
        object_len: usize,
        strip: *mut u8,
        strip_len: usize,
    ) -> u32;

    fn lichenhusk_list(
        dict: *const u8,
        dict_len: usize,
        object: *const u8,
        object_len: usize,
        words: *mut u32,
        words_len: usize,
        strip: *mut u8,
        strip_len: usize,
    ) -> u32;

    fn lichenhusk_value(
        value: *const u8,
        value_len: usize,
        strip: *mut u8,
        strip_len: usize,
    ) -> u32;

    fn lichenhusk_tree(
        dict: *const u8,
        dict_len: usize,
        value: *const u8,
        value_len: usize,
        marks: *mut u8,
        marks_len: usize,
        strip: *mut u8,
        strip_len: usize,
    ) -> u32;

    fn lichenhusk_path(
        dict: *const u8,
        dict_len: usize,
        value: *const u8,
        value_len: usize,
        path: *const u8,
        path_len: usize,
        names: *mut u8,
        names_len: usize,
        words: *mut u32,
        words_len: usize,
        strip: *mut u8,
        strip_len: usize,
    ) -> u32;

    fn lichenhusk_write_dictionary(
        run: *const u8,
        run_len: usize,
        ends: *const u32,
        ends_len: usize,
        order: *mut u32,
        order_len: usize,
        spare: *mut u32,
        spare_len: usize,
        room: *mut u8,
        room_len: usize,
        strip: *mut u8,
        strip_len: usize,
    ) -> u32;

    fn lichenhusk_write_object(
        dict: *const u8,
        dict_len: usize,
        bytes: *const u8,
        bytes_len: usize,
        pairs: *const u32,
        pairs_len: usize,
        order: *mut u32,
        order_len: usize,
        spare: *mut u32,
        spare_len: usize,
        room: *mut u8,
        room_len: usize,
        strip: *mut u8,
        strip_len: usize,
    ) -> u32;

    fn lichenhusk_begin(strip: *mut u8, strip_len: usize) -> u32;

    fn lichenhusk_feed(
        store: *mut u8,
        store_len: usize,
        piece: *const u8,
        piece_len: usize,
        strip: *mut u8,
        strip_len: usize,
    ) -> u32;

    fn lichenhusk_empty(room: *mut u8, room_len: usize) -> u32;
}

/// Looks for the field of a name; the strip holds field, id, start and end.
pub fn lookup(dict: &[u8], object: &[u8], name: &[u8], strip: &mut [u8]) -> u32 {
    // SAFETY: as the head of this module says.
    unsafe {
        lichenhusk_lookup(
            dict.as_ptr(),
            dict.len(),
            object.as_ptr(),
            object.len(),
            name.as_ptr(),
            name.len(),
            strip.as_mut_ptr(),
            strip.len(),
        )
    }
}

/// Looks for the fields of many names, five words each; the strip is the layer's.
pub fn lookup_all(
    dict: &[u8],
    object: &[u8],
    names: &[u8],
    ends: &[u32],
    words: &mut [u32],
    strip: &mut [u8],
) -> u32 {
    // SAFETY: as the head of this module says.
    unsafe {
        lichenhusk_lookup_all(
            dict.as_ptr(),
            dict.len(),
            object.as_ptr(),
            object.len(),
            names.as_ptr(),
            names.len(),
            ends.as_ptr(),
            ends.len(),
            words.as_mut_ptr(),
            words.len(),
            strip.as_mut_ptr(),
            strip.len(),
        )
    }
}

/// Checks a dictionary; the strip holds entry count and trimmed end.
pub fn dictionary(dict: &[u8], strip: &mut [u8]) -> u32 {
    // SAFETY: as the head of this module says.
    unsafe { lichenhusk_dictionary(dict.as_ptr(), dict.len(), strip.as_mut_ptr(), strip.len()) }
}

/// Finds the name of an entry; the strip holds start and end.
pub fn name(dict: &[u8], entry: usize, strip: &mut [u8]) -> u32 {
    // SAFETY: as the head of this module says.
    unsafe {
        lichenhusk_name(
            dict.as_ptr(),
            dict.len(),
            entry,
            strip.as_mut_ptr(),
            strip.len(),
        )
    }
}

/// Checks one layer; the strip holds field count, region start and trimmed end.
pub fn layer(dict: &[u8], object: &[u8], strip: &mut [u8]) -> u32 {
    // SAFETY: as the head of this module says.
    unsafe {
        lichenhusk_layer(
            dict.as_ptr(),
            dict.len(),
            object.as_ptr(),
            object.len(),
            strip.as_mut_ptr(),
            strip.len(),
        )
    }
}

/// Lists the fields, three words each; the strip is the layer's.
pub fn list(dict: &[u8], object: &[u8], words: &mut [u32], strip: &mut [u8]) -> u32 {
    // SAFETY: as the head of this module says.
    unsafe {
        lichenhusk_list(
            dict.as_ptr(),
            dict.len(),
            object.as_ptr(),
            object.len(),
            words.as_mut_ptr(),
            words.len(),
            strip.as_mut_ptr(),
            strip.len(),
        )
    }
}

/// Reads a value; the strip holds its kind, and its bits or start and end.
pub fn value(value: &[u8], strip: &mut [u8]) -> u32 {
    // SAFETY: as the head of this module says.
    unsafe { lichenhusk_value(value.as_ptr(), value.len(), strip.as_mut_ptr(), strip.len()) }
}

/// Checks a value with all that is below it; the strip holds its own length as the end or, refused,
/// where the value starts that is refused. The marks may hold anything, and are 0 afterwards.
pub fn tree(dict: &[u8], value: &[u8], marks: &mut [u8], strip: &mut [u8]) -> u32 {
    // SAFETY: as the head of this module says.
    unsafe {
        lichenhusk_tree(
            dict.as_ptr(),
            dict.len(),
            value.as_ptr(),
            value.len(),
            marks.as_mut_ptr(),
            marks.len(),
            strip.as_mut_ptr(),
            strip.len(),
        )
    }
}

/// Follows a path into a value; the strip holds the last step's field, id, start and end. The steps go
/// to the names and to the words, three each, unless it is the path that is refused.
pub fn path(
    dict: &[u8],
    value: &[u8],
    path: &[u8],
    names: &mut [u8],
    words: &mut [u32],
    strip: &mut [u8],
) -> u32 {
    // SAFETY: as the head of this module says.
    unsafe {
        lichenhusk_path(
            dict.as_ptr(),
            dict.len(),
            value.as_ptr(),
            value.len(),
            path.as_ptr(),
            path.len(),
            names.as_mut_ptr(),
            names.len(),
            words.as_mut_ptr(),
            words.len(),
            strip.as_mut_ptr(),
            strip.len(),
        )
    }
}

/// Writes the dictionary of names, by their run and ends, to the first bytes of a room; the strip holds
/// how many names there are in it and its length as the end. The two rows of words are scratch: they may
/// be of any length and hold anything, and what they hold afterwards is not said.
pub fn write_dictionary(
    run: &[u8],
    ends: &[u32],
    order: &mut [u32],
    spare: &mut [u32],
    room: &mut [u8],
    strip: &mut [u8],
) -> u32 {
    // SAFETY: as the head of this module says.
    unsafe {
        lichenhusk_write_dictionary(
            run.as_ptr(),
            run.len(),
            ends.as_ptr(),
            ends.len(),
            order.as_mut_ptr(),
            order.len(),
            spare.as_mut_ptr(),
            spare.len(),
            room.as_mut_ptr(),
            room.len(),
            strip.as_mut_ptr(),
            strip.len(),
        )
    }
}

/// Writes the object of pairs, three words each, id, start and end in the bytes, to the first bytes of a
/// room; the strip is that of its layer. The two rows of words are scratch, as of [`write_dictionary`].
pub fn write_object(
    dict: &[u8],
    bytes: &[u8],
    pairs: &[u32],
    order: &mut [u32],
    spare: &mut [u32],
    room: &mut [u8],
    strip: &mut [u8],
) -> u32 {
    // SAFETY: as the head of this module says.
    unsafe {
        lichenhusk_write_object(
            dict.as_ptr(),
            dict.len(),
            bytes.as_ptr(),
            bytes.len(),
            pairs.as_ptr(),
            pairs.len(),
            order.as_mut_ptr(),
            order.len(),
            spare.as_mut_ptr(),
            spare.len(),
            room.as_mut_ptr(),
            room.len(),
            strip.as_mut_ptr(),
            strip.len(),
        )
    }
}

/// Begins a dictionary that comes in pieces; the strip is its first state: 3, of no bytes held, and one is
/// wanted.
pub fn begin(strip: &mut [u8]) -> u32 {
    // SAFETY: as the head of this module says.
    unsafe { lichenhusk_begin(strip.as_mut_ptr(), strip.len()) }
}

/// Takes a piece of a dictionary into the store; the strip is the state before, and afterwards the one
/// after it. Where more is wanted, it holds how many bytes the store has and, as the end, how many are
/// wanted.
pub fn feed(store: &mut [u8], piece: &[u8], strip: &mut [u8]) -> u32 {
    // SAFETY: as the head of this module says.
    unsafe {
        lichenhusk_feed(
            store.as_mut_ptr(),
            store.len(),
            piece.as_ptr(),
            piece.len(),
            strip.as_mut_ptr(),
            strip.len(),
        )
    }
}

/// Writes the empty dictionary to the first three bytes of a room.
pub fn empty(room: &mut [u8]) -> u32 {
    // SAFETY: as the head of this module says.
    unsafe { lichenhusk_empty(room.as_mut_ptr(), room.len()) }
}
