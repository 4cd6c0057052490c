/*
 * Lichenhusk: a proved reader of the Variant binary encoding of Apache Parquet, and
 * a writer of its dictionaries and objects.
 *
 * A Variant comes as two buffers: a dictionary of field names (the encoding's
 * "metadata") and a value. These functions read the dictionary, one layer of an
 * object, and one value: its number, or where its bytes are. They do not look
 * into the object's children, but for how long each is, where the fields are
 * listed; a child that is handed to lichenhusk_value is read as any value. Two
 * functions go further: lichenhusk_tree checks a value with all that is below it,
 * and lichenhusk_path follows a path such as site.meter[2] into one. Two write:
 * lichenhusk_write_dictionary makes a dictionary of names, and
 * lichenhusk_write_object an object of fields over a dictionary. And two take a
 * dictionary in that comes in pieces: lichenhusk_begin and lichenhusk_feed.
 *
 * Every function takes whatever bytes its buffers hold, keeps nothing,
 * allocates nothing and ends. It reads only the buffers that it is handed, and
 * writes only what is said here. That much, and each answer below, is proved of
 * the code.
 *
 * Nothing is asked of the bytes. What a caller must see to is about the
 * pointers, and the proof takes it for granted:
 *
 *   - A buffer is a pointer and a length. The pointer must not be null, not
 *     even for a length of 0: any other pointer will do there, say the address
 *     of some variable.
 *   - A buffer that is written (strip, words, marks, names of a path, order,
 *     spare, room, store) shares no memory with another buffer of the same call.
 *   - words, ends, pairs, order and spare are aligned as a uint32_t is.
 *
 * THE STRIP. The answer goes to the first LICHENHUSK_STRIP_BYTES of a buffer of
 * yours: six numbers of 32 bits, each with its lowest byte first, whatever the
 * machine.
 *
 *   bytes  0 to 3    the code: one of the numbers of the enum below
 *   bytes  4 to 7    a number: which one, each function says
 *   bytes  8 to 11   the id: the dictionary's entry that is a found field's name
 *   bytes 12 to 15   start; of a value that is a number, the low half of its bits
 *   bytes 16 to 19   end (the first byte that no longer belongs); of such a value,
 *                    the high half; of what is written, its length; of pieces,
 *                    how many bytes are wanted
 *   bytes 20 to 23   the place of a refusal
 *
 * A word that has no use in an answer is 0; on a refusal, all but the code and
 * the place, and of lichenhusk_tree the start. Bytes after these stay as they
 * are. The code is also what the function returns. If the strip is shorter than
 * LICHENHUSK_STRIP_BYTES, the function returns 40 before anything else is looked
 * at, and writes nothing.
 *
 * The TRIMMED END of a dictionary or an object is where its own bytes end, by
 * its own offsets. Bytes after it are ignored.
 *
 * AN EXAMPLE, whole:
 *
 *   #include <stdio.h>
 *   #include "lichenhusk.h"
 *
 *   int main(void)
 *   {
 *       const uint8_t dict[] = {0x11, 2, 0, 4, 8, 'f', 'l', 'o', 'w', 'r', 'o', 'l', 'l'};
 *       const uint8_t object[] = {0x02, 2, 0, 1, 1, 0, 3, 4, 0x0C, 0xFB};
 *       const uint8_t name[] = {'f', 'l', 'o', 'w'};
 *       uint8_t strip[LICHENHUSK_STRIP_BYTES];
 *       uint32_t start, end;
 *
 *       switch (lichenhusk_lookup(dict, sizeof dict, object, sizeof object,
 *                                 name, sizeof name, strip, sizeof strip)) {
 *       case LICHENHUSK_OK:
 *           start = lichenhusk_word(strip, LICHENHUSK_START);
 *           end = lichenhusk_word(strip, LICHENHUSK_END);
 *           printf("field %u, entry %u, bytes %u to %u",
 *                  (unsigned) lichenhusk_word(strip, LICHENHUSK_NUMBER),
 *                  (unsigned) lichenhusk_word(strip, LICHENHUSK_ID),
 *                  (unsigned) start, (unsigned) end);
 *           if (lichenhusk_value(object + start, end - start,
 *                                strip, sizeof strip) == LICHENHUSK_OK
 *               && lichenhusk_word(strip, LICHENHUSK_NUMBER) == LICHENHUSK_INT8)
 *               printf(": %d", (int) lichenhusk_integer(strip));
 *           printf("\n");
 *           return 0;
 *       case LICHENHUSK_ABSENT:
 *           printf("no such field\n");
 *           return 1;
 *       default:
 *           printf("refused: %u at %u\n",
 *                  (unsigned) lichenhusk_word(strip, LICHENHUSK_CODE),
 *                  (unsigned) lichenhusk_word(strip, LICHENHUSK_PLACE));
 *           return 2;
 *       }
 *   }
 *
 * It prints "field 0, entry 0, bytes 8 to 10: -5". The functions are in the
 * archive liblichenhusk.a. `make install PREFIX=..` puts it below a prefix, with
 * this header and a lichenhusk.pc, and then
 *
 *   cc example.c $(pkg-config --cflags --libs lichenhusk) -o example
 *
 * builds the example. For x86-64 the archive is target/staticlib/liblichenhusk.a
 * of the repository, which `make archive` makes. For aarch64 it is
 * target/native/liblichenhusk.a: `rust/native_archive.sh` has the same LLVM
 * module compiled for that processor. What is proved stops at the module.
 */
#ifndef LICHENHUSK_H
#define LICHENHUSK_H

#include <stddef.h>
#include <stdint.h>

#ifdef __cplusplus
extern "C" {
#endif

enum {
    /* The most bytes that a dictionary, or an object, may have. */
    LICHENHUSK_LIMIT = 16777216,
    /* The bytes of a strip that are written. */
    LICHENHUSK_STRIP_BYTES = 24,
    /* The words of a listing for each field: id, start, span. */
    LICHENHUSK_WORDS_PER_FIELD = 3,
    /* The words for each of many names: code, field, id, start, end. */
    LICHENHUSK_WORDS_PER_NAME = 5,
    /* The words for each step of a path: 0, start, end; or 1, low, high. */
    LICHENHUSK_WORDS_PER_STEP = 3,
    /* The words for each pair that an object is written of: id, start, end. */
    LICHENHUSK_WORDS_PER_PAIR = 3,
    /* The bytes of the empty dictionary. */
    LICHENHUSK_EMPTY_BYTES = 3,
    /* The most objects and lists that may stand in one another in a tree. */
    LICHENHUSK_LEVELS = 32,
    /* The longest value of which lichenhusk_tree needs no marks lent to be fast. */
    LICHENHUSK_OWN_MARKS = 65536
};

/* Which word of the strip. */
enum lichenhusk_word_index {
    LICHENHUSK_CODE = 0,
    LICHENHUSK_NUMBER = 1,
    LICHENHUSK_ID = 2,
    LICHENHUSK_START = 3,
    LICHENHUSK_END = 4,
    LICHENHUSK_PLACE = 5
};

/*
 * Every number that is answered. "The place" is the strip's last word; where
 * nothing is said of it, it is 0. Of several reasons to refuse, the answer is
 * the first in the order in which the bytes are checked: the ends of names
 * before the dictionary, the dictionary before the object, a header before what
 * it describes, and then entry by entry and field by field: 25 and 26 of each
 * field first, and when all are done, 27 and 28 of each. Of a listing, 43 comes
 * after these, and 41 last. A value alone gets 50 or 51 and no other, but for 40.
 * Of a tree, an object or a list has its own checks before its children, and its
 * children come in their order, each with all that is below it. Of a path, 70 to
 * 76 come before the dictionary, and then the value is checked step by step. Of a
 * dictionary that is written, 45 of all names comes first, then 10, and 46 last. Of
 * an object that is written, the dictionary comes first; then each of 25, 26, 45 and
 * 28, in this order, is looked for in all pairs before the next is; then 20, and 46
 * last. The place of these four is the pair, counted from 0 (of more than
 * 4,294,967,296 pairs, that number's low 32 bits). Of a dictionary in pieces, 3 or 44
 * stands for 11 and 13, and 10 is never given.
 */
enum lichenhusk_code {
    /* Accepted, found, or written. */
    LICHENHUSK_OK = 0,
    /* All is well, and the object has no field of that name, or the list no such
     * element. */
    LICHENHUSK_ABSENT = 1,
    /* Of a dictionary in pieces: nothing is settled, and more bytes are wanted. */
    LICHENHUSK_MORE = 3,

    /* The dictionary is longer than LICHENHUSK_LIMIT, or the one to be written
     * would be. */
    LICHENHUSK_DICTIONARY_TOO_LONG = 10,
    /* The dictionary has no bytes. */
    LICHENHUSK_DICTIONARY_EMPTY = 11,
    /* The dictionary's version is not 1. */
    LICHENHUSK_DICTIONARY_VERSION = 12,
    /* The dictionary ends before its count, its offsets or its names do. */
    LICHENHUSK_DICTIONARY_SHORT = 13,
    /* The dictionary's count or last offset asks for a place above 4,294,967,295. */
    LICHENHUSK_DICTIONARY_OVERFLOW = 14,
    /* The dictionary's first offset is not 0. */
    LICHENHUSK_DICTIONARY_FIRST_OFFSET = 15,
    /* The names are not UTF-8, and no further bytes would make them that. The
     * place: how many bytes of them, from the first name's first byte, are well
     * formed. */
    LICHENHUSK_DICTIONARY_NOT_UTF8 = 16,
    /* An entry's offsets fall, pass the names' end or cut a character. The
     * place: the entry. */
    LICHENHUSK_DICTIONARY_ENTRY = 17,
    /* The dictionary says that it is sorted, and an entry's name is not above
     * the one before. The place: the entry. */
    LICHENHUSK_DICTIONARY_ORDER = 18,
    /* The names end inside a character: what is left after the well-formed
     * bytes is the beginning of one that further bytes would complete. The text
     * was cut; ask for the rest. Checked where 16 is, and the place is 16's. */
    LICHENHUSK_DICTIONARY_TEXT_CUT = 19,

    /* The object is longer than LICHENHUSK_LIMIT, or the one to be written would be. */
    LICHENHUSK_OBJECT_TOO_LONG = 20,
    /* The object has no bytes. */
    LICHENHUSK_OBJECT_EMPTY = 21,
    /* The value is not an object: its basic type is not 2. */
    LICHENHUSK_OBJECT_TYPE = 22,
    /* The object ends before its count, its ids, its offsets or its children do. */
    LICHENHUSK_OBJECT_SHORT = 23,
    /* The object's count or last offset asks for a place above 4,294,967,295. */
    LICHENHUSK_OBJECT_OVERFLOW = 24,
    /* The id of a field, or of a pair to be written, names no entry of the
     * dictionary. The place: the field, or the pair. */
    LICHENHUSK_OBJECT_ID = 25,
    /* A field's name is not above the name of the field before. The place: the
     * field. Of an object to be written: a pair has the name of an earlier one,
     * whichever entries the two are. The place: the later pair. */
    LICHENHUSK_OBJECT_ORDER = 26,
    /* A field's offset is above the length of the children's bytes. The place:
     * the field. */
    LICHENHUSK_OBJECT_OFFSET = 27,
    /* A field's child has no bytes: its offset is the length of the children's
     * bytes. The place: the field. Of 27 and 28 the first field's is given. Of an
     * object to be written: a pair's child starts where it ends. The place: the
     * pair. */
    LICHENHUSK_OBJECT_CHILD_EMPTY = 28,

    /* The dictionary has no entry of that number. */
    LICHENHUSK_NO_SUCH_ENTRY = 31,

    /* The strip is shorter than LICHENHUSK_STRIP_BYTES. Nothing is written. */
    LICHENHUSK_STRIP_TOO_SHORT = 40,
    /* Fewer than three words of room for each field of a listing, or than five
     * for each of many names. No word is written. */
    LICHENHUSK_WORDS_TOO_FEW = 41,
    /* Fewer than 3 bytes of room for the empty dictionary. Nothing is written. */
    LICHENHUSK_ROOM_TOO_SMALL = 42,
    /* Of a listing: a field's child has no length of its own within the object.
     * It is of a primitive type that is not known (21 and up), or its header or
     * its bytes go on past the object's trimmed end. The place: the field. No
     * word is written. */
    LICHENHUSK_CHILD_LENGTH = 43,
    /* Of a dictionary in pieces: more bytes have come than there is room for, and
     * those that there is room for settle nothing; or the state counts more bytes
     * than there is room for, and then nothing is written to the store. */
    LICHENHUSK_PIECES_NO_ROOM = 44,

    /* Of many names, one has an end that falls below where the name begins, or
     * that passes the run of names; or, of names to be written, it is not UTF-8.
     * The place: the name, counted from 0 (of more than 4,294,967,296 ends, that
     * number's low 32 bits). Of an object to be written: a pair's end is below its
     * start, or passes the bytes that are lent. The place: the pair. */
    LICHENHUSK_NAMES_END = 45,
    /* Fewer bytes of room than the dictionary, or the object, to be written has. None
     * of them is written. */
    LICHENHUSK_WRITE_NO_ROOM = 46,

    /* The value has no bytes, its header is cut, or its own length passes its
     * bytes or 4,294,967,295. */
    LICHENHUSK_VALUE_SHORT = 50,
    /* The value is of a primitive type that is not known (21 and up). */
    LICHENHUSK_VALUE_TYPE = 51,
    /* Of a tree: an object or a list inside LICHENHUSK_LEVELS others. Checked
     * before anything else of it. */
    LICHENHUSK_VALUE_TOO_DEEP = 52,
    /* Of a path: a step goes into a value of another kind, a name into what is no
     * object or an index into what is no list. The place: the step, counted from
     * 0. */
    LICHENHUSK_STEP_KIND = 53,
    /* Of a tree: a string, short or long, that is not UTF-8. */
    LICHENHUSK_VALUE_NOT_UTF8 = 54,

    /* Of a tree or a path: a list ends before its count, its offsets or its
     * elements do. */
    LICHENHUSK_LIST_SHORT = 60,
    /* Of a tree or a path: a list's count or last offset asks for a place above
     * 4,294,967,295. */
    LICHENHUSK_LIST_OVERFLOW = 61,
    /* Of a tree or a path: an element's offset is above the next one, or above the
     * length of the elements' bytes. The place: the element. Those of all elements
     * are looked at before the first element is. */
    LICHENHUSK_LIST_OFFSET = 62,

    /* The path is not UTF-8. Of 70 to 76 nothing is written to names and words. */
    LICHENHUSK_PATH_NOT_UTF8 = 70,
    /* The path begins with a dot. */
    LICHENHUSK_PATH_LEADING_DOT = 71,
    /* The path ends with a dot. */
    LICHENHUSK_PATH_TRAILING_DOT = 72,
    /* In the path, a dot or a bracket follows a dot, or a bracket closes that was
     * not opened. */
    LICHENHUSK_PATH_UNEXPECTED = 73,
    /* In the path, a bracket is not closed. */
    LICHENHUSK_PATH_UNCLOSED = 74,
    /* In the path, what is in brackets is neither quoted nor a number below 2 to
     * the 64th. */
    LICHENHUSK_PATH_BRACKET = 75,
    /* Fewer than three words of room for each step of the path, or fewer bytes than
     * its names have, or more than 4,294,967,295 of these. */
    LICHENHUSK_PATH_NO_ROOM = 76
};

/*
 * The kinds of values: the number of a primitive type, or 256 plus the basic
 * type of another value.
 */
enum lichenhusk_kind {
    LICHENHUSK_NULL = 0,
    LICHENHUSK_TRUE = 1,
    LICHENHUSK_FALSE = 2,
    LICHENHUSK_INT8 = 3,
    LICHENHUSK_INT16 = 4,
    LICHENHUSK_INT32 = 5,
    LICHENHUSK_INT64 = 6,
    LICHENHUSK_DOUBLE = 7,
    LICHENHUSK_DECIMAL4 = 8,
    LICHENHUSK_DECIMAL8 = 9,
    LICHENHUSK_DECIMAL16 = 10,
    LICHENHUSK_DATE = 11,
    /* Microseconds, in UTC and without a time zone. */
    LICHENHUSK_TIMESTAMP = 12,
    LICHENHUSK_TIMESTAMP_NTZ = 13,
    LICHENHUSK_FLOAT = 14,
    LICHENHUSK_BINARY = 15,
    LICHENHUSK_STRING = 16,
    LICHENHUSK_TIME_NTZ = 17,
    /* Nanoseconds, in UTC and without a time zone. */
    LICHENHUSK_TIMESTAMP_NANOS = 18,
    LICHENHUSK_TIMESTAMP_NTZ_NANOS = 19,
    LICHENHUSK_UUID = 20,

    LICHENHUSK_SHORT_STRING = 257,
    LICHENHUSK_OBJECT = 258,
    LICHENHUSK_LIST = 259
};

/* A word of a strip that an answer was written to. */
static inline uint32_t lichenhusk_word(const uint8_t *strip, enum lichenhusk_word_index word)
{
    const uint8_t *at = strip + 4 * (size_t) word;
    return (uint32_t) at[0] | (uint32_t) at[1] << 8 | (uint32_t) at[2] << 16
           | (uint32_t) at[3] << 24;
}

/* The 64 bits of the number that lichenhusk_value wrote to a strip. Those of a
 * double are a double's as they are; those of a float are the low 32. */
static inline uint64_t lichenhusk_bits(const uint8_t *strip)
{
    return (uint64_t) lichenhusk_word(strip, LICHENHUSK_END) << 32
           | lichenhusk_word(strip, LICHENHUSK_START);
}

/* The same as a signed integer, for a strip of the kinds INT8 to INT64. */
static inline int64_t lichenhusk_integer(const uint8_t *strip)
{
    uint64_t bits = lichenhusk_bits(strip);
    return bits >> 63 ? -(int64_t) ~bits - 1 : (int64_t) bits;
}

/*
 * Checks the dictionary and one layer of the object, and looks for the field of
 * a name. The name is any bytes; bytes that are not UTF-8 are simply absent.
 *
 * 0: number is the field (counted from 0 in the object's order), and its child
 *    is the object's bytes from start to end. The end is the object's trimmed
 *    end, so other children may follow within; start is always below it, so a
 *    child has a byte at least. id is the field's entry in the dictionary:
 *    lichenhusk_name of that entry gives the bytes of the name that was looked
 *    for.
 * 1: there is no such field.
 * Otherwise a refusal: 10 to 19, 20 to 28, or 40.
 */
uint32_t lichenhusk_lookup(const uint8_t *dict, size_t dict_len,
                           const uint8_t *object, size_t object_len,
                           const uint8_t *name, size_t name_len,
                           uint8_t *strip, size_t strip_len);

/*
 * Checks the dictionary and one layer of the object once, and looks for the
 * fields of many names. The names are a run of bytes, one after another; ends[k]
 * is where name k ends, counted from the run's first byte. The first name begins
 * at 0, and each other one where the one before it ends: "flow" and "roll" are
 * the run "flowroll" with the ends 4 and 8. Bytes of the run after the last end
 * are ignored. ends_len and words_len count words.
 *
 * 0: the strip is lichenhusk_layer's, and words has five words for each name, in
 *    the order of the names: what lichenhusk_lookup answers to it, that is 0,
 *    field, id, start and end, or 1 and four times 0. Words after these stay as
 *    they are; with no names, that is every word.
 * Otherwise a refusal, which leaves all words: 45, then 10 to 19, 20 to 28, and
 * 41 after every other; or 40.
 */
uint32_t lichenhusk_lookup_all(const uint8_t *dict, size_t dict_len,
                               const uint8_t *object, size_t object_len,
                               const uint8_t *names, size_t names_len,
                               const uint32_t *ends, size_t ends_len,
                               uint32_t *words, size_t words_len,
                               uint8_t *strip, size_t strip_len);

/*
 * Checks the dictionary.
 *
 * 0: number is its entry count, end is its trimmed end.
 * Otherwise a refusal: 10 to 19, or 40.
 */
uint32_t lichenhusk_dictionary(const uint8_t *dict, size_t dict_len,
                               uint8_t *strip, size_t strip_len);

/*
 * Checks the dictionary and finds the name of an entry, counted from 0.
 *
 * 0: the name is the dictionary's bytes from start to end.
 * Otherwise a refusal: 10 to 19, then 31, or 40.
 */
uint32_t lichenhusk_name(const uint8_t *dict, size_t dict_len, size_t entry,
                         uint8_t *strip, size_t strip_len);

/*
 * Checks the dictionary and one layer of the object.
 *
 * 0: number is the field count, start is where the children's bytes begin, end
 *    is the object's trimmed end.
 * Otherwise a refusal: 10 to 19, 20 to 28, or 40.
 */
uint32_t lichenhusk_layer(const uint8_t *dict, size_t dict_len,
                          const uint8_t *object, size_t object_len,
                          uint8_t *strip, size_t strip_len);

/*
 * As lichenhusk_layer, and lists the fields: three words each, in the object's
 * order: the field's id (its entry in the dictionary); where its child starts
 * in the object; the span, which is the child's own encoded length. So the
 * child is the object's bytes from its start on, as many as the span says:
 * never 0, and never past the trimmed end. Bytes that no child has may lie
 * between. words_len counts words. Words after these stay as they are, and a
 * refusal leaves them all.
 *
 * The own length is told by the child's first bytes: a primitive's by its type,
 * a string's or a binary's by the length that it holds, an object's or a list's
 * by its last offset. What else the child says is not looked at.
 *
 * Otherwise a refusal: 10 to 19, 20 to 28, then 43 at the first field whose
 * child has no such length, and 41 after every other; or 40. All children are
 * measured before the first word is written.
 *
 * The time grows with the bytes of dictionary and object, as lichenhusk_layer's
 * does: each field is looked at once to measure its child and once to list it.
 */
uint32_t lichenhusk_list(const uint8_t *dict, size_t dict_len,
                         const uint8_t *object, size_t object_len,
                         uint32_t *words, size_t words_len,
                         uint8_t *strip, size_t strip_len);

/*
 * Reads the value that the bytes begin with: a found child, or any other. Bytes
 * after its own encoding change nothing, so that a child can be handed over as
 * it was found, up to the object's end. There is no limit of length.
 *
 * 0: number is the kind, and start and end are, by the kind:
 *      NULL, TRUE, FALSE   0 and 0.
 *      INT8 to INT64       the integer, as 64 bits with its sign extended:
 *                          lichenhusk_integer.
 *      DOUBLE              its 64 bits; FLOAT: its 32 bits and 0. Each bit is as
 *                          it was encoded, of what is not a number too:
 *                          lichenhusk_bits, to be copied into a double or float.
 *      all others          a place in the value's bytes: the text of a short
 *                          string, a binary or a string (after its length), the
 *                          whole encoding of an object or a list, the payload
 *                          (after the header byte) of any other primitive.
 * 50 or 51, with the place 0; or 40. Nothing else is refused: what the bytes of
 * a place say, whether a text is UTF-8 or a date is one, is not looked at.
 */
uint32_t lichenhusk_value(const uint8_t *value, size_t value_len,
                          uint8_t *strip, size_t strip_len);

/*
 * Checks the dictionary, and the value that the bytes begin with, with all that
 * is below it: an object is checked as by lichenhusk_layer and then each of its
 * children as a value; a list, its offsets and then each of its elements; any
 * other value for its length, a string for being UTF-8 as well. (A binary, a
 * decimal, a date is any bytes.) An object's child is handed the bytes from its
 * start to the object's trimmed end, a list's element those up to the next
 * offset; what follows a value's own bytes there is ignored.
 *
 * 0: end is the value's own length: it is the first so many bytes. All of it can
 *    be read: lichenhusk_layer and lichenhusk_value refuse no object and no value
 *    in it.
 * Otherwise a refusal of the first value, in order, that gets one. start is where
 * that value starts, counted from the first byte handed over, and the place is
 * one in its own layer: a nested object's 25 has the start of that object, and
 * its field. In this order: 10 to 19 of the dictionary, with the start 0; 20 of
 * the whole value; then
 *      of no bytes (the outermost value, a list's element): 50
 *      of an object: 52; 23 to 28
 *      of a list: 52; 60, 61; 62
 *      of any other value: 50, 51; 54
 * or 40, with which nothing is written, to the marks neither.
 *
 * MARKS make it fast, and change no answer. They are any number of bytes, 0 too,
 * which hold anything before; all of them are 0 afterwards, also under a refusal.
 * A value that was found good is marked at its start, so that it is looked into
 * once, however many fields and elements share it. (A primitive of a fixed length
 * and a short string are told by their few bytes, and not marked.) For a value of
 * up to LICHENHUSK_OWN_MARKS bytes the function has marks of its own, on the
 * stack: lend none. For a longer value, lend as many as the value has bytes. (More
 * than LICHENHUSK_OWN_MARKS but fewer than that are marks of the first so many
 * starts; LICHENHUSK_OWN_MARKS or fewer are cleared and not used.)
 *
 * The time grows with the bytes of dictionary and value where there are marks
 * enough, and children that are shared, or strings that lie in one string, cost
 * no more. It grows faster, with the square at worst, for what only an adversary
 * makes: strings that lie in each of two strings far apart, objects whose ids and
 * offsets overlap, many objects over an unsorted dictionary of long names that
 * begin alike. These were timed at 64 KiB and at 16 MiB, the latter with marks
 * for all of it (`rust/run.sh bench adversarial`):
 *      31 levels whose fields all share their child     0.2 ms     30 ms
 *      .. child and grandchild in turn                  0.1 ms     30 ms
 *      strings in a string, in any order                0.1 ms     35 ms
 *      lists in one another, as many as there is room   0.4 ms    0.1 s
 *      strings in two strings, in turn                  1.3 ms     70 s
 *      objects whose ids and offsets overlap            1.6 ms    130 s  *
 *      objects over two names that begin alike           13 ms    830 s  *
 * (x86-64, an AMD EPYC, one run; * by the square from 1 MiB, not run.) One range of text
 * is remembered, so that two that are asked in turn are read again and again;
 * counts of what is text, four lent bytes for each byte, would cure it. Names are
 * compared by their bytes where the dictionary is not sorted; where it is, by
 * their numbers, which is linear: take sorted dictionaries alone from whom you do
 * not trust. For headers that overlap no cure is known but a smaller limit: all
 * three are milliseconds at 64 KiB, and up to some seconds at 1 MiB.
 * Without marks, the time for a value above LICHENHUSK_OWN_MARKS bytes may double
 * with each level. The stack that is taken is some 104 KiB on x86-64, by the
 * frames of the functions: 73 for the marks of its own, whichever are used, and
 * the rest for 32 levels of calls.
 */
uint32_t lichenhusk_tree(const uint8_t *dict, size_t dict_len,
                         const uint8_t *value, size_t value_len,
                         uint8_t *marks, size_t marks_len,
                         uint8_t *strip, size_t strip_len);

/*
 * Reads a path, checks the dictionary, and follows the path into the value, layer
 * by layer.
 *
 * THE PATH is UTF-8, and its steps are names and indices: site.meter[2] is the
 * name site, the name meter and the index 2. A name by itself is all bytes up to
 * the next dot or bracket; after a dot one must follow. In brackets stands a name
 * in quotes, ' or ", or a number, below 2 to the 64th, before which a plus may
 * stand. A backslash there takes the byte after it as it is, a closing bracket
 * too: ['a.b'] is the name a.b, and ['a\]b'] is a]b. Backslashes are taken off
 * before quotes are looked for, so that ['a\'] is the name a. Outside of brackets
 * a backslash is a byte like others. The empty path has no steps.
 *
 * names and words are for the steps: the bytes of all names go to the first bytes
 * of names, in order without gaps, and three words for each step to the first of
 * words: 0, and where the name starts and ends in names; or 1, and the low and the
 * high half of the index. What comes after them stays as it is. path_len bytes of
 * names and 3 * path_len words always do. words_len counts words. The steps are
 * there whatever the answer is, but for 40 and for 70 to 76, which write to neither.
 *
 * A STEP that is a name is answered as by lichenhusk_lookup, and an index by the
 * list's checks, those of all elements, and then the element of that number. The
 * next step goes into what was found: an object's child up to the object's trimmed
 * end, a list's element up to the next offset. What else is in the value is not
 * looked at.
 *
 * 0: start and end are where what was found stands in the value, counted from its
 *    first byte. number is the last step's field, and id its entry in the
 *    dictionary; of an index, the index and 0. The empty path finds the whole value
 *    whatever it is, from 0 to its length (of more than 4,294,967,295 bytes, that
 *    number's low 32 bits), with 0 and 0. An element may have no bytes: start is
 *    end.
 * 1: an object on the way has no field of the name, or a list no such element.
 * Otherwise a refusal, whose place is one in its own layer; which layer it is, is
 * not told, and start is 0. In this order: 70; the first met of 71 to 75; 76; 10 to
 * 19 of the dictionary; then of each step
 *      20 and 21, the value that it goes into is over the limit or has no bytes
 *      53, it is of another kind
 *      23 to 28 of an object, or 60 to 62 of a list
 * or 40, with which nothing is written.
 *
 * The time grows with the bytes of the path, of the dictionary and of the layers on
 * the way; each of these is checked once.
 *
 * With the example's dictionary, this prints "-5":
 *
 *   const uint8_t value[] = {0x02, 1, 0, 0, 8, 0x03, 2, 0, 2, 3, 0x0C, 0xFB, 0x04};
 *   const uint8_t path[] = "flow[0]";
 *   uint8_t names[sizeof path];
 *   uint32_t words[LICHENHUSK_WORDS_PER_STEP * sizeof path];
 *
 *   if (lichenhusk_path(dict, sizeof dict, value, sizeof value,
 *                       path, sizeof path - 1, names, sizeof names,
 *                       words, sizeof words / sizeof words[0],
 *                       strip, sizeof strip) == LICHENHUSK_OK) {
 *       uint32_t start = lichenhusk_word(strip, LICHENHUSK_START);
 *       uint32_t end = lichenhusk_word(strip, LICHENHUSK_END);
 *       if (lichenhusk_value(value + start, end - start,
 *                            strip, sizeof strip) == LICHENHUSK_OK)
 *           printf("%d\n", (int) lichenhusk_integer(strip));
 *   }
 */
uint32_t lichenhusk_path(const uint8_t *dict, size_t dict_len,
                         const uint8_t *value, size_t value_len,
                         const uint8_t *path, size_t path_len,
                         uint8_t *names, size_t names_len,
                         uint32_t *words, size_t words_len,
                         uint8_t *strip, size_t strip_len);

/*
 * Writes the dictionary of names: sorted by their bytes, each name once, and its
 * numbers in the fewest bytes, 1 to 4, that hold both how many names it has and how
 * long they are together. The names are given as to lichenhusk_lookup_all: a run of
 * bytes, and ends[k] is where name k ends. Bytes of the run after the last end are
 * ignored. Names may come in any order, and more than once: the same set of names
 * gives the same bytes. A name may have no bytes. Of no names, the dictionary is
 * 11 00 00. ends_len, order_len and spare_len count words.
 *
 * 0: the dictionary is the first bytes of room, and bytes after it stay as they are.
 *    number is how many names it has, and end is its length. It is read back:
 *    lichenhusk_dictionary accepts it with the same two, and lichenhusk_name finds
 *    each name that was given, in their order.
 * Otherwise a refusal, which leaves room as it is, in this order:
 *      45 at the first name whose end falls below where it begins or passes the
 *         run, or that is not UTF-8; all names are looked at before anything else
 *      10, the dictionary would be longer than LICHENHUSK_LIMIT
 *      46, room is shorter than the dictionary
 * or 40, with which nothing at all is written. Nothing else is refused. A room of
 * 9 bytes, 4 for each name and those of the run always does, and so does one of
 * LICHENHUSK_LIMIT bytes.
 *
 * ORDER AND SPARE are scratch: they make it fast, and change no answer. Each is any
 * number of words, 0 too, which hold anything before; what they hold afterwards is
 * not said, under a refusal neither. With ends_len words or more in both, the names
 * are sorted there: the time grows as that of sorting, with n log n for n names,
 * whatever order they come in, sorted already, reversed or all equal too. With fewer
 * in either, each next name is looked for among all: scratch is not written then (which
 * is tested, and not proved), and the time grows with n times the different names, with
 * the square of n where all are different.
 * Times on an x86-64 processor (AMD EPYC), names of twelve letters, for 1,000, 100,000
 * and 1,000,000 of them, in milliseconds: with scratch in no order 0.04, 15 and 306,
 * sorted 0.04, 6.5 and 76, reversed 0.05, 7.2 and 79, all equal 0.014, 2.0 and 15;
 * without scratch in no order 9.0, and by the square, not run, some 90,000 and
 * 9,000,000 (all equal as with it).
 *
 * This makes the example's dictionary, and prints "2 names, 13 bytes":
 *
 *   const uint8_t run[] = "rollflowroll";
 *   const uint32_t ends[] = {4, 8, 12};
 *   uint32_t order[3], spare[3];
 *   uint8_t room[9 + 4 * 3 + sizeof run];
 *
 *   if (lichenhusk_write_dictionary(run, sizeof run - 1, ends, 3, order, 3, spare, 3,
 *                                   room, sizeof room,
 *                                   strip, sizeof strip) == LICHENHUSK_OK)
 *       printf("%u names, %u bytes\n",
 *              (unsigned) lichenhusk_word(strip, LICHENHUSK_NUMBER),
 *              (unsigned) lichenhusk_word(strip, LICHENHUSK_END));
 */
uint32_t lichenhusk_write_dictionary(const uint8_t *run, size_t run_len,
                                     const uint32_t *ends, size_t ends_len,
                                     uint32_t *order, size_t order_len,
                                     uint32_t *spare, size_t spare_len,
                                     uint8_t *room, size_t room_len,
                                     uint8_t *strip, size_t strip_len);

/*
 * Checks the dictionary, and writes an object over it: one layer, of fields whose
 * children's bytes are given. A field is a pair of three words: its id, which is the
 * entry of the dictionary that is its name, and where its child starts and ends in
 * bytes (the first byte that no longer belongs). Pairs may come in any order: the
 * same ones give the same bytes. They may lend the same bytes, or overlapping ones,
 * which are written for each. One or two words left over after the last whole pair
 * are ignored. pairs_len, order_len and spare_len count words.
 *
 * The object has its fields in the order of their names, by their bytes; its children
 * in that order, without gaps; its ids in the fewest bytes, 1 to 4, that hold the
 * largest of them, its offsets in the fewest that hold the length of all children
 * together; and four bytes for the count where there are more than 255 fields. Of no
 * pairs it is 02 00 00. What the children say is not looked at: where each is a good
 * tree over this dictionary, of fewer than LICHENHUSK_LEVELS levels, the object is one.
 *
 * 0: the object is the first bytes of room, and bytes after it stay as they are.
 *    number is how many fields it has, start is where the children's bytes begin,
 *    and end is its length. It is read back: lichenhusk_layer accepts it with the
 *    same three, and lichenhusk_lookup finds each name, in bytes that begin with its
 *    child, and no other name.
 * Otherwise a refusal, which leaves room as it is, in this order, each looked for in
 * all pairs before the next, and given at the first such pair:
 *      10 to 19 of the dictionary
 *      25, the id names no entry
 *      26, the name is that of an earlier pair. Entries of one name, which a
 *          dictionary that is not sorted may have, are one name
 *      45, the end is below the start, or passes bytes
 *      28, the end is the start: a child has a byte at least
 *      20, the object would be longer than LICHENHUSK_LIMIT
 *      46, room is shorter than the object
 * or 40, with which nothing at all is written. Nothing else is refused. A room of
 * 9 bytes, 8 for each pair and those of all children together always does, and so
 * does one of LICHENHUSK_LIMIT bytes.
 *
 * ORDER AND SPARE are scratch, as of lichenhusk_write_dictionary: they make it fast,
 * and change no answer. Each is any number of words, 0 too, which hold anything
 * before; what they hold afterwards is not said, under a refusal neither. With a word
 * for each pair, pairs_len / 3, or more in both, the pairs are sorted there: the time
 * grows with the dictionary, with the object, and as that of sorting, with n log n
 * for n pairs, whatever order they come in. Where a name comes again, some log n more
 * such sorts find 26's place, and the same names may be compared to their ends. With
 * fewer in either, each next name is looked for among all: scratch is not written then
 * (which is tested, and not proved), and the time grows with the square of n.
 * Times on an x86-64 processor (AMD EPYC), over a sorted dictionary, for 1,000,
 * 100,000 and 1,000,000 fields of two bytes, in milliseconds: with scratch in no order
 * 0.07, 12 and 195, sorted 0.04, 4.7 and 52, reversed 0.06, 4.8 and 51; without scratch
 * in no order 12, and by the square, not run, some 124,000 and 12,400,000.
 *
 * With the example's dictionary, this prints "2 fields, 10 bytes":
 *
 *   const uint8_t bytes[] = {0x04, 0x0C, 0xFB};
 *   const uint32_t pairs[] = {1, 0, 1, 0, 1, 3};
 *   uint32_t order[2], spare[2];
 *   uint8_t room[9 + 8 * 2 + sizeof bytes];
 *
 *   if (lichenhusk_write_object(dict, sizeof dict, bytes, sizeof bytes,
 *                               pairs, 2 * LICHENHUSK_WORDS_PER_PAIR,
 *                               order, 2, spare, 2, room, sizeof room,
 *                               strip, sizeof strip) == LICHENHUSK_OK)
 *       printf("%u fields, %u bytes\n",
 *              (unsigned) lichenhusk_word(strip, LICHENHUSK_NUMBER),
 *              (unsigned) lichenhusk_word(strip, LICHENHUSK_END));
 */
uint32_t lichenhusk_write_object(const uint8_t *dict, size_t dict_len,
                                 const uint8_t *bytes, size_t bytes_len,
                                 const uint32_t *pairs, size_t pairs_len,
                                 uint32_t *order, size_t order_len,
                                 uint32_t *spare, size_t spare_len,
                                 uint8_t *room, size_t room_len,
                                 uint8_t *strip, size_t strip_len);

/*
 * Begins a dictionary that comes in pieces: writes its first state to the strip.
 *
 * 3: number is 0, the bytes that are held, and end is 1, the bytes that are wanted.
 * Or 40, with which nothing is written. Nothing else is answered.
 */
uint32_t lichenhusk_begin(uint8_t *strip, size_t strip_len);

/*
 * Takes the next piece of a dictionary in: copies it into store, after what is held
 * there, and judges what is held then.
 *
 * THE STRIP IS THE STATE. It is read before it is written: hand over the one that
 * lichenhusk_begin wrote, and then each time the one that the call before left. Of a
 * code 3 the number is read, which says how many bytes of store are held, and no
 * other word. Any other code is settled: it stays, with the whole strip, and so does
 * store, whatever the piece is. (So a strip of zeros is settled, and not a first
 * state.) Between the calls of one dictionary nobody else writes to store.
 *
 * However the bytes are cut, into pieces of no bytes too, the answer is that of
 * lichenhusk_dictionary to the first bytes that came, as many as there is room for:
 * store_len, or LICHENHUSK_LIMIT where that is less. Where these have no verdict yet,
 * since lichenhusk_dictionary says 11 or 13 to them:
 *
 * 3: number is how many bytes are held, and end is how many are wanted: no fewer
 *    settle it, whatever they are. It is more than are held, and no more than a good
 *    dictionary has, so that a host that reads end - number bytes at most takes none
 *    that come after the dictionary. It may be more than there is room for. A store
 *    that is just full is no reason to refuse.
 * 44: more bytes have come than there is room for.
 *
 * Otherwise it is settled, as lichenhusk_dictionary says it:
 *
 * 0: number is the entry count, end is the trimmed end, and so many bytes of store are
 *    the dictionary.
 * Or a refusal: 12, 14 to 19; or 40, with which nothing is written, to store neither.
 *
 * STORE IS WRITTEN, under a refusal too: a piece is copied as far as there is room, and
 * then judged. Bytes of store after those that settle the verdict may depend on how the
 * dictionary was cut. Bytes after the last piece that was copied stay as they are; a
 * piece that comes when it is settled is not copied, nor one to a state that counts
 * more bytes than there is room for (44).
 *
 * The time grows with the bytes and with the calls: until the header's checks pass, a
 * call takes the same time whatever is held, beside its copying, and then the names
 * are checked once.
 *
 * This takes the example's dictionary in, and prints "1 2 5 13 then 2 names":
 *
 *   uint8_t store[64];
 *   uint32_t held, wanted;
 *
 *   lichenhusk_begin(strip, sizeof strip);
 *   while (lichenhusk_word(strip, LICHENHUSK_CODE) == LICHENHUSK_MORE) {
 *       held = lichenhusk_word(strip, LICHENHUSK_NUMBER);
 *       wanted = lichenhusk_word(strip, LICHENHUSK_END);
 *       printf("%u ", (unsigned) wanted);
 *       lichenhusk_feed(store, sizeof store, dict + held, wanted - held,
 *                       strip, sizeof strip);
 *   }
 *   printf("then %u names\n", (unsigned) lichenhusk_word(strip, LICHENHUSK_NUMBER));
 */
uint32_t lichenhusk_feed(uint8_t *store, size_t store_len,
                         const uint8_t *piece, size_t piece_len,
                         uint8_t *strip, size_t strip_len);

/*
 * Writes the empty dictionary, the bytes 01 00 00, to the first three bytes of
 * room; bytes after them stay as they are.
 *
 * 0, or 42 with nothing written. There is no strip.
 */
uint32_t lichenhusk_empty(uint8_t *room, size_t room_len);

#ifdef __cplusplus
}
#endif

#endif
