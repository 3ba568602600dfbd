/* Votrikany for C: sealing and opening with MORUS-1280-128, at once or in parts, the line journal, and the readings in
 * it.
 *
 * The functions are those of the crate `export`, proved to keep its specs/Promise.antt; that this file says the same in
 * words is read, and tested. Build the library with `tools/build export`, which writes crates/export/out/libexport.a:
 * x86-64 Linux code that wants nothing but `memcpy` and `memset` of the C library.
 *
 * Numbers given back. Each function but `votrikany_newer` and the two that begin a record returns one of these; what it
 * leaves is said with it.
 *    0  done, opened, decoded, the tag is    13  the frame buffer has under 353 bytes
 *       right                                14  the place is the journal's end
 *    1  the tag differs                      15  the line buffer is shorter than the line
 *    2  2^61 bytes or more                   16  a roll mark: an empty line, no damage
 *    3  the second buffer's length is        17  not 20 bytes: no reading
 *       not the text's                       18  resident or active is above 2^53
 *    4  over 706 bytes before the newline    19  active is above resident
 *    5  a byte is not 0-9 or a-f             20  resident is zero
 *    6  an odd number of digits              21  the frame area is not 353 bytes
 *    7  1 to 32 frame bytes                      for each slot
 *    8  over 64 bytes of data                22  the nonce is sixteen zero bytes
 *    9  the frame ends before its data does  23  data after a part of the message
 *   10  over 256 bytes of message            24  the record is closed: its tag was
 *   11  no newline up to the journal's end       given or judged
 *   12  the place is beyond the journal's
 *       end
 *
 * What the caller owes. Nothing checks a caller that is not Rattle:
 *  - `key`, `nonce` and `tag` point to 16 bytes each. They, and the pointers to one size_t, double, uint32_t or record,
 *    are never null.
 *  - Any other pointer is to as many bytes as the length behind it says, but `slots` to as many words, each a size_t,
 *    and aligned as a size_t is. It may be null where that length is 0, and only there.
 *  - What is written to (each pointer without `const`) overlaps nothing else of the call. What is only read may overlap.
 *  - No other thread writes to any of it during the call, or reads what the call writes.
 *  - Doubles are rounded to nearest, and nothing traps, as a program starts: `votrikany_decode` divides as the thread
 *    is set.
 *  - A record, `votrikany_sealer` or `votrikany_checker`, is what `votrikany_sealer_begin` or `votrikany_checker_begin`
 *    gave, or a copy of such a one; copies are independent of each other. One of all zero bytes is allowed too, and is
 *    closed. Any other bytes are not: two of them are booleans.
 * The functions keep no pointer, allocate nothing and hold no state between calls but in the caller's records, so any
 * number of threads may be in them.
 * They always return. What stack they need is measured and not proved: less than 4,096 bytes in every call that
 * tests/library/stack.c makes, with `memcpy` and `memset` linked in.
 *
 * A nonce must not be used twice with one key: no function can see that, and none checks it. One nonce the journal
 * refuses: sixteen zero bytes, as where nobody set it, is neither written nor read, even if the tag is right (22). The
 * functions that seal, open and check take it as any other.
 */
#ifndef VOTRIKANY_H
#define VOTRIKANY_H

#ifndef __cplusplus
#include <stdbool.h>
#endif
#include <stddef.h>
#include <stdint.h>

#ifdef __cplusplus
extern "C" {
#endif

enum {
    VOTRIKANY_DONE = 0,
    VOTRIKANY_TAG_DIFFERS = 1,
    VOTRIKANY_TOO_LONG = 2,
    VOTRIKANY_OTHER_LENGTH = 3,
    VOTRIKANY_LINE_TOO_LONG = 4,
    VOTRIKANY_NOT_DIGIT = 5,
    VOTRIKANY_ODD = 6,
    VOTRIKANY_FRAME_TOO_SHORT = 7,
    VOTRIKANY_DATA_TOO_LONG = 8,
    VOTRIKANY_DATA_PAST_FRAME = 9,
    VOTRIKANY_MESSAGE_TOO_LONG = 10,
    VOTRIKANY_NO_NEWLINE = 11,
    VOTRIKANY_PLACE_BEYOND = 12,
    VOTRIKANY_BUFFER_TOO_SMALL = 13,
    VOTRIKANY_END = 14,
    VOTRIKANY_LINE_TOO_SMALL = 15,
    VOTRIKANY_ROLL_MARK = 16,
    VOTRIKANY_NOT_TWENTY = 17,
    VOTRIKANY_COUNTER_TOO_LARGE = 18,
    VOTRIKANY_ACTIVE_ABOVE = 19,
    VOTRIKANY_RESIDENT_ZERO = 20,
    VOTRIKANY_AREA_DIFFERS = 21,
    VOTRIKANY_ZERO_NONCE = 22,
    VOTRIKANY_DATA_LATE = 23,
    VOTRIKANY_RECORD_CLOSED = 24
};

/* A frame is nonce (16), data count n (1), data (n), message or ciphertext (m), tag (16); a line is a frame in lowercase
 * hexadecimal and a newline. */
enum {
    VOTRIKANY_MOST_DATA = 64,
    VOTRIKANY_MOST_MESSAGE = 256,
    VOTRIKANY_FRAME_SIZE = 353,  /* the least that a frame buffer has */
    VOTRIKANY_LONGEST_LINE = 707,
    VOTRIKANY_DATA_AT = 17,      /* where the data stands in an opened frame; the message stands at 17 + n */
    VOTRIKANY_READING_SIZE = 20, /* the bytes of a message that is a reading */
    VOTRIKANY_SLOT_SIZE = 5      /* the words, of a size_t each, of a slot */
};

/* Seals `text_length` bytes of message at `text` where they stand, bound to the data `ad`, and puts the tag at `tag`.
 * Here and in the next three functions the nonce may be any sixteen bytes, zeros too: 22 is the journal's alone.
 *   0  `text` holds the ciphertext, `tag` the tag.
 *   2  `ad_length` or `text_length` is 2^61 or more: `text` is untouched, `tag` is sixteen zero bytes.
 */
uint8_t votrikany_seal_in_place(const uint8_t *key, const uint8_t *nonce, const uint8_t *ad, size_t ad_length,
                                uint8_t *text, size_t text_length, uint8_t *tag);

/* Opens `text_length` bytes of ciphertext at `text` where they stand.
 *   0  `text` holds the message.
 *   2  `ad_length` or `text_length` is 2^61 or more: every byte of `text` is 0xaa.
 *   1  the tag differs: every byte of `text` is 0xaa.
 */
uint8_t votrikany_open_in_place(const uint8_t *key, const uint8_t *nonce, const uint8_t *ad, size_t ad_length,
                                uint8_t *text, size_t text_length, const uint8_t *tag);

/* Seals `message_length` bytes at `message` into `out`, and puts the tag at `tag`.
 *   0  `out` holds the ciphertext, `tag` the tag.
 *   2  `ad_length` or `message_length` is 2^61 or more: `out` is untouched, `tag` is sixteen zero bytes.
 *   3  `out_length` is not `message_length`: as 2.
 */
uint8_t votrikany_seal(const uint8_t *key, const uint8_t *nonce, const uint8_t *ad, size_t ad_length,
                       const uint8_t *message, size_t message_length, uint8_t *out, size_t out_length, uint8_t *tag);

/* Opens `cipher_length` bytes at `cipher` into `out`.
 *   0  `out` holds the message.
 *   2  `ad_length` or `cipher_length` is 2^61 or more: every byte of `out` is 0xaa.
 *   3  `out_length` is not `cipher_length`: every byte of `out` is 0xaa.
 *   1  the tag differs: every byte of `out` is 0xaa.
 */
uint8_t votrikany_open(const uint8_t *key, const uint8_t *nonce, const uint8_t *ad, size_t ad_length,
                       const uint8_t *cipher, size_t cipher_length, const uint8_t *tag, uint8_t *out, size_t out_length);

/* A message that comes in parts, as a heap map does that no host holds whole. A sealer takes the parts of the data,
 * then those of the message, each sealed in place at once, and then gives the tag. A checker takes data, ciphertext
 * and a tag, and says whether the tag is right; it hands out nothing of the message. Parts have any length, 0 too.
 * However they are cut, ciphertext and tag are those of one call of `votrikany_seal_in_place`; so the tag does not say
 * where the cuts were.
 *
 *     votrikany_sealer sealer = votrikany_sealer_begin(key, nonce);
 *     votrikany_sealer_data(&sealer, host, host_length);
 *     while ((length = next_part(part)) != 0) {
 *         if (votrikany_sealer_message(&sealer, part, length) != VOTRIKANY_DONE)
 *             return;
 *         send(part, length);
 *     }
 *     votrikany_sealer_tag(&sealer, tag);
 *     send(tag, 16);
 *
 * A refused call leaves record and part as they were: a part that is refused is still the message, and the record can
 * go on with another.
 * Each record is 216 bytes, aligned as a uint64_t is, and stands wherever the caller puts it. What is in it is not to
 * be read or written: it is as secret as the key, and some bytes of the message are in it, of a checker too. Closing
 * wipes nothing. Two copies of a sealer that go on apart seal two messages under one nonce, which must not be.
 */
typedef struct {
    uint64_t words[27];
} votrikany_sealer;

typedef struct {
    uint64_t words[27];
} votrikany_checker;

/* Gives a record that has taken nothing yet. The nonce may be any sixteen bytes. */
votrikany_sealer votrikany_sealer_begin(const uint8_t *key, const uint8_t *nonce);

/* Takes a part of the data.
 *   0  it is taken.
 *  24  the record is closed; 23 a part of the message has come, if only an empty one; 2 with this part the data would
 *      have 2^61 bytes or more (in this order): the record is as it was.
 */
uint8_t votrikany_sealer_data(votrikany_sealer *sealer, const uint8_t *part, size_t part_length);

/* Seals a part of the message where it stands. The first one, an empty one too, ends the data.
 *   0  `part` holds its ciphertext.
 *  24  the record is closed; 2 with this part the message would have 2^61 bytes or more (in this order): `part` and the
 *      record are as they were.
 */
uint8_t votrikany_sealer_message(votrikany_sealer *sealer, uint8_t *part, size_t part_length);

/* Puts the tag of all that came at `tag`. Where no part of the message came, that is the tag of the empty message.
 *   0  `tag` holds the tag, and the record is closed: every further call with it answers 24.
 *  24  it was closed before: `tag` is sixteen zero bytes, the record is as it was.
 */
uint8_t votrikany_sealer_tag(votrikany_sealer *sealer, uint8_t *tag);

/* Gives a record that has taken nothing yet. The nonce may be any sixteen bytes. */
votrikany_checker votrikany_checker_begin(const uint8_t *key, const uint8_t *nonce);

/* Takes a part of the data, with the numbers of `votrikany_sealer_data`. */
uint8_t votrikany_checker_data(votrikany_checker *checker, const uint8_t *part, size_t part_length);

/* Takes a part of the ciphertext, with the numbers of `votrikany_sealer_message`. The part is only read. */
uint8_t votrikany_checker_ciphertext(votrikany_checker *checker, const uint8_t *part, size_t part_length);

/* Says whether `tag` is the tag of all that came.
 *   0  it is; 1 it is not: what came is not to be used. Either way the record is closed.
 *  24  it was closed before: the record is as it was, and nothing is said of the tag.
 */
uint8_t votrikany_checker_tag(votrikany_checker *checker, const uint8_t *tag);

/* Seals data and a message into one line of the journal at the front of `line`, and puts the line's length at `size`.
 *   0  `line` begins with the line, newline included; the bytes behind it are as they were.
 *      `*size` is 2 * (33 + ad_length + message_length) + 1.
 *   8  `ad_length` is over 64; 10 `message_length` is over 256; 22 all sixteen bytes of `nonce` are 0; 15 `line_length`
 *      is less than the line needs (in this order): `line` is untouched, `*size` is 0.
 */
uint8_t votrikany_write_line(const uint8_t *key, const uint8_t *nonce, const uint8_t *ad, size_t ad_length,
                             const uint8_t *message, size_t message_length, uint8_t *line, size_t line_length, size_t *size);

/* Reads the line that starts at `place` in the journal, and opens its frame into `frame`.
 *   0  `frame` begins with the frame: nonce at 0, the count n at 16, data at 17, the message at 17 + n, the tag behind it.
 *      Every byte behind the frame is 0xaa. `*n` and `*m` are the lengths of data and message.
 *      `*next` is one past the line's newline.
 *   Any other number: every byte of `frame` is 0xaa, `*n` and `*m` are 0. `*next` is one past the line's newline for 1,
 *   4 to 10, 16 and 22, the journal's length for 11, and `place` for 12, 13 and 14.
 *   They are looked for in the order 13, 12, 14, 11, 16, 4, 5, 6, 7, 8, 9, 10, 22, 1.
 *   16 is a roll mark: an empty line with its newline, which a log roller writes at each roll. There is no reading in
 *   it, and nothing is wrong with it: who counts damage leaves it out.
 *   22 is a line whose nonce is sixteen zero bytes, as a sampler seals that came up without its counter. Its tag is not
 *   looked at, and may be right.
 *   With 5, `*at` is the place of the line's first byte that is not 0-9 or a-f, counted from the journal's start as
 *   `place` is; with every other number, 0 too, `*at` is `place`.
 * From place 0, with `*next` for the next place and a frame buffer of 353 bytes or more, a journal of L bytes answers
 * 14 by call L + 1.
 */
uint8_t votrikany_read_line(const uint8_t *journal, size_t journal_length, size_t place, const uint8_t *key,
                            uint8_t *frame, size_t frame_length, size_t *next, size_t *n, size_t *m, size_t *at);

/* A slot of `votrikany_read_lines`: what `votrikany_read_line` returns for one line, and the four that it hands out. */
struct votrikany_slot {
    size_t number, next, n, m, at;
};

/* Reads k lines in one call, from `place` on, with k = slots_length / 5: `slots_length` counts words of a size_t, five
 * to a slot, and neither bytes nor slots. Slot i is the words 5 * i to 5 * i + 4 of `slots`, in the order of the struct
 * above; frame i is the bytes 353 * i to 353 * i + 352 of `frames`.
 *   0  Slots and frames are what k calls of `votrikany_read_line` hand out, each with frame i for its frame buffer, the
 *      first from `place`, every other from the place that the one before gave. A line that is not opened has its
 *      number in its slot, by the order of `votrikany_read_line`, 22 before 1; the call answers 0 all the same. Once a
 *      slot says 14, so does every one behind it; from a place beyond the end every slot says 12. `*next` is the last
 *      slot's next place; with no slot it is `place`.
 *  21  `frames_length` is not 353 * k, which is looked at before all else: every byte of `frames` is 0xaa, each slot is
 *      21, place, 0, 0, place, and `*next` is `place`.
 *   With either, the words behind the last whole slot, at most four, are as they were.
 * An array of the struct can be handed over as `(size_t *)slots, 5 * k`, but only since it is five size_t with nothing
 * between them: each member is then written as the size_t that it is. A whole journal, with 64 slots:
 *
 *     struct votrikany_slot slots[64];
 *     uint8_t frames[64 * VOTRIKANY_FRAME_SIZE];
 *     size_t place = 0, next;
 *     for (;;) {
 *         votrikany_read_lines(journal, journal_length, place, key, (size_t *)slots, 64 * VOTRIKANY_SLOT_SIZE,
 *                              frames, sizeof frames, &next);
 *         for (size_t i = 0; i < 64; i++) {
 *             if (slots[i].number == VOTRIKANY_END)
 *                 return;
 *             use(place, &slots[i], frames + i * VOTRIKANY_FRAME_SIZE);
 *             place = slots[i].next;
 *         }
 *     }
 *
 * There `place` is where the line of slot i starts, and behind the last slot it is `next`. From a place beyond the end
 * no slot says 14, and the loop would not end.
 */
uint8_t votrikany_read_lines(const uint8_t *journal, size_t journal_length, size_t place, const uint8_t *key,
                             size_t *slots, size_t slots_length, uint8_t *frames, size_t frames_length, size_t *next);

/* Decodes a message that is a reading of the heap at one instant: tick (4 bytes), resident (8) and active (8), each
 * with its low byte first.
 *   0  `*ratio` is resident - active over resident, from 0 to 1: two whole numbers, each a double without loss, divided
 *      once, so its bits are fixed. `*tick` is the tick.
 *  17  `message_length` is not 20; 18 resident or active is above 2^53; 19 active is above resident; 20 resident is 0
 *      (in this order): every byte of `*ratio` and of `*tick` is 0xaa. As a double that is about -3.7e-103, below zero,
 *      which no ratio is; a reading's tick can be 0xaaaaaaaa, so a tick does not say that it is none.
 */
uint8_t votrikany_decode(const uint8_t *message, size_t message_length, double *ratio, uint32_t *tick);

/* Says whether tick `a` is newer than tick `b`. Ticks go round at 2^32: `a` is newer if a - b, wrapped, is from 1 to
 * 2^31 - 1. So no tick is newer than itself, and of two that are exactly 2^31 apart neither is newer.
 */
bool votrikany_newer(uint32_t a, uint32_t b);

#ifdef __cplusplus
}
#endif

#endif
