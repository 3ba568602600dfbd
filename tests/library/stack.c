/* How much stack the functions need. Each call runs on a stack of its own that was painted before, twice, in two
 * colours: the bytes from the lowest one that has lost its paint up are counted, with what starting the call takes. */
#define _XOPEN_SOURCE 700
#include <stdio.h>
#include <string.h>
#include <ucontext.h>
#include "votrikany.h"

enum { ROOM = 65536, LONG = 5000, SLOTS = 8 };

static const uint8_t key[16] = { 1, 2, 3 };
static uint8_t nonce[16] = { 4, 5, 6 }, data[LONG], text[LONG], out[LONG], tag[16], line[800], frame[400], stack[ROOM];
static uint8_t frames[SLOTS * VOTRIKANY_FRAME_SIZE];
static struct votrikany_slot slots[SLOTS];
static size_t data_length, text_length, out_length, line_length, frames_length, place, next, n, m, at;
static votrikany_sealer sealer;
static votrikany_checker checker;
static uint8_t *part;
static size_t part_length;
static double ratio;
static uint32_t tick;
static uint8_t number;
static size_t calls, most;
static int failed;

static void seal_in_place(void)
{
    number = votrikany_seal_in_place(key, nonce, data, data_length, text, text_length, tag);
}

static void open_in_place(void)
{
    number = votrikany_open_in_place(key, nonce, data, data_length, text, text_length, tag);
}

static void seal(void)
{
    number = votrikany_seal(key, nonce, data, data_length, text, text_length, out, out_length, tag);
}

static void open_sealed(void)
{
    number = votrikany_open(key, nonce, data, data_length, out, text_length, tag, text, out_length);
}

static void write_line(void)
{
    number = votrikany_write_line(key, nonce, data, data_length, text, text_length, line, sizeof line, &line_length);
}

static void read_line(void)
{
    number = votrikany_read_line(line, line_length, place, key, frame, sizeof frame, &next, &n, &m, &at);
}

static void read_lines(void)
{
    number = votrikany_read_lines(line, line_length, place, key, (size_t *)slots, SLOTS * VOTRIKANY_SLOT_SIZE, frames,
                                  frames_length, &next);
}

static void sealer_begin(void)
{
    sealer = votrikany_sealer_begin(key, nonce);
    number = VOTRIKANY_DONE;
}

static void sealer_data(void)
{
    number = votrikany_sealer_data(&sealer, part, part_length);
}

static void sealer_message(void)
{
    number = votrikany_sealer_message(&sealer, part, part_length);
}

static void sealer_tag(void)
{
    number = votrikany_sealer_tag(&sealer, tag);
}

static void checker_begin(void)
{
    checker = votrikany_checker_begin(key, nonce);
    number = VOTRIKANY_DONE;
}

static void checker_data(void)
{
    number = votrikany_checker_data(&checker, part, part_length);
}

static void checker_ciphertext(void)
{
    number = votrikany_checker_ciphertext(&checker, part, part_length);
}

static void checker_tag(void)
{
    number = votrikany_checker_tag(&checker, tag);
}

static void decode(void)
{
    number = votrikany_decode(text, text_length, &ratio, &tick);
}

static void newer(void)
{
    number = votrikany_newer(tick, 0);
}

static size_t used(void (*call)(void), uint8_t paint)
{
    static ucontext_t here, there;
    size_t kept = 0;
    memset(stack, paint, sizeof stack);
    getcontext(&there);
    there.uc_stack.ss_sp = stack;
    there.uc_stack.ss_size = sizeof stack;
    there.uc_link = &here;
    makecontext(&there, call, 0);
    swapcontext(&here, &there);
    while (kept < sizeof stack && stack[kept] == paint)
        kept++;
    return sizeof stack - kept;
}

/* A call changes what it works on, so before the second colour everything is put back. */
static void measure(void (*call)(void), uint8_t wanted, const char *what)
{
    static uint8_t old_text[LONG], old_out[LONG], old_tag[16];
    votrikany_sealer old_sealer = sealer;
    votrikany_checker old_checker = checker;
    memcpy(old_text, text, sizeof text), memcpy(old_out, out, sizeof out), memcpy(old_tag, tag, sizeof tag);
    size_t first = used(call, 0x5a);
    memcpy(text, old_text, sizeof text), memcpy(out, old_out, sizeof out), memcpy(tag, old_tag, sizeof tag);
    sealer = old_sealer, checker = old_checker;
    size_t second = used(call, 0xa5);
    size_t larger = first > second ? first : second;
    calls++;
    if (larger > most)
        most = larger;
    if (number != wanted) {
        printf("stack: %s answers %d and not %d\n", what, number, wanted);
        failed = 1;
    }
}

/* One line alone, and in the first of eight slots, which all are filled. */
static void measure_reading(uint8_t wanted, const char *what)
{
    measure(read_line, wanted, what);
    frames_length = sizeof frames;
    measure(read_lines, VOTRIKANY_DONE, "read_lines");
    if (slots[0].number != wanted) {
        printf("stack: %s in a slot has the number %d and not %d\n", what, (int)slots[0].number, wanted);
        failed = 1;
    }
}

/* The second of two parts begins inside a block, or not. */
static void two_parts(void (*call)(void), uint8_t *bytes, size_t length, const char *what)
{
    part = bytes, part_length = length / 3;
    measure(call, VOTRIKANY_DONE, what);
    part += part_length, part_length = length - part_length;
    measure(call, VOTRIKANY_DONE, what);
}

static void in_parts(void)
{
    measure(sealer_begin, VOTRIKANY_DONE, "sealer_begin");
    two_parts(sealer_data, data, data_length, "sealer_data");
    two_parts(sealer_message, text, text_length, "sealer_message");
    measure(sealer_tag, VOTRIKANY_DONE, "sealer_tag");
    measure(checker_begin, VOTRIKANY_DONE, "checker_begin");
    two_parts(checker_data, data, data_length, "checker_data");
    two_parts(checker_ciphertext, text, text_length, "checker_ciphertext");
    measure(checker_tag, VOTRIKANY_DONE, "checker_tag");
}

static void good(size_t data_bytes, size_t text_bytes)
{
    data_length = data_bytes;
    text_length = out_length = text_bytes;
    measure(seal_in_place, 0, "seal_in_place");
    measure(open_in_place, 0, "open_in_place");
    measure(seal, 0, "seal");
    measure(open_sealed, 0, "open");
    if (text_bytes <= 96 || text_bytes == LONG) /* a third of them ends at each place of a block */
        in_parts();
    if (data_bytes <= VOTRIKANY_MOST_DATA && text_bytes <= VOTRIKANY_MOST_MESSAGE) {
        measure(write_line, 0, "write_line");
        measure_reading(VOTRIKANY_DONE, "read_line");
    }
}

static void cipher_refused(void)
{
    data_length = 33;
    text_length = out_length = 300;
    measure(seal, 0, "seal");
    tag[15] ^= 1;
    measure(open_sealed, VOTRIKANY_TAG_DIFFERS, "open, another tag");
    measure(open_in_place, VOTRIKANY_TAG_DIFFERS, "open_in_place, another tag");
    out_length = 299;
    measure(seal, VOTRIKANY_OTHER_LENGTH, "seal, another length");
    measure(open_sealed, VOTRIKANY_OTHER_LENGTH, "open, another length");
    data_length = (size_t)1 << 61;
    measure(seal, VOTRIKANY_TOO_LONG, "seal, 2^61 bytes");
    measure(open_sealed, VOTRIKANY_TOO_LONG, "open, 2^61 bytes");
    measure(seal_in_place, VOTRIKANY_TOO_LONG, "seal_in_place, 2^61 bytes");
    measure(open_in_place, VOTRIKANY_TOO_LONG, "open_in_place, 2^61 bytes");
}

/* Parts too long, data too late, another tag, and each call to a closed record. */
static void parts_refused(void)
{
    sealer_begin(), checker_begin();
    part = text, part_length = (size_t)1 << 61;
    measure(sealer_data, VOTRIKANY_TOO_LONG, "sealer_data, 2^61 bytes");
    measure(checker_data, VOTRIKANY_TOO_LONG, "checker_data, 2^61 bytes");
    measure(sealer_message, VOTRIKANY_TOO_LONG, "sealer_message, 2^61 bytes");
    measure(checker_ciphertext, VOTRIKANY_TOO_LONG, "checker_ciphertext, 2^61 bytes");
    part_length = 33;
    measure(sealer_message, VOTRIKANY_DONE, "sealer_message");
    measure(checker_ciphertext, VOTRIKANY_DONE, "checker_ciphertext");
    measure(sealer_data, VOTRIKANY_DATA_LATE, "sealer_data after a message");
    measure(checker_data, VOTRIKANY_DATA_LATE, "checker_data after a message");
    measure(sealer_tag, VOTRIKANY_DONE, "sealer_tag");
    tag[15] ^= 1;
    measure(checker_tag, VOTRIKANY_TAG_DIFFERS, "checker_tag, another tag");
    measure(sealer_data, VOTRIKANY_RECORD_CLOSED, "sealer_data after the tag");
    measure(sealer_message, VOTRIKANY_RECORD_CLOSED, "sealer_message after the tag");
    measure(sealer_tag, VOTRIKANY_RECORD_CLOSED, "sealer_tag after the tag");
    measure(checker_data, VOTRIKANY_RECORD_CLOSED, "checker_data after the tag");
    measure(checker_ciphertext, VOTRIKANY_RECORD_CLOSED, "checker_ciphertext after the tag");
    measure(checker_tag, VOTRIKANY_RECORD_CLOSED, "checker_tag after the tag");
}

/* A line of `digits` zeros, with some bytes of it as given. */
static void line_refused(size_t digits, size_t at, const char *bytes, uint8_t wanted, const char *what)
{
    memset(line, '0', sizeof line);
    memcpy(line + at, bytes, strlen(bytes));
    line[digits] = '\n';
    line_length = digits + 1;
    measure_reading(wanted, what);
}

static void journal_refused(void)
{
    line_refused(0, 0, "", VOTRIKANY_ROLL_MARK, "an empty line");
    line_refused(707, 0, "", VOTRIKANY_LINE_TOO_LONG, "707 digits");
    line_refused(706, 705, "g", VOTRIKANY_NOT_DIGIT, "a last digit that is none");
    line_refused(705, 0, "", VOTRIKANY_ODD, "705 digits");
    line_refused(64, 0, "", VOTRIKANY_FRAME_TOO_SHORT, "32 frame bytes");
    line_refused(66, 32, "5", VOTRIKANY_DATA_TOO_LONG, "n = 80");
    line_refused(66, 33, "1", VOTRIKANY_DATA_PAST_FRAME, "n = 1 in 33 frame bytes");
    line_refused(706, 0, "", VOTRIKANY_MESSAGE_TOO_LONG, "m = 320");
    line_refused(706, 32, "4", VOTRIKANY_ZERO_NONCE, "n = 64, m = 256, and a nonce of zeros");
    line_refused(706, 31, "14", VOTRIKANY_TAG_DIFFERS, "n = 64, m = 256, and a tag of zeros");
    place = line_length;
    measure_reading(VOTRIKANY_END, "the end");
    place = line_length + 1;
    measure_reading(VOTRIKANY_PLACE_BEYOND, "a place beyond the end");
    place = 0;
    line_length--;
    measure_reading(VOTRIKANY_NO_NEWLINE, "no newline");
    frames_length--;
    measure(read_lines, VOTRIKANY_AREA_DIFFERS, "an area of a byte less");
    data_length = 65;
    measure(write_line, VOTRIKANY_DATA_TOO_LONG, "65 bytes of data");
    data_length = text_length = 64;
    memset(nonce, 0, sizeof nonce);
    measure(write_line, VOTRIKANY_ZERO_NONCE, "writing under a nonce of zeros");
}

/* A reading of resident 3 and active 2, which is then bent. */
static void readings(void)
{
    memset(text, 0, VOTRIKANY_READING_SIZE);
    text_length = VOTRIKANY_READING_SIZE;
    text[0] = 1, text[4] = 3, text[12] = 2;
    measure(decode, VOTRIKANY_DONE, "decode");
    measure(newer, true, "newer");
    text[12] = 4;
    measure(decode, VOTRIKANY_ACTIVE_ABOVE, "active above resident");
    text[4] = text[12] = 0;
    measure(decode, VOTRIKANY_RESIDENT_ZERO, "resident zero");
    text[11] = 1;
    measure(decode, VOTRIKANY_COUNTER_TOO_LARGE, "resident 2^56");
    text_length--;
    measure(decode, VOTRIKANY_NOT_TWENTY, "19 bytes");
    measure(newer, false, "not newer");
}

int main(void)
{
    static const size_t lengths[] = { 0, 1, 31, 32, 33, 64, LONG };
    for (size_t i = 0; i < sizeof lengths / sizeof *lengths; i++) {
        for (size_t bytes = 0; bytes <= 257; bytes++)
            good(lengths[i], bytes);
        good(lengths[i], LONG);
    }
    cipher_refused();
    parts_refused();
    journal_refused();
    readings();
    if (!failed)
        printf("stack: in %d calls at most %d bytes of stack are used\n", (int)calls, (int)most);
    return failed;
}
