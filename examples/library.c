/* Votrikany from C: seals and opens a message, writes two readings into a journal with a roll mark between them, is
 * refused a third whose nonce is all zeros, and reads and decodes the two, whole and damaged, line by line and all in
 * one call.
 *   cc -Iinclude examples/library.c crates/export/out/libexport.a
 */
#include <inttypes.h>
#include <stdio.h>
#include <string.h>
#include "votrikany.h"

static const uint8_t key[16] = "sixteen byte key";
static const uint8_t ad[8] = "host=a17";

/* The nonce of message `count`, from 1 on: with one key, each is used once, and the journal refuses sixteen zeros. */
static void nonce_for(uint8_t count, uint8_t nonce[16])
{
    memset(nonce, 0, 16);
    nonce[0] = count;
}

static void show(const char *name, const uint8_t *bytes, size_t length)
{
    printf("%s ", name);
    for (size_t i = 0; i < length; i++)
        printf("%02x", bytes[i]);
    printf("\n");
}

static void seal_and_open(void)
{
    uint8_t nonce[16], tag[16], text[16] = "resident 4096 KB", again[16];
    nonce_for(1, nonce);
    printf("seal %d\n", votrikany_seal_in_place(key, nonce, ad, sizeof ad, text, sizeof text, tag));
    show("ciphertext", text, sizeof text);
    show("tag", tag, sizeof tag);
    printf("open %d", votrikany_open(key, nonce, ad, sizeof ad, text, sizeof text, tag, again, sizeof again));
    printf(" %.*s\n", (int)sizeof again, (const char *)again);
    tag[15] ^= 1;
    printf("open with another tag %d\n", votrikany_open(key, nonce, ad, sizeof ad, text, sizeof text, tag, again, sizeof again));
    show("left behind", again, sizeof again);
}

static void put_low_first(uint8_t *to, size_t bytes, uint64_t number)
{
    for (size_t i = 0; i < bytes; i++)
        to[i] = (uint8_t)(number >> 8 * i);
}

/* The message of a reading: all three figures are of one instant. */
static void pack(uint8_t message[VOTRIKANY_READING_SIZE], uint32_t tick, uint64_t resident, uint64_t active)
{
    put_low_first(message, 4, tick);
    put_low_first(message + 4, 8, resident);
    put_low_first(message + 12, 8, active);
}

static void decode(const uint8_t *message, size_t length)
{
    double ratio;
    uint32_t tick;
    uint8_t number = votrikany_decode(message, length, &ratio, &tick);
    if (number == VOTRIKANY_DONE)
        printf("ratio %.6f at tick %" PRIu32, ratio, tick);
    else
        printf("no ratio, %d: left behind %.1e and %" PRIx32, number, ratio, tick);
}

/* Adds a reading's line at the journal's end and gives the new end, or the old one where the line was refused. */
static size_t add_line(uint8_t *journal, size_t end, size_t room, uint8_t count, const uint8_t *message)
{
    uint8_t nonce[16];
    size_t size;
    nonce_for(count, nonce);
    uint8_t number = votrikany_write_line(key, nonce, ad, sizeof ad, message, VOTRIKANY_READING_SIZE, journal + end,
                                          room - end, &size);
    printf("write %d, %zu bytes\n", number, size);
    return end + size;
}

static void show_answer(size_t place, const struct votrikany_slot *a, const uint8_t *frame)
{
    printf("%zu %zu %zu %zu %zu", place, a->number, a->n, a->m, a->at);
    if (a->number == VOTRIKANY_DONE) {
        printf(" %.*s: ", (int)a->n, (const char *)frame + VOTRIKANY_DATA_AT);
        decode(frame + VOTRIKANY_DATA_AT + a->n, a->m);
    }
    printf("\n");
}

static void read_all(const uint8_t *journal, size_t length)
{
    uint8_t frame[VOTRIKANY_FRAME_SIZE];
    struct votrikany_slot a = { 0 };
    for (size_t place = 0; a.number != VOTRIKANY_END; place = a.next) {
        a.number = votrikany_read_line(journal, length, place, key, frame, sizeof frame, &a.next, &a.n, &a.m, &a.at);
        show_answer(place, &a, frame);
    }
}

/* A slot and a frame for each of two lines, the roll mark and the end, all filled by one call. */
static void read_at_once(const uint8_t *journal, size_t length)
{
    enum { SLOTS = 4 };
    struct votrikany_slot slots[SLOTS];
    uint8_t frames[SLOTS * VOTRIKANY_FRAME_SIZE];
    size_t place = 0, next;
    uint8_t number = votrikany_read_lines(journal, length, place, key, (size_t *)slots, SLOTS * VOTRIKANY_SLOT_SIZE,
                                          frames, sizeof frames, &next);
    printf("read %d, to %zu\n", number, next);
    for (size_t i = 0; i < SLOTS; i++) {
        show_answer(place, &slots[i], frames + i * VOTRIKANY_FRAME_SIZE);
        place = slots[i].next;
    }
}

int main(void)
{
    uint8_t journal[3 * VOTRIKANY_LONGEST_LINE], message[VOTRIKANY_READING_SIZE];
    const uint32_t early = 0xffffffff, late = 4; /* five ticks apart: they go round */
    size_t end = 0;
    seal_and_open();
    pack(message, early, 50331648, 4194304);
    end = add_line(journal, end, sizeof journal, 2, message);
    journal[end++] = '\n'; /* as the log roller does: an empty line is a roll mark, and no damage */
    pack(message, late, 33619968, 1048576);
    end = add_line(journal, end, sizeof journal, 3, message);
    end = add_line(journal, end, sizeof journal, 0, message); /* no count: refused (22), and nothing is written */
    read_all(journal, end);
    read_at_once(journal, end);
    printf("tick %" PRIu32 " is newer than %" PRIu32 ": %d\n", late, early, votrikany_newer(late, early));
    pack(message, 5, 1048576, 33619968); /* as of two instants: more active than resident */
    decode(message, sizeof message);
    printf("\n");
    journal[10] = journal[10] == '0' ? '1' : '0'; /* another digit: the tag differs */
    read_all(journal, end);
    journal[130] = 'g'; /* no digit: the answer says where */
    read_at_once(journal, end);
    return 0;
}
