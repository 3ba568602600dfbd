/* Sealing and checking in parts, from C: any cutting against the one call, each number in its order and what it leaves,
 * and what a record is. Some checks look into a record or write to it, which a caller must not do: they say so. */
#include <stdio.h>
#include <string.h>
#include "votrikany.h"

enum { MOST = 5000, EDGE = 41, RECORD = 216 };

/* In a record, behind the state and the block in hand: how many bytes came, how many of them were data where a message
 * has begun, and two booleans, whether it has and whether the record is open. Six bytes behind them hold nothing. */
enum { COUNT_AT = 192, DATA_AT = 200, BEGUN_AT = 208, OPEN_AT = 209, USED = 210 };

static const uint8_t key[16] = { 1, 2, 3 }, nonce[16] = { 4, 5, 6 }, zero[16];
static const size_t far = (size_t)1 << 61; /* a length that is refused before anything behind it is read */
static uint8_t data[MOST], message[MOST];
static int checks, failed;

static void expect(int holds, const char *what)
{
    checks++;
    if (!holds) {
        printf("parts: not so: %s\n", what);
        failed = 1;
    }
}

static int all(const uint8_t *bytes, size_t length, uint8_t value)
{
    for (size_t i = 0; i < length; i++)
        if (bytes[i] != value)
            return 0;
    return 1;
}

/* Bytes that look random, the same at each run. */
static void fill(uint8_t *bytes, size_t length, uint64_t seed)
{
    for (size_t i = 0; i < length; i++) {
        seed = seed * 6364136223846793005u + 1442695040888963407u;
        bytes[i] = (uint8_t)(seed >> 56);
    }
}

/* The ciphertext and the tag that one call makes of the first bytes of data and message. */
struct whole {
    size_t n, m;
    uint8_t text[MOST], tag[16];
};

static void in_one_call(size_t n, size_t m, struct whole *whole)
{
    whole->n = n;
    whole->m = m;
    memcpy(whole->text, message, m);
    uint8_t gave = votrikany_seal_in_place(key, nonce, data, n, whole->text, m, whole->tag);
    expect(gave == VOTRIKANY_DONE, "sealing in one call");
}

/* A way to cut bytes: a first part, which is there if it is empty too, and then parts of `step` bytes. */
struct cut {
    size_t first, step;
};

static size_t next_part(struct cut cut, size_t at, size_t length)
{
    size_t part = at == 0 && cut.first > 0 ? cut.first : cut.step;
    return part < length - at ? part : length - at;
}

static int takes_data(votrikany_sealer *sealer, size_t n, struct cut cut)
{
    int done = cut.first > 0 || votrikany_sealer_data(sealer, NULL, 0) == VOTRIKANY_DONE;
    for (size_t at = 0, part; at < n; at += part) {
        part = next_part(cut, at, n);
        done &= votrikany_sealer_data(sealer, data + at, part) == VOTRIKANY_DONE;
    }
    return done;
}

/* Each part stands alone at an odd address, between bytes that must be kept. */
static int seals(votrikany_sealer *sealer, uint8_t *text, size_t m, struct cut cut)
{
    static uint8_t room[EDGE + MOST + EDGE];
    int done = cut.first > 0 || votrikany_sealer_message(sealer, NULL, 0) == VOTRIKANY_DONE;
    memset(room, 0x55, EDGE);
    for (size_t at = 0, part; at < m; at += part) {
        part = next_part(cut, at, m);
        uint8_t *behind = room + EDGE + part;
        memcpy(room + EDGE, message + at, part);
        memset(behind, 0x55, EDGE);
        done &= votrikany_sealer_message(sealer, room + EDGE, part) == VOTRIKANY_DONE;
        done &= all(room, EDGE, 0x55) && all(behind, EDGE, 0x55);
        memcpy(text + at, room + EDGE, part);
    }
    return done;
}

static int sealed_alike(const struct whole *whole, struct cut of_data, struct cut of_text)
{
    static uint8_t text[MOST];
    uint8_t tag[16];
    votrikany_sealer sealer = votrikany_sealer_begin(key, nonce);
    int done = takes_data(&sealer, whole->n, of_data) && seals(&sealer, text, whole->m, of_text);
    done &= votrikany_sealer_tag(&sealer, tag) == VOTRIKANY_DONE;
    return done && memcmp(text, whole->text, whole->m) == 0 && memcmp(tag, whole->tag, 16) == 0;
}

/* The checker's verdict with this data, where it takes every part and writes to none; else a number that is none. */
static int judged(const struct whole *whole, const uint8_t *with, struct cut of_data, struct cut of_text)
{
    static uint8_t text[MOST];
    votrikany_checker checker = votrikany_checker_begin(key, nonce);
    int done = of_data.first > 0 || votrikany_checker_data(&checker, NULL, 0) == VOTRIKANY_DONE;
    memcpy(text, whole->text, whole->m);
    for (size_t at = 0, part; at < whole->n; at += part) {
        part = next_part(of_data, at, whole->n);
        done &= votrikany_checker_data(&checker, with + at, part) == VOTRIKANY_DONE;
    }
    done &= of_text.first > 0 || votrikany_checker_ciphertext(&checker, NULL, 0) == VOTRIKANY_DONE;
    for (size_t at = 0, part; at < whole->m; at += part) {
        part = next_part(of_text, at, whole->m);
        done &= votrikany_checker_ciphertext(&checker, text + at, part) == VOTRIKANY_DONE;
    }
    done &= memcmp(text, whole->text, whole->m) == 0;
    uint8_t gave = votrikany_checker_tag(&checker, whole->tag);
    return done ? gave : -1;
}

static int cut_alike(const struct whole *whole, struct cut of_data, struct cut of_text)
{
    return sealed_alike(whole, of_data, of_text) && judged(whole, data, of_data, of_text) == VOTRIKANY_DONE;
}

/* Data and messages of each length, each cut in 42 ways. */
static void cut_around_blocks(void)
{
    static const size_t lengths[] = { 0, 1, 31, 32, 33, 64, 65, 200 };
    static const size_t firsts[] = { 0, 1, 31, 32, 33, 64 }, steps[] = { 1, 2, 31, 32, 33, 64, MOST };
    static struct whole whole;
    for (size_t i = 0; i < 64; i++) {
        int alike = 1;
        in_one_call(lengths[i / 8], lengths[i % 8], &whole);
        for (size_t k = 0; k < 42; k++) {
            struct cut one = { firsts[k % 6], steps[k % 7] }, other = { firsts[(k + i) % 6], steps[(k + 3 * i) % 7] };
            alike &= cut_alike(&whole, one, other);
        }
        expect(alike, "cut around blocks");
    }
}

/* Of two blocks and a byte each first part, and behind it parts of each length. */
static void cut_everywhere(void)
{
    static struct whole whole;
    in_one_call(65, 65, &whole);
    for (size_t first = 0; first <= 65; first++) {
        int alike = 1;
        for (size_t step = 1; step <= 65; step++) {
            struct cut one = { first, step }, other = { step, first > 0 ? first : 65 };
            alike &= cut_alike(&whole, one, other) && cut_alike(&whole, other, one);
        }
        expect(alike, "cut everywhere");
    }
}

static void cut_long(void)
{
    static struct whole whole;
    static const size_t steps[] = { 1, 32, 100, 1000, 4096, MOST };
    in_one_call(MOST, MOST, &whole);
    for (size_t i = 0; i < sizeof steps / sizeof *steps; i++) {
        struct cut one = { 0, steps[i] }, other = { 7, steps[i] };
        expect(cut_alike(&whole, one, other) && cut_alike(&whole, other, one), "5,000 bytes of data and of message");
    }
}

/* One bit that differs, wherever it stands. */
static void judged_wrong(void)
{
    static struct whole whole;
    uint8_t other[33];
    struct cut cut = { 5, 16 };
    in_one_call(33, 65, &whole);
    memcpy(other, data, 33);
    for (size_t bit = 0; bit < 128; bit++) {
        whole.tag[bit / 8] ^= (uint8_t)(1 << bit % 8);
        expect(judged(&whole, data, cut, cut) == VOTRIKANY_TAG_DIFFERS, "another tag");
        whole.tag[bit / 8] ^= (uint8_t)(1 << bit % 8);
    }
    for (size_t at = 0; at < 65; at++) {
        whole.text[at] ^= 1;
        expect(judged(&whole, data, cut, cut) == VOTRIKANY_TAG_DIFFERS, "another ciphertext");
        whole.text[at] ^= 1;
    }
    for (size_t at = 0; at < 33; at++) {
        other[at] ^= 1;
        expect(judged(&whole, other, cut, cut) == VOTRIKANY_TAG_DIFFERS, "other data");
        other[at] ^= 1;
    }
    whole.m--;
    expect(judged(&whole, data, cut, cut) == VOTRIKANY_TAG_DIFFERS, "a byte of ciphertext less");
    whole.m++;
    expect(judged(&whole, data, cut, cut) == VOTRIKANY_DONE, "the right tag");
}

/* A sealer and a checker that have taken the same, or of which the same is to be said. */
struct pair {
    votrikany_sealer sealer;
    votrikany_checker checker;
};

/* Both after n bytes of data. */
static struct pair begun(size_t n)
{
    struct pair pair = { votrikany_sealer_begin(key, nonce), votrikany_checker_begin(key, nonce) };
    expect(votrikany_sealer_data(&pair.sealer, data, n) == VOTRIKANY_DONE, "data for a sealer");
    expect(votrikany_checker_data(&pair.checker, data, n) == VOTRIKANY_DONE, "data for a checker");
    return pair;
}

/* Both after n bytes of data and m of message. */
static struct pair in_message(size_t n, size_t m)
{
    static uint8_t text[MOST];
    struct pair pair = begun(n);
    memcpy(text, message, m);
    expect(votrikany_sealer_message(&pair.sealer, text, m) == VOTRIKANY_DONE, "a part of the message");
    expect(votrikany_checker_ciphertext(&pair.checker, text, m) == VOTRIKANY_DONE, "its ciphertext");
    return pair;
}

/* Both closed, the checker by a verdict, yes or no. */
static struct pair closed(struct pair pair, uint8_t verdict)
{
    uint8_t tag[16];
    expect(votrikany_sealer_tag(&pair.sealer, tag) == VOTRIKANY_DONE, "a tag");
    tag[7] ^= verdict;
    expect(votrikany_checker_tag(&pair.checker, tag) == verdict, "the verdict");
    return pair;
}

/* A copy of a record that is handed over, between bytes that must be kept. */
static struct room {
    uint64_t before[4];
    union {
        votrikany_sealer sealer;
        votrikany_checker checker;
    } record;
    uint64_t behind[4];
} room;

static void put(const void *record)
{
    memset(&room, 0x55, sizeof room);
    memcpy(&room.record, record, RECORD);
}

static int kept(const void *record)
{
    return memcmp(&room.record, record, USED) == 0 && all((const uint8_t *)room.before, sizeof room.before, 0x55)
        && all((const uint8_t *)room.behind, sizeof room.behind, 0x55);
}

/* A part of so many bytes, as data: refused by both, and their records are as they were. */
static void data_refused(struct pair pair, size_t length, uint8_t number, const char *what)
{
    put(&pair.sealer);
    expect(votrikany_sealer_data(&room.record.sealer, data, length) == number && kept(&pair.sealer), what);
    put(&pair.checker);
    expect(votrikany_checker_data(&room.record.checker, data, length) == number && kept(&pair.checker), what);
}

/* The same of a part of the message: the part is as it was too. */
static void text_refused(struct pair pair, size_t length, uint8_t number, const char *what)
{
    static uint8_t part[MOST];
    memcpy(part, message, MOST);
    put(&pair.sealer);
    expect(votrikany_sealer_message(&room.record.sealer, part, length) == number && kept(&pair.sealer), what);
    expect(memcmp(part, message, MOST) == 0, "the part is untouched");
    put(&pair.checker);
    expect(votrikany_checker_ciphertext(&room.record.checker, part, length) == number && kept(&pair.checker), what);
    expect(memcmp(part, message, MOST) == 0, "the ciphertext is untouched");
}

/* The same of the tag: it is sixteen zeros, and the one to be judged is as it was. */
static void tag_refused(struct pair pair, uint8_t number, const char *what)
{
    uint8_t tag[16 + 2];
    memset(tag, 0x55, sizeof tag);
    put(&pair.sealer);
    expect(votrikany_sealer_tag(&room.record.sealer, tag + 1) == number && kept(&pair.sealer), what);
    expect(memcmp(tag + 1, zero, 16) == 0 && tag[0] == 0x55 && tag[17] == 0x55, "the tag is zero");
    memset(tag, 0x55, sizeof tag);
    put(&pair.checker);
    expect(votrikany_checker_tag(&room.record.checker, tag + 1) == number && kept(&pair.checker), what);
    expect(all(tag, sizeof tag, 0x55), "the tag is untouched");
}

/* Whatever comes, 24 is said before 23 and 2. */
static void all_refused(struct pair pair, const char *what)
{
    static const size_t lengths[] = { 0, 1, 32, MOST, (size_t)1 << 61, (size_t)-1 };
    for (size_t i = 0; i < sizeof lengths / sizeof *lengths; i++) {
        data_refused(pair, lengths[i], VOTRIKANY_RECORD_CLOSED, what);
        text_refused(pair, lengths[i], VOTRIKANY_RECORD_CLOSED, what);
    }
    tag_refused(pair, VOTRIKANY_RECORD_CLOSED, what);
}

static void after_the_tag(void)
{
    struct pair nothing;
    memset(&nothing, 0, sizeof nothing);
    all_refused(nothing, "a record of zeros is closed");
    for (uint8_t verdict = 0; verdict < 2; verdict++) {
        all_refused(closed(begun(0), verdict), "after the tag of nothing");
        all_refused(closed(begun(33), verdict), "after the tag of data alone");
        all_refused(closed(in_message(0, 0), verdict), "after the tag of an empty part of a message");
        all_refused(closed(in_message(0, 1), verdict), "after the tag of a message alone");
        all_refused(closed(in_message(33, 65), verdict), "after the tag of data and a message");
    }
}

static void data_late(void)
{
    static const size_t lengths[][2] = { { 0, 0 }, { 33, 0 }, { 0, 1 }, { 5, 32 }, { 33, 65 } };
    for (size_t i = 0; i < sizeof lengths / sizeof *lengths; i++) {
        struct pair pair = in_message(lengths[i][0], lengths[i][1]);
        data_refused(pair, 0, VOTRIKANY_DATA_LATE, "no data after a part of the message");
        data_refused(pair, 1, VOTRIKANY_DATA_LATE, "data after a part of the message");
        data_refused(pair, far, VOTRIKANY_DATA_LATE, "23 comes before 2");
    }
}

static void too_long(void)
{
    data_refused(begun(0), far, VOTRIKANY_TOO_LONG, "2^61 bytes of data");
    data_refused(begun(33), far - 33, VOTRIKANY_TOO_LONG, "2^61 bytes of data with what came");
    data_refused(begun(33), (size_t)-1, VOTRIKANY_TOO_LONG, "a total of data that would wrap");
    text_refused(begun(0), far, VOTRIKANY_TOO_LONG, "2^61 bytes of message");
    text_refused(begun(33), far, VOTRIKANY_TOO_LONG, "2^61 bytes of message after data: it has not begun");
    text_refused(in_message(0, 0), far, VOTRIKANY_TOO_LONG, "2^61 bytes of message, after an empty part");
    text_refused(in_message(33, 65), far - 65, VOTRIKANY_TOO_LONG, "2^61 bytes of message with what came");
    text_refused(in_message(33, 65), (size_t)-1, VOTRIKANY_TOO_LONG, "a total of message that would wrap");
}

/* Here and in the next function records are written to. */
static struct pair written(struct pair pair, size_t at, uint64_t value, size_t bytes)
{
    memcpy((uint8_t *)&pair.sealer + at, &value, bytes); /* x86-64: the low byte comes first */
    memcpy((uint8_t *)&pair.checker + at, &value, bytes);
    return pair;
}

static struct pair with_count(struct pair pair, uint64_t count)
{
    return written(pair, COUNT_AT, count, 8);
}

/* Totals that nobody reaches, written into the records. */
static void totals(void)
{
    struct pair data_in = begun(0), text_in = in_message(5, 32), no_room = with_count(data_in, far);
    data_refused(with_count(data_in, far - 1), 1, VOTRIKANY_TOO_LONG, "a byte of data behind 2^61 - 1");
    text_refused(with_count(data_in, far - 1), far, VOTRIKANY_TOO_LONG, "2^61 bytes of message behind such data");
    data_refused(no_room, 0, VOTRIKANY_TOO_LONG, "no data behind 2^61 bytes");
    text_refused(no_room, 0, VOTRIKANY_TOO_LONG, "no message behind 2^61 bytes of data");
    tag_refused(no_room, VOTRIKANY_TOO_LONG, "a tag behind 2^61 bytes of data");
    data_refused(with_count(data_in, UINT64_MAX), 1, VOTRIKANY_TOO_LONG, "no total wraps");
    text_refused(with_count(text_in, far - 1), 1, VOTRIKANY_TOO_LONG, "a byte of message behind 2^61 - 1");
    text_refused(with_count(text_in, far), 0, VOTRIKANY_TOO_LONG, "no message behind 2^61 bytes");
    tag_refused(with_count(text_in, far), VOTRIKANY_TOO_LONG, "a tag behind 2^61 bytes of message");
    text_refused(with_count(text_in, UINT64_MAX), 1, VOTRIKANY_TOO_LONG, "no total wraps");
    data_refused(with_count(text_in, far), 0, VOTRIKANY_DATA_LATE, "23 comes before 2");
    text_refused(written(text_in, DATA_AT, far, 8), 0, VOTRIKANY_TOO_LONG, "in a message, with 2^61 bytes of data");
    tag_refused(written(text_in, DATA_AT, far, 8), VOTRIKANY_TOO_LONG, "a tag in a message, with 2^61 bytes of data");
    all_refused(written(no_room, OPEN_AT, 0, 1), "24 comes before 2");
    all_refused(written(with_count(text_in, far), OPEN_AT, 0, 1), "24 comes before 23 and 2");
}

/* Up to 2^61 - 1 bytes are taken, and the count alone is another then. Records are written to. */
static void last_bytes(void)
{
    uint8_t near[32], same[32], tag[16];
    struct pair low = in_message(5, 31), high = with_count(low, far - 33);
    memcpy(near, message, 32), memcpy(same, message, 32);
    expect(votrikany_sealer_message(&low.sealer, same, 32) == VOTRIKANY_DONE, "32 bytes behind 31");
    expect(votrikany_sealer_message(&high.sealer, near, 32) == VOTRIKANY_DONE, "32 bytes behind 2^61 - 33");
    expect(memcmp(near, same, 32) == 0 && memcmp(near, message, 32) != 0, "they are sealed alike");
    expect(votrikany_checker_ciphertext(&high.checker, near, 32) == VOTRIKANY_DONE, "and taken by a checker");
    text_refused(high, 1, VOTRIKANY_TOO_LONG, "a byte behind 2^61 - 1 that came");
    expect(votrikany_sealer_message(&high.sealer, NULL, 0) == VOTRIKANY_DONE, "an empty part behind them");
    expect(votrikany_sealer_tag(&high.sealer, tag) == VOTRIKANY_DONE, "their tag");
    expect(votrikany_checker_tag(&high.checker, tag) == VOTRIKANY_DONE, "which is right");
    struct pair full = with_count(begun(31), far - 33);
    expect(votrikany_sealer_data(&full.sealer, data, 32) == VOTRIKANY_DONE, "32 bytes of data behind 2^61 - 33");
    expect(votrikany_checker_data(&full.checker, data, 32) == VOTRIKANY_DONE, "taken by a checker too");
    data_refused(full, 1, VOTRIKANY_TOO_LONG, "a byte of data behind 2^61 - 1 that came");
    expect(votrikany_sealer_message(&full.sealer, near, 32) == VOTRIKANY_DONE, "a message behind them");
    expect(votrikany_checker_ciphertext(&full.checker, near, 32) == VOTRIKANY_DONE, "its ciphertext");
    closed(full, VOTRIKANY_DONE);
}

/* What was refused has changed nothing: the parts go on, up to the tag of one call. */
static void goes_on(void)
{
    static struct whole whole;
    uint8_t text[65], tag[16];
    votrikany_sealer sealer = votrikany_sealer_begin(key, nonce);
    votrikany_checker checker = votrikany_checker_begin(key, nonce);
    in_one_call(33, 65, &whole);
    memcpy(text, message, 65);
    expect(votrikany_sealer_message(&sealer, text, far) == VOTRIKANY_TOO_LONG, "a part of 2^61 bytes, first of all");
    expect(votrikany_sealer_data(&sealer, data, 33) == VOTRIKANY_DONE, "which was none: data is still taken");
    expect(votrikany_sealer_message(&sealer, text, 40) == VOTRIKANY_DONE, "40 bytes");
    expect(votrikany_sealer_data(&sealer, data, 1) == VOTRIKANY_DATA_LATE, "data too late");
    expect(votrikany_sealer_message(&sealer, text + 40, far) == VOTRIKANY_TOO_LONG, "a part that is too long");
    expect(votrikany_sealer_message(&sealer, text + 40, 25) == VOTRIKANY_DONE, "25 bytes");
    expect(votrikany_sealer_tag(&sealer, tag) == VOTRIKANY_DONE, "the tag");
    expect(memcmp(text, whole.text, 65) == 0 && memcmp(tag, whole.tag, 16) == 0, "all as in one call");
    expect(votrikany_checker_ciphertext(&checker, text, far) == VOTRIKANY_TOO_LONG, "2^61 bytes, to be checked");
    expect(votrikany_checker_data(&checker, data, 33) == VOTRIKANY_DONE, "data is still taken, to be checked");
    expect(votrikany_checker_ciphertext(&checker, text, 40) == VOTRIKANY_DONE, "40 bytes, to be checked");
    expect(votrikany_checker_data(&checker, data, 1) == VOTRIKANY_DATA_LATE, "data too late, to be checked");
    expect(votrikany_checker_ciphertext(&checker, text + 40, 25) == VOTRIKANY_DONE, "25 bytes, to be checked");
    expect(votrikany_checker_tag(&checker, tag) == VOTRIKANY_DONE, "the right tag");
}

/* The record that docs/FORMAT.md goes through, call by call. */
static void page(void)
{
    uint8_t text[20], whole[20], tag[16], one[16];
    votrikany_sealer sealer = votrikany_sealer_begin(key, nonce);
    memcpy(text, message, 20), memcpy(whole, message, 20);
    expect(votrikany_sealer_data(&sealer, (const uint8_t *)"al", 2) == VOTRIKANY_DONE, "data: al");
    expect(votrikany_sealer_data(&sealer, (const uint8_t *)"der", 3) == VOTRIKANY_DONE, "data: der");
    expect(votrikany_sealer_message(&sealer, text, 0) == VOTRIKANY_DONE, "a message of no byte");
    expect(votrikany_sealer_data(&sealer, (const uint8_t *)"x", 1) == VOTRIKANY_DATA_LATE, "data: x");
    expect(votrikany_sealer_message(&sealer, text, 20) == VOTRIKANY_DONE, "20 bytes");
    expect(votrikany_sealer_message(&sealer, text, far - 20) == VOTRIKANY_TOO_LONG, "2^61 - 20 bytes");
    expect(votrikany_sealer_tag(&sealer, tag) == VOTRIKANY_DONE, "their tag");
    votrikany_seal_in_place(key, nonce, (const uint8_t *)"alder", 5, whole, 20, one);
    expect(memcmp(text, whole, 20) == 0 && memcmp(tag, one, 16) == 0, "of alder and the 20 bytes");
    expect(votrikany_sealer_tag(&sealer, tag) == VOTRIKANY_RECORD_CLOSED && memcmp(tag, zero, 16) == 0, "and no other");
}

/* A message of which no part came, and one of which only empty ones did. */
static void empty_messages(void)
{
    static const size_t lengths[] = { 0, 1, 32, 33 };
    static struct whole whole;
    for (size_t i = 0; i < sizeof lengths / sizeof *lengths; i++) {
        in_one_call(lengths[i], 0, &whole);
        for (int parts = 0; parts < 3; parts++) {
            struct pair pair = begun(lengths[i]);
            uint8_t tag[16];
            for (int k = 0; k < parts; k++) {
                expect(votrikany_sealer_message(&pair.sealer, NULL, 0) == VOTRIKANY_DONE, "an empty part at null");
                expect(votrikany_checker_ciphertext(&pair.checker, NULL, 0) == VOTRIKANY_DONE, "the same, checked");
            }
            expect(votrikany_sealer_tag(&pair.sealer, tag) == VOTRIKANY_DONE, "the tag of an empty message");
            expect(memcmp(tag, whole.tag, 16) == 0, "it is that of one call");
            expect(votrikany_checker_tag(&pair.checker, tag) == VOTRIKANY_DONE, "and right");
        }
    }
}

/* Records that are copied, and several at once: none changes another. */
static void copies(void)
{
    static struct whole whole;
    uint8_t one[65], other[65], tag[16], again[16], wrong[16];
    in_one_call(33, 65, &whole);
    memcpy(one, message, 65), memcpy(other, message, 65);
    struct pair first = begun(33), second = first;
    struct pair strange = { votrikany_sealer_begin(nonce, key), votrikany_checker_begin(nonce, key) };
    expect(votrikany_sealer_message(&first.sealer, one, 40) == VOTRIKANY_DONE, "the first of two");
    expect(votrikany_sealer_message(&second.sealer, other, 65) == VOTRIKANY_DONE, "its copy");
    expect(votrikany_sealer_tag(&second.sealer, again) == VOTRIKANY_DONE, "the copy's tag");
    expect(votrikany_sealer_data(&strange.sealer, data, 33) == VOTRIKANY_DONE, "a third, under another key");
    expect(votrikany_sealer_message(&first.sealer, one + 40, 25) == VOTRIKANY_DONE, "the first, which is still open");
    expect(votrikany_sealer_tag(&first.sealer, tag) == VOTRIKANY_DONE, "its tag");
    expect(memcmp(tag, whole.tag, 16) == 0 && memcmp(again, whole.tag, 16) == 0, "both tags are those of one call");
    expect(memcmp(one, whole.text, 65) == 0 && memcmp(other, whole.text, 65) == 0, "and so are the ciphertexts");
    expect(votrikany_checker_ciphertext(&first.checker, one, 65) == VOTRIKANY_DONE, "a checker");
    second = first;
    memset(wrong, 0x55, 16);
    expect(votrikany_checker_tag(&first.checker, wrong) == VOTRIKANY_TAG_DIFFERS, "it judges a wrong tag");
    expect(votrikany_checker_tag(&second.checker, tag) == VOTRIKANY_DONE, "and its copy the right one");
    expect(votrikany_checker_data(&strange.checker, data, 33) == VOTRIKANY_DONE, "one under another key");
    expect(votrikany_checker_ciphertext(&strange.checker, one, 65) == VOTRIKANY_DONE, "the same ciphertext");
    expect(votrikany_checker_tag(&strange.checker, tag) == VOTRIKANY_TAG_DIFFERS, "and the tag is not its own");
}

/* Key and nonce at odd addresses, and a nonce of zeros, which is taken as any other. */
static void begun_under(const uint8_t *under)
{
    uint8_t odd[33], text[33], whole[33], tag[16], again[16];
    memcpy(odd + 1, key, 16), memcpy(odd + 17, under, 16);
    memcpy(text, message, 33), memcpy(whole, message, 33);
    votrikany_sealer sealer = votrikany_sealer_begin(odd + 1, odd + 17);
    votrikany_checker checker = votrikany_checker_begin(odd + 1, odd + 17);
    memset(odd, 0x55, sizeof odd); /* they are not looked at again */
    expect(votrikany_seal_in_place(key, under, NULL, 0, whole, 33, again) == VOTRIKANY_DONE, "one call");
    expect(votrikany_sealer_message(&sealer, text, 33) == VOTRIKANY_DONE, "a message without data");
    expect(votrikany_sealer_tag(&sealer, tag) == VOTRIKANY_DONE, "its tag");
    expect(memcmp(text, whole, 33) == 0 && memcmp(tag, again, 16) == 0, "as in one call");
    expect(votrikany_checker_ciphertext(&checker, text, 33) == VOTRIKANY_DONE, "its ciphertext");
    expect(votrikany_checker_tag(&checker, tag) == VOTRIKANY_DONE, "and its tag, checked");
}

/* What C's convention makes of a record as a result: the caller hands over where it is to stand, before all else, and
 * gets that address back. So what begin writes is seen: the record's bytes, and none beside them. */
typedef void *hidden(void *record, const uint8_t *key, const uint8_t *nonce);

static void written_by(void (*begin)(void), const void *wanted, const char *what)
{
    for (int paint = 0; paint < 256; paint += 51) {
        memset(&room, paint, sizeof room);
        expect(((hidden *)begin)(&room.record, key, nonce) == &room.record, "the record's address");
        expect(memcmp(&room.record, wanted, USED) == 0, what);
        expect(all((const uint8_t *)room.before, sizeof room.before, (uint8_t)paint), "what is before the record");
        expect(all((const uint8_t *)room.behind, sizeof room.behind, (uint8_t)paint), "what is behind the record");
    }
}

static uint64_t word(const void *record, size_t at)
{
    uint64_t value;
    memcpy(&value, (const uint8_t *)record + at, 8);
    return value;
}

/* The places that are written to above are the library's. Records are looked into. */
static int counts(const void *record, uint64_t count, uint64_t of_data, uint8_t message_begun, uint8_t open)
{
    const uint8_t *bytes = record;
    return word(record, COUNT_AT) == count && word(record, DATA_AT) == of_data && bytes[BEGUN_AT] == message_begun
        && bytes[OPEN_AT] == open;
}

static void records(void)
{
    struct { char one; votrikany_sealer record; } sealer;
    struct { char one; votrikany_checker record; } checker;
    expect(sizeof sealer.record == RECORD && sizeof checker.record == RECORD, "216 bytes");
    expect((char *)&sealer.record - &sealer.one == 8 && (char *)&checker.record - &checker.one == 8, "aligned to 8");
    sealer.record = votrikany_sealer_begin(key, nonce);
    checker.record = votrikany_checker_begin(key, nonce);
    written_by((void (*)(void))votrikany_sealer_begin, &sealer.record, "a sealer, and every byte that counts");
    written_by((void (*)(void))votrikany_checker_begin, &checker.record, "a checker, and every byte that counts");
    struct pair pair = begun(33);
    expect(counts(&sealer.record, 0, 0, 0, 1) && counts(&checker.record, 0, 0, 0, 1), "a record that took nothing");
    expect(counts(&pair.sealer, 33, 0, 0, 1) && counts(&pair.checker, 33, 0, 0, 1), "33 bytes of data");
    pair = in_message(33, 65);
    expect(counts(&pair.sealer, 65, 33, 1, 1) && counts(&pair.checker, 65, 33, 1, 1), "65 bytes of message");
    pair = closed(pair, VOTRIKANY_TAG_DIFFERS);
    expect(counts(&pair.sealer, 65, 33, 1, 0) && counts(&pair.checker, 65, 33, 1, 0), "and closed");
}

int main(void)
{
    fill(data, MOST, 1), fill(message, MOST, 2);
    records();
    begun_under(nonce);
    begun_under(zero);
    cut_around_blocks();
    cut_everywhere();
    cut_long();
    judged_wrong();
    empty_messages();
    after_the_tag();
    data_late();
    too_long();
    totals();
    last_bytes();
    goes_on();
    page();
    copies();
    if (!failed)
        printf("parts: %d checks hold\n", checks);
    return failed;
}
