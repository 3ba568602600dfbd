/* Each number of each function, from C: what it answers, and what it leaves in every buffer; and the order of ticks. */
#include <stdio.h>
#include <string.h>
#include "votrikany.h"

static const uint8_t key[16] = { 1, 2, 3 }, nonce[16] = { 4, 5, 6 }, zero[16];
static const size_t far = (size_t)1 << 61; /* a length that is refused before anything behind it is read */
static const uint64_t exact = (uint64_t)1 << 53; /* the most that a counter may be */
static int checks, failed;

static void expect(int holds, const char *what)
{
    checks++;
    if (!holds) {
        printf("refusals: not so: %s\n", what);
        failed = 1;
    }
}

static int all(const uint8_t *bytes, size_t length, uint8_t value)
{
    for (size_t i = 0; i < length; i++)
        if (bytes[i] != value)
            return 0;
    return 1;
}

static void cipher(void)
{
    uint8_t text[40], out[40], tag[16], empty[16];
    memset(text, 0x55, sizeof text);
    memset(out, 0x55, sizeof out);
    expect(votrikany_seal_in_place(key, nonce, NULL, 0, NULL, 0, empty) == VOTRIKANY_DONE, "sealing nothing at null");
    expect(votrikany_open_in_place(key, nonce, NULL, 0, NULL, 0, empty) == VOTRIKANY_DONE, "opening nothing at null");
    expect(votrikany_seal(key, nonce, NULL, 0, NULL, 0, NULL, 0, tag) == VOTRIKANY_DONE && memcmp(tag, empty, 16) == 0, "sealing nothing into nothing");
    expect(votrikany_open(key, nonce, NULL, 0, NULL, 0, tag, NULL, 0) == VOTRIKANY_DONE, "opening nothing into nothing");

    memset(tag, 0x55, sizeof tag);
    expect(votrikany_seal_in_place(key, nonce, NULL, far, text, sizeof text, tag) == VOTRIKANY_TOO_LONG, "2^61 bytes of data");
    expect(all(text, sizeof text, 0x55) && memcmp(tag, zero, 16) == 0, "the text is untouched, the tag zero");
    memset(tag, 0x55, sizeof tag);
    expect(votrikany_seal_in_place(key, nonce, NULL, 0, text, far, tag) == VOTRIKANY_TOO_LONG, "2^61 bytes of text");
    expect(all(text, sizeof text, 0x55) && memcmp(tag, zero, 16) == 0, "the text is untouched, the tag zero");
    memset(tag, 0x55, sizeof tag);
    expect(votrikany_seal(key, nonce, NULL, far, text, 3, out, sizeof out, tag) == VOTRIKANY_TOO_LONG, "2 comes before 3");
    expect(all(out, sizeof out, 0x55) && memcmp(tag, zero, 16) == 0, "the second buffer is untouched, the tag zero");
    memset(tag, 0x55, sizeof tag);
    expect(votrikany_seal(key, nonce, NULL, 0, text, 3, out, sizeof out, tag) == VOTRIKANY_OTHER_LENGTH, "a second buffer of another length");
    expect(all(out, sizeof out, 0x55) && memcmp(tag, zero, 16) == 0, "the second buffer is untouched, the tag zero");

    expect(votrikany_open_in_place(key, nonce, NULL, far, text, sizeof text, zero) == VOTRIKANY_TOO_LONG && all(text, sizeof text, 0xaa), "2^61 bytes of data, opening");
    expect(votrikany_open(key, nonce, NULL, far, text, 3, zero, out, sizeof out) == VOTRIKANY_TOO_LONG && all(out, sizeof out, 0xaa), "2 comes before 3, opening");
    memset(out, 0x55, sizeof out);
    expect(votrikany_open(key, nonce, NULL, 0, text, 3, zero, out, sizeof out) == VOTRIKANY_OTHER_LENGTH && all(out, sizeof out, 0xaa), "a second buffer of another length, opening");
    memset(out, 0x55, sizeof out);
    expect(votrikany_open(key, nonce, NULL, 0, text, sizeof text, zero, out, sizeof out) == VOTRIKANY_TAG_DIFFERS && all(out, sizeof out, 0xaa), "a wrong tag");
    memset(text, 0x55, sizeof text);
    expect(votrikany_open_in_place(key, nonce, NULL, 0, text, sizeof text, zero) == VOTRIKANY_TAG_DIFFERS && all(text, sizeof text, 0xaa), "a wrong tag, in place");
}

static void writer(void)
{
    uint8_t line[VOTRIKANY_LONGEST_LINE], bytes[257] = { 0 };
    size_t size = 99;
    memset(line, 0x55, sizeof line);
    expect(votrikany_write_line(key, nonce, bytes, 65, bytes, 257, line, 0, &size) == VOTRIKANY_DATA_TOO_LONG && size == 0, "65 bytes of data");
    size = 99;
    expect(votrikany_write_line(key, nonce, bytes, 64, bytes, 257, line, 0, &size) == VOTRIKANY_MESSAGE_TOO_LONG && size == 0, "257 bytes of message");
    size = 99;
    expect(votrikany_write_line(key, nonce, bytes, 64, bytes, 256, line, 706, &size) == VOTRIKANY_LINE_TOO_SMALL && size == 0, "706 bytes for the longest line");
    expect(all(line, sizeof line, 0x55), "the line buffer is untouched");
    expect(votrikany_write_line(key, nonce, NULL, 0, NULL, 0, line, sizeof line, &size) == VOTRIKANY_DONE && size == 67, "the shortest line");
    expect(line[66] == '\n' && all(line + 67, sizeof line - 67, 0x55), "the bytes behind it are kept");
}

/* One reading of a text that must be refused, with the place that is to be said. */
static void refused_at(const char *text, size_t length, size_t place, size_t room, uint8_t number, size_t next, size_t at,
                       const char *what)
{
    uint8_t frame[400];
    size_t to = 99, n = 99, m = 99, said = 99;
    memset(frame, 0x55, sizeof frame);
    uint8_t gave = votrikany_read_line((const uint8_t *)text, length, place, key, frame, room, &to, &n, &m, &said);
    expect(gave == number, what);
    expect(to == next && n == 0 && m == 0, "the next place, n and m");
    expect(said == at, "the place that is said");
    expect(all(frame, room, 0xaa) && all(frame + room, sizeof frame - room, 0x55), "the frame buffer is 0xaa, and what is behind it kept");
}

/* A refusal that says the place given. */
static void refused(const char *text, size_t length, size_t place, size_t room, uint8_t number, size_t next,
                    const char *what)
{
    refused_at(text, length, place, room, number, next, place, what);
}

/* A text whose last byte ends the line at `place`: its first byte that is no digit stands at `at`. */
static void not_digit(const char *text, size_t length, size_t place, size_t at, const char *what)
{
    refused_at(text, length, place, VOTRIKANY_FRAME_SIZE, VOTRIKANY_NOT_DIGIT, length, at, what);
}

/* A line of `digits` zeros, with the four digits of the nonce's last byte and the count byte as given, behind another
 * line. */
static void frame_refused(size_t digits, const char *four, uint8_t number, const char *what)
{
    char text[800];
    memset(text, '0', sizeof text);
    memcpy(text, "0g\n", 3);
    if (digits >= 34)
        memcpy(text + 3 + 30, four, 4);
    text[3 + digits] = '\n';
    refused(text, 3 + digits + 1, 3, VOTRIKANY_FRAME_SIZE, number, 3 + digits + 1, what);
}

static void reader(void)
{
    refused("0g\nabc", 6, 0, 352, VOTRIKANY_BUFFER_TOO_SMALL, 0, "a frame buffer of 352 bytes");
    refused("0g\nabc", 6, 7, 400, VOTRIKANY_PLACE_BEYOND, 7, "a place beyond the end");
    refused("0g\nabc", 6, 6, 400, VOTRIKANY_END, 6, "the end");
    refused(NULL, 0, 0, 400, VOTRIKANY_END, 0, "no journal at null");
    refused("0g\nabc", 6, 3, 400, VOTRIKANY_NO_NEWLINE, 6, "no newline");
    refused("0g\nabc\n", 7, 3, 400, VOTRIKANY_ODD, 7, "an odd number of digits");
    frame_refused(707, "0100", VOTRIKANY_LINE_TOO_LONG, "707 digits");
    frame_refused(64, "0100", VOTRIKANY_FRAME_TOO_SHORT, "32 frame bytes");
    frame_refused(66, "0141", VOTRIKANY_DATA_TOO_LONG, "n = 65");
    frame_refused(66, "0101", VOTRIKANY_DATA_PAST_FRAME, "n = 1 in 33 frame bytes");
    frame_refused(706, "0100", VOTRIKANY_MESSAGE_TOO_LONG, "m = 320");
    frame_refused(66, "0100", VOTRIKANY_TAG_DIFFERS, "a frame of zeros but for its nonce");
    refused("0g\nabc", 6, 3, 352, VOTRIKANY_BUFFER_TOO_SMALL, 3, "a frame buffer of 352 bytes, at 3");
    refused("0g\nabc", 6, (size_t)-1, 400, VOTRIKANY_PLACE_BEYOND, (size_t)-1, "the place of all ones");
}

/* Data and messages that are sealed here. */
static const uint8_t sample[VOTRIKANY_MOST_MESSAGE] = { 7, 8, 9 };

/* The line of a frame that is made by hand, with the right tag whatever the nonce is, and its length. */
static size_t by_hand(const uint8_t *under, size_t n, size_t m, uint8_t *line)
{
    static const char digits[] = "0123456789abcdef";
    uint8_t frame[VOTRIKANY_FRAME_SIZE], *text = frame + VOTRIKANY_DATA_AT + n;
    size_t count = 33 + n + m;
    memcpy(frame, under, 16);
    frame[16] = (uint8_t)n;
    memcpy(frame + VOTRIKANY_DATA_AT, sample, n);
    votrikany_seal(key, under, sample, n, sample, m, text, m, text + m);
    for (size_t i = 0; i < count; i++) {
        line[2 * i] = (uint8_t)digits[frame[i] / 16];
        line[2 * i + 1] = (uint8_t)digits[frame[i] % 16];
    }
    line[2 * count] = '\n';
    return 2 * count + 1;
}

/* The writer: what it answers, and that it leaves all as it was. */
static void not_written(size_t n, size_t m, size_t room, uint8_t number, const char *what)
{
    static const uint8_t bytes[VOTRIKANY_MOST_MESSAGE + 1] = { 7, 8, 9 };
    uint8_t line[VOTRIKANY_LONGEST_LINE];
    size_t size = 99;
    memset(line, 0x55, sizeof line);
    expect(votrikany_write_line(key, zero, bytes, n, bytes, m, line, room, &size) == number, what);
    expect(size == 0 && all(line, sizeof line, 0x55), "the line buffer is untouched, the length 0");
}

static void zero_nonce_written(void)
{
    size_t size = 99;
    not_written(0, 0, 67, VOTRIKANY_ZERO_NONCE, "a nonce of zeros, the shortest line");
    not_written(3, 2, 77, VOTRIKANY_ZERO_NONCE, "a nonce of zeros, with room to the byte");
    not_written(64, 256, 707, VOTRIKANY_ZERO_NONCE, "a nonce of zeros, the longest line");
    not_written(64, 256, 706, VOTRIKANY_ZERO_NONCE, "22 comes before 15");
    not_written(0, 0, 0, VOTRIKANY_ZERO_NONCE, "22 comes before 15, with no room");
    not_written(0, 257, 707, VOTRIKANY_MESSAGE_TOO_LONG, "10 comes before 22");
    not_written(0, 257, 0, VOTRIKANY_MESSAGE_TOO_LONG, "10 comes before 22 and 15");
    not_written(65, 0, 707, VOTRIKANY_DATA_TOO_LONG, "8 comes before 22");
    not_written(65, 257, 0, VOTRIKANY_DATA_TOO_LONG, "8 comes before 10, 22 and 15");
    uint8_t gave = votrikany_write_line(key, zero, NULL, 0, NULL, 0, NULL, 0, &size);
    expect(gave == VOTRIKANY_ZERO_NONCE && size == 0, "a nonce of zeros, and all else at null");
}

/* A line that would be opened but for its nonce: alone, between others, and with its tag or its form wrong too. */
static void zero_nonce_line(size_t n, size_t m)
{
    uint8_t text[3 + VOTRIKANY_LONGEST_LINE + 2] = "0g\n";
    const char *line = (const char *)text + 3, *first = (const char *)text;
    size_t size = by_hand(nonce, n, m, text + 3), wrote;
    uint8_t own[VOTRIKANY_LONGEST_LINE], *last = text + 3 + size - 2;
    uint8_t gave = votrikany_write_line(key, nonce, sample, n, sample, m, own, sizeof own, &wrote);
    expect(gave == VOTRIKANY_DONE && wrote == size && memcmp(own, line, size) == 0, "the writer's line, made by hand");
    expect(by_hand(zero, n, m, text + 3) == size, "a line by hand under a nonce of zeros");
    memcpy(text + 3 + size, "0\n", 2);
    refused(line, size, 0, VOTRIKANY_FRAME_SIZE, VOTRIKANY_ZERO_NONCE, size, "the right tag, and a nonce of zeros");
    refused(line, size, 0, 400, VOTRIKANY_ZERO_NONCE, size, "the same, with a larger frame buffer");
    refused(first, 3 + size + 2, 3, 400, VOTRIKANY_ZERO_NONCE, 3 + size, "the same, between two other lines");
    refused(line, size, 0, 352, VOTRIKANY_BUFFER_TOO_SMALL, 0, "13 comes before 22");
    refused(line, size - 1, 0, 400, VOTRIKANY_NO_NEWLINE, size - 1, "11 comes before 22");
    refused(line, size, 1, 400, VOTRIKANY_ODD, size, "6 comes before 22");
    *last = *last == '0' ? '1' : '0';
    refused(line, size, 0, 400, VOTRIKANY_ZERO_NONCE, size, "22 comes before 1, with another tag");
    *last = 'g';
    refused_at(line, size, 0, 400, VOTRIKANY_NOT_DIGIT, size, size - 2, "5 comes before 22");
}

static void zero_nonce_read(void)
{
    zero_nonce_line(0, 0);
    zero_nonce_line(0, 20);
    zero_nonce_line(1, 0);
    zero_nonce_line(3, 2);
    zero_nonce_line(64, 256);
    frame_refused(66, "0000", VOTRIKANY_ZERO_NONCE, "a frame of zeros");
    frame_refused(578, "0000", VOTRIKANY_ZERO_NONCE, "a frame of zeros, m = 256");
    frame_refused(580, "0000", VOTRIKANY_MESSAGE_TOO_LONG, "10 comes before 22");
    frame_refused(66, "0001", VOTRIKANY_DATA_PAST_FRAME, "9 comes before 22");
    frame_refused(66, "0041", VOTRIKANY_DATA_TOO_LONG, "8 comes before 22");
    frame_refused(64, "0000", VOTRIKANY_FRAME_TOO_SHORT, "7 comes before 22");
    frame_refused(707, "0000", VOTRIKANY_LINE_TOO_LONG, "4 comes before 22");
}

/* A line under a nonce is written, as by hand, and read back. */
static int journaled(const uint8_t *under)
{
    uint8_t line[VOTRIKANY_LONGEST_LINE], hand[VOTRIKANY_LONGEST_LINE], frame[VOTRIKANY_FRAME_SIZE];
    size_t size, next, n, m, at;
    uint8_t wrote = votrikany_write_line(key, under, sample, 3, sample, 2, line, sizeof line, &size);
    if (wrote != VOTRIKANY_DONE || size != by_hand(under, 3, 2, hand) || memcmp(line, hand, size) != 0)
        return 0;
    uint8_t gave = votrikany_read_line(line, size, 0, key, frame, sizeof frame, &next, &n, &m, &at);
    return gave == VOTRIKANY_DONE && n == 3 && m == 2 && memcmp(frame, under, 16) == 0
        && memcmp(frame + 16, "\3\7\10\11\7\10", 6) == 0;
}

/* One byte that is not zero is enough, whatever it is and wherever it stands; several never cancel each other out. */
static void nonces_taken(void)
{
    uint8_t under[16];
    int alike = 1;
    for (size_t place = 0; place < sizeof under; place++) {
        int taken = 1;
        for (int byte = 1; byte < 256; byte++) {
            memset(under, 0, sizeof under);
            under[place] = (uint8_t)byte;
            taken &= journaled(under);
        }
        expect(taken, "one byte of the nonce is not zero, each in its turn");
    }
    for (int byte = 1; byte < 256; byte++) {
        memset(under, byte, sizeof under);
        alike &= journaled(under);
    }
    expect(alike, "sixteen equal bytes that are not zero");
    memset(under, 0, sizeof under);
    under[3] = 1, under[9] = 0xff;
    expect(journaled(under), "two bytes whose sum is 256");
    under[9] = 1;
    expect(journaled(under), "two equal bytes");
}

/* The cipher takes a nonce of zeros as any other: what is sealed is opened, in place too, and not with another tag. */
static void zero_nonce_sealed(size_t n, size_t m)
{
    uint8_t out[VOTRIKANY_MOST_MESSAGE], text[VOTRIKANY_MOST_MESSAGE], tag[16], again[16];
    memcpy(text, sample, m);
    expect(votrikany_seal(key, zero, sample, n, sample, m, out, m, tag) == VOTRIKANY_DONE, "sealing under zeros");
    expect(votrikany_seal_in_place(key, zero, sample, n, text, m, again) == VOTRIKANY_DONE, "the same in place");
    expect(memcmp(out, text, m) == 0 && memcmp(tag, again, 16) == 0, "both seal alike");
    expect(votrikany_open_in_place(key, zero, sample, n, text, m, tag) == VOTRIKANY_DONE, "opening in place");
    expect(memcmp(text, sample, m) == 0, "the message is back");
    memset(text, 0x55, sizeof text);
    expect(votrikany_open(key, zero, sample, n, out, m, tag, text, m) == VOTRIKANY_DONE, "opening under zeros");
    expect(memcmp(text, sample, m) == 0, "the message is back, in a second buffer");
    tag[15] ^= 1;
    expect(votrikany_open(key, zero, sample, n, out, m, tag, text, m) == VOTRIKANY_TAG_DIFFERS, "another tag");
    expect(all(text, m, 0xaa), "the second buffer is 0xaa");
}

static void zero_nonce_ciphered(void)
{
    zero_nonce_sealed(0, 0);
    zero_nonce_sealed(3, 2);
    zero_nonce_sealed(64, 256);
}

/* An empty line with its newline; a line of one byte is none. */
static void roll_marks(void)
{
    refused("\n", 1, 0, VOTRIKANY_FRAME_SIZE, VOTRIKANY_ROLL_MARK, 1, "a newline alone");
    refused("\nabc", 4, 0, 400, VOTRIKANY_ROLL_MARK, 1, "in front of a line without newline");
    refused("0g\n\nabc\n", 8, 3, 400, VOTRIKANY_ROLL_MARK, 4, "in the middle");
    refused("0g\n\n\n", 5, 3, 400, VOTRIKANY_ROLL_MARK, 4, "the first of two");
    refused("0g\n\n\n", 5, 4, 400, VOTRIKANY_ROLL_MARK, 5, "the second of two, the last line");
    refused("\n", 1, 0, 352, VOTRIKANY_BUFFER_TOO_SMALL, 0, "13 comes before 16");
    refused("\n", 1, 2, 400, VOTRIKANY_PLACE_BEYOND, 2, "a place beyond a roll mark");
    refused("\n", 1, 1, 400, VOTRIKANY_END, 1, "an empty last line without newline is the end");
    refused("0\n", 2, 0, 400, VOTRIKANY_ODD, 2, "a digit alone is no roll mark");
    refused("00\n", 3, 0, 400, VOTRIKANY_FRAME_TOO_SHORT, 3, "two digits are no roll mark");
    not_digit("\r\n", 2, 0, 0, "a carriage return alone is no roll mark");
    not_digit(" \n", 2, 0, 0, "a space alone is no roll mark");
}

static void bad_digits(void)
{
    refused_at("0g\nabc", 6, 0, 400, VOTRIKANY_NOT_DIGIT, 3, 1, "not a digit");
    not_digit("A5\n", 3, 0, 0, "an uppercase digit");
    not_digit("5A\n", 3, 0, 1, "an uppercase digit, the last byte");
    not_digit("g0a1\n", 5, 0, 0, "the first byte");
    not_digit("0a1g\n", 5, 0, 3, "the last byte");
    not_digit("0a1 2\n", 6, 0, 3, "an odd number of bytes too");
    not_digit("0:0/0\n", 6, 0, 1, "two bad bytes: the first counts");
    not_digit("00\0" "0\xff\n", 6, 0, 2, "a byte of zero");
    not_digit("000\xff" "\0\n", 6, 0, 3, "0xff");
    not_digit("00\r\n", 4, 0, 2, "a carriage return");
    not_digit("0g\n00g0\n", 8, 3, 5, "in the second line");
    not_digit("\nabc\n`\n", 7, 5, 5, "in the third line");
    not_digit("0g0g\n", 5, 1, 1, "from a place inside the line");
    not_digit("0g0g\n", 5, 2, 3, "from behind the line's first bad byte");
}

/* Whatever byte is no digit, wherever it stands in a line of 66 whose last byte is none either: the first counts. */
static void every_bad_byte(void)
{
    uint8_t text[3 + 67], frame[VOTRIKANY_FRAME_SIZE];
    size_t next, n, m, at;
    int said = 1;
    for (size_t k = 0; k < 66; k++)
        for (int byte = 0; byte < 256; byte++) {
            if (byte == '\n' || (byte >= '0' && byte <= '9') || (byte >= 'a' && byte <= 'f'))
                continue;
            memset(text, 'f', sizeof text);
            text[2] = text[3 + 66] = '\n';
            text[3 + 65] = 'g';
            text[3 + k] = (uint8_t)byte;
            uint8_t gave = votrikany_read_line(text, sizeof text, 3, key, frame, sizeof frame, &next, &n, &m, &at);
            said &= gave == VOTRIKANY_NOT_DIGIT && at == 3 + k;
        }
    expect(said, "the place of every bad byte at every place of a line");
}

static void opened(void)
{
    uint8_t text[3 + VOTRIKANY_LONGEST_LINE] = "0g\n", frame[VOTRIKANY_FRAME_SIZE];
    size_t size, next, n, m, at = 99;
    uint8_t wrote = votrikany_write_line(key, nonce, text, 3, text, 2, text + 3, sizeof text - 3, &size);
    expect(wrote == VOTRIKANY_DONE, "a line at 3");
    uint8_t gave = votrikany_read_line(text, 3 + size, 3, key, frame, sizeof frame, &next, &n, &m, &at);
    expect(gave == VOTRIKANY_DONE, "it is opened");
    expect(next == 3 + size && n == 3 && m == 2 && at == 3, "the next place, n, m and the place given");
}

/* Slots are handed over as words, which is allowed only where nothing stands between the members. */
typedef char a_slot_is_five_words[sizeof(struct votrikany_slot) == VOTRIKANY_SLOT_SIZE * sizeof(size_t) ? 1 : -1];

/* What a call of many lines is lent: words and an area for up to 15 slots, with something before and behind each, and
 * the area at an odd address. What is before and behind is compared too. */
enum { SLOT = VOTRIKANY_SLOT_SIZE, FRAME = VOTRIKANY_FRAME_SIZE, WORDS = 15 * SLOT, AREA = 15 * FRAME, EDGE = 401 };

struct lent {
    size_t before[4], words[WORDS], behind[4], next;
    uint8_t area[EDGE + AREA + EDGE];
};

static void paint(struct lent *lent)
{
    memset(lent, 0x55, sizeof *lent);
}

static int same(const struct lent *a, const struct lent *b)
{
    return memcmp(a, b, sizeof *a) == 0;
}

static uint8_t read_lines(const uint8_t *text, size_t length, size_t place, struct lent *lent, size_t words,
                          size_t area)
{
    return votrikany_read_lines(text, length, place, key, lent->words, words, lent->area + EDGE, area, &lent->next);
}

/* What is to be there: a call of votrikany_read_line for each slot, from the place that the one before gave. */
static void one_by_one(const uint8_t *text, size_t length, size_t place, struct lent *lent, size_t slots)
{
    for (size_t i = 0; i < slots; i++) {
        struct votrikany_slot a;
        uint8_t *frame = lent->area + EDGE + i * FRAME;
        a.number = votrikany_read_line(text, length, place, key, frame, FRAME, &a.next, &a.n, &a.m, &a.at);
        memcpy(lent->words + i * SLOT, &a, sizeof a);
        place = a.next;
    }
    lent->next = place;
}

/* Each number of words, and with it each number of words behind the last whole slot. */
static int each_number_of_words(const uint8_t *text, size_t length, size_t place)
{
    static struct lent got, wanted;
    int equal = 1;
    for (size_t words = 0; words <= WORDS; words++) {
        paint(&got), paint(&wanted);
        uint8_t number = read_lines(text, length, place, &got, words, words / SLOT * FRAME);
        one_by_one(text, length, place, &wanted, words / SLOT);
        equal &= number == VOTRIKANY_DONE && same(&got, &wanted);
    }
    return equal;
}

/* One call, and two with the same slots between them. */
static int each_cut(const uint8_t *text, size_t length, size_t place)
{
    static struct lent whole, cut;
    int equal = 1;
    paint(&whole);
    uint8_t number = read_lines(text, length, place, &whole, WORDS, AREA);
    for (size_t words = 0; words <= WORDS; words += SLOT) {
        size_t area = words / SLOT * FRAME, from;
        paint(&cut);
        uint8_t one = votrikany_read_lines(text, length, place, key, cut.words, words, cut.area + EDGE, area, &from);
        uint8_t two = votrikany_read_lines(text, length, from, key, cut.words + words, WORDS - words,
                                           cut.area + EDGE + area, AREA - area, &cut.next);
        equal &= number == VOTRIKANY_DONE && one == VOTRIKANY_DONE && two == VOTRIKANY_DONE && same(&whole, &cut);
    }
    return equal;
}

/* A journal from its first byte, from inside its lines, from around its end and from far beyond it. */
static void as_many_calls(const uint8_t *text, size_t length, const char *what)
{
    const size_t places[] = { 0, 1, 2, 3, length / 3, length / 2, length - 1, length, length + 1, SIZE_MAX };
    for (size_t i = 0; i < sizeof places / sizeof *places; i++) {
        expect(each_number_of_words(text, length, places[i]), what);
        expect(each_cut(text, length, places[i]), "two calls with the slots of one");
    }
}

/* A journal that is made line by line. */
static uint8_t mixed[8000];
static size_t mixed_length;

static void add_digits(size_t digits, const char *four)
{
    memset(mixed + mixed_length, '0', digits);
    if (digits >= 34)
        memcpy(mixed + mixed_length + 30, four, 4);
    mixed_length += digits;
    mixed[mixed_length++] = '\n';
}

static void add_sealed(size_t data, size_t message)
{
    uint8_t *end = mixed + mixed_length;
    size_t size;
    votrikany_write_line(key, nonce, sample, data, sample, message, end, sizeof mixed - mixed_length, &size);
    mixed_length += size;
}

/* Each number of a line; 22 with a right tag and with another. */
static void mix(void)
{
    mixed_length = 0;
    add_sealed(1, 20), add_digits(0, ""), add_digits(707, "0000"), add_sealed(2, 19), add_digits(5, "");
    add_digits(64, "0000"), add_digits(66, "0041"), add_digits(66, "0001"), add_digits(706, "0000");
    add_digits(66, "0000"), add_digits(66, "0100"), add_digits(66, "000g"), add_sealed(64, 256);
    mixed_length += by_hand(zero, 3, 2, mixed + mixed_length);
    mixed[mixed_length++] = '0';
}

static void many_equal_one_by_one(void)
{
    as_many_calls(NULL, 0, "no journal at null");
    as_many_calls((const uint8_t *)"\n\n\n\n", 4, "roll marks alone");
    as_many_calls((const uint8_t *)"0g\n\nabc", 7, "a bad digit, a roll mark and a cut line");
    mixed_length = 0;
    add_sealed(0, 0), add_sealed(64, 256), add_sealed(3, 2), add_sealed(5, 20), add_sealed(64, 0), add_sealed(0, 256);
    as_many_calls(mixed, mixed_length, "good lines");
    as_many_calls(mixed, mixed_length - 1, "good lines, the last one cut");
    mixed[67 + 5] ^= 1;
    as_many_calls(mixed, mixed_length, "a digit changed in the second line");
    mixed[67 + 5] = '\n';
    as_many_calls(mixed, mixed_length, "a newline in the second line");
    mix();
    as_many_calls(mixed, mixed_length, "each number of a line");
}

/* The slots of one call, said here and not by other calls. */
static void slots_said(void)
{
    static const size_t three[6][SLOT] = {
        { VOTRIKANY_NOT_DIGIT, 3, 0, 0, 1 }, { VOTRIKANY_ROLL_MARK, 4, 0, 0, 3 }, { VOTRIKANY_NO_NEWLINE, 7, 0, 0, 4 },
        { VOTRIKANY_END, 7, 0, 0, 7 }, { VOTRIKANY_END, 7, 0, 0, 7 }, { VOTRIKANY_END, 7, 0, 0, 7 }
    };
    static const size_t beyond[2][SLOT] = {
        { VOTRIKANY_PLACE_BEYOND, 8, 0, 0, 8 }, { VOTRIKANY_PLACE_BEYOND, 8, 0, 0, 8 }
    };
    static const uint8_t numbers[] = { 0, 16, 4, 0, 6, 7, 8, 9, 10, 22, 1, 5, 0, 22, 11 };
    static struct lent lent;
    const uint8_t *text = (const uint8_t *)"0g\n\nabc";
    paint(&lent);
    expect(read_lines(text, 7, 0, &lent, 30, 6 * FRAME) == VOTRIKANY_DONE, "six slots for three lines");
    expect(memcmp(lent.words, three, sizeof three) == 0, "three answers, and three times the end");
    expect(lent.next == 7 && all(lent.area + EDGE, 6 * FRAME, 0xaa), "the next place, and six frames of 0xaa");
    paint(&lent);
    expect(read_lines(text, 7, 8, &lent, 10, 2 * FRAME) == VOTRIKANY_DONE, "two slots from beyond the end");
    expect(memcmp(lent.words, beyond, sizeof beyond) == 0 && lent.next == 8, "both say so, and the place is kept");
    mix();
    expect(read_lines(mixed, mixed_length, 0, &lent, WORDS, AREA) == VOTRIKANY_DONE, "a slot for each number");
    for (size_t i = 0; i < sizeof numbers; i++) {
        const uint8_t *frame = lent.area + EDGE + i * FRAME;
        expect(lent.words[i * SLOT] == numbers[i], "the number of a line among others");
        expect(numbers[i] == VOTRIKANY_DONE || all(frame, FRAME, 0xaa), "the frame of a refused line is 0xaa");
    }
}

static void slots_as_a_struct(void)
{
    struct votrikany_slot slots[3];
    uint8_t frames[3 * FRAME], *second = frames + FRAME;
    size_t next;
    mixed_length = 0;
    add_digits(0, ""), add_sealed(3, 2);
    uint8_t gave = votrikany_read_lines(mixed, mixed_length, 0, key, (size_t *)slots, 3 * SLOT, frames, sizeof frames,
                                        &next);
    expect(gave == VOTRIKANY_DONE && next == 78 && slots[0].number == VOTRIKANY_ROLL_MARK, "the first of three slots");
    expect(slots[1].number == VOTRIKANY_DONE && slots[1].next == 78, "an opened line's number and next place");
    expect(slots[1].n == 3 && slots[1].m == 2 && slots[1].at == 1, "its n, its m and its place");
    expect(memcmp(second, nonce, 16) == 0 && memcmp(second + 16, "\3\7\10\11\7\10", 6) == 0, "its frame");
    expect(slots[2].number == VOTRIKANY_END && slots[2].next == 78 && slots[2].at == 78, "the end");
}

/* An area that does not fit its slots. */
static void area_refused(const uint8_t *text, size_t length, size_t place, size_t words, size_t area,
                         const char *what)
{
    static struct lent got, wanted;
    const size_t slot[SLOT] = { VOTRIKANY_AREA_DIFFERS, place, 0, 0, place };
    paint(&got), paint(&wanted);
    for (size_t i = 0; i < words / SLOT; i++)
        memcpy(wanted.words + i * SLOT, slot, sizeof slot);
    memset(wanted.area + EDGE, 0xaa, area);
    wanted.next = place;
    expect(read_lines(text, length, place, &got, words, area) == VOTRIKANY_AREA_DIFFERS, what);
    expect(memcmp(got.area, wanted.area, sizeof got.area) == 0, "the whole area is 0xaa, and what is around it kept");
    expect(same(&got, &wanted), "every slot says 21, the place is kept, and so are the words behind");
}

static void areas_refused(void)
{
    static const size_t words[] = { 0, 1, 4, 5, 6, 9, 10, 14, 15, 60, 64 };
    const uint8_t *text = (const uint8_t *)"0g\n\nabc\n";
    for (size_t i = 0; i < sizeof words / sizeof *words; i++) {
        size_t fits = words[i] / SLOT * FRAME;
        const size_t areas[] = { 0, 1, 352, 353, fits - 1, fits + 1, fits - FRAME, fits + FRAME, words[i] * FRAME };
        for (size_t k = 0; k < sizeof areas / sizeof *areas; k++)
            if (areas[k] != fits && areas[k] <= AREA)
                area_refused(text, 8, 3, words[i], areas[k], "an area that is not a frame for each slot");
    }
    area_refused(text, 8, 8, 10, 353, "21 comes before 14");
    area_refused(text, 8, 9, 10, 353, "21 comes before 12");
    area_refused(text, 8, SIZE_MAX, 10, 707, "21 comes before 12, from the place of all ones");
    area_refused(text, 8, 0, 5, 352, "21 comes before 13");
    area_refused(text, 7, 4, 5, 354, "21 comes before 11");
    area_refused(NULL, 0, 0, 5, 0, "21 with no journal at null");
    mix();
    area_refused(mixed, mixed_length, 0, 10, 353, "a line that would be opened");
}

/* Null where there is nothing, and no slot to say anything. */
static void many_at_null(void)
{
    static const size_t places[] = { 0, 3, 8, 9, SIZE_MAX };
    const uint8_t *text = (const uint8_t *)"0g\n\nabc\n";
    size_t words[9], next;
    uint8_t area[FRAME];
    for (size_t i = 0; i < sizeof places / sizeof *places; i++) {
        next = 99;
        uint8_t gave = votrikany_read_lines(text, 8, places[i], key, NULL, 0, NULL, 0, &next);
        expect(gave == VOTRIKANY_DONE && next == places[i], "no slot at null: the place given");
        next = 99;
        gave = votrikany_read_lines(NULL, 0, places[i], key, NULL, 0, NULL, 0, &next);
        expect(gave == VOTRIKANY_DONE && next == places[i], "no slot and no journal at null: the place given");
    }
    memset(words, 0x55, sizeof words);
    uint8_t gave = votrikany_read_lines(text, 8, 3, key, words, 4, NULL, 0, &next);
    expect(gave == VOTRIKANY_DONE && next == 3, "four words are no slot");
    expect(all((const uint8_t *)words, sizeof words, 0x55), "they are kept");
    gave = votrikany_read_lines(text, 8, 3, key, words, 9, NULL, 0, &next);
    expect(gave == VOTRIKANY_AREA_DIFFERS && next == 3, "a slot, and no area at null");
    expect(words[0] == 21 && words[1] == 3 && words[2] == 0 && words[3] == 0 && words[4] == 3, "the slot says so");
    expect(all((const uint8_t *)(words + 5), 4 * sizeof *words, 0x55), "the words behind are kept");
    gave = votrikany_read_lines(text, 8, 3, key, NULL, 0, area, sizeof area, &next);
    expect(gave == VOTRIKANY_AREA_DIFFERS && next == 3 && all(area, sizeof area, 0xaa), "an area, and no slot at null");
}

/* A message at an odd address, as it can be in an opened frame, with room for a byte more. */
static uint64_t even[3];
static uint8_t *const reading = (uint8_t *)even + 1;

static void put_low_first(uint8_t *to, size_t bytes, uint64_t value)
{
    for (size_t i = 0; i < bytes; i++)
        to[i] = (uint8_t)(value >> 8 * i);
}

static void pack(uint32_t tick, uint64_t resident, uint64_t active)
{
    put_low_first(reading, 4, tick);
    put_low_first(reading + 4, 8, resident);
    put_low_first(reading + 12, 8, active);
}

/* The second of three numbers is handed over, so that what stands beside it is seen too. */
static double ratios[3];
static uint32_t ticks[3];

static int decode(const uint8_t *message, size_t length, uint8_t number)
{
    for (size_t i = 0; i < 3; i++) {
        ratios[i] = 0.25;
        ticks[i] = 0x01020304;
    }
    uint8_t gave = votrikany_decode(message, length, &ratios[1], &ticks[1]);
    int kept = ratios[0] == 0.25 && ratios[2] == 0.25 && ticks[0] == 0x01020304 && ticks[2] == 0x01020304;
    return gave == number && kept;
}

static void undecoded(const uint8_t *message, size_t length, uint8_t number, const char *what)
{
    expect(decode(message, length, number), what);
    expect(all((const uint8_t *)&ratios[1], sizeof ratios[1], 0xaa), "every byte of the ratio is 0xaa");
    expect(all((const uint8_t *)&ticks[1], sizeof ticks[1], 0xaa), "every byte of the tick is 0xaa");
    expect(ratios[1] < 0, "what is left is no ratio");
}

static void no_ratio(uint64_t resident, uint64_t active, uint8_t number, const char *what)
{
    pack(0x55667788, resident, active);
    undecoded(reading, VOTRIKANY_READING_SIZE, number, what);
}

static void decoded(uint32_t tick, uint64_t resident, uint64_t active, uint64_t bits, const char *what)
{
    uint64_t got;
    pack(tick, resident, active);
    expect(decode(reading, VOTRIKANY_READING_SIZE, VOTRIKANY_DONE), what);
    memcpy(&got, &ratios[1], sizeof got);
    expect(got == bits, "the ratio's bits");
    expect(ticks[1] == tick, "the tick");
}

static void readings_refused(void)
{
    undecoded(NULL, 0, VOTRIKANY_NOT_TWENTY, "no message at null");
    pack(5, 3, 2);
    undecoded(reading, 0, VOTRIKANY_NOT_TWENTY, "0 bytes");
    undecoded(reading, 19, VOTRIKANY_NOT_TWENTY, "19 bytes");
    undecoded(reading, 21, VOTRIKANY_NOT_TWENTY, "21 bytes");
    undecoded(reading, ((size_t)1 << 32) + 20, VOTRIKANY_NOT_TWENTY, "2^32 + 20 bytes");
    pack(5, exact + 1, 0);
    undecoded(reading, 21, VOTRIKANY_NOT_TWENTY, "17 comes before 18");
    pack(5, 2, 3);
    undecoded(reading, 21, VOTRIKANY_NOT_TWENTY, "17 comes before 19");
    pack(5, 0, 0);
    undecoded(reading, 19, VOTRIKANY_NOT_TWENTY, "17 comes before 20");

    no_ratio(exact + 1, 0, VOTRIKANY_COUNTER_TOO_LARGE, "resident 2^53 + 1");
    no_ratio(exact + 1, exact, VOTRIKANY_COUNTER_TOO_LARGE, "resident 2^53 + 1, active 2^53");
    no_ratio(exact + 1, exact + 1, VOTRIKANY_COUNTER_TOO_LARGE, "both 2^53 + 1");
    no_ratio((uint64_t)1 << 63, 1, VOTRIKANY_COUNTER_TOO_LARGE, "resident 2^63");
    no_ratio(UINT64_MAX, UINT64_MAX, VOTRIKANY_COUNTER_TOO_LARGE, "both all ones");
    no_ratio(exact, exact + 1, VOTRIKANY_COUNTER_TOO_LARGE, "active 2^53 + 1: 18 comes before 19");
    no_ratio(1, (uint64_t)1 << 63, VOTRIKANY_COUNTER_TOO_LARGE, "active 2^63: 18 comes before 19");
    no_ratio(0, exact + 1, VOTRIKANY_COUNTER_TOO_LARGE, "18 comes before 20");

    no_ratio(2, 3, VOTRIKANY_ACTIVE_ABOVE, "active one above resident");
    no_ratio(exact - 1, exact, VOTRIKANY_ACTIVE_ABOVE, "active 2^53, resident one less");
    no_ratio(0, 1, VOTRIKANY_ACTIVE_ABOVE, "19 comes before 20");
    no_ratio(0, exact, VOTRIKANY_ACTIVE_ABOVE, "19 comes before 20, active 2^53");
    no_ratio(0, 0, VOTRIKANY_RESIDENT_ZERO, "nothing resident");
}

static void readings_decoded(void)
{
    decoded(0, 1, 1, 0, "all active: no sign");
    decoded(0xffffffff, exact, exact, 0, "all of 2^53 active");
    decoded(0x04030201, 1, 0, 0x3ff0000000000000, "nothing active");
    decoded(0xfefdfcfb, exact, 0, 0x3ff0000000000000, "nothing of 2^53 active");
    decoded(0x80000000, 3, 2, 0x3fd5555555555555, "a third, and not 1 less two thirds");
    decoded(0x7fffffff, 5, 2, 0x3fe3333333333333, "three fifths, and not 3 times a fifth");
    decoded(0x00007080, 50331648, 4194304, 0x3fed555555555555, "the line of docs/FORMAT.md");
    decoded(0xaaaaaaaa, exact, exact - 1, 0x3ca0000000000000, "the least above 0");
    decoded(0x01000000, exact, 1, 0x3fefffffffffffff, "the most below 1");
    decoded(0x00000001, 0x1f0e0d0c0b0a09, 0x08070605040302, 0x3fe7ba6f43cc746c, "bytes that all differ");
}

/* From wherever a tick stands on its way round: how far the other is ahead, and whether it is newer. */
static void newer(void)
{
    static const uint32_t from[] = { 0, 1, 0x01020304, 0x7fffffff, 0x80000000, 0xffffffff };
    static const struct {
        uint32_t ahead;
        bool newer;
        const char *what;
    } rows[] = {
        { 0, false, "no tick is newer than itself" },
        { 1, true, "one ahead" },
        { 0x7fffffff, true, "2^31 - 1 ahead" },
        { 0x80000000, false, "2^31 ahead: neither" },
        { 0x80000001, false, "2^31 + 1 ahead: behind" },
        { 0xffffffff, false, "one behind" },
    };
    for (size_t i = 0; i < sizeof from / sizeof *from; i++)
        for (size_t k = 0; k < sizeof rows / sizeof *rows; k++)
            expect(votrikany_newer(from[i] + rows[k].ahead, from[i]) == rows[k].newer, rows[k].what);
    expect(votrikany_newer(4, 0xffffffff) && !votrikany_newer(0xffffffff, 4), "round the end");
    expect(votrikany_newer(0, 0x80000001) && !votrikany_newer(0x80000001, 0), "half the way round and one more");
}

int main(void)
{
    cipher();
    writer();
    reader();
    zero_nonce_written();
    zero_nonce_read();
    nonces_taken();
    zero_nonce_ciphered();
    roll_marks();
    bad_digits();
    every_bad_byte();
    opened();
    if (failed) /* what follows is made of written lines */
        return failed;
    many_equal_one_by_one();
    slots_said();
    slots_as_a_struct();
    areas_refused();
    many_at_null();
    readings_refused();
    readings_decoded();
    newer();
    if (!failed)
        printf("refusals: %d checks hold\n", checks);
    return failed;
}
