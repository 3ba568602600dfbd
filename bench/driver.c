/* Calls our library and the Rust's on the same inputs.
 *   driver check KIND N M           both sides give the same bytes and numbers, or exit status 1
 *   driver count KIND N M SIDE R    R calls of one side, for the plugin to count; SIDE is ours, rust, or none (an empty call)
 *   driver time KIND N M            nanoseconds a call, ours and the Rust's: the best of 40 batches each, taken in turn
 *   driver journal BYTES            a key line and a journal of so many bytes, lines of n = 64, m = 256 and n = 0, m = 20 in turn
 * KIND is seal, open, write, read, or for 100 lines `each`, a call for each of them and the 100 taken as one here, or
 * `many`, one call for all; or `parts-K` and `check-K`: ours seals or checks in parts of K bytes, and the Rust seals or
 * opens by one call. N is the bytes of data, M of message. Buffers are warm: the same ones at each call.
 * With -DNO_LINES the archive has no write and read; with -DNO_MANY it has none for many lines; with -DNO_PARTS it has
 * no records for parts.
 */
#define _POSIX_C_SOURCE 200809L
#include <stdio.h>
#include <stdlib.h>
#include <string.h>
#include <time.h>
#include "votrikany.h"

enum { MOST = 65536, LINE = 707, FRAME = 353, SLOT = 5, COUNT = 100 };

typedef uint8_t seal_call(const uint8_t *, const uint8_t *, const uint8_t *, size_t, uint8_t *, size_t, uint8_t *);
typedef uint8_t open_call(const uint8_t *, const uint8_t *, const uint8_t *, size_t, uint8_t *, size_t, const uint8_t *);
typedef uint8_t write_call(const uint8_t *, const uint8_t *, const uint8_t *, size_t, const uint8_t *, size_t, uint8_t *, size_t, size_t *);
typedef uint8_t read_call(const uint8_t *, size_t, size_t, const uint8_t *, uint8_t *, size_t, size_t *, size_t *, size_t *,
                          size_t *);
typedef uint8_t many_call(const uint8_t *, size_t, size_t, const uint8_t *, size_t *, size_t, uint8_t *, size_t,
                          size_t *);

seal_call rust_seal_in_place;
open_call rust_open_in_place;
write_call rust_write_line;
read_call rust_read_line;
many_call rust_read_lines;

static uint8_t none_seal(const uint8_t *k, const uint8_t *o, const uint8_t *a, size_t n, uint8_t *x, size_t m, uint8_t *t)
{
    (void)k, (void)o, (void)a, (void)n, (void)x, (void)m, (void)t;
    return 0;
}

static uint8_t none_open(const uint8_t *k, const uint8_t *o, const uint8_t *a, size_t n, uint8_t *x, size_t m, const uint8_t *t)
{
    (void)k, (void)o, (void)a, (void)n, (void)x, (void)m, (void)t;
    return 0;
}

static uint8_t none_write(const uint8_t *k, const uint8_t *o, const uint8_t *a, size_t n, const uint8_t *x, size_t m, uint8_t *l, size_t r, size_t *s)
{
    (void)k, (void)o, (void)a, (void)n, (void)x, (void)m, (void)l, (void)r, (void)s;
    return 0;
}

static uint8_t none_read(const uint8_t *j, size_t l, size_t p, const uint8_t *k, uint8_t *f, size_t r, size_t *e, size_t *n,
                         size_t *m, size_t *a)
{
    (void)j, (void)l, (void)p, (void)k, (void)f, (void)r, (void)e, (void)n, (void)m, (void)a;
    return 0;
}

static uint8_t none_many(const uint8_t *j, size_t l, size_t p, const uint8_t *k, size_t *s, size_t c, uint8_t *f,
                         size_t r, size_t *e)
{
    (void)j, (void)l, (void)p, (void)k, (void)s, (void)c, (void)f, (void)r, (void)e;
    return 0;
}

struct side {
    seal_call *seal;
    open_call *open;
    write_call *write;
    read_call *read;
    many_call *many;
    seal_call *parts;
    open_call *check;
};

/* The bytes of a part. */
static size_t part;

#ifdef NO_PARTS
#define parts_seal none_seal
#define parts_check none_open
#else
/* The last part is what is left over. */
static size_t part_length(size_t from, size_t m)
{
    return m - from < part ? m - from : part;
}

/* The data in one part and the message in parts, from begin to tag. The answer is 0 where each call's is. */
static uint8_t parts_seal(const uint8_t *k, const uint8_t *o, const uint8_t *a, size_t n, uint8_t *x, size_t m,
                          uint8_t *t)
{
    votrikany_sealer record = votrikany_sealer_begin(k, o);
    uint8_t number = votrikany_sealer_data(&record, a, n);
    for (size_t i = 0; i < m; i += part)
        number |= votrikany_sealer_message(&record, x + i, part_length(i, m));
    return number | votrikany_sealer_tag(&record, t);
}

static uint8_t parts_check(const uint8_t *k, const uint8_t *o, const uint8_t *a, size_t n, uint8_t *x, size_t m,
                           const uint8_t *t)
{
    votrikany_checker record = votrikany_checker_begin(k, o);
    uint8_t number = votrikany_checker_data(&record, a, n);
    for (size_t i = 0; i < m; i += part)
        number |= votrikany_checker_ciphertext(&record, x + i, part_length(i, m));
    return number | votrikany_checker_tag(&record, t);
}
#endif

#ifdef NO_LINES
#define votrikany_write_line none_write
#define votrikany_read_line none_read
#endif
#ifdef NO_MANY
#define votrikany_read_lines none_many
#endif
static const struct side ours = { votrikany_seal_in_place, votrikany_open_in_place, votrikany_write_line,
                                  votrikany_read_line, votrikany_read_lines, parts_seal, parts_check };
static const struct side rust = { rust_seal_in_place, rust_open_in_place, rust_write_line, rust_read_line,
                                  rust_read_lines, rust_seal_in_place, rust_open_in_place };
static const struct side none = { none_seal, none_open, none_write, none_read, none_many, none_seal, none_open };

/* What goes in, and for opening and reading what the Rust made of it. */
static uint8_t key[16], nonce[16], ad[MOST], message[MOST], sealed[MOST], tag[16], line[LINE], lines[COUNT * LINE];
static size_t n, m, line_size, lines_size;

/* What comes out. */
struct outcome {
    uint8_t number, tag[16], text[MOST], line[LINE], frame[FRAME], frames[COUNT * FRAME];
    size_t size, next, n, m, at, slots[COUNT * SLOT];
};

static void prepare(size_t data, size_t text)
{
    n = data;
    m = text;
    for (size_t i = 0; i < 16; i++) {
        key[i] = (uint8_t)(7 * i + 1);
        nonce[i] = (uint8_t)(11 * i + 3);
    }
    for (size_t i = 0; i < n; i++)
        ad[i] = (uint8_t)(13 * i + 5);
    for (size_t i = 0; i < m; i++)
        message[i] = (uint8_t)(17 * i + i / 256);
    memcpy(sealed, message, m);
    rust_seal_in_place(key, nonce, ad, n, sealed, m, tag);
    if (n <= 64 && m <= 256) {
        rust_write_line(key, nonce, ad, n, message, m, line, sizeof line, &line_size);
        uint8_t own[16];
        memcpy(own, nonce, sizeof own);
        for (size_t i = 0; i < COUNT; i++) {
            size_t size;
            own[0] = (uint8_t)i;
            rust_write_line(key, own, ad, n, message, m, lines + lines_size, LINE, &size);
            lines_size += size;
        }
    }
}

/* A call for each line, from the place that the one before gave. What comes out goes where one call for all puts it. */
static void each(const struct side *s, struct outcome *o)
{
    o->next = 0;
    for (size_t i = 0; i < COUNT; i++) {
        size_t *slot = o->slots + SLOT * i;
        slot[0] = s->read(lines, lines_size, o->next, key, o->frames + FRAME * i, FRAME, slot + 1, slot + 2, slot + 3,
                          slot + 4);
        o->next = slot[1];
    }
}

/* One call. The text is put into its buffer each time, since sealing and opening change it: an empty call does that too,
 * and what it costs is taken off. */
static void call(const char *kind, const struct side *s, struct outcome *o)
{
    switch (kind[0]) {
    case 's':
        memcpy(o->text, message, m);
        o->number = s->seal(key, nonce, ad, n, o->text, m, o->tag);
        break;
    case 'o':
        memcpy(o->text, sealed, m);
        o->number = s->open(key, nonce, ad, n, o->text, m, tag);
        break;
    case 'w':
        o->number = s->write(key, nonce, ad, n, message, m, o->line, sizeof o->line, &o->size);
        break;
    case 'e':
        each(s, o);
        break;
    case 'p':
        memcpy(o->text, message, m);
        o->number = s->parts(key, nonce, ad, n, o->text, m, o->tag);
        break;
    case 'c':
        memcpy(o->text, sealed, m);
        o->number = s->check(key, nonce, ad, n, o->text, m, tag);
        break;
    case 'm':
        o->number = s->many(lines, lines_size, 0, key, o->slots, COUNT * SLOT, o->frames, sizeof o->frames, &o->next);
        break;
    default:
        o->number = s->read(line, line_size, 0, key, o->frame, sizeof o->frame, &o->next, &o->n, &o->m, &o->at);
    }
}

/* Whether the call went well, and of many lines each. */
static int well(const struct outcome *o)
{
    int good = o->number == 0;
    for (size_t i = 0; i < COUNT; i++)
        good = good && o->slots[SLOT * i] == 0;
    return good;
}

/* What the same work leaves by other calls: one for all lines what one for each does, parts what one call does. */
static void otherwise(const char *kind, struct outcome *o)
{
    switch (kind[0]) {
    case 'm':
        call("each", &rust, o);
        break;
    case 'p':
        call("seal", &ours, o);
        break;
    case 'c':
        call("open", &ours, o);
        break;
    default:
        call(kind, &rust, o);
    }
}

/* Checking hands out no message: the text must be as it was, and becomes what opening leaves. Another tag answers 1. */
static int checked(struct outcome *o)
{
    uint8_t other[16];
    memcpy(other, tag, sizeof other);
    other[15] ^= 1;
    int good = ours.check(key, nonce, ad, n, o->text, m, other) == 1 && memcmp(o->text, sealed, m) == 0;
    memcpy(o->text, message, m);
    return good;
}

static int check(const char *kind)
{
    static struct outcome a, b, c;
    call(kind, &ours, &a);
    call(kind, &rust, &b);
    otherwise(kind, &c);
    int good = well(&a) && (kind[0] != 'c' || checked(&a));
    if (good && memcmp(&a, &b, sizeof a) == 0 && memcmp(&a, &c, sizeof a) == 0)
        return 0;
    fprintf(stderr, "driver: %s of n = %zu, m = %zu differs: ours answers %d, the Rust %d\n", kind, n, m, a.number, b.number);
    return 1;
}

static double now(void)
{
    struct timespec t;
    clock_gettime(CLOCK_MONOTONIC, &t);
    return (double)t.tv_sec * 1e9 + (double)t.tv_nsec;
}

static double batch(const char *kind, const struct side *s, size_t calls, struct outcome *o)
{
    double from = now();
    for (size_t i = 0; i < calls; i++)
        call(kind, s, o);
    return (now() - from) / (double)calls;
}

static void times(const char *kind)
{
    static struct outcome o;
    const struct side *sides[3] = { &ours, &rust, &none };
    double best[3] = { 1e18, 1e18, 1e18 };
    size_t calls = 1;
    while (batch(kind, &rust, calls, &o) * (double)calls < 2e6)
        calls *= 2;
    for (int turn = 0; turn < 40; turn++)
        for (int i = 0; i < 3; i++) {
            double t = batch(kind, sides[i], calls, &o);
            if (t < best[i])
                best[i] = t;
        }
    printf("%.1f %.1f\n", best[0] - best[2], best[1] - best[2]);
}

static void journal(size_t bytes)
{
    size_t written = 0, size;
    for (size_t i = 0; i < 16; i++)
        printf("%02x", key[i]);
    printf("\n");
    for (size_t i = 0; written < bytes; i++) {
        nonce[0] = (uint8_t)i;
        rust_write_line(key, nonce, ad, i % 2 ? 0 : 64, message, i % 2 ? 20 : 256, line, sizeof line, &size);
        if (size > bytes - written)
            size = bytes - written;
        fwrite(line, 1, size, stdout);
        written += size;
    }
}

static size_t number(const char *text)
{
    return strtoul(text, NULL, 10);
}

int main(int argc, char **argv)
{
    static struct outcome o;
    if (argc == 3 && strcmp(argv[1], "journal") == 0) {
        prepare(64, 256);
        journal(number(argv[2]));
        return 0;
    }
    if (argc < 5 || number(argv[3]) > MOST || number(argv[4]) > MOST)
        return 2;
    const char *what = argv[1], *kind = argv[2], *dash = strchr(kind, '-');
    part = dash ? number(dash + 1) : MOST;
    if (part == 0)
        return 2;
    prepare(number(argv[3]), number(argv[4]));
    if (strcmp(what, "check") == 0)
        return check(kind);
    if (strcmp(what, "time") == 0) {
        times(kind);
        return 0;
    }
    if (strcmp(what, "count") == 0 && argc == 7) {
        const struct side *s = argv[5][0] == 'o' ? &ours : argv[5][0] == 'r' ? &rust : &none;
        for (size_t i = number(argv[6]); i > 0; i--)
            call(kind, s, &o);
        return 0;
    }
    return 2;
}
