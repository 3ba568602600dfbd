/* Votrikany from C, in parts: seals a file piece by piece, so that it is never held whole, and checks a sealed one.
 *   cc -Iinclude -o parts examples/parts.c crates/export/out/libexport.a
 *   ./parts seal 1 heap.map heap.sealed
 *   ./parts check heap.sealed
 * A sealed file is the nonce (16 bytes), the ciphertext and the tag (16). The nonce is made of the number: with one
 * key, each is used once. No file is written over. Exit status: 0 sealed, or the tag is right; 1 the tag differs, or
 * there is none; 2 it could not be done.
 */
#include <errno.h>
#include <stdio.h>
#include <stdlib.h>
#include <string.h>
#include "votrikany.h"

enum { PIECE = 4096, GOOD = 0, WRONG = 1, FAILED = 2 };

/* A sample key: seal nothing of your own with it. */
static const uint8_t key[16] = "key of heap maps";

/* What is bound by the tag and not sealed, in two parts. */
static const uint8_t kind[8] = "heap map", host[8] = "host=a17";

static int could_not(const char *what, const char *name)
{
    fprintf(stderr, "parts: could not %s %s: %s\n", what, name, strerror(errno));
    return FAILED;
}

static int refused(uint8_t number)
{
    fprintf(stderr, "parts: refused with %d\n", number);
    return FAILED;
}

static void show(const char *what, unsigned long long count, const uint8_t tag[16])
{
    printf("%s %llu bytes, tag ", what, count);
    for (size_t i = 0; i < 16; i++)
        printf("%02x", tag[i]);
    printf("\n");
}

static int seal(const uint8_t nonce[16], FILE *map, FILE *sealed)
{
    uint8_t piece[PIECE], tag[16], number;
    unsigned long long count = 0;
    votrikany_sealer sealer = votrikany_sealer_begin(key, nonce);
    if ((number = votrikany_sealer_data(&sealer, kind, sizeof kind)) != VOTRIKANY_DONE)
        return refused(number);
    if ((number = votrikany_sealer_data(&sealer, host, sizeof host)) != VOTRIKANY_DONE)
        return refused(number);
    if (fwrite(nonce, 1, 16, sealed) != 16)
        return could_not("write", "the sealed file");
    for (size_t got; (got = fread(piece, 1, sizeof piece, map)) > 0; count += got) {
        if ((number = votrikany_sealer_message(&sealer, piece, got)) != VOTRIKANY_DONE)
            return refused(number); /* the piece is not sealed, and so it is not written */
        if (fwrite(piece, 1, got, sealed) != got)
            return could_not("write", "the sealed file");
    }
    if (ferror(map))
        return could_not("read", "the file");
    if ((number = votrikany_sealer_tag(&sealer, tag)) != VOTRIKANY_DONE)
        return refused(number);
    if (fwrite(tag, 1, 16, sealed) != 16 || fflush(sealed) != 0)
        return could_not("write", "the sealed file");
    show("sealed", count, tag);
    return GOOD;
}

/* The last sixteen bytes are the tag, and which they are is known at the end: sixteen are always held back. */
static int check(FILE *sealed)
{
    uint8_t nonce[16], piece[16 + PIECE], number;
    unsigned long long count = 0;
    if (fread(nonce, 1, 16, sealed) != 16 || fread(piece, 1, 16, sealed) != 16) {
        if (ferror(sealed))
            return could_not("read", "the sealed file");
        fprintf(stderr, "parts: under 32 bytes: no sealed file\n");
        return WRONG;
    }
    votrikany_checker checker = votrikany_checker_begin(key, nonce);
    if ((number = votrikany_checker_data(&checker, kind, sizeof kind)) != VOTRIKANY_DONE)
        return refused(number);
    if ((number = votrikany_checker_data(&checker, host, sizeof host)) != VOTRIKANY_DONE)
        return refused(number);
    for (size_t got; (got = fread(piece + 16, 1, PIECE, sealed)) > 0; count += got) {
        if ((number = votrikany_checker_ciphertext(&checker, piece, got)) != VOTRIKANY_DONE)
            return refused(number);
        memmove(piece, piece + got, 16);
    }
    if (ferror(sealed))
        return could_not("read", "the sealed file");
    number = votrikany_checker_tag(&checker, piece);
    if (number == VOTRIKANY_TAG_DIFFERS) {
        fprintf(stderr, "parts: the tag differs: the file is not to be used\n");
        return WRONG;
    }
    if (number != VOTRIKANY_DONE)
        return refused(number);
    show("checked", count, piece);
    return GOOD;
}

/* What was not sealed to its end is removed: a file without its tag is good for nothing. */
static int seal_file(unsigned long long number, const char *from, const char *to)
{
    uint8_t nonce[16] = { 0 };
    for (size_t i = 0; i < 8; i++)
        nonce[i] = (uint8_t)(number >> 8 * i);
    FILE *map = fopen(from, "rb");
    if (!map)
        return could_not("open", from);
    FILE *sealed = fopen(to, "wbx"); /* x: not a file that is there */
    int status = sealed ? seal(nonce, map, sealed) : could_not("make", to);
    if (sealed && fclose(sealed) != 0 && status == GOOD)
        status = could_not("write", to);
    if (sealed && status != GOOD)
        remove(to);
    fclose(map);
    return status;
}

static int check_file(const char *name)
{
    FILE *sealed = fopen(name, "rb");
    if (!sealed)
        return could_not("open", name);
    int status = check(sealed);
    fclose(sealed);
    return status;
}

/* The number that the digits say, or 0 where they say none that fits. */
static unsigned long long number_of(const char *digits)
{
    if (strspn(digits, "0123456789") != strlen(digits))
        return 0;
    errno = 0;
    unsigned long long number = strtoull(digits, NULL, 10);
    return errno == 0 ? number : 0;
}

int main(int words, char **word)
{
    if (words == 3 && strcmp(word[1], "check") == 0)
        return check_file(word[2]);
    if (words == 5 && strcmp(word[1], "seal") == 0 && number_of(word[2]) > 0)
        return seal_file(number_of(word[2]), word[3], word[4]);
    fprintf(stderr, "usage: parts seal NUMBER FILE SEALED, with a number from 1 on, or parts check SEALED\n");
    return FAILED;
}
