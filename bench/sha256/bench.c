/* The proved SHA-256 beside plain C, interleaved in one process: the ratio of the medians, C's time over ours, so 1 is C's speed and more is faster. */
#include "sha256.h"

#include <stdio.h>
#include <stdlib.h>
#include <string.h>
#include <time.h>

/* sha256_in_pieces of crates/sha256_pieces: a slice is a pointer and a length. */
struct digest {
    uint8_t bytes[32];
};
struct digest sha256_in_pieces(const uint8_t *message, size_t length, size_t size);

enum { REPEATS = 201, LONGEST = 65535 };

static uint8_t message[LONGEST];

static uint64_t now(void)
{
    struct timespec t;
    clock_gettime(CLOCK_MONOTONIC, &t);
    return (uint64_t)t.tv_sec * 1000000000u + (uint64_t)t.tv_nsec;
}

/* The time of `turns` digests. Each digest goes into the next message, so that none can be left out. */
static uint64_t ours(size_t length, size_t size, int turns)
{
    uint64_t began = now();
    for (int i = 0; i < turns; i++) {
        struct digest d = sha256_in_pieces(message, length, size);
        memcpy(message, d.bytes, 32);
    }
    return now() - began;
}

static uint64_t plain(size_t length, size_t size, int turns)
{
    uint64_t began = now();
    for (int i = 0; i < turns; i++) {
        uint8_t d[32];
        plain_in_pieces(message, length, size, d);
        memcpy(message, d, 32);
    }
    return now() - began;
}

static int by_value(const void *a, const void *b)
{
    uint64_t x = *(const uint64_t *)a, y = *(const uint64_t *)b;
    return (x > y) - (x < y);
}

static uint64_t median(uint64_t *times)
{
    qsort(times, REPEATS, sizeof *times, by_value);
    return times[REPEATS / 2];
}

static void same(size_t length, size_t size)
{
    struct digest d = sha256_in_pieces(message, length, size);
    uint8_t p[32];
    plain_in_pieces(message, length, size, p);
    if (memcmp(d.bytes, p, 32) != 0) {
        printf("the digests of %zu bytes in pieces of %zu differ\n", length, size);
        exit(1);
    }
}

static double ratio(size_t length, size_t pieces)
{
    static uint64_t o[REPEATS], p[REPEATS];
    size_t size = (length + pieces - 1) / pieces;
    int turns = (int)(65536 / (length + 64)) + 1;
    same(length, size);
    for (int i = 0; i < REPEATS; i++) {
        o[i] = ours(length, size, turns);
        p[i] = plain(length, size, turns);
    }
    return (double)median(p) / (double)median(o);
}

int main(void)
{
    static const size_t small[] = {48, 64, 96, 128, 161};
    for (size_t i = 0; i < LONGEST; i++)
        message[i] = (uint8_t)(31 * i % 251);
    for (size_t length = 0; length < 300; length++)
        for (size_t size = 0; size < 80; size++)
            same(length, size);
    printf("%5d bytes in 1 piece:  %.3f of C's speed\n", LONGEST, ratio(LONGEST, 1));
    printf("%5d bytes in 5 pieces: %.3f\n", 51000, ratio(51000, 5));
    for (size_t i = 0; i < sizeof small / sizeof *small; i++)
        for (size_t pieces = 2; pieces <= 4; pieces++)
            printf("%5zu bytes in %zu pieces: %.3f\n", small[i], pieces, ratio(small[i], pieces));
    return 0;
}
