/* SHA-256 (FIPS 180-4) in plain portable C, streaming: start, absorb, finish. */
#include "sha256.h"

#include <string.h>

static const uint32_t K[64] = {
    0x428a2f98, 0x71374491, 0xb5c0fbcf, 0xe9b5dba5, 0x3956c25b, 0x59f111f1, 0x923f82a4, 0xab1c5ed5,
    0xd807aa98, 0x12835b01, 0x243185be, 0x550c7dc3, 0x72be5d74, 0x80deb1fe, 0x9bdc06a7, 0xc19bf174,
    0xe49b69c1, 0xefbe4786, 0x0fc19dc6, 0x240ca1cc, 0x2de92c6f, 0x4a7484aa, 0x5cb0a9dc, 0x76f988da,
    0x983e5152, 0xa831c66d, 0xb00327c8, 0xbf597fc7, 0xc6e00bf3, 0xd5a79147, 0x06ca6351, 0x14292967,
    0x27b70a85, 0x2e1b2138, 0x4d2c6dfc, 0x53380d13, 0x650a7354, 0x766a0abb, 0x81c2c92e, 0x92722c85,
    0xa2bfe8a1, 0xa81a664b, 0xc24b8b70, 0xc76c51a3, 0xd192e819, 0xd6990624, 0xf40e3585, 0x106aa070,
    0x19a4c116, 0x1e376c08, 0x2748774c, 0x34b0bcb5, 0x391c0cb3, 0x4ed8aa4a, 0x5b9cca4f, 0x682e6ff3,
    0x748f82ee, 0x78a5636f, 0x84c87814, 0x8cc70208, 0x90befffa, 0xa4506ceb, 0xbef9a3f7, 0xc67178f2,
};

struct stream {
    uint32_t words[8];
    uint8_t buffer[64];
    uint64_t count;
};

static uint32_t rotr(unsigned n, uint32_t x)
{
    return (x >> n) | (x << (32 - n));
}

static uint32_t word_at(const uint8_t *s)
{
    return (uint32_t)s[0] << 24 | (uint32_t)s[1] << 16 | (uint32_t)s[2] << 8 | (uint32_t)s[3];
}

static void compress(uint32_t v[8], const uint8_t *block)
{
    uint32_t w[64];
    for (int t = 0; t < 16; t++)
        w[t] = word_at(block + 4 * t);
    for (int t = 16; t < 64; t++) {
        uint32_t s0 = rotr(7, w[t - 15]) ^ rotr(18, w[t - 15]) ^ (w[t - 15] >> 3);
        uint32_t s1 = rotr(17, w[t - 2]) ^ rotr(19, w[t - 2]) ^ (w[t - 2] >> 10);
        w[t] = s1 + w[t - 7] + s0 + w[t - 16];
    }
    uint32_t a = v[0], b = v[1], c = v[2], d = v[3], e = v[4], f = v[5], g = v[6], h = v[7];
    for (int t = 0; t < 64; t++) {
        uint32_t t1 = h + (rotr(6, e) ^ rotr(11, e) ^ rotr(25, e)) + ((e & f) ^ (~e & g)) + K[t] + w[t];
        uint32_t t2 = (rotr(2, a) ^ rotr(13, a) ^ rotr(22, a)) + ((a & b) ^ (a & c) ^ (b & c));
        h = g;
        g = f;
        f = e;
        e = d + t1;
        d = c;
        c = b;
        b = a;
        a = t1 + t2;
    }
    v[0] += a;
    v[1] += b;
    v[2] += c;
    v[3] += d;
    v[4] += e;
    v[5] += f;
    v[6] += g;
    v[7] += h;
}

static void start(struct stream *s)
{
    static const uint32_t initial[8] = {
        0x6a09e667, 0xbb67ae85, 0x3c6ef372, 0xa54ff53a, 0x510e527f, 0x9b05688c, 0x1f83d9ab, 0x5be0cd19,
    };
    memcpy(s->words, initial, sizeof initial);
    s->count = 0;
}

static void absorb(struct stream *s, const uint8_t *part, size_t length)
{
    size_t at = s->count % 64;
    s->count += length;
    if (at != 0) {
        size_t room = 64 - at;
        if (length < room) {
            memcpy(s->buffer + at, part, length);
            return;
        }
        memcpy(s->buffer + at, part, room);
        compress(s->words, s->buffer);
        part += room;
        length -= room;
    }
    while (length >= 64) {
        compress(s->words, part);
        part += 64;
        length -= 64;
    }
    memcpy(s->buffer, part, length);
}

static void finish(struct stream *s, uint8_t digest[32])
{
    static const uint8_t mark[64] = {0x80};
    uint64_t bits = 8 * s->count;
    uint8_t last[8];
    for (int i = 0; i < 8; i++)
        last[i] = (uint8_t)(bits >> (56 - 8 * i));
    absorb(s, mark, (119 - s->count % 64) % 64 + 1);
    absorb(s, last, 8);
    for (int i = 0; i < 8; i++)
        for (int j = 0; j < 4; j++)
            digest[4 * i + j] = (uint8_t)(s->words[i] >> (24 - 8 * j));
}

void plain_in_pieces(const uint8_t *message, size_t length, size_t size, uint8_t digest[32])
{
    struct stream s;
    size_t i = 0;
    start(&s);
    if (size != 0)
        for (; size < length - i; i += size)
            absorb(&s, message + i, size);
    absorb(&s, message + i, length - i);
    finish(&s, digest);
}
