/* SHA-256 of a message in pieces of `size` bytes, in one where `size` is 0. */
#ifndef PLAIN_SHA256_H
#define PLAIN_SHA256_H

#include <stddef.h>
#include <stdint.h>

void plain_in_pieces(const uint8_t *message, size_t length, size_t size, uint8_t digest[32]);

#endif
