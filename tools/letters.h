/* A number as a key of eight letters: a put takes bytes 0x21 to 0x7E alone. */
#ifndef LETTERS_H
#define LETTERS_H

#include <stdint.h>

enum { LETTERS = 8 };

static inline void letters(uint8_t key[LETTERS], uint32_t n) {
    for (int i = 0; i < LETTERS; i++) key[i] = (uint8_t)('A' + (n >> 4 * i) % 16);
}

#endif
