/* What the programs of this folder ask of a board: text out, a file out, and how deep the stack was. No C library but these four functions. */
#ifndef BOARD_H
#define BOARD_H
#include <stddef.h>
#include <stdint.h>

void *memcpy(void *to, const void *from, size_t n);
void *memmove(void *to, const void *from, size_t n);
void *memset(void *to, int byte, size_t n);
int memcmp(const void *a, const void *b, size_t n);

void say(const char *text);
void board_save(const char *name, const void *bytes, uint32_t len);
void board_paint(void);
uint32_t board_depth(void); /* bytes below the caller that were used since the painting; 0 where it isn't known */
int work(void); /* the program: its status */

static inline void say_number(uint64_t n) {
    char text[21], *p = text + 20;
    *p = 0;
    do *--p = (char)('0' + n % 10);
    while (n /= 10);
    say(p);
}

static inline uint64_t next_of(uint64_t *state) { /* splitmix64, as in tools/chance.h */
    uint64_t z = *state += 0x9E3779B97F4A7C15u;
    z = (z ^ (z >> 30)) * 0xBF58476D1CE4E5B9u;
    z = (z ^ (z >> 27)) * 0x94D049BB133111EBu;
    return z ^ (z >> 31);
}

#endif
