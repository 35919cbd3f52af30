/* How long a start takes, by what stands on the chip: nothing, a tenth of it records, records everywhere. 512 blocks; the best of several rounds, in microseconds. */
#define _POSIX_C_SOURCE 199309L
#include "letters.h"
#include <floatstore.h>
#include <inttypes.h>
#include <stdio.h>
#include <string.h>
#include <time.h>

#define BLOCKS 512
#define ROUNDS 30

static uint8_t chip[FLOATSTORE_CHIP_LEN(BLOCKS)];
static uint32_t work[FLOATSTORE_WORK_LEN(BLOCKS)];
static uint8_t noise[FLOATSTORE_NOISE];
static uint64_t fuse = FLOATSTORE_NO_FAULT;

static double now(void) {
    struct timespec t;
    clock_gettime(CLOCK_MONOTONIC, &t);
    return 1e6 * (double)t.tv_sec + (double)t.tv_nsec / 1e3;
}

static int64_t start(void) { return floatstore_start(chip, sizeof chip, work, FLOATSTORE_WORK_LEN(BLOCKS), &fuse); }

/* n puts over 1,000 keys, with values of 32 bytes */
static int fill(unsigned n) {
    uint8_t key[LETTERS], value[32] = {0};
    for (unsigned i = 0; i < n; i++) {
        letters(key, i % 1000);
        memcpy(value, &i, sizeof i);
        if (floatstore_put(chip, sizeof chip, work, FLOATSTORE_WORK_LEN(BLOCKS), &fuse, noise, key, sizeof key, value, sizeof value) < 0) return 0;
    }
    return 1;
}

static int measure(const char *what) {
    double best = 1e12;
    for (int i = 0; i < ROUNDS; i++) {
        double t = now();
        if (start() < 0) return 0;
        t = now() - t;
        if (t < best) best = t;
    }
    printf("%-28s %8.0f us\n", what, best);
    return 1;
}

int main(void) {
    memset(chip, 0xFF, sizeof chip);
    if (!measure("a blank chip")) return 1;
    if (!fill(15 * BLOCKS / 10) || !measure("a tenth of it records")) return 1;
    return fill(15 * BLOCKS) && measure("records everywhere") ? 0 : 1;
}
