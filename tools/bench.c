/* How long the calls take on a chip that is memory, full of keys whose values have the longest length. */
#define _POSIX_C_SOURCE 200809L
#include "letters.h"
#include <floatstore.h>
#include <stdio.h>
#include <stdlib.h>
#include <string.h>
#include <time.h>

static double seconds(void) {
    struct timespec t;
    clock_gettime(CLOCK_MONOTONIC, &t);
    return (double)t.tv_sec + 1e-9 * (double)t.tv_nsec;
}

static void measure(size_t blocks) {
    static uint8_t noise[FLOATSTORE_NOISE], value[FLOATSTORE_MAX_VALUE], key[LETTERS];
    size_t len = FLOATSTORE_CHIP_LEN(blocks), words = FLOATSTORE_WORK_LEN(blocks), room = FLOATSTORE_ROOM(blocks), times = 400000, starts = 50;
    uint8_t *chip = malloc(len);
    uint32_t *work = malloc(words * sizeof *work);
    uint64_t fuse = FLOATSTORE_NO_FAULT;
    int64_t wrong = 0;
    if (!chip || !work) exit(1);
    memset(chip, 0xFF, len);
    wrong |= floatstore_start(chip, len, work, words, &fuse);
    for (size_t i = 0; i < room; i++) {
        letters(key, (uint32_t)i * 2654435761u);
        wrong |= floatstore_put(chip, len, work, words, &fuse, noise, key, sizeof key, value, sizeof value);
    }
    double t0 = seconds();
    for (size_t i = 0; i < times; i++) {
        letters(key, (uint32_t)(i % room) * 2654435761u);
        wrong |= floatstore_put(chip, len, work, words, &fuse, noise, key, sizeof key, value, sizeof value);
    }
    double t1 = seconds();
    for (size_t i = 0; i < times; i++) {
        letters(key, (uint32_t)(i % room) * 2654435761u);
        wrong |= floatstore_get(chip, len, work, words, &fuse, key, sizeof key, value, sizeof value) - FLOATSTORE_MAX_VALUE;
    }
    double t2 = seconds();
    for (size_t i = 0; i < starts; i++) wrong |= floatstore_start(chip, len, work, words, &fuse);
    double t3 = seconds();
    printf("%4zu blocks, %5zu keys with values of %u bytes: put %.2f us, get %.2f us, start %.2f ms%s\n", blocks, room, FLOATSTORE_MAX_VALUE, 1e6 * (t1 - t0) / (double)times, 1e6 * (t2 - t1) / (double)times,
           1e3 * (t3 - t2) / (double)starts, wrong ? " WRONG" : "");
    free(chip);
    free(work);
    if (wrong) exit(1);
}

int main(void) {
    measure(16);
    measure(512);
    measure(2048);
    measure(4096);
    return 0;
}
