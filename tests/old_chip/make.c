/* The chip of old_chip/0.9.0.img.gz, and the map that it stood for: made once, with the library of version 0.9.0, which wrote pages of the old form alone. For the record:
 * no test builds it. In a clone at that version (commit 309d22d), with this file beside it:
 *
 *   tools/cc.sh make -Itools make.c && ./make 0.9.0.img >0.9.0.map && gzip -9n 0.9.0.img
 *
 * Five blocks, some rounds, values of 0 to 96 bytes; three writes are cut short near the end, and the last of them leaves what document 02, request 3 warns of: the number
 * of the 0 bits before them in the last two bytes of an old page. */
#include "chance.h"
#include <floatstore.h>
#include <stdio.h>
#include <stdlib.h>
#include <string.h>

enum { B = 5, KEYS = 20 };
static uint8_t chip[FLOATSTORE_CHIP_LEN(B)], noise[FLOATSTORE_NOISE];
static uint32_t work[FLOATSTORE_WORK_LEN(B)];
static uint64_t fuse = FLOATSTORE_NO_FAULT;

static void must(int64_t got, int64_t want) {
    if (got == want) return;
    fprintf(stderr, "make: %lld and not %lld\n", (long long)got, (long long)want);
    exit(1);
}

static size_t key_of(uint32_t k, uint8_t *key) { return (size_t)sprintf((char *)key, "float/%02u", (unsigned)k); }

/* Text with a number, repeated up to a length. */
static size_t value_of(uint32_t n, uint8_t *value) {
    static const size_t lengths[6] = {96, 0, 12, 95, 40, 1};
    char text[32];
    int len = sprintf(text, "%u dbar, ", (unsigned)n);
    for (size_t i = 0; i < lengths[n % 6]; i++) value[i] = (uint8_t)text[i % (size_t)len];
    return lengths[n % 6];
}

static int64_t start(void) { return floatstore_start(chip, sizeof chip, work, FLOATSTORE_WORK_LEN(B), &fuse); }

static int64_t put(uint32_t k, uint32_t n) {
    uint8_t key[17], value[97];
    size_t key_len = key_of(k, key), len = value_of(n, value);
    return floatstore_put(chip, sizeof chip, work, FLOATSTORE_WORK_LEN(B), &fuse, noise, key, key_len, value, len);
}

static int64_t delete(uint32_t k) {
    uint8_t key[17];
    size_t key_len = key_of(k, key);
    return floatstore_delete(chip, sizeof chip, work, FLOATSTORE_WORK_LEN(B), &fuse, noise, key, key_len);
}

static void change(uint32_t n) {
    uint32_t k = chance(KEYS);
    if (chance(5) || delete(k) != 0) must(put(k, n), 0);
}

/* A put whose one write is cut short; and a start. */
static void cut_put(uint32_t k, uint32_t n) {
    fuse = 1;
    must(put(k, n), -7);
    fuse = FLOATSTORE_NO_FAULT;
    must(start(), 0);
}

/* Puts of a value of 96 bytes that ends in two bytes 0xFF, cut so that the number of the 0 bits before them stands in the page's last two bytes. */
static void cut_as_counted(void) {
    uint8_t key[17], value[96];
    size_t key_len = key_of(7, key);
    memset(value, 'x', 94);
    value[94] = value[95] = 0xFF;
    memset(noise, 0, sizeof noise);
    noise[254] = 0x03, noise[255] = 0xF0;
    fuse = 1;
    must(floatstore_put(chip, sizeof chip, work, FLOATSTORE_WORK_LEN(B), &fuse, noise, key, key_len, value, 96), -7);
    fuse = FLOATSTORE_NO_FAULT;
    must(start(), 0);
}

static void print_map(void) {
    uint8_t key[17] = {0}, value[96];
    int64_t key_len = 0;
    struct floatstore_seen s;
    must(floatstore_start_seeing(chip, sizeof chip, work, FLOATSTORE_WORK_LEN(B), &fuse, &s), 0);
    printf("seen %llu %llu %llu %llu %llu\n", (unsigned long long)s.blank, (unsigned long long)s.sound, (unsigned long long)s.spoilt, (unsigned long long)s.page,
           (unsigned long long)s.byte);
    while ((key_len = floatstore_next(chip, sizeof chip, work, FLOATSTORE_WORK_LEN(B), &fuse, key, (size_t)key_len, key, 16)) > 0) {
        int64_t len = floatstore_get(chip, sizeof chip, work, FLOATSTORE_WORK_LEN(B), &fuse, key, (size_t)key_len, value, sizeof value);
        printf("%.*s '%.*s'\n", (int)key_len, (char *)key, (int)len, (char *)value);
    }
}

int main(int argc, char **argv) {
    if (argc != 2) return 2;
    memset(chip, 0xFF, sizeof chip);
    chance_state = 9;
    must(start(), 0);
    uint32_t n = 0;
    while (n < 230) change(++n);
    for (size_t i = 0; i < sizeof noise; i++) noise[i] = (uint8_t)chance(256);
    cut_put(3, ++n);
    change(++n), change(++n);
    memset(noise, 0, sizeof noise), memset(noise + 192, 0xFF, 64); /* of its flipped copy a half stands */
    cut_put(11, ++n);
    change(++n);
    cut_as_counted();
    change(++n), change(++n);
    print_map();
    FILE *f = fopen(argv[1], "wb");
    return !f || fwrite(chip, 1, sizeof chip, f) != sizeof chip || fclose(f) != 0;
}
