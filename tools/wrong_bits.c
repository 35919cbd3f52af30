/* What a wrong bit does: each bit of a chip is flipped, alone, and the chip is started; and which two wrong bits of one page leave it sound, in each form. Outside the fault model (docs/FAULTS.md), which knows no bits that
 * change by themselves: nothing is promised here, and what is counted is the yardstick for a stronger model. The map is compared with a plain copy. */
#define _XOPEN_SOURCE 700
#include "chance.h"
#include "reading.h"
#include <floatstore.h>
#include <inttypes.h>
#include <stdio.h>
#include <stdlib.h>
#include <string.h>

enum { MOST = 16, KEYS = 20, KEY_LEN = 4 }; /* blocks; keys that are ever used */

/* What one wrong bit did: a chip is counted for the first that holds. */
enum harm { INVENTED, REFUSED, BACK, LOST, OLDER, NOTHING, HARMS };
static const char *const harm_words[HARMS] = {
    "a value nobody put", "start refused", "a deleted key is back", "a key lost", "a key older", "nothing",
};

/* Where a bit lies. */
enum where { HEAD_SEAL, HEAD_BLANK, SEALS, LIVE_VALUES, NOTES, OLDER_RECORDS, SPARE, UNUSED, WHERES };
static const char *const where_words[WHERES] = {
    "page 15 of the head", "the head's blank pages", "seals", "live values", "notes of deletion", "older values", "the spare", "unused blocks",
};

static uint8_t chip[4096 * MOST], noise[FLOATSTORE_NOISE];
static uint32_t work[FLOATSTORE_WORK_LEN(MOST)];
static uint64_t fuse = FLOATSTORE_NO_FAULT;
static size_t blocks;

/* The plain copy: the number of each key's value, 0 for none; and whose each number was. */
static uint32_t now[KEYS], values;
static uint32_t key_of_put[4096];
static uint8_t texts[KEYS][64];
static size_t lengths[KEYS];

static void fail(const char *what) {
    fprintf(stderr, "wrong_bits: %s\n", what);
    exit(1);
}

static void key_bytes(uint8_t *key, uint32_t k) { memcpy(key, (uint8_t[KEY_LEN]){'k', 'e', 'y', (uint8_t)('A' + k)}, KEY_LEN); }
static size_t value_bytes(uint8_t *value, uint32_t n) { return (size_t)sprintf((char *)value, "value %u of the float's settings", (unsigned)n); }
static int64_t start(void) { return floatstore_start(chip, 4096 * blocks, work, FLOATSTORE_WORK_LEN(blocks), &fuse); }

/* ---- a life, without faults */

static void do_put(uint32_t k) {
    uint8_t key[KEY_LEN];
    key_bytes(key, k);
    size_t len = lengths[k] = value_bytes(texts[k], ++values);
    if (values >= 4096) fail("too many puts");
    if (floatstore_put(chip, 4096 * blocks, work, FLOATSTORE_WORK_LEN(blocks), &fuse, noise, key, KEY_LEN, texts[k], len) != 0) fail("put");
    now[k] = values, key_of_put[values] = k;
}

static void do_delete(uint32_t k) {
    uint8_t key[KEY_LEN];
    key_bytes(key, k);
    if (floatstore_delete(chip, 4096 * blocks, work, FLOATSTORE_WORK_LEN(blocks), &fuse, noise, key, KEY_LEN) != 0) fail("delete");
    now[k] = 0;
}

static void live(size_t b, uint32_t calls) {
    blocks = b, values = 0, chance_state = 1;
    memset(chip, 0xFF, sizeof chip), memset(now, 0, sizeof now);
    if (start() != 0) fail("start");
    for (uint32_t i = 0; i < calls; i++) {
        uint32_t k = chance(KEYS);
        if (now[k] && chance(4) == 0) do_delete(k);
        else do_put(k);
    }
}

/* ---- what a started chip answers, against the plain copy */

static enum harm harm_of_value(uint32_t k, uint8_t *value, size_t len) {
    uint8_t was[64];
    unsigned n = 0;
    if (now[k] && len == lengths[k] && memcmp(value, texts[k], len) == 0) return NOTHING;
    value[len] = 0;
    if (sscanf((char *)value, "value %u", &n) != 1 || n < 1 || n > values || key_of_put[n] != k) return INVENTED;
    if (value_bytes(was, n) != len || memcmp(was, value, len) != 0) return INVENTED;
    return now[k] ? OLDER : BACK;
}

/* A key that nobody put is an invention too: it shows in the count. */
static enum harm harm_now(void) {
    enum harm worst = NOTHING;
    if (start() != 0) return REFUSED;
    int64_t there = floatstore_count(chip, 4096 * blocks, work, FLOATSTORE_WORK_LEN(blocks), &fuse);
    for (uint32_t k = 0; k < KEYS; k++) {
        uint8_t key[KEY_LEN], value[FLOATSTORE_MAX_VALUE + 1];
        key_bytes(key, k);
        int64_t len = floatstore_get(chip, 4096 * blocks, work, FLOATSTORE_WORK_LEN(blocks), &fuse, key, KEY_LEN, value, FLOATSTORE_MAX_VALUE);
        enum harm h = len >= 0 ? harm_of_value(k, value, (size_t)len) : now[k] ? LOST : NOTHING;
        there -= len >= 0;
        if (h < worst) worst = h;
    }
    return there == 0 ? worst : INVENTED;
}

/* ---- every bit */

static enum where where_of(const struct reading *r, size_t p) {
    if (p / 16 == r->head) {
        if (p % 16 == 15) return HEAD_SEAL;
        if (r->kinds[p] == BLANK) return HEAD_BLANK;
    }
    if (r->later && p / 16 == r->spare) return SPARE;
    switch (r->kinds[p]) {
    case LIVE: return LIVE_VALUES;
    case NOTE: return NOTES;
    case SEAL: return SEALS;
    case BLANK: return UNUSED;
    default: return OLDER_RECORDS;
    }
}

static uint32_t counts[WHERES + 1][HARMS]; /* the last row is the sum */

static void flip_all(const struct reading *r) {
    memset(counts, 0, sizeof counts);
    for (size_t bit = 0; bit < 8 * 4096 * blocks; bit++) {
        chip[bit / 8] ^= (uint8_t)(1u << bit % 8);
        enum harm h = harm_now();
        counts[where_of(r, bit / 8 / 256)][h]++, counts[WHERES][h]++;
        chip[bit / 8] ^= (uint8_t)(1u << bit % 8);
    }
}

static void print_row(const char *name, const uint32_t *row) {
    uint32_t all = 0;
    for (int h = 0; h < HARMS; h++) all += row[h];
    if (!all) return;
    printf("| %s | %" PRIu32, name, all);
    for (int h = 0; h < HARMS; h++) printf(" | %" PRIu32, row[h]);
    printf(" |\n");
}

static void print_table(const char *title, const struct reading *r) {
    printf("%s: %zu blocks, head block %zu, %zu keys\n\n| a bit of | bits", title, blocks, r->head, r->keys);
    for (int h = 0; h < HARMS; h++) printf(" | %s", harm_words[h]);
    printf(" |\n|---|---");
    for (int h = 0; h < HARMS; h++) printf("|---");
    printf("|\n");
    for (int w = 0; w < WHERES; w++) print_row(where_words[w], counts[w]);
    print_row("the whole chip", counts[WHERES]);
    printf("\n");
}

static void try_chip(const char *title, size_t b, uint32_t calls, int later) {
    struct reading r;
    live(b, calls);
    if (harm_now() != NOTHING) fail("a chip without a wrong bit has another map");
    if (!read_chip(&r, chip, blocks)) fail("no memory");
    if (r.later != later) fail("the chip is in another round");
    flip_all(&r);
    print_table(title, &r);
    forget_reading(&r);
}

/* ---- two bits of a page */

/* The page of a value, in a form. */
static void make_page(uint8_t *page, enum form form) {
    memset(page, 0, FLOATSTORE_PAGE);
    page[0] = (uint8_t)form, page[1] = 1, page[2] = KEY_LEN;
    key_bytes(page + 16, 0);
    page[3] = (uint8_t)value_bytes(page + 32, 1);
    page[32 + page[3]] = 0;
    for (size_t i = 0; form == FLIPPED && i < 128; i++) page[128 + i] = (uint8_t)~page[i];
    if (form == COUNTED) page[254] = (uint8_t)(payload_zeros(page) / 256), page[255] = (uint8_t)(payload_zeros(page) % 256);
    if (page_says(page) != 1) fail("a page of the format says something else");
}

enum pair { BOTH_RISE, BOTH_FALL, ONE_EACH, PAIRS };

static void flip(uint8_t *page, size_t bit) { page[bit / 8] ^= (uint8_t)(1u << bit % 8); }

static void print_pairs(const char *name, enum form form) {
    uint8_t page[FLOATSTORE_PAGE];
    size_t all[PAIRS] = {0}, sound[PAIRS] = {0};
    make_page(page, form);
    for (size_t a = 0; a < 8 * FLOATSTORE_PAGE; a++)
        for (size_t b = a + 1; b < 8 * FLOATSTORE_PAGE; b++) {
            int x = page[a / 8] >> a % 8 & 1, y = page[b / 8] >> b % 8 & 1;
            enum pair pair = x != y ? ONE_EACH : x ? BOTH_FALL : BOTH_RISE;
            flip(page, a), flip(page, b);
            all[pair]++, sound[pair] += (size_t)page_is_sound(page);
            flip(page, a), flip(page, b);
        }
    printf("| %s", name);
    for (int i = 0; i < PAIRS; i++) printf(" | %zu of %zu", sound[i], all[i]);
    printf(" |\n");
}

int main(void) {
    try_chip("A later round", 8, 400, 1);
    try_chip("The first round", 8, 52, 0);
    printf("Two bits of a page\n\n| sound with two wrong bits | both rise | both fall | one each |\n|---|---|---|---|\n");
    print_pairs("the flipped copy", FLIPPED);
    print_pairs("the count", COUNTED);
    return 0;
}
