/* turn IMAGE MAP [BUG]: a chip that version 0.9.0 wrote is started, must have the map that it had there, and is written until its ring has gone round: pages of both forms
 * stand side by side, none of the old form is written, and none is live in the end. With BUG, the twin of the laboratory with that planted fault instead of the library. */
#include "../laboratory/twin.h"
#include "chance.h"
#include "reading.h"
#include <floatstore.h>
#include <inttypes.h>
#include <stdio.h>
#include <stdlib.h>
#include <string.h>

enum { B = 5, KEYS = 20 };
static uint8_t chip[FLOATSTORE_CHIP_LEN(B)], before[FLOATSTORE_CHIP_LEN(B)], noise[FLOATSTORE_NOISE];
static uint32_t work[FLOATSTORE_WORK_LEN(B)];
static uint64_t fuse = FLOATSTORE_NO_FAULT;

/* The map: of each key its value, or a length of -1. */
static struct {
    int64_t len;
    uint8_t value[FLOATSTORE_MAX_VALUE];
} map[KEYS];

static void fail(const char *what) {
    printf("FOUND: %s\n", what);
    exit(1);
}

static size_t key_of(uint32_t k, uint8_t *key) { return (size_t)sprintf((char *)key, "float/%02u", (unsigned)k); }

#define STORE chip, sizeof chip, work, FLOATSTORE_WORK_LEN(B), &fuse
static int64_t start(void) { return twin_bug ? twin_start(STORE) : floatstore_start(STORE); }
static int64_t count(void) { return twin_bug ? twin_count(STORE) : floatstore_count(STORE); }
static int64_t get(uint32_t k, uint8_t *buffer, size_t len) {
    uint8_t key[17];
    size_t key_len = key_of(k, key);
    return twin_bug ? twin_get(STORE, key, key_len, buffer, len) : floatstore_get(STORE, key, key_len, buffer, len);
}
static int64_t put(uint32_t k) {
    uint8_t key[17];
    size_t key_len = key_of(k, key), len = (size_t)map[k].len;
    return twin_bug ? twin_put(STORE, noise, key, key_len, map[k].value, len) : floatstore_put(STORE, noise, key, key_len, map[k].value, len);
}
static int64_t delete(uint32_t k) {
    uint8_t key[17];
    size_t key_len = key_of(k, key);
    return twin_bug ? twin_delete(STORE, noise, key, key_len) : floatstore_delete(STORE, noise, key, key_len);
}

/* MAP: what start_seeing saw, then a line for each key. */
static void read_map(const char *name) {
    struct floatstore_seen saw, then;
    unsigned k;
    char line[256];
    FILE *f = fopen(name, "r");
    if (!f || fscanf(f, "seen %" SCNu64 " %" SCNu64 " %" SCNu64 " %" SCNu64 " %" SCNu64 "\n", &then.blank, &then.sound, &then.spoilt, &then.page, &then.byte) != 5)
        fail("no map");
    for (k = 0; k < KEYS; k++) map[k].len = -1;
    while (fgets(line, sizeof line, f)) {
        char *from = strchr(line, '\''), *to = strrchr(line, '\'');
        if (sscanf(line, "float/%u ", &k) != 1 || k >= KEYS || !from || from == to || to - from > 97) fail("a bad line in the map");
        map[k].len = to - from - 1;
        memcpy(map[k].value, from + 1, (size_t)map[k].len);
    }
    fclose(f);
    if (twin_bug) return;
    if (floatstore_start_seeing(STORE, &saw) != 0 || memcmp(&saw, &then, sizeof saw) != 0) fail("start_seeing sees something else than it did");
}

static void check_map(void) {
    int64_t keys = 0;
    uint8_t buffer[FLOATSTORE_MAX_VALUE];
    if (start() != 0) fail("start refuses the chip");
    for (uint32_t k = 0; k < KEYS; k++) {
        int64_t len = get(k, buffer, sizeof buffer);
        if (map[k].len < 0 ? len != -4 : len != map[k].len || memcmp(buffer, map[k].value, (size_t)len) != 0) fail("a key has another value");
        keys += map[k].len >= 0;
    }
    if (count() != keys) fail("there are other keys");
}

/* How many live pages are of that form. */
static size_t live(enum form form, size_t *head) {
    struct reading r;
    size_t n = 0;
    if (!read_chip(&r, chip, B) || !r.is_ring) fail("no ring");
    for (size_t p = 0; p < 16 * B; p++) n += r.kinds[p] == LIVE && chip[256 * p] == form;
    *head = r.head;
    forget_reading(&r);
    return n;
}

static void change(void) {
    uint32_t k = chance(KEYS);
    memcpy(before, chip, sizeof chip);
    if (map[k].len >= 0 && chance(5) == 0) {
        map[k].len = -1;
        if (delete(k) != 0) fail("delete is refused");
    } else {
        map[k].len = chance(FLOATSTORE_MAX_VALUE + 1);
        for (int64_t i = 0; i < map[k].len; i++) map[k].value[i] = (uint8_t)chance(256);
        if (put(k) != 0) fail("put is refused");
    }
    for (size_t p = 0; p < 16 * B; p++)
        if (memcmp(chip + 256 * p, before + 256 * p, 256) != 0 && !page_is_blank(chip + 256 * p) && chip[256 * p] != COUNTED) fail("a page of the old form is written");
}

int main(int argc, char **argv) {
    size_t head, at, opened = 0, mixed = 0, changes = 0, keys = 0;
    FILE *f = argc < 3 ? NULL : fopen(argv[1], "rb");
    if (!f || fread(chip, 1, sizeof chip, f) != sizeof chip || fclose(f) != 0) return fprintf(stderr, "usage: turn IMAGE MAP [BUG]\n"), 2;
    twin_bug = argc > 3 ? atoi(argv[3]) : 0;
    read_map(argv[2]);
    check_map();
    chance_state = 1;
    if (live(COUNTED, &head) != 0 || (keys = live(FLIPPED, &head)) == 0) fail("the chip isn't an old one");
    while (opened < B) {
        change();
        check_map();
        changes++;
        size_t old = live(FLIPPED, &at), new = live(COUNTED, &at);
        mixed += old > 0 && new > 0;
        opened += (at + B - head) % B;
        head = at;
    }
    if (live(FLIPPED, &at) != 0) fail("the ring has gone round, and an old page is live");
    if (!mixed) fail("the two forms never stood side by side");
    printf("an old chip: %zu keys, all on old pages, and the map as it was; after %zu of %zu puts and deletes both forms were live; none of the old in the end\n", keys,
           mixed, changes);
    return 0;
}
