/* The stores that the laboratory tries in memory.
 *
 *   lab library|twin|both|bugN SECONDS [SEED]      0: nothing found; 1: found, with the way to it; 2: bad usage
 *
 * library: the proved one; twin: one in plain C (twin.c); both: the first, and the second on a copy of the chip must leave the same bytes; bugN: a twin with a
 * planted fault, which must be found. */
#include "lab.h"
#include "twin.h"
#include <stdio.h>
#include <stdlib.h>
#include <string.h>

/* The store of version 0.9.0, but for the form of its pages (lab.c turns them to the old one): a right twin that looks at no places. */
static int fault; /* of the twin that is tried */
static void go_back(void) { twin_looks = 0, twin_bug = RIGHT; }
static int64_t come_back(int64_t answer) { return twin_looks = 8, twin_bug = fault, answer; }

static int64_t early_start(const uint8_t *chip, size_t len, uint32_t *work, size_t work_len, const uint64_t *fuse) {
    go_back();
    return come_back(twin_start(chip, len, work, work_len, fuse));
}

static int64_t early_put(uint8_t *chip, size_t len, uint32_t *work, size_t work_len, uint64_t *fuse, const uint8_t *noise, const uint8_t *key, size_t key_len,
                         const uint8_t *value, size_t value_len) {
    go_back();
    return come_back(twin_put(chip, len, work, work_len, fuse, noise, key, key_len, value, value_len));
}

static int64_t early_delete(uint8_t *chip, size_t len, uint32_t *work, size_t work_len, uint64_t *fuse, const uint8_t *noise, const uint8_t *key, size_t key_len) {
    go_back();
    return come_back(twin_delete(chip, len, work, work_len, fuse, noise, key, key_len));
}

static const struct store earlier = {twin_format, early_start, early_put, twin_get, early_delete, twin_count, NULL, NULL, NULL, NULL, 0};
static const struct store twin = {twin_format, twin_start, twin_put, twin_get, twin_delete, twin_count, NULL, NULL, NULL, &earlier, 0};

static uint8_t before[FLOATSTORE_CHIP_LEN(MAX_B)];

static int64_t both_put(uint8_t *chip, size_t len, uint32_t *work, size_t work_len, uint64_t *fuse, const uint8_t *noise, const uint8_t *key, size_t key_len,
                        const uint8_t *value, size_t value_len) {
    struct did d = {before, chip, noise, key, value, len, key_len, value_len, *fuse, 0, 0, work, work[PASSED_WORD]};
    memcpy(before, chip, len);
    d.answer = floatstore_put(chip, len, work, work_len, fuse, noise, key, key_len, value, value_len);
    d.left = *fuse;
    mirror(&twin, &d);
    return d.answer;
}

static int64_t both_delete(uint8_t *chip, size_t len, uint32_t *work, size_t work_len, uint64_t *fuse, const uint8_t *noise, const uint8_t *key, size_t key_len) {
    struct did d = {before, chip, noise, key, NULL, len, key_len, 0, *fuse, 0, 0, work, work[PASSED_WORD]};
    memcpy(before, chip, len);
    d.answer = floatstore_delete(chip, len, work, work_len, fuse, noise, key, key_len);
    d.left = *fuse;
    mirror(&twin, &d);
    return d.answer;
}

static const struct store both = {floatstore_format, floatstore_start, both_put, floatstore_get, both_delete, floatstore_count, floatstore_next, NULL, NULL, &earlier, 0};

int main(int argc, char **argv) {
    static char name[96];
    if (argc < 3 || argc > 4) return fprintf(stderr, "usage: lab library|twin|both|bugN SECONDS [SEED]\n"), 2;
    static struct store proved;
    proved = library, proved.earlier = &earlier;
    const struct store *store = strcmp(argv[1], "library") == 0 ? &proved : strcmp(argv[1], "both") == 0 ? &both : &twin;
    if (store == &twin && strcmp(argv[1], "twin") != 0 && strncmp(argv[1], "bug", 3) != 0) return fprintf(stderr, "lab: %s is no store\n", argv[1]), 2;
    if (strncmp(argv[1], "bug", 3) == 0) twin_bug = fault = atoi(argv[1] + 3);
    if (twin_bug < 0 || twin_bug >= BUGS) return fprintf(stderr, "lab: there is no such bug\n"), 2;
    if (twin_bug) snprintf(name, sizeof name, "twin whose fault is '%s'", twin_bugs[twin_bug]);
    return laboratory(twin_bug ? name : argv[1], store, argv[2], argv[3]);
}
