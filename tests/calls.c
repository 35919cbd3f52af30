/* The six calls from C, the next key, and the start that says what it saw: both sides of each limit of document 01, sections 3 and 5, on chips of up to 4,096
 * blocks, and one key put a million times. */
#include "../tools/letters.h"
#include <floatstore.h>
#include <stdio.h>
#include <stdlib.h>
#include <string.h>

/* The declarations are fixed, since others link against them: a header that says something else doesn't compile with these. */
int64_t floatstore_format(uint8_t *chip, size_t chip_len, uint32_t *work, size_t work_len, uint64_t *fuse, const uint8_t *noise /* 4096 bytes */);
int64_t floatstore_start (const uint8_t *chip, size_t chip_len, uint32_t *work, size_t work_len, const uint64_t *fuse);
int64_t floatstore_put   (uint8_t *chip, size_t chip_len, uint32_t *work, size_t work_len, uint64_t *fuse, const uint8_t *noise,
                          const uint8_t *key, size_t key_len, const uint8_t *value, size_t value_len);
int64_t floatstore_get   (const uint8_t *chip, size_t chip_len, const uint32_t *work, size_t work_len, const uint64_t *fuse,
                          const uint8_t *key, size_t key_len, uint8_t *buffer, size_t buffer_len); /* the length */
int64_t floatstore_delete(uint8_t *chip, size_t chip_len, uint32_t *work, size_t work_len, uint64_t *fuse, const uint8_t *noise,
                          const uint8_t *key, size_t key_len);
int64_t floatstore_count (const uint8_t *chip, size_t chip_len, const uint32_t *work, size_t work_len, const uint64_t *fuse); /* the count */
int64_t floatstore_next(const uint8_t *chip, size_t chip_len, const uint32_t *work, size_t work_len, const uint64_t *fuse,
                          const uint8_t *key, size_t key_len, uint8_t *buffer, size_t buffer_len);

static uint8_t *chip, noise[FLOATSTORE_NOISE];
static uint32_t *work;
static uint64_t fuse = FLOATSTORE_NO_FAULT;
static size_t chip_len, work_len;
static int wrong;

#define IS(want, call)                                                                                                          \
    do {                                                                                                                        \
        long long got_ = (long long)(call), want_ = (long long)(want);                                                          \
        if (got_ != want_) wrong++, printf("%s:%d: %s is %lld and should be %lld\n", __FILE__, __LINE__, #call, got_, want_);   \
    } while (0)

static int64_t format(void) { return floatstore_format(chip, chip_len, work, work_len, &fuse, noise); }
static int64_t start(void) { return floatstore_start(chip, chip_len, work, work_len, &fuse); }
static int64_t count(void) { return floatstore_count(chip, chip_len, work, work_len, &fuse); }
static int64_t put(const void *key, size_t key_len, const void *value, size_t len) {
    return floatstore_put(chip, chip_len, work, work_len, &fuse, noise, key, key_len, value, len);
}
static int64_t get(const void *key, size_t key_len, void *buffer, size_t len) {
    return floatstore_get(chip, chip_len, work, work_len, &fuse, key, key_len, buffer, len);
}
static int64_t next(const void *key, size_t key_len, void *buffer, size_t len) {
    return floatstore_next(chip, chip_len, work, work_len, &fuse, key, key_len, buffer, len);
}
static int64_t del(const void *key, size_t key_len) { return floatstore_delete(chip, chip_len, work, work_len, &fuse, noise, key, key_len); }

/* A blank chip of B blocks, and an area full of anything. */
static void lend(size_t blocks) {
    free(chip);
    free(work);
    chip_len = FLOATSTORE_CHIP_LEN(blocks);
    work_len = FLOATSTORE_WORK_LEN(blocks);
    chip = malloc(chip_len);
    work = malloc(4 * work_len);
    if (!chip || !work) exit(2);
    memset(chip, 0xFF, chip_len);
    memset(work, 0xA5, 4 * work_len);
    fuse = FLOATSTORE_NO_FAULT;
}

/* Every call is refused with k. */
static void all_refused(int k) {
    uint8_t b[FLOATSTORE_MAX_VALUE];
    IS(-k, count());
    IS(-k, put("a", 1, "1", 1));
    IS(-k, get("a", 1, b, sizeof b));
    IS(-k, del("a", 1));
    IS(-k, next("", 0, b, sizeof b));
    IS(-k, next("0123456789abcdefg", 17, b, 0));
}

static void sizes(void) {
    static const size_t bad[] = {0, 1, 2, 3, 4097};
    for (size_t i = 0; i < sizeof bad / sizeof bad[0]; i++) {
        lend(bad[i]);
        IS(-5, start());
        IS(-5, format());
        all_refused(5);
    }
    lend(4);
    work_len--;
    IS(-5, start());
    work_len++;
    chip_len--;
    IS(-5, start());
    chip_len++;
    IS(0, start());
    IS(0, count());
    work_len--;
    all_refused(5);
    work_len++;
    IS(0, count());
}

/* Fills a chip of B blocks to its last key, one more is refused, and all is there after a start. */
static void fill(size_t blocks) {
    uint8_t b[FLOATSTORE_MAX_VALUE], key[LETTERS], first[LETTERS];
    size_t room = FLOATSTORE_ROOM(blocks), n;
    letters(first, 0);
    lend(blocks);
    IS(0, start());
    for (n = 0; n < room; n++) {
        letters(key, (uint32_t)n * 2654435761u);
        if (put(key, LETTERS, &n, 4) != 0) break;
    }
    IS(room, n);
    IS(room, count());
    IS(-3, put("seventeen", 9, "x", 1));
    IS(0, put(first, LETTERS, "new", 3));
    IS(0, del(first, LETTERS));
    IS(-4, del(first, LETTERS));
    IS(0, put("seventeen", 9, "x", 1));
    IS(-3, put(first, LETTERS, "x", 1));
    IS(0, start());
    IS(room, count());
    for (n = 1; n < room; n++) {
        uint32_t value = 0;
        letters(key, (uint32_t)n * 2654435761u);
        if (get(key, LETTERS, &value, 4) != 4 || value != n) break;
    }
    IS(room, n);
    IS(1, get("seventeen", 9, b, 1));
}

static void arguments(void) {
    uint8_t b[221], v[221];
    memset(v, 7, sizeof v);
    lend(4);
    all_refused(8);
    IS(0, start());
    IS(-1, put("", 0, v, 1));
    IS(-1, get("", 0, b, 1));
    IS(-1, del("", 0));
    IS(0, put("0123456789abcdef", 16, v, 220));
    IS(-1, put("0123456789abcdefg", 17, v, 221));
    IS(-1, get("0123456789abcdefg", 17, b, 220));
    IS(-2, put("a", 1, v, 221));
    IS(0, put("old", 3, v, 96)); /* the longest of old pages, and one byte more */
    IS(96, get("old", 3, b, 96));
    IS(0, put("old", 3, v, 97));
    IS(-6, get("old", 3, b, 96));
    IS(97, get("old", 3, b, 97));
    IS(0, del("old", 3));
    IS(-4, get("a", 1, b, 220));
    memset(b, 1, sizeof b);
    IS(-6, get("0123456789abcdef", 16, b, 219));
    IS(1, b[0]);
    IS(220, get("0123456789abcdef", 16, b, 221));
    IS(7, b[219]);
    IS(1, b[220]);
    IS(0, put("a", 1, v, 0));
    IS(0, get("a", 1, b, 0));
    IS(2, count());
}

static void power(void) {
    lend(4);
    IS(0, start());
    IS(0, put("a", 1, "1", 1));
    fuse = 0;
    IS(-7, start());
    IS(-7, format());
    all_refused(7);
    fuse = 1; /* and the noise is all zeros: the write is completed although nobody is told */
    IS(-7, put("a", 1, "2", 1));
    IS(0, fuse);
    fuse = FLOATSTORE_NO_FAULT;
    all_refused(7);
    IS(0, start());
    uint8_t b = 0;
    IS(1, get("a", 1, &b, 1));
    IS('2', b);
    for (size_t i = 0; i < FLOATSTORE_NOISE; i++) noise[i] = (uint8_t)(i % 251);
    fuse = 3; /* the third erase is cut: its block holds the noise, and the next is as it was */
    IS(-7, format());
    IS(0, memcmp(chip + 2 * FLOATSTORE_BLOCK, noise, FLOATSTORE_BLOCK));
    IS(0xFF, chip[3 * FLOATSTORE_BLOCK]);
    memset(noise, 0, sizeof noise);
    fuse = FLOATSTORE_NO_FAULT;
    IS(-7, format());
    start();
    IS(0, format());
    all_refused(8);
    IS(0, start());
    IS(0, count());
    memset(chip, 0, chip_len); /* no store: every block is sealed */
    IS(-8, start());
    all_refused(8);
}

static void million(void) {
    lend(4);
    IS(0, start());
    uint32_t i, erases = 0;
    for (i = 0; i < 1000000; i++) {
        uint64_t before = fuse;
        if (put("a", 1, &i, 4) != 0) break;
        erases += before - fuse > 1;
    }
    IS(1000000, i);
    uint32_t last = 0;
    IS(4, get("a", 1, &last, 4));
    IS(999999, last);
    IS(1, count());
    printf("one key put 1,000,000 times on 4 blocks: none refused, %u of them opened a block\n", erases);
}

static void saw(int64_t answer, uint64_t blank, uint64_t sound, uint64_t spoilt, uint64_t page, uint64_t byte) {
    struct floatstore_seen s = {1, 2, 3, 4, 5};
    IS(answer, floatstore_start_seeing(chip, chip_len, work, work_len, &fuse, &s));
    IS(blank, s.blank);
    IS(sound, s.sound);
    IS(spoilt, s.spoilt);
    IS(page, s.page);
    IS(byte, s.byte);
}

/* Page p in the old form. */
static void make_old(size_t p) {
    uint8_t *at = chip + 256 * p;
    at[0] = 1;
    for (size_t i = 0; i < 128; i++) at[128 + i] = (uint8_t)~at[i];
}

/* The start that says what it saw: pages of the three kinds, and the first spoilt one; also of a chip that it refuses with 8, and not with 5 or 7. */
static void seeing(void) {
    const struct floatstore_seen before = {1, 2, 3, 4, 5};
    struct floatstore_seen s = before;
    lend(4);
    saw(0, 64, 0, 0, 0, 0);
    for (uint32_t i = 0; i < 5; i++) IS(0, put("a", 1, &i, 4));
    saw(0, 59, 5, 0, 0, 0);
    IS(1, count());
    IS(2, chip[256 * 3]); /* the form */
    chip[256 * 3 + 200] ^= 1; /* wherever the bit is, byte 254 is told, where the count stands */
    saw(0, 59, 4, 1, 3, 254);
    chip[256 * 3 + 200] ^= 1;
    make_old(3);
    saw(0, 59, 5, 0, 0, 0);
    chip[256 * 3 + 128 + 40] ^= 1; /* the copy of byte 40 */
    chip[256 * 3 + 77] ^= 1;
    chip[256 * 63] = 0x7F; /* in the spare of the later rounds */
    chip[256 * 63 + 255] = 0x7F;
    saw(-8, 58, 4, 2, 3, 40); /* in the first round blank pages must be blank */
    IS(-8, count());
    chip[256 * 63] = chip[256 * 63 + 255] = 0xFF;
    saw(0, 59, 4, 1, 3, 40);
    make_old(1);
    chip[256 * 1 + 127] ^= 4;
    saw(0, 59, 3, 2, 1, 127);
    make_old(0);
    chip[0] = 3, chip[128] = 252; /* the halves agree, and there is no such form */
    saw(0, 59, 2, 3, 0, 0);
    memset(chip, 0, chip_len);
    saw(-8, 0, 0, 64, 0, 0);
    fuse = 0;
    IS(-7, floatstore_start_seeing(chip, chip_len, work, work_len, &fuse, &s));
    IS(-5, floatstore_start_seeing(chip, chip_len - 1, work, work_len, &fuse, &s));
    IS(0, memcmp(&s, &before, sizeof s));
}

/* The key after this one is `want`, and past it the buffer is as it was; a buffer of just its length will do, and one byte less is refused and left as it
 * was. */
static void follows(const void *key, size_t key_len, const void *want, size_t want_len) {
    uint8_t b[17];
    memset(b, 0x5C, sizeof b);
    IS(-6, next(key, key_len, b, want_len - 1));
    for (size_t i = 0; i < sizeof b; i++) IS(0x5C, b[i]);
    IS(want_len, next(key, key_len, b, want_len));
    IS(0, memcmp(b, want, want_len));
    for (size_t i = want_len; i < sizeof b; i++) IS(0x5C, b[i]);
}

/* The record of a key with an empty value, in the old form, by docs/FORMAT.md, on a page of the chip: keys that came there by other ways than put. */
static void plant(size_t page, const void *key, uint8_t key_len) {
    uint8_t *at = chip + 256 * page;
    memset(at, 0, 128);
    at[1] = 1;
    at[2] = key_len;
    memcpy(at + 16, key, key_len);
    make_old(page);
}

/* Put takes keys of the bytes 0x21 to 0x7E alone; get, delete and next take any, so that old ones are found and removed. */
static void printed_keys(void) {
    uint8_t b[16], key[3] = "a?b", keep[4 * FLOATSTORE_BLOCK];
    lend(4);
    IS(0, start());
    for (int x = 0; x < 256; x++)
        for (size_t at = 0; at < 3; at++) {
            memcpy(key, "a?b", 3);
            key[at] = (uint8_t)x;
            memcpy(keep, chip, sizeof keep);
            int64_t answer = put(key, 3, b, 0);
            IS(x < 0x21 || x > 0x7E ? -1 : 0, answer);
            if (answer) IS(0, memcmp(keep, chip, sizeof keep));
            IS(answer ? -4 : 0, del(key, 3));
        }
    IS(-1, put("\n", 1, keep, 221)); /* 1 comes before 2 */
    IS(-1, put("0123456789abcde\n", 16, b, 0));
    lend(4);
    plant(0, "a\nb", 3);
    plant(1, " ", 1);
    IS(0, start());
    IS(2, count());
    IS(0, get("a\nb", 3, b, 0));
    IS(-1, put("a\nb", 3, "new", 3));
    follows("", 0, " ", 1);
    follows(" ", 1, "a\nb", 3);
    IS(0, del("a\nb", 3));
    IS(-4, get("a\nb", 3, b, 16));
    IS(1, count());
    IS(0, start());
    IS(0, del(" ", 1));
    IS(0, count());
}

static void next_key(void) {
    uint8_t b[17];
    lend(4);
    IS(0, start());
    IS(-4, next("", 0, b, 16)); /* an empty store */
    IS(-4, next("", 0, b, 0));
    IS(-4, next("0123456789abcdef", 16, b, 16));
    IS(-1, next("0123456789abcdefg", 17, b, 16));
    IS(0, put("b", 1, "", 0));
    IS(0, put("aa", 2, "", 0));
    IS(0, put("a", 1, "", 0));
    IS(0, put("zzzzzzzzzzzzzzzz", 16, "", 0));
    follows("", 0, "a", 1); /* a shorter key before its longer continuations, and these before a larger byte */
    follows("a", 1, "aa", 2);
    follows("aa", 2, "b", 1);
    follows("b", 1, "zzzzzzzzzzzzzzzz", 16);
    IS(-4, next("zzzzzzzzzzzzzzzz", 16, b, 16));
    follows("A", 1, "a", 1); /* the key that is given need not have a value */
    follows("a!", 2, "aa", 2);
    follows("aaaaaaaaaaaaaaaa", 16, "b", 1);
    follows("zzzzzzzzzzzzzzz", 15, "zzzzzzzzzzzzzzzz", 16);
    IS(-4, next("zzzzzzzzzzzzzzzz{", 16, b, 0));
    IS(-1, next("zzzzzzzzzzzzzzzz{", 17, b, 0));
    IS(0, del("aa", 2));
    follows("a", 1, "b", 1);
    follows("aa", 2, "b", 1);
    IS(0, start());
    follows("", 0, "a", 1);
    lend(4); /* bytes are compared as 0 to 255 */
    plant(0, "\xFF", 1);
    plant(1, "\x80", 1);
    plant(2, "\x7F\xFF", 2);
    plant(3, "\0", 1);
    plant(4, "\0\0", 2);
    plant(5, "\x7F", 1);
    IS(0, start());
    follows("", 0, "\0", 1);
    follows("\0", 1, "\0\0", 2);
    follows("\0\0", 2, "\x7F", 1);
    follows("\x7F", 1, "\x7F\xFF", 2);
    follows("\x7F\xFF", 2, "\x80", 1);
    follows("\x80", 1, "\xFF", 1);
    IS(-4, next("\xFF", 1, b, 16));
}

/* A walk over a store with as many keys as it holds: all of them, in their order. */
static void walk(size_t blocks) {
    char want[17];
    uint8_t key[16] = {0}, b[16];
    size_t room = FLOATSTORE_ROOM(blocks), key_len = 0, n;
    int64_t len = 0;
    lend(blocks);
    IS(0, start());
    for (n = 0; n < room; n++) {
        snprintf(want, sizeof want, "k%05zu", n * 7919 % room); /* a prime that doesn't divide room: each number once */
        if (put(want, 6, "", 0) != 0) break;
    }
    IS(room, n);
    for (n = 0; n <= room && (len = next(key, key_len, b, sizeof b)) >= 0; n++) {
        snprintf(want, sizeof want, "k%05zu", n);
        if (len != 6 || memcmp(b, want, 6) != 0) break;
        memcpy(key, b, key_len = 6);
    }
    IS(-4, len);
    IS(room, n);
}

/* A walk while other keys are put and deleted, a block is opened, and the power fails: each of the ten keys that stay is given once, and no key twice. */
static void walk_with_changes(void) {
    static uint32_t seed = 1;
    for (int round = 0; round < 2000; round++) {
        char key[17] = "", last[17] = "";
        int given[10] = {0}, calls = 0;
        int64_t len;
        lend(4);
        IS(0, start());
        for (int i = 0; i < 10; i++) {
            snprintf(key, sizeof key, "%d", i);
            IS(0, put(key, 1, "stays", 5));
        }
        key[0] = 0;
        while ((len = next(last, strlen(last), key, 16)) > 0) {
            key[len] = 0;
            if (strcmp(last, key) >= 0 || ++calls > 1000) break;
            if (len == 1) given[key[0] - '0']++;
            strcpy(last, key);
            for (int changes = 3; changes > 0; changes--) { /* keys between those that stay, of which at most 6 fit in */
                char other[3] = {0};
                seed = seed * 1664525 + 1013904223;
                other[0] = (char)('0' + (seed >> 8) % 10), other[1] = (char)('a' + (seed >> 16) % 3);
                if (seed >> 31) put(other, 2, "x", 1);
                else del(other, 2);
                if ((seed >> 24) % 16 == 0) {
                    fuse = 1;
                    put(other, 2, "y", 1);
                    fuse = FLOATSTORE_NO_FAULT;
                    IS(0, start());
                }
            }
        }
        IS(-4, len);
        for (int i = 0; i < 10; i++) IS(1, given[i]);
        if (wrong) return;
    }
}

int main(void) {
    seeing();
    printed_keys();
    next_key();
    walk(4);
    walk(5);
    walk(4096);
    walk_with_changes();
    sizes();
    arguments();
    power();
    fill(4);
    fill(5);
    fill(4096);
    million();
    printf("calls from C: %s\n", wrong ? "FAILED" : "as documented, with B = 4 and 4,096 accepted, 3 and 4,097 refused");
    return wrong != 0;
}
