/* How long the calls take beside those of an earlier build of the library, linked in under the names floatstore_before_*: in turns, in one run, processor time,
 * the least of several rounds. A chip that is memory; full of keys, and for one start blank. Put in turn, a key is written anew before its page is the oldest, so
 * that no value is copied; put in no order, some are. */
#define _POSIX_C_SOURCE 200809L
#include "chance.h"
#include "letters.h"
#include <floatstore.h>
#include <stdio.h>
#include <stdlib.h>
#include <string.h>
#include <time.h>

enum { ROUNDS = 300, LEN = 96 }; /* the longest value that version 0.9.0 takes: an earlier library must take it too */

int64_t floatstore_before_start(const uint8_t *, size_t, uint32_t *, size_t, const uint64_t *);
int64_t floatstore_before_put(uint8_t *, size_t, uint32_t *, size_t, uint64_t *, const uint8_t *, const uint8_t *, size_t, const uint8_t *, size_t);
int64_t floatstore_before_get(const uint8_t *, size_t, const uint32_t *, size_t, const uint64_t *, const uint8_t *, size_t, uint8_t *, size_t);

/* a store of one build: its calls, its full chip, a blank one, and an area for each */
struct store {
    int64_t (*start)(const uint8_t *, size_t, uint32_t *, size_t, const uint64_t *);
    int64_t (*put)(uint8_t *, size_t, uint32_t *, size_t, uint64_t *, const uint8_t *, const uint8_t *, size_t, const uint8_t *, size_t);
    int64_t (*get)(const uint8_t *, size_t, const uint32_t *, size_t, const uint64_t *, const uint8_t *, size_t, uint8_t *, size_t);
    uint8_t *chip, *blank;
    uint32_t *work, *other;
};

static uint8_t noise[FLOATSTORE_NOISE], value[LEN], key[LETTERS];
static uint64_t fuse = FLOATSTORE_NO_FAULT;
static size_t len, words, room;

static double seconds(void) {
    struct timespec t;
    clock_gettime(CLOCK_PROCESS_CPUTIME_ID, &t);
    return (double)t.tv_sec + 1e-9 * (double)t.tv_nsec;
}

static void check(int64_t answer, int64_t wanted) {
    if (answer == wanted) return;
    puts("a call answered something else");
    exit(1);
}

static void nth_key(size_t i) { letters(key, (uint32_t)(i % room) * 2654435761u); }

static void put(struct store *s, size_t i) {
    nth_key(i);
    check(s->put(s->chip, len, s->work, words, &fuse, noise, key, sizeof key, value, sizeof value), 0);
}

static void put_any(struct store *s, size_t i) {
    chance_state = i;
    put(s, chance((uint32_t)room));
}

static void get(struct store *s, size_t i) {
    nth_key(i);
    check(s->get(s->chip, len, s->work, words, &fuse, key, sizeof key, value, sizeof value), LEN);
}

static void start(struct store *s, size_t i) {
    (void)i;
    check(s->start(s->chip, len, s->work, words, &fuse), 0);
}

static void start_blank(struct store *s, size_t i) {
    (void)i;
    check(s->start(s->blank, len, s->other, words, &fuse), 0);
}

/* Seconds a call, of so many. */
static double timed(void call(struct store *, size_t), struct store *s, size_t times) {
    double t = seconds();
    for (size_t i = 0; i < times; i++) call(s, i);
    return (seconds() - t) / (double)times;
}

static void compare(const char *name, void call(struct store *, size_t), struct store s[2], size_t times) {
    double best[2] = {1e9, 1e9};
    for (int round = 0; round < ROUNDS; round++)
        for (int i = 0; i < 2; i++) {
            double t = timed(call, &s[i], times);
            if (t < best[i]) best[i] = t;
        }
    printf("  %s %.1f and %.1f ns: %.2f;", name, 1e9 * best[0], 1e9 * best[1], best[1] / best[0]);
}

static void set_up(struct store *s) {
    s->chip = malloc(len), s->blank = malloc(len);
    s->work = malloc(words * sizeof *s->work), s->other = malloc(words * sizeof *s->other);
    if (!s->chip || !s->blank || !s->work || !s->other) exit(1);
    memset(s->chip, 0xFF, len);
    memset(s->blank, 0xFF, len);
    start(s, 0);
    for (size_t i = 0; i < room; i++) put(s, i);
}

static void measure(size_t blocks) {
    struct store s[2] = {{floatstore_before_start, floatstore_before_put, floatstore_before_get, 0, 0, 0, 0}, {floatstore_start, floatstore_put, floatstore_get, 0, 0, 0, 0}};
    size_t starts = 4000 / (blocks * blocks / 16 + 1) + 1;
    len = FLOATSTORE_CHIP_LEN(blocks), words = FLOATSTORE_WORK_LEN(blocks), room = FLOATSTORE_ROOM(blocks);
    for (int i = 0; i < 2; i++) set_up(&s[i]);
    printf("%4zu blocks:", blocks);
    compare("put", put, s, 20000);
    compare("put in no order", put_any, s, 20000);
    compare("get", get, s, 20000);
    compare("start", start, s, starts);
    compare("start, blank chip", start_blank, s, starts);
    puts("");
    for (int i = 0; i < 2; i++) free(s[i].chip), free(s[i].blank), free(s[i].work), free(s[i].other);
}

int main(void) {
    measure(16);
    measure(512);
    measure(2048);
    return 0;
}
