/* The laboratory at the driver: the store of libfloatstore_driver.a, on a driver that plays the faults and counts where they happen.
 *
 *   driven SECONDS [SEED]              0: nothing found; 1: found, with the way to it; 2: bad usage
 *   driven planted N SECONDS [SEED]    with a fault planted between the library and the driver, which must be found; without SECONDS: which one it is
 *   driven reads BLOCKS                what the calls of a full store read
 *
 * The fuse of the laboratory is the driver's own here: it counts what reaches the chip, and the library doesn't know of it. So everything that lab.c tries of
 * cuts, bounds and wear is tried without a word from the library. Beside that, before each change: each read of the call fails in turn, with bytes that an
 * adversary chose; then the call answers -7, the chip isn't asked any more, every call answers -7 until a start, and after it the map is the one before or the
 * one after. Each read is of the first 32 bytes of a page, of all 256, or by get of a value, from byte 32 on; they are counted, by call. Each change leaves the
 * bytes that it leaves in memory, by the library whose chip that is. */
#include <floatstore_driver.h> /* first: from here on floatstore_put is the driver build's */
#include "lab.h"
#include <limits.h>
#include <stdio.h>
#include <stdlib.h>
#include <string.h>

/* ---- a fault between the library and the driver */

enum { NONE, TWICE, LONG, SCRIBE, LOST, OVER, FAULTS };
static const char *const faults[FAULTS] = {
    "", "each erase is done twice", "a read goes beyond its page", "a start writes a page", "one page in sixteen isn't written",
    "a page is written that isn't blank",
};
static int planted;

/* ---- the driver */

enum call { FORMAT, START, SEEING, PUT, GET, DELETE, COUNT, NEXT, CALLS };
static const char *const calls[CALLS] = {"format", "start", "start_seeing", "put", "get", "delete", "count", "next"};

enum kind { BEGINNING, WHOLE, VALUE, KINDS }; /* of reads */
struct tally {
    uint64_t calls, sum[KINDS], most[KINDS], most_all;
};
static struct tally tallies[FLOATSTORE_MAX_BLOCKS + 1][CALLS]; /* by the number of blocks */
static uint64_t failed_reads;

static struct driver {
    uint8_t *chip;
    size_t len;
    uint64_t *fuse; /* the fault script, counted here */
    const uint8_t *noise;
    enum call call;
    uint64_t reads[KINDS], writes, erases; /* in this call */
    uint64_t fail_at; /* the read of this call that fails; 0 for none */
    int failed; /* the chip has answered something else than 0 in this call */
} driver;

static uint64_t reads(void) { return driver.reads[BEGINNING] + driver.reads[WHOLE] + driver.reads[VALUE]; }
static uint64_t asked(void) { return reads() + driver.writes + driver.erases; }

/* The driver's state comes back as it was lent, and a chip that has failed isn't asked again. */
static void check(const void *chip) {
    if (chip != &driver) found("the driver is called with another chip than was lent");
    if (driver.failed) found("%s: the chip is asked again after it failed", calls[driver.call]);
}

/* What a failed read may have left: nothing, ones, zeros, anything, the very bytes, those of another page. */
static void spoil(uint8_t *to, const uint8_t *from, uint32_t len) {
    uint32_t kind = draw(6);
    if (kind == 1) memset(to, 0xFF, len);
    if (kind == 2) memset(to, 0, len);
    for (uint32_t i = 0; kind == 3 && i < len; i++) to[i] = (uint8_t)draw(256);
    if (kind == 4) memcpy(to, from, len);
    if (kind == 5) memcpy(to, driver.chip + 256 * (size_t)draw((uint32_t)(driver.len / 256)), len);
}

/* Which kind of read this is; KINDS if there is none. */
static enum kind kind_of(uint32_t at, uint32_t len) {
    if (at >= driver.len) return KINDS;
    if (at % 256 == 0) return len == 32 ? BEGINNING : len == 256 ? WHOLE : KINDS;
    return at % 256 == 32 && len >= 1 && len <= FLOATSTORE_MAX_VALUE && driver.call == GET ? VALUE : KINDS;
}

static int play_read(uint32_t at, uint8_t *to, uint32_t len) {
    enum kind kind = kind_of(at, len);
    if (kind == KINDS) found("%s reads %u bytes at %u", calls[driver.call], (unsigned)len, (unsigned)at);
    driver.reads[kind]++;
    if (reads() == driver.fail_at) {
        spoil(to, driver.chip + at, len);
        failed_reads++;
        return driver.failed = 1;
    }
    memcpy(to, driver.chip + at, len);
    return 0;
}

static void check_change(int in_range, const char *what, uint32_t at) {
    if (driver.call != PUT && driver.call != DELETE && driver.call != FORMAT) found("%s changes the chip", calls[driver.call]);
    if (!in_range) found("%s %s %u", calls[driver.call], what, (unsigned)at);
}

/* What the fault script says of this operation. */
enum power { GONE, GOES, STAYS };
static enum power power(void) {
    enum power p = *driver.fuse == 0 ? GONE : *driver.fuse == 1 ? GOES : STAYS;
    if (p != GONE) --*driver.fuse;
    driver.failed = p != STAYS;
    return p;
}

static int play_write(uint32_t page, const uint8_t *bytes) {
    uint8_t *to = driver.chip + 256 * (size_t)page;
    check_change(page < driver.len / 256, "writes page", page);
    for (size_t i = 0; i < 256; i++)
        if (to[i] != 0xFF) found("page %u is written, and isn't blank", (unsigned)page);
    driver.writes++;
    enum power p = power();
    for (size_t i = 0; p != GONE && i < 256; i++) to[i] = p == GOES ? bytes[i] | driver.noise[i] : bytes[i];
    return p != STAYS;
}

static int play_erase(uint32_t block) {
    uint8_t *to = driver.chip + 4096 * (size_t)block;
    check_change(block < driver.len / 4096, "erases block", block);
    driver.erases++;
    enum power p = power();
    if (p == GOES) memcpy(to, driver.noise, 4096);
    if (p == STAYS) memset(to, 0xFF, 4096);
    return p != STAYS;
}

/* Anything but 0 is a failure. */
static int answer_of(int failed) {
    static const int answers[] = {1, -1, 7, 256, 65536, INT_MIN};
    return failed ? answers[draw(6)] : 0;
}

int floatstore_chip_read(void *chip, uint32_t at, uint8_t *to, uint32_t len) {
    static uint8_t page[256];
    check(chip);
    if (planted == SCRIBE && driver.call == START && draw(4096) == 0) play_write(at / 256, page);
    return answer_of(play_read(at, to, planted == LONG && draw(4096) == 0 ? len + 1 : len));
}

int floatstore_chip_write(void *chip, uint32_t page, const uint8_t bytes[256]) {
    check(chip);
    if (planted == LOST && page % 16 == 5) return 0;
    int failed = play_write(page, bytes);
    if (planted == OVER && !failed && draw(4096) == 0) failed = play_write(page, bytes);
    return answer_of(failed);
}

int floatstore_chip_erase(void *chip, uint32_t block) {
    check(chip);
    int failed = play_erase(block);
    if (planted == TWICE && driver.call != FORMAT && !failed) failed = play_erase(block);
    return answer_of(failed);
}

/* ---- the calls, on the driver */

static void begin(enum call call, const uint8_t *chip, size_t len, const uint64_t *fuse, const uint8_t *noise) {
    uint64_t fail_at = driver.fail_at;
    driver = (struct driver){.chip = (uint8_t *)chip, .len = len, .fuse = (uint64_t *)fuse, .noise = noise, .call = call, .fail_at = fail_at};
}

static void count_reads(void) {
    struct tally *t = &tallies[driver.len / 4096][driver.call];
    t->calls++;
    for (int i = 0; i < KINDS; i++) {
        t->sum[i] += driver.reads[i];
        if (driver.reads[i] > t->most[i]) t->most[i] = driver.reads[i];
    }
    if (reads() > t->most_all) t->most_all = reads();
}

/* What holds of every call, whatever it is and whatever failed. */
static int64_t end(int64_t answer) {
    const char *name = calls[driver.call];
    uint64_t blocks = driver.len / 4096;
    uint64_t most_erases = driver.call == FORMAT ? blocks : blocks - 2, most_writes = driver.call == FORMAT ? 0 : 16 * (blocks - 2) + 15; /* lab.c asks less, by the history */
    if (driver.failed && answer != -7) found("%s answers %lld, and the chip has failed", name, (long long)answer);
    if (!driver.failed && answer == -7 && asked()) found("%s answers -7, but asked the chip first", name);
    if (driver.erases > most_erases || driver.writes > most_writes)
        found("%s does %llu erases and %llu writes", name, (unsigned long long)driver.erases, (unsigned long long)driver.writes);
    if (answer < 0 && answer != -7 && driver.erases + driver.writes) found("%s is refused with %lld, and has changed the chip", name, (long long)-answer);
    if (answer >= 0) count_reads();
    driver.fail_at = 0;
    return answer;
}

static int64_t format(uint8_t *chip, size_t len, uint32_t *work, size_t work_len, uint64_t *fuse, const uint8_t *noise) {
    begin(FORMAT, chip, len, fuse, noise);
    return end(floatstore_format(&driver, len, work, work_len));
}

static int64_t seeing(const uint8_t *chip, size_t len, uint32_t *work, size_t work_len, const uint64_t *fuse, struct floatstore_seen *seen) {
    begin(SEEING, chip, len, fuse, NULL);
    return end(floatstore_start_seeing(&driver, len, work, work_len, seen));
}

static int64_t plain_start(const uint8_t *chip, size_t len, uint32_t *work, size_t work_len, const uint64_t *fuse) {
    begin(START, chip, len, fuse, NULL);
    return end(floatstore_start(&driver, len, work, work_len));
}

/* One start in eight is one that sees: what it sees is what the library sees in memory. */
static int64_t begin_anew(const uint8_t *chip, size_t len, uint32_t *work, size_t work_len, const uint64_t *fuse) {
    static uint32_t own[FLOATSTORE_WORK_LEN(MAX_B)];
    struct floatstore_seen seen = {0, 0, 0, 0, 0}, should = {0, 0, 0, 0, 0};
    if (draw(8)) return plain_start(chip, len, work, work_len, fuse);
    int64_t answer = seeing(chip, len, work, work_len, fuse, &seen);
    if (answer == -7) return answer;
    if (library.start_seeing(chip, len, own, FLOATSTORE_WORK_LEN(MAX_B), fuse, &should) != answer || memcmp(&seen, &should, sizeof seen) != 0)
        found("start_seeing sees something else than the library in memory");
    return answer;
}

static uint8_t before[FLOATSTORE_CHIP_LEN(MAX_B)];

/* The library does the same in memory, but for a read that fails, which it doesn't know. */
static int64_t compare(struct did *d, int64_t answer, int read_failed) {
    d->answer = answer, d->left = *driver.fuse;
    if (!read_failed && planted != TWICE) mirror(&library, d); /* wear is to find that one */
    return answer;
}

static int64_t put(uint8_t *chip, size_t len, uint32_t *work, size_t work_len, uint64_t *fuse, const uint8_t *noise, const uint8_t *key, size_t key_len,
                   const uint8_t *value, size_t value_len) {
    struct did d = {before, chip, noise, key, value, len, key_len, value_len, *fuse, 0, 0, work, work[PASSED_WORD]};
    int read_fails = driver.fail_at != 0;
    memcpy(before, chip, len);
    begin(PUT, chip, len, fuse, noise);
    return compare(&d, end(floatstore_put(&driver, len, work, work_len, key, key_len, value, value_len)), read_fails);
}

static int64_t delete(uint8_t *chip, size_t len, uint32_t *work, size_t work_len, uint64_t *fuse, const uint8_t *noise, const uint8_t *key, size_t key_len) {
    struct did d = {before, chip, noise, key, NULL, len, key_len, 0, *fuse, 0, 0, work, work[PASSED_WORD]};
    int read_fails = driver.fail_at != 0;
    memcpy(before, chip, len);
    begin(DELETE, chip, len, fuse, noise);
    return compare(&d, end(floatstore_delete(&driver, len, work, work_len, key, key_len)), read_fails);
}

static int64_t fetch(const uint8_t *chip, size_t len, const uint32_t *work, size_t work_len, const uint64_t *fuse, const uint8_t *key, size_t key_len,
                     uint8_t *buffer, size_t buffer_len) {
    begin(GET, chip, len, fuse, NULL);
    return end(floatstore_get(&driver, len, (uint32_t *)work, work_len, key, key_len, buffer, buffer_len));
}

static int64_t how_many(const uint8_t *chip, size_t len, const uint32_t *work, size_t work_len, const uint64_t *fuse) {
    begin(COUNT, chip, len, fuse, NULL);
    return end(floatstore_count(&driver, len, (uint32_t *)work, work_len));
}

static int64_t next(const uint8_t *chip, size_t len, const uint32_t *work, size_t work_len, const uint64_t *fuse, const uint8_t *key, size_t key_len,
                    uint8_t *buffer, size_t buffer_len) {
    begin(NEXT, chip, len, fuse, NULL);
    return end(floatstore_next(&driver, len, (uint32_t *)work, work_len, key, key_len, buffer, buffer_len));
}

/* ---- failing reads */

static struct world there;
static struct map then;
static const uint8_t noise[FLOATSTORE_NOISE];

/* One of the calls on `there`, by number. A put or delete is the change. */
static int64_t one_call(enum call call, const struct change *c) {
    uint8_t key[16], buffer[FLOATSTORE_MAX_VALUE];
    struct floatstore_seen seen;
    size_t len = key_of(c->key, key);
    if (call == PUT) return run(&there, c, noise);
    if (call == GET) return get(&there, c->key, buffer, sizeof buffer);
    if (call == NEXT) return next(there.chip, there.chip_len, there.work, there.work_len, &there.fuse, key, len, buffer, sizeof buffer);
    if (call == COUNT) return count(&there);
    if (call == SEEING) return seeing(there.chip, there.chip_len, there.work, there.work_len, &there.fuse, &seen);
    return plain_start(there.chip, there.chip_len, there.work, there.work_len, &there.fuse);
}

/* A read of a call has failed: every call but a start answers -7, and asks nothing of the chip. After a start the map is m, or m with the change. */
static void go_on(const struct map *m, const struct change *c, int changes) {
    static const enum call later[] = {PUT, GET, NEXT, COUNT};
    static uint8_t chip[FLOATSTORE_CHIP_LEN(MAX_B)];
    memcpy(chip, there.chip, there.chip_len);
    for (size_t i = 0; i < 4; i++)
        if (one_call(later[i], c) != -7 || asked()) found("a %s after a failed read answers something else than -7, or asks the chip", calls[later[i]]);
    int64_t answer = start(&there);
    if (answer != 0) found("after a failed read start answers %lld", (long long)answer);
    if (memcmp(chip, there.chip, there.chip_len) != 0) found("after a failed read the chip changed");
    then = *m;
    if (!same(&there, &then)) {
        make(&then, c);
        if (!changes || !same(&there, &then)) found("after a failed read the map is neither the one before nor the one after");
    }
    if (!changes || draw(4)) return;
    int64_t refusal = c->to.has || then.of[c->key].has ? 0 : -4;
    if (run(&there, c, noise) != refusal) found("after a failed read and a start the call answers something else");
    if (!refusal) make(&then, c);
    if (!same(&there, &then)) found("after a failed read, a start and the call again the map is wrong");
}

/* Each read of the call fails, on a copy of the world; or one in so many. */
static void fail_reads(enum call call, const struct world *w, const struct map *m, const struct change *c, uint32_t one_in) {
    copy_world(&there, w);
    if (one_call(call, c) == -7) found("a call answers -7, and nothing failed");
    uint64_t all = reads();
    for (uint64_t r = 1 + draw(one_in); r <= all; r += one_in) {
        copy_world(&there, w);
        driver.fail_at = r;
        if (one_call(call, c) != -7) found("read %llu of a %s fails, and it does not answer -7", (unsigned long long)r, calls[call]);
        go_on(m, c, call == PUT);
    }
}

static void also(const struct world *w, const struct map *m, const struct change *c) {
    fail_reads(PUT, w, m, c, 1);
    if (draw(4) == 0) fail_reads(GET, w, m, c, 1);
    if (draw(4) == 0) fail_reads(NEXT, w, m, c, 1);
    if (draw(16) == 0) fail_reads(draw(4) ? START : SEEING, w, m, c, 20); /* they have many */
}

static const struct store driven = {format, begin_anew, put, fetch, delete, how_many, next, seeing, also, NULL, 0};

static void report_line(size_t blocks, const char *call, const struct tally *t) {
    printf("  %4zu blocks, %-12s", blocks, call);
    for (int i = 0; i < KINDS; i++) printf("  %.1f (%llu)", (double)t->sum[i] / (double)t->calls, (unsigned long long)t->most[i]);
    printf("  together %llu\n", (unsigned long long)t->most_all);
}

static void report(void) {
    printf("reads in a call of a page's first 32 bytes, of all 256, of a value: mean (most)\n");
    for (size_t b = FLOATSTORE_MIN_BLOCKS; b <= FLOATSTORE_MAX_BLOCKS; b++)
        for (int call = 0; call < CALLS; call++)
            if (tallies[b][call].most_all) report_line(b, calls[call], &tallies[b][call]);
}

/* ---- what a full store reads */

/* Key number i is put, or deleted. Answers whether it was refused. */
static int change_number(struct world *w, enum call call, uint32_t i) {
    static const uint8_t value[FLOATSTORE_MAX_VALUE];
    uint8_t key[FLOATSTORE_MAX_KEY + 1];
    size_t len = (size_t)snprintf((char *)key, sizeof key, "key.%u", (unsigned)i);
    begin(call, w->chip, w->chip_len, &w->fuse, noise);
    if (call == DELETE) return end(floatstore_delete(&driver, w->chip_len, w->work, w->work_len, key, len)) != 0;
    return end(floatstore_put(&driver, w->chip_len, w->work, w->work_len, key, len, value, sizeof value)) != 0;
}

/* Each key is walked to, and got. */
static int64_t walk(struct world *w) {
    uint8_t key[FLOATSTORE_MAX_KEY], last[FLOATSTORE_MAX_KEY], value[FLOATSTORE_MAX_VALUE];
    int64_t len = 0, n = 0;
    while ((len = next(w->chip, w->chip_len, w->work, w->work_len, &w->fuse, last, (size_t)len, key, sizeof key)) > 0) {
        memcpy(last, key, (size_t)len);
        if (fetch(w->chip, w->chip_len, w->work, w->work_len, &w->fuse, key, (size_t)len, value, sizeof value) != sizeof value) return -1;
        n++;
    }
    return n;
}

/* A store with all its keys, put over and over in no order: then the calls that are counted. */
static int measure(size_t blocks) {
    struct world w;
    uint32_t room = (uint32_t)FLOATSTORE_ROOM(blocks);
    if (!make_world(&w, blocks)) return fprintf(stderr, "driven: no memory\n"), 2;
    memset(w.chip, 0xFF, w.chip_len);
    int wrong = plain_start(w.chip, w.chip_len, w.work, w.work_len, &w.fuse) != 0;
    for (uint32_t i = 0; i < room; i++) wrong |= change_number(&w, PUT, i);
    for (uint32_t i = 0; i < 2 * room; i++) wrong |= change_number(&w, PUT, draw(room));
    memset(tallies, 0, sizeof tallies);
    struct floatstore_seen seen;
    wrong |= plain_start(w.chip, w.chip_len, w.work, w.work_len, &w.fuse) != 0;
    wrong |= seeing(w.chip, w.chip_len, w.work, w.work_len, &w.fuse, &seen) != 0;
    wrong |= walk(&w) != room;
    for (uint32_t i = 0; i < room; i++) wrong |= change_number(&w, PUT, draw(room));
    for (uint32_t i = 0; i < room; i++) wrong |= change_number(&w, DELETE, i);
    report();
    return wrong;
}

int main(int argc, char **argv) {
    static char name[96] = "driven";
    if (argc == 3 && strcmp(argv[1], "reads") == 0) {
        size_t blocks = (size_t)strtoul(argv[2], NULL, 10);
        if (blocks >= FLOATSTORE_MIN_BLOCKS && blocks <= FLOATSTORE_MAX_BLOCKS) return measure(blocks);
        return fprintf(stderr, "driven: a chip has %u to %u blocks\n", FLOATSTORE_MIN_BLOCKS, FLOATSTORE_MAX_BLOCKS), 2;
    }
    if (argc > 2 && strcmp(argv[1], "planted") == 0) {
        planted = atoi(argv[2]);
        if (planted <= NONE || planted >= FAULTS) return fprintf(stderr, "driven: there is no such fault\n"), 2;
        if (argc == 3) return puts(faults[planted]), 0;
        snprintf(name, sizeof name, "driven, where %s", faults[planted]);
        argc -= 2, argv += 2;
    }
    if (argc < 2 || argc > 3) return fprintf(stderr, "usage: driven [planted N] SECONDS [SEED]\n"), 2;
    if (floatstore_version() != FLOATSTORE_VERSION_NUMBER) return fprintf(stderr, "driven: the library is of another version than its header\n"), 1;
    if (!make_world(&there, MAX_B)) return fprintf(stderr, "driven: no memory\n"), 2;
    int status = laboratory(name, &driven, argv[1], argv[2]);
    printf("%llu reads failed; ", (unsigned long long)failed_reads);
    report();
    return status;
}
