/* The crash laboratory: random histories of a store on chips of 4, 5, 6, 8 and 16 blocks, beside a model of its map that shares nothing with it.
 *
 * Each put and delete is cut at every one of its operations, on copies of the chip, with noise that an adversary chose; a cut erase leaves forged blocks (docs/FAULTS.md).
 * Pages of the chip are turned to the old form on the way, and some that say nothing are made to look sound in the form that they haven't (docs/FORMAT.md).
 * After each cut the map must be the one before or the one after, and then the call is tried again and cut again, three deep. The history itself goes on whole or through
 * a cut. Some histories begin on a chip that version 0.9.0 wrote, some calls are tried with an area of lies. After each step the bounds are asked of the log as it stands: how
 * far behind cleaning is (timely), and how much wear is to come (potential). What the store does to the chip is seen from outside (tools/watch.h): erases and writes are counted without a word from the store, and a write to a page that
 * isn't blank is found. Two programs bring it a store: stores.c and driven.c. */
#include "lab.h"
#include "chance.h"
#include "reading.h"
#include <stdarg.h>
#include <stdio.h>
#include <stdlib.h>
#include <string.h>
#include <time.h>

enum { MAX_OPS = 256, DEPTH = 3, PAGE = FLOATSTORE_PAGE, BLOCK = FLOATSTORE_BLOCK };

const struct store library = {floatstore_format, floatstore_start, floatstore_put, floatstore_get, floatstore_delete,
                              floatstore_count, floatstore_next, floatstore_start_seeing, NULL, NULL, 1};
static const struct store *store;

uint32_t draw(uint32_t below) { return chance(below); }

/* ---- the model: keys are numbered, and the map is an array */

/* Keys of one byte and its repetitions: many are beginnings of others. */
size_t key_of(size_t i, uint8_t *key) {
    memset(key, 'A' + (int)(i / 16), 16);
    return 1 + i % 16;
}

void make(struct map *m, const struct change *c) {
    m->count += c->to.has;
    m->count -= m->of[c->key].has;
    m->of[c->key] = c->to;
}

/* ---- a chip, a work area, the fault script */

static size_t blocks;
static struct world now, worlds[DEPTH], whole;
static struct map map;

int64_t start(struct world *w) { return store->start(w->chip, w->chip_len, w->work, w->work_len, &w->fuse); }
int64_t count(struct world *w) { return store->count(w->chip, w->chip_len, w->work, w->work_len, &w->fuse); }
int64_t get(struct world *w, size_t i, uint8_t *buffer, size_t len) {
    uint8_t key[16];
    size_t key_len = key_of(i, key);
    return store->get(w->chip, w->chip_len, w->work, w->work_len, &w->fuse, key, key_len, buffer, len);
}
int64_t run(struct world *w, const struct change *c, const uint8_t *noise) {
    uint8_t key[16];
    size_t key_len = key_of(c->key, key);
    if (c->to.has) return store->put(w->chip, w->chip_len, w->work, w->work_len, &w->fuse, noise, key, key_len, c->to.value, c->to.len);
    return store->delete(w->chip, w->chip_len, w->work, w->work_len, &w->fuse, noise, key, key_len);
}

/* ---- what is found ends the run, with the way to it */

static struct {
    uint64_t seed, calls, changes, failures, histories, cuts, nested, forged, aged, crossed;
    const char *name, *at;
} tally;

void found(const char *form, ...) {
    va_list words;
    va_start(words, form);
    printf("%s: FOUND in history %llu on %zu blocks, call %llu, after %llu power failures%s: ", tally.name, (unsigned long long)tally.seed, blocks,
           (unsigned long long)tally.calls, (unsigned long long)tally.failures, tally.at);
    vprintf(form, words);
    printf("\n");
    va_end(words);
    exit(1);
}

/* ---- the map read through the store */

/* Key i says what the model says; past the value the buffer is as it was. */
static int key_agrees(struct world *w, const struct map *m, size_t i) {
    uint8_t buffer[FLOATSTORE_MAX_VALUE + 1];
    const struct entry *e = &m->of[i];
    memset(buffer, 0x5C, sizeof buffer);
    int64_t len = get(w, i, buffer, sizeof buffer);
    if (!e->has) return len == -4;
    return len == e->len && memcmp(buffer, e->value, e->len) == 0 && buffer[e->len] == 0x5C;
}

/* The first key on which store and model differ, KEYS if there is none; KEYS + 1 if only the count does. */
static size_t differs(struct world *w, const struct map *m) {
    for (size_t i = 0; i < KEYS; i++)
        if (!key_agrees(w, m, i)) return i;
    return count(w) == (int64_t)m->count ? KEYS : KEYS + 1;
}

/* A walk from none to the end gives the model's keys, which are numbered in their order. */
static int same_by_walk(struct world *w, const struct map *m) {
    uint8_t want[16], given[16], last[16] = {0};
    size_t last_len = 0;
    for (size_t i = 0; store->next && i <= KEYS; i++) {
        if (i < KEYS && !m->of[i].has) continue;
        int64_t len = store->next(w->chip, w->chip_len, w->work, w->work_len, &w->fuse, last, last_len, given, sizeof given);
        if (i == KEYS) return len == -4;
        if (len != (int64_t)key_of(i, want) || memcmp(given, want, (size_t)len) != 0) return 0;
        memcpy(last, given, last_len = (size_t)len);
    }
    return 1;
}

int same(struct world *w, const struct map *m) { return differs(w, m) == KEYS && same_by_walk(w, m); }

/* Skipped where the power was gone before the call. */
void mirror(const struct store *other, const struct did *d) {
    static uint8_t own[FLOATSTORE_CHIP_LEN(MAX_B)];
    static uint32_t work[FLOATSTORE_WORK_LEN(MAX_B)];
    const uint64_t lit = 1;
    uint64_t fuse = d->fuse;
    if (d->answer == -7 && d->left == fuse) return;
    memcpy(own, d->before, d->len);
    if (other->start(own, d->len, work, FLOATSTORE_WORK_LEN(MAX_B), &lit) != 0) found("the other store can't read the chip");
    if (work[PASSED_WORD] < d->passed) found("the cursor has passed a value that the other store finds");
    work[PASSED_WORD] = d->passed;
    int64_t answer = d->value ? other->put(own, d->len, work, FLOATSTORE_WORK_LEN(MAX_B), &fuse, d->noise, d->key, d->key_len, d->value, d->value_len)
                              : other->delete(own, d->len, work, FLOATSTORE_WORK_LEN(MAX_B), &fuse, d->noise, d->key, d->key_len);
    if (answer != d->answer || fuse != d->left || memcmp(own, d->chip, d->len) != 0) found("the two stores differ");
    if (answer == 0 && memcmp(work, d->work, WORDS * sizeof *work) != 0) found("the two stores' areas differ");
}

/* ---- the adversary's noise. A cut write leaves new | noise; a cut erase leaves the noise itself, so that any block can be forged */

enum { ONES, ZEROS, PAGES, ONE_KEPT, ONE_CLEARED, SPARSE_ONES, SPARSE_ZEROS, PREFIX, BITS, HALVES, BY_256, NOISES };
enum { AS_IT_WAS = NOISES, TO_ONES, TO_ZEROS, NEWER, NOTES, ANOTHER, SEALED, UNSEALED, MIXTURE, KINDS }; /* for erases alone: forged blocks */
static const char *const noises[KINDS] = {
    "all ones", "all zeros", "page by page", "one page of zeros", "one page of ones", "few ones", "few zeros", "cut at a byte", "random bits",
    "a flipped copy made", "256 bits too many",
    "the block as it was", "some bits of the block turned to 1", "some bits of the block turned to 0", "newer values", "notes of deletion", "a copy of another block",
    "a sealed block of records", "a full block that isn't sealed", "all of these at once",
};

static void fill_noise(uint8_t *noise, int kind) {
    size_t from = 256 * chance(16);
    from += chance(257);
    memset(noise, kind == ONES || kind == ONE_KEPT || kind == SPARSE_ZEROS ? 0xFF : 0, FLOATSTORE_NOISE);
    if (kind == ONE_KEPT || kind == ONE_CLEARED) memset(noise + 256 * chance(16), kind == ONE_KEPT ? 0 : 0xFF, 256);
    if (kind == PAGES)
        for (size_t p = 0; p < 16; p++) memset(noise + 256 * p, chance(2) ? 0xFF : 0, 256);
    if (kind == PREFIX) /* the write of a page, or the erase of a block, had come so far */
        for (size_t i = 0; i < FLOATSTORE_NOISE; i++) noise[i] = (chance(64) ? i % 256 >= from % 256 : i >= from) ? 0xFF : 0;
    if (kind == BITS)
        for (size_t i = 0; i < FLOATSTORE_NOISE; i++) noise[i] = (uint8_t)chance(256);
    if (kind == SPARSE_ONES || kind == SPARSE_ZEROS)
        for (size_t i = 1 + chance(6); i > 0; i--) {
            size_t at = chance(2) ? chance(256) : chance(FLOATSTORE_NOISE);
            noise[at] ^= (uint8_t)(1u << chance(8));
        }
}

/* ---- the two forms, by docs/FORMAT.md */

static void fill_flips(uint8_t *page) {
    page[0] = FLIPPED;
    for (size_t j = 0; j < 128; j++) page[128 + j] = 255 - page[j];
}

static void fill_count(uint8_t *page) {
    page[0] = COUNTED;
    page[254] = (uint8_t)(payload_zeros(page) / 256), page[255] = (uint8_t)(payload_zeros(page) % 256);
}

/* A sound page of a form: 1 a value, 2 a note, 3 a seal. */
static void forge_page(uint8_t *page, enum form form, uint8_t kind, size_t i) {
    uint8_t key[16];
    size_t key_len = key_of(i, key);
    memset(page, 0, PAGE);
    page[0] = (uint8_t)form, page[1] = kind;
    if (kind != 3) page[2] = (uint8_t)key_len, memcpy(page + 16, key, key_len);
    if (kind == 1) page[3] = (uint8_t)chance((uint32_t)longest_value(page) + 1);
    for (size_t j = 0; j < page[3]; j++) page[32 + j] = (uint8_t)chance(256);
    if (form == FLIPPED) fill_flips(page);
    else fill_count(page);
}

static enum form any_form(void) { return chance(2) ? FLIPPED : COUNTED; }

/* A page of the count form as a cut write may leave it: some bits of key, value or form stay 1, and so many more that the halves are each other's flipped copy.
 * (Where the value goes beyond byte 127 they may not be.) */
static void make_halves(uint8_t *page) {
    for (size_t i = 1 + chance(4); i > 0; i--) page[chance(3) ? 32 + chance(page[3] % 96 + 1u) : chance(3) ? 16 + chance(16) : 0] |= (uint8_t)(1u << chance(8));
    for (size_t j = 0; j < 128; j++) page[128 + j] |= (uint8_t)(255 - page[j]);
}

/* A page of the count form as a cut write may leave it: 256 of its bits stay 1, so that the low byte of the count is right. */
static void raise_256(uint8_t *page) {
    size_t zeros = 0;
    for (size_t i = 32; i < 254; i++)
        for (unsigned rest = 255u - page[i]; rest; rest &= rest - 1) zeros++;
    for (size_t left = zeros < 256 ? 0 : 256; left > 0;) {
        size_t bit = 8 * 32 + chance(8 * (254 - 32));
        left -= !(page[bit / 8] >> bit % 8 & 1);
        page[bit / 8] |= (uint8_t)(1u << bit % 8);
    }
}

/* A page of the old form whose payload ends in two bytes 0xFF, as a cut write may leave it: its last two bytes are the number of the 0 bits before them. */
static void count_old(uint8_t *page) {
    page[126] = page[127] = 0xFF;
    fill_flips(page);
    page[254] = (uint8_t)(payload_zeros(page) / 256), page[255] = (uint8_t)(payload_zeros(page) % 256);
}

/* A page that says nothing: of one form, cut short, and sound but for that in the other; or one of the old form whose second half is cut short. */
static void forge_crossed(uint8_t *page, size_t i) {
    uint32_t how = chance(3);
    forge_page(page, how == 0 ? COUNTED : FLIPPED, 1, i);
    if (how == 0 && page[3] > 94) page[3] = (uint8_t)chance(95), memset(page + 32 + page[3], 0, 222u - page[3]), fill_count(page);
    if (how == 0) make_halves(page);
    if (how == 1) count_old(page);
    if (how == 2) page[3] = 96, fill_flips(page), page[64 + chance(64)] |= 1, page[192 + chance(64)] |= 2;
    if (how == 2 && page_is_sound(page)) page[100] = 0xFF, page[228] = 1;
    if (page_is_sound(page)) found("a page that is no good for a trial was forged");
}

/* A key that has a value, if there is one: of it an adversary lies. */
static size_t key_in_use(const struct map *m) {
    size_t from = chance(KEYS);
    for (size_t i = 0; i < KEYS; i++)
        if (m->of[(from + i) % KEYS].has) return (from + i) % KEYS;
    return from;
}

/* Page j of the block, forged: of every kind there is. */
static void forge_any(uint8_t *page, const struct world *w, const uint8_t *old, size_t j, const struct map *m) {
    uint32_t kind = chance(10);
    if (kind < 3) forge_page(page, any_form(), (uint8_t)(kind + 1), key_in_use(m));
    if (kind == 3) forge_page(page, any_form(), 1, chance(KEYS));
    if (kind == 9) forge_crossed(page, key_in_use(m));
    if (kind == 4) memcpy(page, w->chip + PAGE * (size_t)chance((uint32_t)(w->chip_len / PAGE)), PAGE);
    if (kind == 5) memcpy(page, old + PAGE * j, PAGE);
    if (kind == 6) memset(page, 0xFF, PAGE);
    if (kind == 7) memset(page, 0, PAGE);
    for (size_t i = 0; kind == 8 && i < PAGE; i++) page[i] = (uint8_t)chance(256);
}

/* A copy of the head, which is the block before the spare, of the oldest, which is the one after it, or of any. */
static void copy_another(uint8_t *noise, const struct world *w, size_t spare) {
    size_t from[] = {spare + blocks - 1, spare + 1, chance((uint32_t)blocks)};
    memcpy(noise, w->chip + BLOCK * (from[chance(3)] % blocks), BLOCK);
}

/* The block as it was, with some of its bits turned to 1, or to 0. */
static void turn_bits(uint8_t *noise, const uint8_t *old, int to) {
    fill_noise(noise, (int)chance(NOISES));
    for (size_t i = 0; i < BLOCK; i++) noise[i] = to ? old[i] | noise[i] : old[i] & noise[i];
}

/* Sound pages about keys in use, or of a block of records about any, sealed or not. */
static void forge_pages(uint8_t *noise, int kind, const struct map *m) {
    for (size_t j = 0; j < 16; j++) {
        size_t key = kind >= SEALED && chance(2) ? chance(KEYS) : key_in_use(m);
        forge_page(noise + PAGE * j, any_form(), kind == NEWER ? 1 : kind == NOTES ? 2 : (uint8_t)(1 + chance(2)), key);
    }
    if (kind == SEALED) forge_page(noise + PAGE * 15, any_form(), 3, 0);
    if (kind == UNSEALED || (kind != SEALED && chance(3) == 0)) memset(noise + PAGE * 15, 0xFF, PAGE);
}

/* What the cut erase of a block leaves there. */
static void forge_block(uint8_t *noise, int kind, const struct world *w, size_t block, const struct map *m) {
    const uint8_t *old = w->chip + BLOCK * block;
    if (kind == AS_IT_WAS) memcpy(noise, old, BLOCK);
    else if (kind == TO_ONES || kind == TO_ZEROS) turn_bits(noise, old, kind == TO_ONES);
    else if (kind == ANOTHER) copy_another(noise, w, block);
    else if (kind != MIXTURE) forge_pages(noise, kind, m);
    for (size_t j = 0; kind == MIXTURE && j < 16; j++) forge_any(noise + PAGE * j, w, old, j, m);
}

/* ---- what a call does to the chip, seen from outside */

struct trace {
    size_t len;
    struct op op[MAX_OPS];
};

static int64_t call_again(const void *what, struct world *w, const uint8_t *noise) { return run(w, what, noise); }

static void observe(struct trace *t, const struct world *w, const struct change *c) {
    const char *wrong = watch(t->op, MAX_OPS, &t->len, call_again, c, w);
    if (wrong) found("%s", wrong);
    if (t->len > MAX_OPS) found("a call does %zu operations", t->len);
}

/* ---- the log of a started store, by its area. Log place 15 i + j is place j of the i-th block from the oldest on */

struct log {
    size_t k, head, next, passed, keys, end; /* k: blocks but head and spare; `end`: behind the last page */
    uint8_t rows[15 * MAX_B]; /* by log place: how many keys have their value there */
};

static void read_log(struct log *l, const struct world *w) {
    memset(l, 0, sizeof *l);
    l->k = blocks - 2;
    l->head = w->work[HEAD_WORD], l->next = w->work[NEXT_WORD], l->keys = w->work[KEYS_WORD], l->passed = w->work[PASSED_WORD];
    l->end = 15 * l->k + l->next;
    for (size_t i = 0; i < l->keys; i++) {
        size_t page = w->work[INDEX_WORD + i], from_oldest = (page / 16 + 2 * blocks - l->head - 2) % blocks, place = 15 * from_oldest + page % 16;
        if (page / 16 >= blocks || page % 16 >= 15 || place >= l->end) found("the index has page %zu, which is not of the log", page);
        l->rows[place]++;
    }
}

/* ---- cost and wear */

enum { MOST_FAILURES = 5, NOT_CLEAN = 1000000 }; /* power failures since the zone was clean, for which a bound is promised; an old chip's zone never was */

static struct wear wear; /* of this history */
static size_t since; /* power failures since the zone was clean */
static size_t healing; /* whole puts and deletes since the last failure, or since an old chip was taken over, while the zone isn't clean */
static uint64_t at_first; /* the potential of the chip that the history began with */
static struct {
    size_t erases, writes; /* of a call, whatever was before it */
    size_t writes_after[MOST_FAILURES + 1]; /* of a call, so many failures after the zone was clean */
    size_t wild_erases, wild_writes; /* of a call on an area of lies */
    size_t calm, rough, failures; /* unevenness of a history without a power failure; with some, and how many */
    size_t percent; /* erases, in percent of n/6 + q, once n is 100 */
    size_t healed; /* the most of these until it was clean */
} worst[MAX_B + 1]; /* by the number of blocks */

static size_t larger(size_t a, size_t b) { return a < b ? b : a; }

/* Whether the zone before the cursor's bound is clean: the last call's looks ended there. */
static int is_clean(const struct world *w) { return w->work[PASSED_WORD] + 1 >= w->work[NEXT_WORD] + (blocks - 2); }

/* Cleaning is in time, but for 8 places of each failure: whichever place j is taken as an end, what stands before it and has to be carried fits behind `next` before the
 * cursor comes there, with 8 looks a call. */
static void check_timely(const struct world *w, size_t q) {
    struct log l;
    size_t below = 0, d = 8 * (1 + (q < NOT_CLEAN ? q : 8 * blocks));
    read_log(&l, w);
    for (size_t j = 0; j <= l.end; j++) {
        if (j >= l.passed && 8 * (l.next + below) > l.passed + 7 * j + d)
            found("cleaning is late: next %zu, cursor %zu, %zu values below place %zu of the log, %zu failures since", l.next, l.passed, below, j, q);
        if (j == l.end) break;
        if (l.rows[j] && j < l.passed) found("the cursor, at %zu, has passed a value at %zu", l.passed, j);
        if (l.rows[j] > 1) found("two keys have one page");
        below += l.rows[j];
    }
}

/* 6k for each page of the head, and the age of each value. Wear that is to come can't exceed it. */
static uint64_t potential(const struct log *l) {
    uint64_t sum = 6 * l->k * l->next;
    for (size_t j = 0; j < l->end; j++) sum += l->rows[j] * (l->end - 1 - j);
    return sum;
}

/* A put or delete, whole or cut: a block that is opened takes 90 k from the potential, and the call adds 14 k at most. So 6 calls pay an erase. */
static void check_potential(const struct world *before, const struct world *after) {
    struct log a, b;
    read_log(&a, before);
    read_log(&b, after);
    uint64_t opened = (b.head + blocks - a.head) % blocks;
    if (potential(&b) + 90 * a.k * opened > potential(&a) + 14 * a.k)
        found("potential %llu becomes %llu, with %llu blocks opened", (unsigned long long)potential(&a), (unsigned long long)potential(&b), (unsigned long long)opened);
}

/* What any call may cost, whatever chip and area are; and what it may after so many failures since the zone was clean. */
static void check_cost(size_t erases, size_t writes, size_t q) {
    if (erases > blocks - 2 || writes > 16 * (blocks - 2) + 15) found("a call does %zu erases and %zu writes", erases, writes);
    if (q <= MOST_FAILURES && (erases > 1 || writes > 10 + q)) found("a call does %zu erases and %zu writes, %zu failures after the zone was clean", erases, writes, q);
}

static void count_cost(const struct trace *t) {
    size_t erases = 0;
    for (size_t i = 0; i < t->len; i++) erases += t->op[i].kind == ERASE;
    size_t writes = t->len - erases;
    check_cost(erases, writes, since);
    worst[blocks].erases = larger(worst[blocks].erases, erases);
    worst[blocks].writes = larger(worst[blocks].writes, writes);
    if (since <= MOST_FAILURES) worst[blocks].writes_after[since] = larger(worst[blocks].writes_after[since], writes);
}

/* The zone after a call of the history, which was cut or not. */
static void follow_zone(int was_cut) {
    if (since < NOT_CLEAN) since += (size_t)was_cut;
    healing = was_cut ? 0 : healing + (since > 0);
    if (is_clean(&now)) {
        worst[blocks].healed = larger(worst[blocks].healed, healing);
        since = healing = 0;
    }
    check_timely(&now, since);
}

static void check_wear(void) {
    size_t least = wear.of[0], most = wear.of[0];
    for (size_t b = 1; b < blocks; b++) {
        if (wear.of[b] < least) least = wear.of[b];
        if (wear.of[b] > most) most = wear.of[b];
    }
    if (most - least > 1 + tally.failures) found("wear is uneven: a block was erased %zu times and another %zu", most, least);
    /* beside n/6 + q what the first chip's potential pays, which is nothing on a blank one */
    uint64_t due = tally.failures + (at_first + 90 * (blocks - 2) - 1) / (90 * (blocks - 2));
    if (wear.all > due && 6 * (wear.all - due) > tally.changes) found("%zu erases after %llu puts and deletes", wear.all, (unsigned long long)tally.changes);
    size_t percent = (size_t)(600 * wear.all / (tally.changes + 6 * tally.failures));
    if (tally.changes >= 100 && !at_first) worst[blocks].percent = larger(worst[blocks].percent, percent);
    if (tally.failures == 0) worst[blocks].calm = larger(worst[blocks].calm, most - least);
    if (tally.failures && most - least > worst[blocks].rough) worst[blocks].rough = most - least, worst[blocks].failures = (size_t)tally.failures;
}

/* ---- cuts */

static struct world meant;

/* Noise that is made for the page that is written: what it should be is seen on a copy. */
static void craft_noise(uint8_t *noise, int kind, const struct world *w, const struct change *c, size_t k, const struct op *op) {
    static const uint8_t zeros[FLOATSTORE_NOISE];
    copy_world(&meant, w);
    meant.fuse = k + 1;
    run(&meant, c, zeros);
    memset(noise, 0, FLOATSTORE_NOISE);
    memcpy(noise, meant.chip + PAGE * op->at, PAGE);
    if (kind == HALVES) make_halves(noise);
    else raise_256(noise);
}

/* A kind of noise for an operation: forged blocks are for erases. */
static int kind_for(const struct op *op) { return (int)chance(op->kind == ERASE ? KINDS : NOISES); }

/* The power fails at operation k, which is op. After the start the map is m or m with the change made: m is set to the one it is. */
static void cut(struct world *w, struct map *m, const struct change *c, size_t k, const struct op *op, int kind) {
    static uint8_t noise[FLOATSTORE_NOISE], chip[FLOATSTORE_CHIP_LEN(MAX_B)];
    static char at[128];
    snprintf(at, sizeof at, ", cut at operation %zu (%s) with noise '%s'", k, op->kind == ERASE ? "an erase" : "a write", noises[kind]);
    tally.at = at;
    tally.cuts++;
    tally.forged += kind >= NOISES;
    if ((kind == HALVES || kind == BY_256) && op->kind == WRITE) craft_noise(noise, kind, w, c, k, op);
    else if (kind < NOISES) fill_noise(noise, kind);
    else forge_block(noise, kind, w, op->at, m);
    w->fuse = k;
    if (run(w, c, noise) != -7 || w->fuse != 0) found("the call that was cut does not answer -7");
    memcpy(chip, w->chip, w->chip_len);
    w->fuse = FLOATSTORE_NO_FAULT;
    if (run(w, c, noise) != -7 || count(w) != -7) found("a call after the cut does not answer -7");
    int64_t answer = start(w);
    if (answer != 0) found("start answers %lld", (long long)answer);
    if (memcmp(chip, w->chip, w->chip_len) != 0) found("the chip changed between the cut and the start's end");
    size_t i = differs(w, m);
    if (i != KEYS) {
        make(m, c);
        size_t j = differs(w, m);
        if (j != KEYS) {
            if (i == c->key) i = j;
            if (i > KEYS) found("the number of keys is neither that before nor that after");
            found("key %zu is neither as before nor as after", i);
        }
    }
    if (!same_by_walk(w, m)) found("a walk does not give the keys of the map");
    tally.at = "";
}

static void choose(struct change *c, const struct map *m, size_t keys, uint32_t deletes);

/* On a copy: the call is cut at k, q failures after the zone was clean; tried again and cut again, or another call is; so deep. */
static void cut_deep(const struct world *w, const struct map *m, const struct change *c, size_t k, const struct op *op, int kind, int depth, size_t q) {
    static struct map maps[DEPTH];
    struct world *there = &worlds[depth];
    struct map *then = &maps[depth];
    struct change again = *c;
    copy_world(there, w);
    *then = *m;
    cut(there, then, c, k, op, kind);
    q = is_clean(there) ? 0 : q + (q < NOT_CLEAN);
    check_timely(there, q);
    check_potential(w, there);
    if (depth + 1 == DEPTH || chance(2)) return;
    if (chance(4) == 0) choose(&again, then, FLOATSTORE_ROOM(blocks), 30);
    if (!again.to.has && !then->of[again.key].has) return;
    if (again.to.has && !then->of[again.key].has && then->count >= FLOATSTORE_ROOM(blocks)) return;
    static const uint8_t noise[FLOATSTORE_NOISE];
    copy_world(&whole, there);
    if (run(&whole, &again, noise) != 0) found("after a cut and a start a call is refused");
    tally.nested++;
    size_t len = (size_t)(FLOATSTORE_NO_FAULT - whole.fuse), at = chance(3) ? 1 + chance((uint32_t)len) : 1;
    if (q <= MOST_FAILURES && len > 11 + q) found("a call does %zu operations, %zu failures after the zone was clean", len, q);
    check_timely(&whole, is_clean(&whole) ? 0 : q);
    check_potential(there, &whole);
    struct op next;
    if (!watch_one(&next, at, call_again, &again, there)) found("after a cut and a start an operation is neither an erase nor a write");
    cut_deep(there, then, &again, at, &next, kind_for(&next), depth + 1, q);
}

/* ---- an old chip */

/* Pages of the chip are turned to the old form; and some that say nothing, or what a later one overrides, to ones that look sound in the form that they haven't.
 * The map stays. */
static void age(void) {
    struct reading r;
    if (!read_chip(&r, now.chip, blocks)) found("no memory");
    for (size_t p = 0; p < 16 * blocks; p++) {
        uint8_t *page = now.chip + PAGE * p;
        int old = r.kinds[p] == OLD && !r.newest[p] && p / 16 != r.spare;
        if ((r.kinds[p] == SPOILT || (old && chance(4) == 0)) && p % 16 < 15) forge_crossed(page, key_in_use(&map)), tally.crossed++;
        else if (page[0] == COUNTED && page_is_sound(page) && page[3] <= 96 && chance(2)) fill_flips(page), tally.aged++;
    }
    forget_reading(&r);
    if (start(&now) != 0) found("start of an old chip is refused");
    if (!same(&now, &map)) found("an old chip has another map");
}

/* ---- a history */

/* A put, or a delete in so many of a hundred, of one of the first keys. */
static void choose(struct change *c, const struct map *m, size_t keys, uint32_t deletes) {
    static const uint8_t lengths[6] = {0, 1, 96, 97, FLOATSTORE_MAX_VALUE, 40}; /* old pages have 96 at most */
    c->key = chance((uint32_t)keys);
    memset(&c->to, 0, sizeof c->to);
    if (chance(100) < deletes && m->of[c->key].has) return;
    c->to.has = 1;
    c->to.len = chance(3) ? lengths[chance(6)] : (uint8_t)chance(FLOATSTORE_MAX_VALUE + 1);
    for (size_t i = 0; i < c->to.len; i++) c->to.value[i] = (uint8_t)chance(256);
}

static void refused_as_it_should(const struct change *c, int64_t want) {
    static uint8_t chip[FLOATSTORE_CHIP_LEN(MAX_B)], noise[FLOATSTORE_NOISE];
    memcpy(chip, now.chip, now.chip_len);
    int64_t got = run(&now, c, noise);
    if (got != want) found("a call answers %lld and should answer %lld", (long long)got, (long long)want);
    if (memcmp(chip, now.chip, now.chip_len) != 0) found("a refused call changed the chip");
}

/* A word of an area of lies: the right one, one below a bound, anything. */
static uint32_t lie(uint32_t right, uint32_t below) {
    uint32_t kind = chance(8);
    return kind < 3 ? right : kind < 7 ? chance(below) : chance(2) ? 0xFFFFFFFFu - chance(3) : chance(0x80000000u);
}

/* The call on a copy with an area of lies: what it answers and writes is nobody's business, but it costs what any call may. */
static void try_lies(const struct change *c) {
    static const uint8_t noise[FLOATSTORE_NOISE];
    struct op op;
    size_t erases = 0, b = blocks, pages = 16 * b;
    copy_world(&whole, &now);
    uint32_t *word = whole.work;
    uint32_t swaps = chance(3) ? chance(4) : chance((uint32_t)(2 * FLOATSTORE_ROOM(b)));
    word[HEAD_WORD] = lie(word[HEAD_WORD], (uint32_t)b), word[NEXT_WORD] = chance(2) ? 15 : lie(word[NEXT_WORD], 16);
    word[KEYS_WORD] = lie(word[KEYS_WORD], (uint32_t)FLOATSTORE_ROOM(b) + 1), word[PASSED_WORD] = lie(word[PASSED_WORD], (uint32_t)(16 * b));
    for (uint32_t i = 0; i < swaps; i++) word[INDEX_WORD + chance((uint32_t)FLOATSTORE_ROOM(b))] = lie(word[INDEX_WORD], (uint32_t)pages + 1);
    copy_world(&meant, &whole);
    meant.fuse = FLOATSTORE_NO_FAULT;
    int64_t answer = run(&meant, c, noise);
    size_t len = (size_t)(FLOATSTORE_NO_FAULT - meant.fuse);
    if (answer > 0 || answer < -8 || answer == -7) found("a call on an area of lies answers %lld", (long long)answer);
    for (size_t k = 1; k <= len; k++) /* a page of ones may be written where the index lists a blank page: that is seen as no operation */
        erases += watch_one(&op, k, call_again, c, &whole) && op.kind == ERASE;
    check_cost(erases, len - erases, NOT_CLEAN);
    worst[b].wild_erases = larger(worst[b].wild_erases, erases), worst[b].wild_writes = larger(worst[b].wild_writes, len - erases);
}

static size_t storm; /* so many calls to come are cut one after the other, most of them at the record: each spoils a place, and cleaning falls behind */

/* One put or delete, watched, cut at every operation on copies, and then made: whole, or in one of `risk` cut short. */
static void step(const struct change *c, uint32_t risk) {
    static struct trace t;
    static const uint8_t noise[FLOATSTORE_NOISE];
    int64_t refusal = 0;
    tally.calls++;
    if (!map.of[c->key].has) refusal = !c->to.has ? -4 : map.count >= FLOATSTORE_ROOM(blocks) ? -3 : 0;
    if (refusal) {
        refused_as_it_should(c, refusal);
        return;
    }
    observe(&t, &now, c);
    count_cost(&t);
    if (store->bears_lies && chance(8) == 0) try_lies(c);
    for (size_t k = 1; k <= t.len; k++) {
        const struct op *op = &t.op[k - 1];
        int sure = (int)chance(NOISES); /* no operation goes without a cut, and no erase without all its forgeries */
        for (int kind = 0; kind < (op->kind == ERASE ? KINDS : NOISES); kind++)
            if (kind >= NOISES || kind == sure || chance(t.len > 1 ? 2 : 4) == 0) cut_deep(&now, &map, c, k, op, kind, 0, since);
    }
    if (store->also) store->also(&now, &map, c);
    tally.changes++;
    if (risk && !storm && chance(8 * risk) == 0) storm = chance(2) ? 5 : 1 + chance(30);
    size_t k = storm && chance(4) ? t.len : 1 + chance((uint32_t)t.len);
    int is_cut = storm || (risk && chance(risk) == 0);
    copy_world(&whole, &now);
    if (is_cut) {
        const struct op *op = &t.op[k - 1];
        tally.failures++;
        count_wear(&wear, t.op, k);
        cut(&now, &map, c, k, op, storm && op->kind == WRITE ? BITS : kind_for(op));
        storm -= storm > 0;
    } else {
        count_wear(&wear, t.op, t.len);
        if (run(&now, c, noise) != 0) found("a call that may not be refused is");
        make(&map, c);
    }
    follow_zone(is_cut);
    check_potential(&whole, &now);
    check_wear();
}

static int all_blank(const struct world *w) {
    for (size_t i = 0; i < w->chip_len; i++)
        if (w->chip[i] != 0xFF) return 0;
    return 1;
}

/* A chip full of anything is formatted, cut short first; then it is blank. */
static void format_wild(void) {
    static uint8_t noise[FLOATSTORE_NOISE];
    for (size_t i = 0; i < now.chip_len; i++) now.chip[i] = (uint8_t)chance(256);
    fill_noise(noise, (int)chance(NOISES));
    start(&now);
    now.fuse = 1 + chance((uint32_t)blocks);
    if (store->format(now.chip, now.chip_len, now.work, now.work_len, &now.fuse, noise) != -7) found("a format that was cut does not answer -7");
    now.fuse = FLOATSTORE_NO_FAULT;
    start(&now);
    if (store->format(now.chip, now.chip_len, now.work, now.work_len, &now.fuse, noise) != 0) found("a format after a cut and a start is refused");
    if (FLOATSTORE_NO_FAULT - now.fuse != blocks || !all_blank(&now)) found("a format does not erase each block once");
    if (count(&now) != -8) found("a call after a format, with no start, does not answer -8");
}

/* Puts and deletes by a store that writes as version 0.9.0 did. Then this one takes the chip over: what is to be cleaned has been left behind. */
static void take_over(void) {
    static uint8_t noise[FLOATSTORE_NOISE];
    const struct store *mine = store;
    size_t room = FLOATSTORE_ROOM(blocks), keys = chance(2) ? room : 1 + chance((uint32_t)room);
    uint32_t in_turn = chance(2), hot = in_turn ? 1 : chance(3), deletes = in_turn ? 0 : chance(40);
    store = mine->earlier;
    if (start(&now) != 0) found("the earlier store can't start");
    size_t n = in_turn ? 15 * (blocks - 1) - chance(chance(2) ? 20 : 6 * (uint32_t)blocks) : 10 * blocks + chance(30 * (uint32_t)blocks);
    for (size_t i = 0; i < n; i++) {
        struct change c;
        choose(&c, &map, hot && chance(in_turn ? 100 : 8) ? hot : keys, deletes);
        if (in_turn && i < room) c.key = i; /* the oldest blocks then have nothing but live values, and the head is nearly full */
        if (!map.of[c.key].has && (!c.to.has || map.count >= room)) continue;
        if (run(&now, &c, noise) != 0) found("the earlier store refuses a call");
        make(&map, &c);
    }
    store = mine;
    if (start(&now) != 0) found("start of a chip of the earlier store is refused");
    if (!same(&now, &map)) found("a chip of the earlier store has another map");
    struct log l;
    read_log(&l, &now);
    at_first = potential(&l);
    since = is_clean(&now) ? 0 : NOT_CLEAN;
}

static void history(uint64_t seed) {
    static const size_t sizes[5] = {4, 5, 6, 8, 16};
    static const uint32_t risks[4] = {0, 3, 12, 60};
    chance_state = seed * 1000003;
    blocks = MAX_B == 16 ? sizes[seed % 5] : MAX_B;
    now.chip_len = FLOATSTORE_CHIP_LEN(blocks), now.work_len = FLOATSTORE_WORK_LEN(blocks);
    memset(&wear, 0, sizeof wear);
    memset(&map, 0, sizeof map);
    memset(now.chip, 0xFF, now.chip_len);
    for (size_t i = 0; i < now.work_len; i++) now.work[i] = chance(7);
    now.fuse = FLOATSTORE_NO_FAULT;
    tally.seed = seed, tally.calls = tally.changes = tally.failures = 0, tally.at = "";
    at_first = since = healing = storm = 0;
    if (chance(3) == 0) format_wild();
    if (start(&now) != 0) found("start of a blank chip is refused");
    if (store->earlier && chance(4) == 0) take_over();
    size_t room = FLOATSTORE_ROOM(blocks);
    uint32_t risk = risks[chance(4)];
    for (int phase = 0; phase < 4; phase++) {
        /* few keys, many, all that there is room for, more; in one phase the store is filled and one key put over and over */
        if (chance(2)) age();
        size_t keys = phase == 2 ? 1 : chance(3) ? 1 + chance((uint32_t)room + 4) : room + chance(8);
        uint32_t deletes = chance(3) ? chance(60) : 0;
        for (size_t i = 0; phase == 2 && i < room; i++) {
            struct change c;
            choose(&c, &map, 1, 0);
            c.key = i;
            step(&c, risk);
        }
        for (size_t i = 10 * blocks + chance(8 * (uint32_t)blocks); i > 0; i--) {
            struct change c;
            choose(&c, &map, keys, deletes);
            step(&c, risk);
            if (chance(20) == 0 && start(&now) != 0) found("a start is refused");
            if (!key_agrees(&now, &map, c.key) || (chance(8) == 0 && differs(&now, &map) != KEYS)) found("the map is wrong after a whole call");
        }
        if (!same(&now, &map)) found("the map is wrong at the end of a phase");
    }
    tally.histories++;
}

static void report(void) {
    printf("%s: %llu histories, %llu cuts survived, %llu of them nested, %llu of them erases that left a forged block; nothing found\n", tally.name,
           (unsigned long long)tally.histories, (unsigned long long)tally.cuts, (unsigned long long)tally.nested, (unsigned long long)tally.forged);
    printf("  %llu pages turned to the old form on the way, and %llu made to look sound in the form that they haven't\n", (unsigned long long)tally.aged,
           (unsigned long long)tally.crossed);
    for (size_t b = 4; b <= MAX_B; b++) {
        if (!worst[b].writes) continue;
        printf("  %2zu blocks, worst and bound: a call's page writes %zu of 10, with 1 to 5 power failures since the zone was clean", b, worst[b].writes_after[0]);
        for (size_t q = 1; q <= MOST_FAILURES; q++) printf(" %zu", worst[b].writes_after[q]);
        printf(" of 11 to 15, erases 1; with more, or on an old chip, %zu erases of %zu, %zu writes of %zu; on an area of lies %zu and %zu\n", worst[b].erases, b - 2,
               worst[b].writes, 16 * (b - 2) + 15, worst[b].wild_erases, worst[b].wild_writes);
        printf("             unevenness %zu of 1 with no power failure, %zu of %zu with; all erases %zu%% of n/6 + q; after failures or on an old chip the zone was clean %zu calls later\n",
               worst[b].calm, worst[b].rough, 1 + worst[b].failures, worst[b].percent, worst[b].healed);
    }
}

int laboratory(const char *name, const struct store *tried, const char *seconds, const char *first) {
    store = tried;
    tally.name = name;
    int room = make_world(&now, MAX_B) && make_world(&whole, MAX_B) && make_world(&meant, MAX_B);
    for (int i = 0; i < DEPTH; i++) room = room && make_world(&worlds[i], MAX_B);
    if (!room) return fprintf(stderr, "lab: no memory\n"), 2;
    time_t until = time(NULL) + atoi(seconds);
    uint64_t seed = first ? (uint64_t)strtoull(first, NULL, 10) : 1;
    do history(seed++);
    while (time(NULL) < until || tally.histories < 5); /* each size once at least */
    report();
    return 0;
}
