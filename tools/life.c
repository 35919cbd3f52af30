/* A float's life: five years, a dive every ten days, settings and measurements, some forty power failures; beside the store a plain copy of its map.
 *   life BLOCKS SEED LIST [IMAGE]      BLOCKS from 4 to 256; LIST 1: each power failure is listed; the chip at the end is kept as IMAGE
 * ./life takes the words of a person, and refuses what can't be a life before anything is built. */
#define _POSIX_C_SOURCE 200809L
#include "chance.h"
#include "reading.h"
#include "watch.h"
#include <floatstore.h>
#include <inttypes.h>
#include <stdarg.h>
#include <stdio.h>
#include <stdlib.h>
#include <string.h>
#include <unistd.h>

enum { DIVES = 182, FAILURES = 40, MAX_BLOCKS = 256, MAX_OPS = 4096, MAX_KEYS = 8 * MAX_BLOCKS };

static int in_place; /* a line of progress stands open */

static void die(const char *form, ...) {
    va_list words;
    va_start(words, form);
    fputs(in_place ? "\nlife: " : "life: ", stderr);
    vfprintf(stderr, form, words);
    fputc('\n', stderr);
    va_end(words);
    exit(1);
}

/* ---- the plain copy of the map */

struct row {
    char key[17];
    uint8_t len, value[FLOATSTORE_MAX_VALUE];
};
static struct row rows[MAX_KEYS];
static size_t row_count;

static struct row *row_of(const char *key) {
    for (size_t i = 0; i < row_count; i++)
        if (strcmp(rows[i].key, key) == 0) return &rows[i];
    return NULL;
}

/* ---- the float's store */

struct change { /* a put, or a delete where value is NULL */
    const char *key;
    const void *value;
    size_t len;
};
static struct world now;
static size_t blocks;

static struct {
    size_t puts, deletes, gets, counts, starts, no_room; /* calls */
    size_t accepted, erases, writes, worst_erases, worst_writes; /* n, and what the chip did */
    size_t failures, before, after, in_record, in_copy, in_seal, in_erase; /* power failures */
} tally;
static struct wear wear;

struct cut { /* a power failure, and what it cost beyond the call itself */
    int dive;
    char key[17];
    const char *during, *call;
    int happened;
    size_t at, of, erases, writes;
};
static struct cut cuts[FAILURES];
static size_t waiting; /* failures that lie in wait */
static int dive, patience; /* 0: a failure strikes at any call; 1: at one that opens a block; 2: at one that copies several records */

static int64_t run(const void *what, struct world *w, const uint8_t *noise) {
    const struct change *c = what;
    const uint8_t *key = (const uint8_t *)c->key;
    if (c->value) return floatstore_put(w->chip, w->chip_len, w->work, w->work_len, &w->fuse, noise, key, strlen(c->key), c->value, c->len);
    return floatstore_delete(w->chip, w->chip_len, w->work, w->work_len, &w->fuse, noise, key, strlen(c->key));
}

static void boot(void) {
    tally.starts++;
    int64_t answer = floatstore_start(now.chip, now.chip_len, now.work, now.work_len, &now.fuse);
    if (answer != 0) die("start answers %" PRId64, answer);
}

static int64_t get(const char *key, uint8_t *buffer, size_t len) {
    tally.gets++;
    return floatstore_get(now.chip, now.chip_len, now.work, now.work_len, &now.fuse, (const uint8_t *)key, strlen(key), buffer, len);
}

static int64_t count(void) {
    tally.counts++;
    return floatstore_count(now.chip, now.chip_len, now.work, now.work_len, &now.fuse);
}

static int row_agrees(const struct row *r) {
    uint8_t buffer[FLOATSTORE_MAX_VALUE];
    return get(r->key, buffer, sizeof buffer) == r->len && memcmp(buffer, r->value, r->len) == 0;
}

static int copy_agrees(void) {
    for (size_t i = 0; i < row_count; i++)
        if (!row_agrees(&rows[i])) return 0;
    return count() == (int64_t)row_count;
}

static void change_copy(const struct change *c) {
    struct row *r = row_of(c->key);
    if (!c->value) {
        if (r) *r = rows[--row_count];
        return;
    }
    if (!r) r = &rows[row_count++];
    snprintf(r->key, sizeof r->key, "%s", c->key);
    r->len = (uint8_t)c->len;
    memcpy(r->value, c->value, c->len);
}

/* ---- a power failure */

static void make_noise(uint8_t *noise) {
    uint32_t kind = chance(5), from = chance(257);
    for (size_t i = 0; i < FLOATSTORE_NOISE; i++) {
        uint8_t bits = (uint8_t)(chance(256) & chance(256));
        noise[i] = kind == 0 ? 0xFF : kind == 1 ? 0 : kind == 2 ? (i % 256 < from ? 0 : 0xFF) : kind == 3 ? bits : (uint8_t)~bits;
    }
    for (size_t p = 0; kind > 2 && p < 16; p++)
        if (chance(3) == 0) memset(noise + 256 * p, p % 2 ? 0xFF : 0, 256);
}

/* An erase that is cut short may leave anything in its block, which is the spare. Every other one here leaves the head, the block before it, once more. */
static void forge(uint8_t *noise, const struct op *op) {
    size_t head = (op->at + blocks - 1) % blocks;
    if (op->kind == ERASE && tally.in_erase % 2) memcpy(noise, now.chip + FLOATSTORE_BLOCK * head, FLOATSTORE_BLOCK);
}

static void name_cut(struct cut *cut, const struct op *ops, size_t len, size_t k) {
    const struct op *op = &ops[k - 1];
    if (op->kind == ERASE) cut->during = "an erase", tally.in_erase++;
    else if (op->at % 16 == 15) cut->during = "a seal", tally.in_seal++;
    else if (k == len) cut->during = "a record", tally.in_record++;
    else cut->during = "a copy", tally.in_copy++;
    cut->at = k, cut->of = len;
}

static void count_ops(const struct op *ops, size_t len) {
    for (size_t i = 0; i < len; i++) tally.erases += ops[i].kind == ERASE, tally.writes += ops[i].kind == WRITE;
    count_wear(&wear, ops, len);
}

/* What one operation more or less is: the cost of a cut is what was done in all, less what the call would have done undisturbed. */
static void add_cost(struct cut *cut, const struct op *ops, size_t len, int sign) {
    for (size_t i = 0; i < len; i++) {
        size_t *which = ops[i].kind == WRITE ? &cut->writes : &cut->erases;
        *which += sign > 0 ? 1 : (size_t)-1;
    }
}

static size_t seen(struct op *ops, const struct change *c) {
    size_t len, erases = 0;
    const char *wrong = watch(ops, MAX_OPS, &len, run, c, &now);
    if (wrong) die("%s", wrong);
    for (size_t i = 0; i < len; i++) erases += ops[i].kind == ERASE;
    if (erases > tally.worst_erases) tally.worst_erases = erases;
    if (len - erases > tally.worst_writes) tally.worst_writes = len - erases;
    return len;
}

/* The call is cut at operation k; the float boots. Whether the call had happened all the same. */
static int fail(const struct change *c, const struct op *ops, size_t len, size_t k) {
    static uint8_t noise[FLOATSTORE_NOISE];
    struct cut *cut = &cuts[tally.failures++];
    memset(cut, 0, sizeof *cut);
    cut->dive = dive, cut->call = c->value ? "put" : "delete";
    snprintf(cut->key, sizeof cut->key, "%s", c->key);
    name_cut(cut, ops, len, k);
    make_noise(noise);
    forge(noise, &ops[k - 1]);
    waiting--;
    now.fuse = k;
    if (run(c, &now, noise) != -FLOATSTORE_POWER_GONE) die("a call that was cut does not answer -7");
    now.fuse = FLOATSTORE_NO_FAULT;
    count_ops(ops, k);
    tally.accepted++;
    add_cost(cut, ops, k, 1);
    boot();
    cut->happened = !copy_agrees();
    if (cut->happened) change_copy(c);
    if (!copy_agrees()) die("after a power failure the map is neither the one before nor the one after");
    tally.after += (size_t)cut->happened;
    tally.before += (size_t)!cut->happened;
    return cut->happened;
}

/* A put or delete as firmware does it: after a power failure and a boot it looks whether it happened, and if not, does it again. */
static int64_t change(const struct change *c) {
    static struct op ops[MAX_OPS], first[MAX_OPS];
    static const uint8_t noise[FLOATSTORE_NOISE];
    struct cut *cut = NULL;
    *(c->value ? &tally.puts : &tally.deletes) += 1;
    if (c->value && !row_of(c->key) && row_count >= FLOATSTORE_ROOM(blocks)) {
        tally.no_room++;
        if (run(c, &now, noise) != -FLOATSTORE_NO_ROOM) die("a put beyond the room is not refused with 3");
        return -FLOATSTORE_NO_ROOM;
    }
    size_t whole = seen(first, c), len = whole;
    memcpy(ops, first, whole * sizeof *ops);
    for (;;) {
        int strikes = waiting && tally.failures < FAILURES &&
                      (cut ? chance(3) == 0 : patience ? len > (patience == 1 ? 1 : 5) : chance(dive > DIVES - 4 ? 2 : 20) == 0);
        if (!strikes) break;
        struct cut *this_cut = &cuts[tally.failures];
        int happened = fail(c, ops, len, 1 + chance((uint32_t)len));
        if (cut) add_cost(this_cut, ops, len, -1);
        else add_cost(this_cut, first, whole, -1);
        cut = this_cut;
        patience = (int)chance(3);
        if (happened) return 0;
        len = seen(ops, c);
        add_cost(cut, ops, len, 1); /* what is to be done again */
    }
    if (run(c, &now, noise) != 0) die("a call that may not be refused is");
    count_ops(ops, len);
    tally.accepted++;
    change_copy(c);
    return 0;
}

/* ---- what a float does */

static void forget(const char *key) {
    struct change c = {key, NULL, 0};
    if (change(&c) != 0) die("delete %s is refused", key);
}

/* The key of the oldest measurement that the plain copy has; whether there is one. */
static int oldest(char key[17]) {
    const struct row *old = NULL;
    for (size_t i = 0; i < row_count; i++)
        if (rows[i].key[0] == 'm' && (!old || strcmp(rows[i].key, old->key) < 0)) old = &rows[i];
    if (old) memcpy(key, old->key, 17);
    return old != NULL;
}

/* Without room the oldest measurement is given up. */
static void keep(const char *key, const void *value, size_t len) {
    struct change c = {key, value, len};
    while (change(&c) == -FLOATSTORE_NO_ROOM) {
        char old[17];
        if (!oldest(old)) die("no room, and nothing to give up");
        forget(old);
    }
}

static void keep_text(const char *key, const char *form, ...) {
    char text[FLOATSTORE_MAX_VALUE];
    va_list words;
    va_start(words, form);
    int len = vsnprintf(text, sizeof text, form, words);
    va_end(words);
    keep(key, text, (size_t)len);
}

static void read_setting(const char *key) {
    struct row *r = row_of(key);
    uint8_t buffer[FLOATSTORE_MAX_VALUE];
    if (r ? !row_agrees(r) : get(key, buffer, sizeof buffer) != -FLOATSTORE_NO_VALUE) die("the setting %s is not what was put", key);
}

/* The profile: records of eighteen levels, pressure, temperature and salinity each. */
static void measure(size_t records) {
    for (size_t part = 0; part < records; part++) {
        char key[32];
        int32_t levels[54];
        for (int i = 0; i < 54; i++) levels[i] = (int32_t)(1000 * (dive + (int)part) + i * 37) + (int32_t)chance(20);
        snprintf(key, sizeof key, "m%03d.%02zu", dive, part);
        keep(key, levels, part + 1 == records ? 12 * (1 + chance(18)) : sizeof levels);
    }
}

/* The satellite passes: all is sent, half, or nothing; under the ice of each winter nothing for six dives. What is sent is read, and forgotten. */
static void send(void) {
    uint32_t contact = (dive + 3) % 36 < 6 ? 0 : chance(10); /* the last dives are under it too */
    size_t left = contact == 0 ? row_count : contact < 3 ? row_count / 2 : 0;
    char key[17];
    while (row_count > left && oldest(key)) {
        if (!row_agrees(row_of(key))) die("the measurement %s is not what was put", key);
        forget(key);
    }
}

static void do_dive(size_t records) {
    static const char *const phases[] = {"descend", "park", "profile", "ascend", "surface"};
    static const char *const settings[] = {"park.depth", "profile.depth", "cycle.hours"};
    boot();
    for (size_t i = 0; i < 3; i++) read_setting(settings[i]);
    keep_text("dive.number", "%d", dive);
    for (size_t i = 0; i < 5; i++) {
        keep_text("state", "%s", phases[i]);
        keep_text("battery.mV", "%d", 15000 - 20 * dive - (int)chance(200));
        if (i == 2) measure(records);
    }
    uint32_t south = chance(10000), east = chance(10000);
    keep_text("gps", "%d.%04u S %d.%04u E", 40 + dive % 9, south, 60 + dive / 9, east);
    send();
    uint32_t changed = chance(dive == 1 ? 3 : 18), to = chance(11); /* shore changes a setting now and then */
    if (changed < 3) keep_text(settings[changed], "%u", 1000 + 100 * to);
    if (count() != (int64_t)row_count) die("count is not the number of keys");
}

/* ---- the life */

static void live(void) {
    size_t records = (FLOATSTORE_ROOM(blocks) - 8) / 4, planned = 0;
    in_place = isatty(2);
    if (records > 60) records = 60;
    for (dive = 1; dive <= DIVES; dive++) {
        /* failures are spread over the dives */
        for (; planned * DIVES < (size_t)dive * FAILURES; planned++) waiting++, patience = (int)chance(3);
        if (dive > DIVES - 4) patience = 0;
        if (in_place) fprintf(stderr, "\rdive %d of %d, day %d, %zu power failures ", dive, DIVES, 10 * dive, tally.failures);
        else if (dive % 26 == 0) fprintf(stderr, "dive %d of %d, day %d, %zu power failures\n", dive, DIVES, 10 * dive, tally.failures);
        do_dive(records);
    }
    if (in_place) fprintf(stderr, "\r%60s\r", "");
    in_place = 0;
}

/* ---- the report */

static const char *counted(size_t n) { /* 12,345; a few at a time */
    static char text[8][32];
    static int turn;
    char plain[24], *out = text[turn = (turn + 1) % 8];
    size_t len = (size_t)snprintf(plain, sizeof plain, "%zu", n), j = 0;
    for (size_t i = 0; i < len; i++) {
        if (i && (len - i) % 3 == 0) out[j++] = ',';
        out[j++] = plain[i];
    }
    out[j] = 0;
    return out;
}

static void print_cost(size_t erases, size_t writes) {
    if (erases + writes == 0) printf("nothing");
    if (erases) printf("%zu erase%s", erases, erases == 1 ? "" : "s");
    if (erases && writes) printf(" and ");
    if (writes) printf("%zu page write%s", writes, writes == 1 ? "" : "s");
}

/* Equal costs together, in the order in which they came. */
static void report_costs(void) {
    char seen_before[FAILURES] = {0};
    printf("  each cost, beyond the call itself:");
    for (size_t i = 0; i < tally.failures; i++) {
        size_t same = 0;
        if (seen_before[i]) continue;
        for (size_t j = i; j < tally.failures; j++)
            if (cuts[j].erases == cuts[i].erases && cuts[j].writes == cuts[i].writes) seen_before[j] = 1, same++;
        printf(same == 1 ? "%s once " : "%s %zu times ", i ? ";" : "", same);
        print_cost(cuts[i].erases, cuts[i].writes);
    }
    printf("\n");
}

static void list_cuts(void) {
    for (size_t i = 0; i < tally.failures; i++) {
        printf("  day %4d  %-6s %-13s cut at operation %2zu of %2zu, in %-8s  the map %s, cost ", 10 * cuts[i].dive, cuts[i].call, cuts[i].key,
               cuts[i].at, cuts[i].of, cuts[i].during, cuts[i].happened ? "after it" : "before it");
        print_cost(cuts[i].erases, cuts[i].writes);
        printf("\n");
    }
}

/* A bar for each block; for many blocks, for each group of them its most worn. */
static void report_wear(size_t *least, size_t *most) {
    size_t group = (blocks + 31) / 32;
    *least = *most = wear.of[0];
    for (size_t b = 0; b < blocks; b++) {
        if (wear.of[b] < *least) *least = wear.of[b];
        if (wear.of[b] > *most) *most = wear.of[b];
    }
    printf("\nwear: erases of each block%s; the maker promises 100,000\n", group > 1 ? " (the most worn of each group)" : "");
    for (size_t b = 0; b < blocks; b += group) {
        size_t worst = 0;
        for (size_t i = b; i < b + group && i < blocks; i++)
            if (wear.of[i] > worst) worst = wear.of[i];
        printf("  %4zu ", b);
        for (size_t i = 0; *most && i < worst * 50 / *most; i++) putchar('#');
        printf(" %zu\n", worst);
    }
}

static void report_bound(const char *what, size_t seen_here, size_t bound, const char *form) {
    printf("  %-28s %8s   %8s   %s\n", what, counted(seen_here), counted(bound), form);
    if (seen_here > bound) die("a bound is broken: %s", what);
}

static void report_ring(void) {
    struct reading r;
    if (!read_chip(&r, now.chip, blocks)) die("no memory");
    if (!r.is_ring || r.keys != row_count) die("the chip read by docs/FORMAT.md is another map");
    printf("\nring: v value, o older value, n note of a deletion, # seal, x cut short, . blank\n");
    for (size_t b = 0; b < blocks && blocks <= 32; b++) {
        printf("  %4zu  ", b);
        for (size_t j = 0; j < 16; j++) putchar(r.kinds[16 * b + j]);
        printf("  %s\n", block_role(&r, now.chip, b));
    }
    if (blocks > 32) printf("  head %zu, spare %zu, oldest %zu of %zu blocks\n", r.head, r.spare, r.oldest, blocks);
    forget_reading(&r);
}

static void report(uint64_t seed, int list) {
    size_t room = FLOATSTORE_ROOM(blocks), least, most, n = tally.accepted, q = tally.failures;
    printf("A float's life: five years, %d dives, a chip of %zu blocks with room for %s keys (seed %" PRIu64 ")\n\n", DIVES, blocks, counted(room), seed);
    printf("calls: %s puts, %s deletes, %s gets, %s starts, %s counts\n", counted(tally.puts), counted(tally.deletes), counted(tally.gets),
           counted(tally.starts), counted(tally.counts));
    if (tally.no_room) printf("room: %s puts under the winter's ice found none, and the oldest measurement was given up for each\n", counted(tally.no_room));
    else printf("room: there was always some\n");
    printf("chip: %s page writes and %s erases for %s puts and deletes that were accepted or cut short\n\n", counted(tally.writes),
           counted(tally.erases), counted(n));
    printf("power failures: %zu, of them %zu in the write of a record, %zu of a copy, %zu of a seal, %zu in an erase\n", q, tally.in_record,
           tally.in_copy, tally.in_seal, tally.in_erase);
    printf("  after the next start: %zu times the map before the call, %zu times the one after it, never anything else\n", tally.before, tally.after);
    report_costs();
    if (list) list_cuts();
    else printf("  (./life --cuts lists each of them)\n");
    report_wear(&least, &most);
    printf("\nbounds, for n = %s puts and deletes and q = %zu power failures:\n", counted(n), q);
    printf("  %-28s %8s   %8s\n", "", "seen", "bound");
    report_bound("erases in all", wear.all, n / 6 + q, "n/6 + q");
    report_bound("two blocks' erases differ by", most - least, 1 + q, "1 + q");
    report_bound("erases in one call", tally.worst_erases, 1, "1");
    report_bound("page writes in one call", tally.worst_writes, 15, "10, and 1 for each recent failure, 5 at most");
    if (most) printf("  at this pace the maker's promise lasts %s years\n", counted(100000 * 5 / most));
    report_ring();
    boot();
    if (!copy_agrees()) die("the map is not the plain copy");
    printf("\nmap: after a last start all %zu keys are as the plain copy has them, and there are no others\n", row_count);
}

static void keep_image(const char *name) {
    FILE *file = fopen(name, "wb");
    if (!file || fwrite(now.chip, 1, now.chip_len, file) != now.chip_len || fclose(file) != 0) die("%s cannot be written", name);
    printf("image: %s has the chip as it is now; tools/floatstore reads it\n", name);
}

int main(int argc, char **argv) {
    if (argc < 4 || argc > 5) die("usage: life BLOCKS SEED LIST [IMAGE]; people call ./life");
    blocks = strtoul(argv[1], NULL, 10);
    uint64_t seed = strtoull(argv[2], NULL, 10);
    if (blocks < FLOATSTORE_MIN_BLOCKS || blocks > MAX_BLOCKS) die("a life is for 4 to %d blocks", MAX_BLOCKS);
    if (!make_world(&now, blocks)) die("no memory");
    memset(now.chip, 0xFF, now.chip_len); /* as the maker ships it */
    chance_state = seed * 1000003;
    live();
    report(seed, argv[3][0] == '1');
    if (argc == 5) keep_image(argv[4]);
    return 0;
}
