/* A firmware to be killed: it starts, says the whole map, and makes changes without end, each said before it begins and once it is acknowledged. Between the
 * library and nor.c stand the three functions below (ld --wrap): they count, and now and then play a failure, which is said as well: an operation is cut short
 * as docs/FAULTS.md allows, and the processor is reset, or the driver answers 1. What is said on the serial line is all that the host knows (kills.py):
 *
 *   boot N                            the processor began
 *   start ANSWER BLANK SOUND SPOILT   a start; then the map by walking over it: key KEY VALUE for each, and keys COUNT
 *   begin N put KEY VALUE             or: begin N delete KEY
 *   done N ANSWER PROGRAMS ERASES
 *   get KEY ANSWER VALUE
 *   failure KIND PLACE                is played now: write0 to write4, erase0 to erase4, read0 to read2
 *   after ANSWERS OPERATIONS          where the driver had answered 1: what the call and the next ones answered, and what they still asked of the chip
 *   all PROGRAMS ERASES               the end, where the host wants one */
#include "board.h"
#include "nor.h"
#include <floatstore_driver.h>
#include <stdio.h>
#include <string.h>

enum { BLOCKS = 16, KEYS = 150 }; /* 38 keys more than there is room for */

/* The host lays seed and limit here, at every reset. */
__attribute__((section(".kept"))) static volatile struct {
    uint32_t seed, limit, boots, changes, programs, erases;
} kept;
#define NO_FAILURES 0x80000000u /* in limit, beside the number of changes */

static struct nor nor = {.bus = NULL, .base = 0x100000};
static uint32_t work[FLOATSTORE_WORK_LEN(BLOCKS)];
#define STORE &nor, FLOATSTORE_CHIP_LEN(BLOCKS), work, FLOATSTORE_WORK_LEN(BLOCKS)

static uint64_t state;
static uint32_t chance(uint32_t below) {
    state ^= state << 13, state ^= state >> 7, state ^= state << 17;
    return (uint32_t)(state >> 20) % below;
}

/* ---- between the library and the driver */

int __real_floatstore_chip_read(void *chip, uint32_t at, uint8_t *to, uint32_t len);
int __real_floatstore_chip_write(void *chip, uint32_t page, const uint8_t bytes[256]);
int __real_floatstore_chip_erase(void *chip, uint32_t block);

static uint32_t reads, programs, erases; /* that the library asked for */
static uint32_t fail_in, fail_erase_in, fail_read_in; /* the operation, erase or read that is to fail; 0 for none */
static int failed; /* the driver answered 1 */

static int down(uint32_t *count) { return *count && !--*count; }

/* Says what was played. The processor is reset, or the driver answers 1. */
static int fail(const char *kind, uint32_t how, uint32_t place) {
    fail_in = fail_erase_in = fail_read_in = 0;
    printf("failure %s%u %u\n", kind, (unsigned)how, (unsigned)place);
#ifndef NO_RESET
    if (chance(2)) board_reset();
#endif
    failed = 1;
    return 1;
}

/* The bytes are none, wrong ones, or the right ones. */
int __wrap_floatstore_chip_read(void *chip, uint32_t at, uint8_t *to, uint32_t len) {
    reads++;
    if (!down(&fail_read_in)) return __real_floatstore_chip_read(chip, at, to, len);
    uint32_t how = chance(3);
    for (uint32_t i = 0; how == 1 && i < len; i++) to[i] = (uint8_t)chance(256);
    if (how == 2) (void)__real_floatstore_chip_read(chip, at, to, len);
    return fail("read", how, at);
}

/* Nothing, up to a byte, some bits, all but one bit, everything. */
int __wrap_floatstore_chip_write(void *chip, uint32_t page, const uint8_t bytes[256]) {
    programs++, kept.programs++;
    if (!down(&fail_in)) return __real_floatstore_chip_write(chip, page, bytes);
    static uint8_t left[256];
    uint32_t how = chance(5), at = chance(2048), thin = 1 + chance(8);
    memcpy(left, bytes, 256);
    if (how == 1) memset(left + at / 8, 0xFF, 256 - at / 8);
    for (uint32_t i = 0; how == 2 && i < 256; i++)
        if (chance(thin) == 0) left[i] |= (uint8_t)chance(256);
    if (how == 3) left[at / 8] |= (uint8_t)(1u << at % 8);
    if (how && __real_floatstore_chip_write(chip, page, left)) printf("the driver fails\n");
    return fail("write", how, page);
}

/* What a cut erase may leave on a page, once it is blank: any bytes, a page of another block, zeros. */
static void fill(void *chip, uint32_t page, uint32_t how, uint32_t other) {
    static uint8_t left[256];
    for (uint32_t i = 0; i < 256; i++) left[i] = how == 2 ? (uint8_t)chance(256) : 0;
    if (how == 3 && __real_floatstore_chip_read(chip, 4096 * other + 256 * (page % 16), left, 256)) printf("the driver fails\n");
    if (__real_floatstore_chip_write(chip, page, left)) printf("the driver fails\n");
}

/* Nothing, everything, any bytes, a copy of another block, zeros on some pages. */
int __wrap_floatstore_chip_erase(void *chip, uint32_t block) {
    erases++, kept.erases++;
    int now = down(&fail_in);
    if (!down(&fail_erase_in) && !now) return __real_floatstore_chip_erase(chip, block);
    uint32_t how = chance(5), other = chance(BLOCKS);
    if (how && __real_floatstore_chip_erase(chip, block)) printf("the driver fails\n");
    for (uint32_t i = 0; how > 1 && i < 16; i++)
        if (how != 4 || chance(2)) fill(chip, 16 * block + i, how, other);
    return fail("erase", how, block);
}

/* ---- the calls */

static uint8_t key[FLOATSTORE_MAX_KEY], value[FLOATSTORE_MAX_VALUE];
static size_t key_len, value_len;

static void say(const uint8_t *bytes, size_t len) {
    while (len--) putchar(*bytes++);
}

static void choose_key(uint32_t k) {
    key_len = 2 + k % 15;
    for (size_t i = 0; i < key_len; i++) key[i] = (uint8_t)(i ? 'A' + (k + (i - 1) * 5) % 26 : '0' + k / 26);
}

static void choose_value(uint32_t n) {
    value_len = chance(FLOATSTORE_MAX_VALUE + 1);
    for (size_t i = 0; i < value_len; i++) value[i] = (uint8_t)(33 + (n * 7 + i * (1 + n % 5) + (n >> 8)) % 94);
}

static void say_map(void) {
    uint8_t last[FLOATSTORE_MAX_KEY];
    int64_t n;
    for (size_t len = 0; (n = floatstore_next(STORE, last, len, key, sizeof key)) > 0; len = (size_t)n, memcpy(last, key, len)) {
        int64_t got = floatstore_get(STORE, key, (size_t)n, value, sizeof value);
        printf("key "), say(key, (size_t)n), putchar(' '), say(value, got < 0 ? 0 : (size_t)got), putchar('\n');
    }
    printf("keys %d\n", (int)floatstore_count(STORE));
}

/* What comes to fail before the next start: an operation, an erase, a read or nothing. */
static void choose_failure(void) {
    uint32_t kind = kept.limit & NO_FAILURES ? 9 : chance(6);
    if (kind < 2) fail_in = 1 + chance(kind ? 12 : 120);
    if (kind == 2) fail_erase_in = 1 + chance(4);
    if (kind == 3) fail_read_in = 1 + chance(600);
}

static void start(void) {
    struct floatstore_seen seen = {0, 0, 0, 0, 0};
    memset(work, 0xA5, sizeof work);
    if (!(kept.limit & NO_FAILURES) && chance(6) == 0) fail_read_in = 1 + chance(400);
    int64_t answer = floatstore_start_seeing(STORE, &seen);
    if (failed) {
        uint32_t before = reads + programs + erases;
        int next = (int)floatstore_count(STORE);
        printf("after %d %d -7 %u\n", (int)answer, next, (unsigned)(reads + programs + erases - before));
        failed = 0;
        answer = floatstore_start_seeing(STORE, &seen);
    }
    fail_read_in = 0;
    printf("start %d %u %u %u\n", (int)answer, (unsigned)seen.blank, (unsigned)seen.sound, (unsigned)seen.spoilt);
    say_map();
    choose_failure();
}

static int64_t look(void) {
    int64_t got = floatstore_get(STORE, key, key_len, value, sizeof value);
    if (!failed) printf("get "), say(key, key_len), printf(" %d ", (int)got), say(value, got < 0 ? 0 : (size_t)got), putchar('\n');
    return got;
}

/* The driver answered 1 in a call that answered `answer`: so do the next ones, and the chip isn't asked any more. */
static void after(int64_t answer) {
    uint32_t before = reads + programs + erases;
    int get = (int)floatstore_get(STORE, key, key_len, value, sizeof value), put = (int)floatstore_put(STORE, key, key_len, value, 0);
    printf("after %d %d %d %u\n", (int)answer, get, put, (unsigned)(reads + programs + erases - before));
    failed = 0;
    start();
}

static void change(uint32_t n) {
    uint32_t programs_before = programs, erases_before = erases;
    int put = chance(5) != 0;
    choose_value(n);
    printf("begin %u %s ", (unsigned)n, put ? "put" : "delete"), say(key, key_len);
    if (put) putchar(' '), say(value, value_len);
    putchar('\n');
    int64_t answer = put ? floatstore_put(STORE, key, key_len, value, value_len) : floatstore_delete(STORE, key, key_len);
    if (failed) after(answer);
    else printf("done %u %d %u %u\n", (unsigned)n, (int)answer, (unsigned)(programs - programs_before), (unsigned)(erases - erases_before));
}

int main(void) {
    kept.boots++;
    state = 0x9E3779B97F4A7C15u * (kept.seed + 1) + 0xD1B54A32D192ED03u * kept.boots;
    for (int i = 0; i < 8; i++) chance(2);
    printf("boot %u\n", (unsigned)kept.boots);
    start();
    for (uint32_t limit = kept.limit & ~NO_FAILURES; !limit || kept.changes < limit;) {
        choose_key(chance(KEYS));
        int64_t got = chance(8) ? 0 : look();
        if (failed) after(got);
        else change(kept.changes++);
    }
    printf("all %u %u\n", (unsigned)kept.programs, (unsigned)kept.erases);
    return 0;
}
