/* A driver that reads something else each time: the chip, blank, zeros, random bytes, a page that looks like a record; now and then it fails. Nothing is
 * promised of the map then, and the proofs are about a chip that stays as it is; but after a failed read a call runs on to its end on such bytes. So: each
 * call ends, answers a number that it has, and touches nothing around what it was lent. */
#include "board.h"
#include <floatstore_driver.h>

#ifndef CALLS
#define CALLS 4000
#endif
#define B 4
#define AROUND 64 /* words on each side of the area, bytes on each side of the others */

static uint8_t chip[FLOATSTORE_CHIP_LEN(B)];
static uint32_t words[AROUND + FLOATSTORE_WORK_LEN(B) + AROUND];
static struct {
    uint8_t before[AROUND], key[300], between[AROUND], value[300], after[AROUND]; /* more than a key or value ever has */
} lent;
static uint32_t reads, asked, failures, calls, wrongs;
#define LENT chip, sizeof chip, words + AROUND, FLOATSTORE_WORK_LEN(B)

static uint32_t chance(uint32_t below) {
    static uint64_t state = 3;
    return (uint32_t)(next_of(&state) >> 32) % below;
}
static void must(int holds, const char *what) {
    if (holds || wrongs++ > 10) return;
    say("WRONG at call ");
    say_number(calls);
    say(": ");
    say(what);
    say("\n");
}

static int answer(void) {
    must(++asked < 100000, "a call doesn't come to an end");
    if (chance(400)) return 0;
    failures++;
    return 1;
}
/* The page of its payload, in the form that byte 0 says. */
static void fill(uint8_t page[256]) {
    unsigned zeros = 0;
    for (int i = 0; page[0] == 1 && i < 128; i++) page[128 + i] = (uint8_t)(255 - page[i]);
    if (page[0] == 1) return;
    for (int i = 0; i < 254; i++)
        for (unsigned rest = 255u - page[i]; rest; rest /= 2) zeros += rest % 2;
    page[254] = (uint8_t)(zeros / 256), page[255] = (uint8_t)(zeros % 256);
}
/* A record in one of the forms, sound but for its lengths, which may be any. */
static void forge(uint8_t page[256]) {
    memset(page, 0, 256);
    page[0] = (uint8_t)(1 + chance(2));
    page[1] = (uint8_t)(1 + chance(3));
    page[2] = (uint8_t)(chance(8) ? 1 + chance(FLOATSTORE_MAX_KEY) : chance(256));
    page[3] = (uint8_t)(page[1] > 1 ? 0 : chance(8) ? chance(FLOATSTORE_MAX_VALUE + 1) : chance(256));
    for (int i = 16; i < (page[0] == 1 ? 128 : 254); i++) page[i] = (uint8_t)('a' + chance(3));
    fill(page);
}
int floatstore_chip_read(void *own, uint32_t at, uint8_t *to, uint32_t len) {
    uint8_t page[256];
    uint32_t kind = chance(12);
    reads++;
    must(own == chip && at / 256 == (at + len - 1) / 256 && at + len <= sizeof chip, "a wrong read");
    forge(page);
    for (uint32_t i = 0; i < len; i++)
        to[i] = kind == 0 ? 0xFF : kind == 1 ? 0 : kind == 2 ? (uint8_t)chance(256) : kind < 7 ? page[(at + i) % 256] : chip[at + i];
    return answer();
}
int floatstore_chip_write(void *own, uint32_t page, const uint8_t bytes[256]) {
    must(own == chip && page < 16 * B, "a wrong write");
    memcpy(chip + 256 * page, bytes, 256);
    return answer();
}
int floatstore_chip_erase(void *own, uint32_t block) {
    must(own == chip && block < B, "a wrong erase");
    memset(chip + 4096 * block, 0xFF, 4096);
    return answer();
}

static int untouched(void) {
    int same = 1;
    for (int i = 0; i < AROUND; i++) {
        same &= words[i] == 0xA5A5A5A5u && words[AROUND + FLOATSTORE_WORK_LEN(B) + (uint32_t)i] == 0xA5A5A5A5u;
        same &= lent.before[i] == 0xA5 && lent.between[i] == 0xA5 && lent.after[i] == 0xA5;
    }
    return same;
}
static int64_t call(uint32_t kind) {
    struct floatstore_seen seen;
    size_t key_len = 1 + chance(FLOATSTORE_MAX_KEY), value_len = chance(FLOATSTORE_MAX_VALUE + 1);
    for (size_t i = 0; i < FLOATSTORE_MAX_KEY; i++) lent.key[i] = (uint8_t)('a' + chance(3));
    switch (kind) {
    case 0: return floatstore_start(LENT);
    case 1: return floatstore_start_seeing(LENT, &seen);
    case 2: return floatstore_get(LENT, lent.key, key_len, lent.value, sizeof lent.value);
    case 3: return floatstore_next(LENT, lent.value, chance(FLOATSTORE_MAX_KEY + 1), lent.key, sizeof lent.key);
    case 4: return floatstore_count(LENT);
    case 5: return floatstore_delete(LENT, lent.key, key_len);
    case 6: return chance(20) ? 0 : floatstore_format(LENT);
    default: return floatstore_put(LENT, lent.key, key_len, lent.value, value_len);
    }
}

int work(void) {
    memset(chip, 0xFF, sizeof chip);
    memset(words, 0xA5, sizeof words);
    memset(&lent, 0xA5, sizeof lent);
    for (calls = 0; calls < CALLS; calls++) {
        uint32_t kind = chance(16);
        asked = 0;
        int64_t a = call(kind);
        must(a >= -FLOATSTORE_NOT_STARTED && a <= (kind == 2 ? (int64_t)FLOATSTORE_MAX_VALUE : kind == 3 ? 16 : kind == 4 ? 16 * B : 0), "an answer that the call doesn't have");
        must(untouched(), "what is around the lent memory is changed");
        if (a <= -FLOATSTORE_POWER_GONE && chance(4)) words[AROUND] = 1; /* as if it were started: an area that nobody vouches for */
    }
    say_number(calls);
    say(" calls, ");
    say_number(reads);
    say(" reads of something else each time, ");
    say_number(failures);
    say(" failures\n");
    say(wrongs ? "FAILED\n" : "passed\n");
    return wrongs != 0;
}
