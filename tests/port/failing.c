/* A driver that fails. A random history on a chip of 4 blocks; each call is first run with its first operation failing, then with its second, and so on until
 * it comes to its end: a read gives random bytes, a write and an erase leave what docs/FAULTS.md allows, and the answer is anything but 0. The call must
 * answer -7 and ask the chip for nothing more, and so must every call until a start; then the map is the one before the call or the one after it. */
#include "board.h"
#include <floatstore_driver.h>

#define STEPS 200
#define B 4
#define POOL 16
#define OWN ((void *)(uintptr_t)0xF0000001)
#define LENT OWN, sizeof chip, words, FLOATSTORE_WORK_LEN(B)

static uint8_t chip[FLOATSTORE_CHIP_LEN(B)];
static uint32_t words[FLOATSTORE_WORK_LEN(B)];
static uint32_t asked, fails_at, wrongs, step; /* operations since the call began; the one that fails, 0: none */
static uint32_t failures[3];
static const char *const operation[3] = {"reads", "writes", "erases"};

static uint32_t chance(uint32_t below) {
    static uint64_t state = 7;
    return (uint32_t)(next_of(&state) >> 32) % below;
}
static void must(int holds, const char *what) {
    if (holds || wrongs++ > 10) return;
    say("WRONG in step ");
    say_number(step);
    say(", operation ");
    say_number(fails_at);
    say(": ");
    say(what);
    say("\n");
}

/* What the driver answers for the operation that it is asked for now. */
static int failure(void *own, int kind) {
    static const int some[4] = {1, -1, 256, INT32_MIN};
    must(own == OWN, "another chip is asked for");
    must(fails_at == 0 || asked < fails_at, "the chip is asked after it failed");
    if (++asked != fails_at) return 0;
    failures[kind]++;
    return some[chance(4)];
}
int floatstore_chip_read(void *own, uint32_t at, uint8_t *to, uint32_t len) {
    int answer = failure(own, 0), kind = (int)chance(3);
    for (uint32_t i = 0; i < len; i++) to[i] = answer && kind ? (uint8_t)(kind == 1 ? chance(256) : 0) : chip[at + i];
    return answer;
}
int floatstore_chip_write(void *own, uint32_t page, const uint8_t bytes[256]) {
    int answer = failure(own, 1), kind = (int)chance(3);
    for (uint32_t i = 0; i < 256; i++) chip[256 * page + i] = bytes[i] | (answer && kind ? (uint8_t)(kind == 1 ? chance(256) : 0xFF) : 0);
    return answer;
}
int floatstore_chip_erase(void *own, uint32_t block) {
    int answer = failure(own, 2), kind = (int)chance(3);
    for (uint32_t i = 0; i < 4096; i++) chip[4096 * block + i] = answer && kind ? (uint8_t)(kind == 1 ? chance(256) : 0) : 0xFF;
    return answer;
}

/* The map as its keys' values: key k is one letter, its value is one byte, 0: none. */
struct map {
    uint8_t value[POOL];
};
enum { PUT, DELETE, GET, NEXT, COUNT, START, SEEING, FORMAT, KINDS };
struct call {
    int kind;
    uint8_t key, value;
};

static int64_t run(struct call c, uint32_t at) {
    uint8_t buffer[FLOATSTORE_MAX_VALUE];
    struct floatstore_seen seen;
    asked = 0;
    fails_at = at;
    switch (c.kind) {
    case PUT: return floatstore_put(LENT, &c.key, 1, &c.value, 1);
    case DELETE: return floatstore_delete(LENT, &c.key, 1);
    case GET: return floatstore_get(LENT, &c.key, 1, buffer, sizeof buffer);
    case NEXT: return floatstore_next(LENT, &c.key, 1, buffer, sizeof buffer);
    case COUNT: return floatstore_count(LENT);
    case START: return floatstore_start(LENT);
    case SEEING: return floatstore_start_seeing(LENT, &seen);
    default: return floatstore_format(LENT);
    }
}

static struct map read_map(void) {
    struct map m;
    fails_at = 0;
    for (uint8_t k = 0; k < POOL; k++) {
        uint8_t key = (uint8_t)('a' + k), value = 0;
        int64_t a = floatstore_get(LENT, &key, 1, &value, 1);
        must(a == 1 || a == -FLOATSTORE_NO_VALUE, "get");
        m.value[k] = a == 1 ? value : 0;
    }
    return m;
}

/* After a failure every call answers -7 and asks for nothing, until a start. */
static void refused_until_a_start(void) {
    for (int kind = PUT; kind < START; kind++) {
        must(run((struct call){kind, 'a', 1}, 0) == -FLOATSTORE_POWER_GONE, "not refused after a failure");
        must(asked == 0, "the chip is asked before a start");
    }
}

/* The call with its n-th operation failing, from the chip and area as they are: whether there is such an operation. */
static int fails(struct call c, uint32_t n, const struct map *before, const struct map *after) {
    static uint8_t chip_before[sizeof chip];
    static uint32_t words_before[sizeof words / 4];
    memcpy(chip_before, chip, sizeof chip);
    memcpy(words_before, words, sizeof words);
    int64_t answer = run(c, n);
    int failed = asked >= n;
    if (failed) {
        must(answer == -FLOATSTORE_POWER_GONE, "a call in which the chip failed doesn't answer -7");
        refused_until_a_start();
        int64_t started = run((struct call){START, 0, 0}, 0);
        if (c.kind != FORMAT) { /* nothing is promised of a format */
            must(started == 0, "no start after a failure");
            struct map now = read_map();
            must(!memcmp(&now, before, sizeof now) || !memcmp(&now, after, sizeof now), "neither the map before nor the one after");
        }
        if (c.kind > DELETE && c.kind != FORMAT) must(!memcmp(chip, chip_before, sizeof chip), "a call that only reads changed the chip");
    }
    memcpy(chip, chip_before, sizeof chip);
    memcpy(words, words_before, sizeof words);
    return failed;
}

int work(void) {
    struct map map = {{0}};
    memset(chip, 0xFF, sizeof chip);
    must(run((struct call){START, 0, 0}, 0) == 0, "the first start");
    for (step = 0; step < STEPS; step++) {
        uint8_t k = (uint8_t)chance(POOL);
        int most = (int)chance(step % 10 == 9 ? KINDS : 2); /* mostly puts and deletes, so that blocks are opened */
        struct call c = {most, (uint8_t)('a' + k), (uint8_t)(1 + chance(255))};
        struct map after = map;
        if (c.kind == PUT) after.value[k] = c.value;
        if (c.kind == DELETE) after.value[k] = 0;
        if (c.kind == FORMAT) memset(&after, 0, sizeof after);
        for (uint32_t n = 1; fails(c, n, &map, &after);) n++;
        for (int i = 0; i < 4 && c.kind == PUT; i++) run(c, 0); /* so that the head fills up */
        run(c, 0);
        if (c.kind == FORMAT) run((struct call){START, 0, 0}, 0);
        map = after;
        struct map now = read_map();
        must(!memcmp(&now, &map, sizeof now), "the map");
    }
    for (int i = 0; i < 3; i++) {
        must(failures[i] > 0, "nothing of one kind failed");
        say_number(failures[i]);
        say(" ");
        say(operation[i]);
        say(i < 2 ? ", " : " failed\n");
    }
    say(wrongs ? "FAILED\n" : "passed\n");
    return wrongs != 0;
}
