/* A random history on a chip of 16 blocks beside a plain model of the map, with power failures. It says the same lines on every machine and in both builds, and
 * leaves its chip and work area as files: those of two runs are to be equal. With DRIVER the chip is behind a driver, which plays the fault script. */
#include "board.h"
#ifdef DRIVER
#include <floatstore_driver.h>
#else
#include <floatstore.h>
#endif

#define CALLS 100000
#define B 16
#define POOL 150 /* keys in use: more than there is room for */
#define ROOM ((int)FLOATSTORE_ROOM(B))
#define LONGEST ((int)FLOATSTORE_MAX_VALUE)

static uint8_t chip[FLOATSTORE_CHIP_LEN(B)], noise[FLOATSTORE_NOISE];
static uint32_t words[FLOATSTORE_WORK_LEN(B)];
static uint64_t fuse = FLOATSTORE_NO_FAULT;

/* what is lent to a call, and to one that changes the chip */
#ifdef DRIVER
#define OWN ((void *)(uintptr_t)0xF0000001) /* no memory is there: whoever looks through it finds out */
#define LENT_OF(chip_len, work_len) OWN, chip_len, words, work_len
#define LENT LENT_OF(sizeof chip, FLOATSTORE_WORK_LEN(B))
#define LENT_TO_CHANGE LENT
#else
#define LENT_OF(chip_len, work_len) chip, chip_len, words, work_len, &fuse
#define LENT LENT_OF(sizeof chip, FLOATSTORE_WORK_LEN(B))
#define LENT_TO_CHANGE LENT, noise
#endif

static uint32_t chance(uint32_t below) {
    static uint64_t state = 1;
    return (uint32_t)(next_of(&state) >> 32) % below;
}

static uint64_t sum = 0xCBF29CE484222325u; /* of every answer and every byte handed out */
static uint64_t fnv(uint64_t h, const void *bytes, uint32_t len) {
    const uint8_t *p = bytes;
    while (len--) h = (h ^ *p++) * 0x100000001B3u;
    return h;
}

/* The model. */
static uint8_t key[POOL][FLOATSTORE_MAX_KEY], value[POOL][FLOATSTORE_MAX_VALUE];
static uint8_t key_len[POOL], value_len[POOL], has[POOL];
static int keys;

static uint32_t calls, cuts, wrongs, refused[10], depth_of[8];
enum { PUT, GET, DELETE, NEXT, COUNT, START, SEEING, FORMAT };

static void wrong(const char *what) {
    if (wrongs++ > 10) return;
    say("WRONG at call ");
    say_number(calls);
    say(": ");
    say(what);
    say("\n");
}

#ifdef DRIVER
/* The chip: what the fault script of floatstore.h does, by docs/FAULTS.md. */
static int cut(void *own, uint32_t end) { /* of an operation that ends at byte `end` of the chip */
    if (own != OWN || end > sizeof chip) wrong("the driver is asked for another chip, or outside of it");
    if (fuse == 0) wrong("the driver is asked after the power has gone");
    return --fuse == 0;
}
int floatstore_chip_read(void *own, uint32_t at, uint8_t *to, uint32_t len) {
    if (own != OWN || len == 0 || at / 256 != (at + len - 1) / 256 || at + len > sizeof chip || fuse == 0) wrong("the driver is asked for a wrong read");
    memcpy(to, chip + at, len);
    return 0;
}
int floatstore_chip_write(void *own, uint32_t page, const uint8_t bytes[256]) {
    int is_cut = cut(own, 256 * page + 256);
    for (uint32_t i = 0; i < 256; i++) {
        if (chip[256 * page + i] != 0xFF) wrong("a page is written that isn't blank");
        chip[256 * page + i] = is_cut ? bytes[i] | noise[i] : bytes[i];
    }
    return is_cut;
}
int floatstore_chip_erase(void *own, uint32_t block) {
    int is_cut = cut(own, 4096 * block + 4096);
    for (uint32_t i = 0; i < 4096; i++) chip[4096 * block + i] = is_cut ? noise[i] : 0xFF;
    return is_cut;
}
#endif

static int compare(int a, int b) {
    int n = key_len[a] < key_len[b] ? key_len[a] : key_len[b], c = memcmp(key[a], key[b], (size_t)n);
    return c ? c : key_len[a] - key_len[b];
}

/* Each call on a painted stack. */
static int64_t answered(int call, int64_t answer) {
    uint32_t depth = board_depth();
    if (depth > depth_of[call]) depth_of[call] = depth;
    sum = fnv(sum, &answer, sizeof answer);
    if (answer < 0 && answer > -10) refused[-answer]++;
    calls++;
    return answer;
}
#define CALL(call, answer) (board_paint(), answered(call, answer))
static void must(int64_t answer, int64_t want, const char *what) {
    if (answer != want) wrong(what);
}

static int64_t do_get(int k, int room) {
    uint8_t buffer[FLOATSTORE_MAX_VALUE];
    memset(buffer, 0xA5, sizeof buffer);
    int64_t a = CALL(GET, floatstore_get(LENT, key[k], key_len[k], buffer, (size_t)room));
    must(a, !has[k] ? -FLOATSTORE_NO_VALUE : value_len[k] > room ? -FLOATSTORE_SHORT_BUFFER : value_len[k], "get answers something else");
    sum = fnv(sum, buffer, sizeof buffer);
    int n = a > 0 ? (int)a : 0;
    if (a > 0 && memcmp(buffer, value[k], (size_t)n)) wrong("get gives another value");
    for (int i = n; i < LONGEST; i++)
        if (buffer[i] != 0xA5) wrong("get changes the rest of the buffer");
    return a;
}

static int after(int k, int inclusive) { /* the least key that has a value and is above key k, or above none: -1 */
    int best = -1;
    for (int i = 0; i < POOL; i++)
        if (has[i] && (inclusive || compare(i, k) > 0) && (best < 0 || compare(i, best) < 0)) best = i;
    return best;
}
static int do_next(int k, int from_start) {
    uint8_t buffer[FLOATSTORE_MAX_KEY];
    memset(buffer, 0xA5, sizeof buffer);
    int64_t a = CALL(NEXT, floatstore_next(LENT, key[k], from_start ? 0 : key_len[k], buffer, sizeof buffer));
    int want = after(k, from_start);
    must(a, want < 0 ? -FLOATSTORE_NO_VALUE : key_len[want], "next answers something else");
    sum = fnv(sum, buffer, sizeof buffer);
    if (want >= 0 && memcmp(buffer, key[want], key_len[want])) wrong("next gives another key");
    return want;
}

static void do_count(void) { must(CALL(COUNT, floatstore_count(LENT)), keys, "count"); }

static void look_through(void) {
    do_count();
    for (int i = 0; i < POOL; i++) do_get(i, FLOATSTORE_MAX_VALUE);
    for (int k = 0, first = 1; k >= 0; first = 0) k = do_next(k, first);
}

static void do_start(void) {
    struct floatstore_seen seen;
    if (chance(3)) {
        must(CALL(START, floatstore_start(LENT)), 0, "start");
        return;
    }
    must(CALL(SEEING, floatstore_start_seeing(LENT, &seen)), 0, "start_seeing");
    must((int64_t)(seen.blank + seen.sound + seen.spoilt), 16 * B, "the pages that it saw");
    sum = fnv(sum, &seen, 3 * sizeof seen.blank);
}

static void make_noise(void) {
    uint32_t kind = chance(5);
    for (uint32_t i = 0; i < sizeof noise; i++) {
        uint8_t one = kind > 2 && chance(64) == 0 ? (uint8_t)(1u << chance(8)) : 0;
        noise[i] = kind == 0 ? 0xFF : kind == 1 ? 0 : kind == 2 ? (uint8_t)chance(256) : kind == 3 ? one : (uint8_t)~one;
    }
}

/* The fuse for a put or delete: none, a short one, a longer one. */
static void light(int kind) {
    if (kind == 0) return;
    make_noise();
    fuse = 1 + chance(kind == 1 ? 3 : 40);
}

/* The power went under the put or delete of key k: everything is refused until the start, and then the map is the one before or the one after. */
static void back(int k, int is_put, const uint8_t *new_value, int new_len) {
    uint8_t buffer[FLOATSTORE_MAX_VALUE];
    cuts++;
    if (fuse != 0) wrong("-7 and the fuse isn't burnt");
    must(CALL(COUNT, floatstore_count(LENT)), -FLOATSTORE_POWER_GONE, "not refused after a cut");
    fuse = FLOATSTORE_NO_FAULT;
    must(CALL(COUNT, floatstore_count(LENT)), -FLOATSTORE_POWER_GONE, "not refused before the start");
    do_start();
    int64_t a = CALL(GET, floatstore_get(LENT, key[k], key_len[k], buffer, sizeof buffer));
    int before = has[k] ? a == value_len[k] && !memcmp(buffer, value[k], (size_t)a) : a == -FLOATSTORE_NO_VALUE;
    int now = is_put ? a == new_len && !memcmp(buffer, new_value, (size_t)a) : a == -FLOATSTORE_NO_VALUE;
    if (!before && !now) wrong("neither before nor after");
    if (!before) {
        keys += is_put - has[k];
        has[k] = (uint8_t)is_put;
        value_len[k] = (uint8_t)new_len;
        memcpy(value[k], new_value, (size_t)new_len);
    }
    look_through();
}

static void do_put(int k, int len, int kind) {
    uint8_t new_value[FLOATSTORE_MAX_VALUE + 1];
    for (int i = 0; i < len; i++) new_value[i] = (uint8_t)chance(256);
    light(kind);
    int64_t want = len > LONGEST ? -FLOATSTORE_LONG_VALUE : !has[k] && keys == ROOM ? -FLOATSTORE_NO_ROOM : 0;
    int64_t a = CALL(PUT, floatstore_put(LENT_TO_CHANGE, key[k], key_len[k], new_value, (size_t)len));
    if (a == -FLOATSTORE_POWER_GONE && kind && want == 0) {
        back(k, 1, new_value, len);
        return;
    }
    fuse = FLOATSTORE_NO_FAULT;
    must(a, want, "put answers something else");
    if (a != 0) return;
    keys += !has[k];
    has[k] = 1;
    value_len[k] = (uint8_t)len;
    memcpy(value[k], new_value, (size_t)len);
}

static void do_delete(int k, int kind) {
    static const uint8_t none[1];
    light(kind);
    int64_t a = CALL(DELETE, floatstore_delete(LENT_TO_CHANGE, key[k], key_len[k]));
    if (a == -FLOATSTORE_POWER_GONE && kind && has[k]) {
        back(k, 0, none, 0);
        return;
    }
    fuse = FLOATSTORE_NO_FAULT;
    must(a, has[k] ? 0 : -FLOATSTORE_NO_VALUE, "delete answers something else");
    keys -= has[k];
    has[k] = 0;
}

static void do_format(void) {
    int cut_short = chance(2) == 0;
    make_noise();
    if (cut_short) fuse = 1 + chance(B);
    must(CALL(FORMAT, floatstore_format(LENT_TO_CHANGE)), cut_short ? -FLOATSTORE_POWER_GONE : 0, "format answers something else");
    fuse = FLOATSTORE_NO_FAULT;
    must(CALL(COUNT, floatstore_count(LENT)), cut_short ? -FLOATSTORE_POWER_GONE : -FLOATSTORE_NOT_STARTED, "not refused after a format");
    if (cut_short) { /* half formatted: whatever it is, it can be formatted again after a start */
        CALL(START, floatstore_start(LENT));
        must(CALL(FORMAT, floatstore_format(LENT_TO_CHANGE)), 0, "the second format");
    }
    memset(has, 0, sizeof has);
    keys = 0;
    do_start();
}

static void bad_calls(void) {
    static const uint8_t space[3] = {'a', ' ', 'b'}, high[2] = {0x7F, 'x'}, fits[17] = "0123456789abcdefg";
    uint8_t buffer[FLOATSTORE_MAX_VALUE];
    const size_t area = FLOATSTORE_WORK_LEN(B), huge = SIZE_MAX;
    must(CALL(PUT, floatstore_put(LENT_TO_CHANGE, space, 3, space, 3)), -1, "a space in a key");
    must(CALL(PUT, floatstore_put(LENT_TO_CHANGE, high, 2, space, 3)), -1, "0x7F in a key");
    must(CALL(PUT, floatstore_put(LENT_TO_CHANGE, fits, 17, space, 3)), -1, "a key of 17");
    must(CALL(PUT, floatstore_put(LENT_TO_CHANGE, fits, 0, space, 3)), -1, "a key of 0");
    must(CALL(PUT, floatstore_put(LENT_TO_CHANGE, fits, 16, fits, FLOATSTORE_MAX_VALUE + 1)), -2, "a value of 221");
    must(CALL(GET, floatstore_get(LENT, fits, 17, buffer, sizeof buffer)), -1, "get of a key of 17");
    must(CALL(GET, floatstore_get(LENT, fits, huge, buffer, sizeof buffer)), -1, "get of a key of SIZE_MAX");
    must(CALL(GET, floatstore_get(LENT_OF(sizeof chip - 1, area), fits, 1, buffer, sizeof buffer)), -5, "a chip too short by one");
    must(CALL(GET, floatstore_get(LENT_OF(sizeof chip, area - 1), fits, 1, buffer, sizeof buffer)), -5, "a work area too short by one");
    must(CALL(COUNT, floatstore_count(LENT_OF(sizeof chip, 0))), -5, "a work area of 0");
}

static void make_keys(void) {
    for (int k = 0; k < POOL; k++) {
        int again = 1;
        while (again) {
            key_len[k] = (uint8_t)(1 + chance(FLOATSTORE_MAX_KEY));
            for (int i = 0; i < key_len[k]; i++) key[k][i] = (uint8_t)(chance(2) ? 'a' + chance(3) : 0x21 + chance(0x5E));
            again = 0;
            for (int j = 0; j < k; j++) again |= compare(j, k) == 0;
        }
    }
}

static void one_call(void) {
    uint32_t c = chance(1000);
    int k = (int)chance(POOL), kind = chance(12) ? 0 : 1 + (int)chance(2);
    if (c < 560) do_put(k, (int)chance(FLOATSTORE_MAX_VALUE + 1), kind);
    else if (c < 700) do_delete(k, kind);
    else if (c < 850) do_get(k, chance(4) ? LONGEST : (int)chance(FLOATSTORE_MAX_VALUE));
    else if (c < 930) do_next(k, chance(10) == 0);
    else if (c < 960) do_count();
    else if (c < 975) do_start();
    else if (c < 985) bad_calls();
    else if (c < 990) do_put(k, FLOATSTORE_MAX_VALUE + 1, 0);
    else if (c < 991) do_format();
}

static void say_state(void) {
    say_number(calls);
    say(" calls, ");
    say_number((uint64_t)keys);
    say(" keys, answers ");
    say_number(sum);
    say(", chip ");
    say_number(fnv(0, chip, sizeof chip));
    say("\n");
}

static void say_end(void) {
    static const char *const name[] = {"put", "get", "delete", "next", "count", "start", "start_seeing", "format"};
    say_number(calls);
    say(" calls, ");
    say_number(cuts);
    say(" power failures; refused 1 to 8:");
    for (int i = 1; i < 9; i++) {
        say(" ");
        say_number(refused[i]);
    }
    say("\n");
    if (depth_of[PUT] == 0) return;
    say("# stack, bytes below the caller:"); /* on a board only: lines with # aren't compared */
    for (int i = 0; i < 8; i++) {
        say(" ");
        say(name[i]);
        say(" ");
        say_number(depth_of[i]);
    }
    say("\n");
}

int work(void) {
    make_keys();
    memset(chip, 0xFF, sizeof chip);
    memset(words, 0xEE, sizeof words);
    must(CALL(COUNT, floatstore_count(LENT)), -FLOATSTORE_NOT_STARTED, "not refused before any start");
    must(floatstore_version(), FLOATSTORE_VERSION_NUMBER, "the version");
    do_start();
    for (uint32_t told = 0; calls < CALLS;) {
        one_call();
        if (calls / 20000 != told) {
            told = calls / 20000;
            say_state();
        }
    }
    look_through();
    say_end();
    board_save("chip.bin", chip, sizeof chip);
    board_save("words.bin", words, sizeof words);
    say(wrongs ? "FAILED\n" : "passed\n");
    return wrongs != 0;
}
