/* How much stack each call takes, arguments included: it is run on a stack of its own, painted before, and the bytes whose paint is gone are counted.
 * A chip of 16 blocks with all the keys there is room for; each figure is the most of many calls, openings of blocks and power failures among them. */
#define _XOPEN_SOURCE 700
#include "letters.h"
#include <floatstore.h>
#include <stdio.h>
#include <string.h>
#include <ucontext.h>

#define BLOCKS 16
#define ROUNDS 20

static uint8_t chip[FLOATSTORE_CHIP_LEN(BLOCKS)], noise[FLOATSTORE_NOISE], key[LETTERS], value[FLOATSTORE_MAX_VALUE], buffer[FLOATSTORE_MAX_VALUE];
static uint32_t work[FLOATSTORE_WORK_LEN(BLOCKS)];
static uint64_t fuse = FLOATSTORE_NO_FAULT;
static struct floatstore_seen seen;
static int64_t answer;

#define LENT chip, sizeof chip, work, FLOATSTORE_WORK_LEN(BLOCKS), &fuse
static void nothing(void) { answer = 0; }
static void format(void) { answer = floatstore_format(LENT, noise); }
static void start(void) { answer = floatstore_start(LENT); }
static void start_seeing(void) { answer = floatstore_start_seeing(LENT, &seen); }
static void put(void) { answer = floatstore_put(LENT, noise, key, sizeof key, value, sizeof value); }
static void get(void) { answer = floatstore_get(LENT, key, sizeof key, buffer, sizeof buffer); }
static void delete(void) { answer = floatstore_delete(LENT, noise, key, sizeof key); }
static void count(void) { answer = floatstore_count(LENT); }
static void next(void) { answer = floatstore_next(LENT, key, sizeof key, buffer, sizeof buffer); }

static struct {
    const char *name;
    void (*run)(void);
    size_t most;
} calls[] = {{"format", format, 0}, {"start", start, 0}, {"start_seeing", start_seeing, 0}, {"put", put, 0}, {"get", get, 0},
             {"delete", delete, 0}, {"count", count, 0}, {"next", next, 0}, {"nothing", nothing, 0}};
enum { FORMAT, START, SEEING, PUT, GET, DELETE, COUNT, NEXT, NOTHING };

static _Alignas(16) uint8_t stack[65536];
static ucontext_t here, there;

/* The call c on the painted stack. */
static int64_t run(int c) {
    memset(stack, 0xA5, sizeof stack);
    getcontext(&there);
    there.uc_stack.ss_sp = stack;
    there.uc_stack.ss_size = sizeof stack;
    there.uc_link = &here;
    makecontext(&there, calls[c].run, 0);
    swapcontext(&here, &there);
    size_t left = 0;
    while (left < sizeof stack && stack[left] == 0xA5) left++;
    if (sizeof stack - left > calls[c].most) calls[c].most = sizeof stack - left;
    return answer;
}

static int64_t run_key(int c, uint32_t i) {
    letters(key, i * 2654435761u);
    return run(c);
}

int main(void) {
    int wrong = 0;
    const uint32_t room = FLOATSTORE_ROOM(BLOCKS);
    run(NOTHING);
    memset(chip, 0x5A, sizeof chip);
    wrong |= run(START) != -FLOATSTORE_NOT_STARTED || run(FORMAT) != 0 || run(START) != 0;
    for (uint32_t i = 0; i < ROUNDS * room; i++) wrong |= run_key(PUT, i % room) != 0;
    wrong |= run_key(PUT, room) != -FLOATSTORE_NO_ROOM || run(COUNT) != room;
    for (uint32_t i = 0; i < room; i++) {
        wrong |= run_key(GET, i) != FLOATSTORE_MAX_VALUE || run_key(NEXT, i) < -FLOATSTORE_NO_VALUE || run_key(DELETE, i) != 0 || run_key(PUT, i) != 0;
        fuse = 1 + i % 20; /* the power fails under one of the next calls */
        for (int once = 0; fuse; once = !once) run_key(once ? PUT : DELETE, i);
        fuse = FLOATSTORE_NO_FAULT;
        wrong |= run(i % 2 ? START : SEEING) != 0 || run_key(PUT, i) != 0;
    }
    for (int c = 0; c < NOTHING; c++) printf("%-12s %5zu bytes\n", calls[c].name, calls[c].most - calls[NOTHING].most);
    if (wrong) printf("WRONG: a call answered what it should not\n");
    return wrong;
}
