/* A page of firmware to copy: a float's settings on a serial NOR flash, by nor.c. Compile it with nor.c and the two functions of your board (nor.h), and link
 * libfloatstore_driver.a: docs/PORT-OTHER.md. What is your board's own stands in the next three lines. */
#include "nor.h"
#include <floatstore_driver.h>
#include <stdio.h>
#include <string.h>

#define BLOCKS 16 /* of 4,096 bytes: 112 keys, and a work area of 1,088 bytes */
static struct nor nor = {.bus = NULL, .base = 0x100000};
#define TRIES 3 /* starts, before the chip is given up */

static uint32_t work[FLOATSTORE_WORK_LEN(BLOCKS)];
#define STORE &nor, FLOATSTORE_CHIP_LEN(BLOCKS), work, FLOATSTORE_WORK_LEN(BLOCKS)

/* After a reset, and after any -7: a start, and nothing else. It writes nothing, so it can be tried again. -8: this chip has no store; format it in the
 * workshop, never here. */
static int64_t start(void) {
    int64_t answer = -FLOATSTORE_POWER_GONE;
    for (int i = 0; i < TRIES && answer == -FLOATSTORE_POWER_GONE; i++) answer = floatstore_start(STORE);
    if (answer < 0) printf("no store: %d\n", (int)answer);
    return answer;
}

/* -7: the chip failed (it was busy for too long, a line is loose). Nothing was written since, and nothing will be before a start. After that the map is the one
 * before the put or the one after it, and to put again is right in either case. */
static int64_t put(const char *key, const void *value, size_t len) {
    int64_t answer = floatstore_put(STORE, (const uint8_t *)key, strlen(key), value, len);
    if (answer != -FLOATSTORE_POWER_GONE || start() < 0) return answer;
    return floatstore_put(STORE, (const uint8_t *)key, strlen(key), value, len);
}

/* The value's length, at most len; what is in the buffer after a refusal, -7 above all, means nothing. */
static int64_t get(const char *key, void *value, size_t len) {
    int64_t answer = floatstore_get(STORE, (const uint8_t *)key, strlen(key), value, len);
    if (answer != -FLOATSTORE_POWER_GONE || start() < 0) return answer;
    return floatstore_get(STORE, (const uint8_t *)key, strlen(key), value, len);
}

int main(void) {
    if (start() < 0) return 1; /* a float goes on with the settings that it was built with */
    uint32_t dives = 0, depth = 1000;
    if (get("dives", &dives, sizeof dives) != sizeof dives) dives = 0;
    if (get("park.depth", &depth, sizeof depth) != sizeof depth) depth = 1000;
    dives++;
    printf("dive %u to %u m\n", (unsigned)dives, (unsigned)depth);
    depth += 250;
    if (put("dives", &dives, sizeof dives) < 0 || put("park.depth", &depth, sizeof depth) < 0) return 1;
    printf("%d keys have a value\n", (int)floatstore_count(STORE));
    return 0;
}
