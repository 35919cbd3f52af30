/* A page of firmware to copy: settings and measurements of a float, and the power failing under a put.
 * The library stores to the chip's bytes itself, so `chip` is memory: here an array, and the fault script plays the failure. A mapped flash takes no such
 * stores, and a chip behind a driver is not supported yet. */
#include <floatstore_fs.h>
#include <inttypes.h>
#include <stdio.h>
#include <string.h>

#define BLOCKS 16

static uint8_t chip[FLOATSTORE_CHIP_LEN(BLOCKS)];
static uint32_t work[FLOATSTORE_WORK_LEN(BLOCKS)];
static struct floatstore_fs fs = FS_INIT(chip, work);

/* After a reset: start, and nothing else. Only a chip that isn't this store's answers -8: format it in the workshop. */
static int boot(void) {
    int64_t answer = fs_start(&fs);
    if (answer < 0) printf("start is refused (%" PRId64 "): %s\n", -answer, floatstore_text(answer));
    return answer >= 0;
}

/* A dive: settings are read, measurements kept under a key each until they have been sent. */
static int dive(int number) {
    char key[FLOATSTORE_MAX_KEY + 1];
    int32_t depth = 1000, salinity[55];
    if (fs_get(&fs, FS_KEY("park.depth"), &depth, sizeof depth) == -FLOATSTORE_NO_VALUE)
        printf("dive %d: no setting yet, parking at %" PRId32 " m\n", number, depth);
    for (int i = 0; i < 55; i++) salinity[i] = 35000 + 7 * i + number;
    snprintf(key, sizeof key, "sal.%d", number);
    return fs_put(&fs, FS_KEY(key), salinity, sizeof salinity) >= 0;
}

/* The surface: everything is sent, then forgotten. */
static int surface(int first, int last) {
    for (int i = first; i <= last; i++) {
        char key[FLOATSTORE_MAX_KEY + 1];
        uint8_t value[FLOATSTORE_MAX_VALUE];
        snprintf(key, sizeof key, "sal.%d", i);
        int64_t len = fs_get(&fs, FS_KEY(key), value, sizeof value);
        if (len < 0) return 0;
        printf("sent %s, %" PRId64 " bytes\n", key, len);
        if (fs_delete(&fs, FS_KEY(key)) < 0) return 0;
    }
    return 1;
}

/* Every key, in the order of bytes: each call is given the key that the last one gave, the first one none. */
static void list(void) {
    char key[FLOATSTORE_MAX_KEY + 1], last[FLOATSTORE_MAX_KEY + 1] = "";
    int64_t len;
    printf("keys:");
    while ((len = fs_next(&fs, FS_KEY(last), key, FLOATSTORE_MAX_KEY)) > 0) {
        key[len] = 0;
        printf(" %s", key);
        strcpy(last, key);
    }
    printf("\n");
}

int main(void) {
    memset(chip, 0xFF, sizeof chip); /* as it comes from the maker: blank, and so a store with an empty map */
    int32_t depth = 1500, before = 0;
    if (!boot() || !dive(1) || fs_put(&fs, FS_KEY("park.depth"), &depth, sizeof depth) < 0 || !dive(2)) return 1;

    /* The pump starts, and the voltage drops in the middle of a page write: some bits are left as they were. */
    static uint8_t noise[FLOATSTORE_NOISE];
    memset(noise, 0x24, sizeof noise);
    fs.noise = noise;
    fs.fuse = 1;
    depth = 2000;
    printf("put under a power failure answers %" PRId64 "\n", fs_put(&fs, FS_KEY("park.depth"), &depth, sizeof depth));
    printf("and every call after it too: %" PRId64 "\n", fs_count(&fs));

    /* Power again: the processor boots, and the map is the one before that put or the one after it. */
    fs.fuse = FLOATSTORE_NO_FAULT;
    if (!boot() || fs_get(&fs, FS_KEY("park.depth"), &before, sizeof before) != sizeof before) return 1;
    printf("after the start the depth is %" PRId32 ", one of 1500 and 2000\n", before);
    list();
    if (fs_put(&fs, FS_KEY("park.depth"), &depth, sizeof depth) < 0 || !surface(1, 2)) return 1;
    printf("%" PRId64 " key has a value\n", fs_count(&fs));
    return before == 1500 || before == 2000 ? 0 : 1;
}
