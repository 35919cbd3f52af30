/* include/floatstore_fs.h and floatstore_text.h: what the short calls answer is what the plain ones do, NULL is taken as said there, and each answer has words.
 * In what C99 and C++ have in common, since it must compile as both. With -DWRONG=n it must not compile at all: FS_INIT is given what can't be right. */
#include <floatstore_fs.h>
#include <stdio.h>
#include <string.h>

#define BLOCKS 4
static uint8_t chip[FLOATSTORE_CHIP_LEN(BLOCKS)];
static uint32_t work[FLOATSTORE_WORK_LEN(BLOCKS)];
static struct floatstore_fs fs = FS_INIT(chip, work);

#if WRONG == 1 /* an area one word short */
static uint32_t other[FLOATSTORE_WORK_LEN(BLOCKS) - 1];
static struct floatstore_fs wrong = FS_INIT(chip, other);
#elif WRONG == 2 /* an area counted in bytes */
static uint8_t other[FLOATSTORE_WORK_LEN(BLOCKS)];
static struct floatstore_fs wrong = FS_INIT(chip, (uint32_t *)other);
#elif WRONG == 3 /* a pointer in the place of the area */
static uint32_t *other = work;
static struct floatstore_fs wrong = FS_INIT(chip, other);
#elif WRONG == 4 /* a pointer in the place of the chip */
static uint8_t *other = chip;
static struct floatstore_fs wrong = FS_INIT(other, work);
#elif WRONG == 5 /* half a block more */
static uint8_t other[FLOATSTORE_CHIP_LEN(BLOCKS) + 2048];
static struct floatstore_fs wrong = FS_INIT(other, work);
#elif WRONG == 6 /* three blocks */
static uint8_t other[FLOATSTORE_CHIP_LEN(3)];
static struct floatstore_fs wrong = FS_INIT(other, work);
#elif WRONG == 7 /* 4,097 blocks */
static uint8_t other[FLOATSTORE_CHIP_LEN(4097)];
static uint32_t area[FLOATSTORE_WORK_LEN(4097)];
static struct floatstore_fs wrong = FS_INIT(other, area);
#elif WRONG == 8 /* an area of 16-bit numbers */
static uint16_t other[2 * FLOATSTORE_WORK_LEN(BLOCKS)];
static struct floatstore_fs wrong = FS_INIT(chip, other);
#endif

static int faults;
#define IS(want, call)                                                                                                            \
    do {                                                                                                                          \
        long got_ = (long)(call), want_ = (long)(want);                                                                           \
        if (got_ != want_) faults++, printf("%s:%d: %s is %ld and should be %ld\n", __FILE__, __LINE__, #call, got_, want_);      \
    } while (0)

static void short_calls(void) {
    struct floatstore_seen seen;
    char key[FLOATSTORE_MAX_KEY];
    int v = 1500, back = 0;
    memset(chip, 0xFF, sizeof chip);
    IS(sizeof chip, fs.chip_len);
    IS(sizeof work, 4 * fs.work_len);
    IS(-8, fs_count(&fs));
    IS(0, fs_start(&fs));
    IS(0, fs_put(&fs, "depth", 5, &v, sizeof v));
    IS(sizeof v, fs_get(&fs, FS_KEY("depth"), &back, sizeof back));
    IS(v, back);
    IS(1, fs_count(&fs));
    IS(5, fs_next(&fs, "", 0, key, sizeof key));
    IS(0, memcmp(key, "depth", 5));
    IS(0, fs_start_seeing(&fs, &seen));
    IS(1, seen.sound);
    fs.fuse = 1; /* without noise of its own a cut write is completed: zeros */
    v = 2000;
    IS(-7, fs_put(&fs, "depth", 5, &v, sizeof v));
    IS(-7, fs_count(&fs));
    fs.fuse = FLOATSTORE_NO_FAULT;
    IS(0, fs_start(&fs));
    IS(sizeof v, fs_get(&fs, "depth", 5, &back, sizeof back));
    IS(2000, back);
    static uint8_t ones[FLOATSTORE_NOISE];
    memset(ones, 0xFF, sizeof ones);
    fs.noise = ones; /* and with ones nothing happens */
    fs.fuse = 1;
    IS(-7, fs_delete(&fs, "depth", 5));
    fs.fuse = FLOATSTORE_NO_FAULT;
    fs.noise = NULL;
    IS(0, fs_start(&fs));
    IS(1, fs_count(&fs));
    IS(0, fs_delete(&fs, "depth", 5));
    IS(0, fs_count(&fs));
    IS(0, fs_format(&fs));
    IS(-8, fs_count(&fs));
    struct floatstore_fs other = fs_of(chip, sizeof chip, work, sizeof work);
    IS(0, fs_start(&other));
    other = fs_of(chip, sizeof chip, work, sizeof work - 1);
    IS(-5, fs_start(&other));
}

static void null_pointers(void) {
    uint8_t b[FLOATSTORE_MAX_VALUE];
    IS(0, fs_start(&fs));
    IS(0, fs_put(&fs, "empty", 5, NULL, 0));
    IS(0, fs_get(&fs, "empty", 5, b, sizeof b));
    IS(0, fs_get(&fs, "empty", 5, NULL, 0));
    IS(0, fs_get(&fs, "empty", 5, NULL, 220)); /* no buffer is needed */
    IS(-2, fs_put(&fs, "empty", 5, NULL, 1));
    IS(-2, fs_put(&fs, "new", 3, NULL, 220));
    IS(-4, fs_get(&fs, "new", 3, b, sizeof b));
    IS(0, fs_put(&fs, "full", 4, "1", 1));
    IS(-6, fs_get(&fs, "full", 4, NULL, 0));
    IS(-6, fs_get(&fs, "full", 4, NULL, 220));
    IS(-1, fs_put(&fs, NULL, 0, "1", 1));
    IS(-1, fs_put(&fs, NULL, 4, "1", 1));
    IS(-1, fs_get(&fs, NULL, 0, b, sizeof b));
    IS(-1, fs_get(&fs, NULL, 4, b, sizeof b));
    IS(-1, fs_delete(&fs, NULL, 0));
    IS(-1, fs_delete(&fs, NULL, 4));
    IS(5, fs_next(&fs, NULL, 0, b, sizeof b));
    IS(-1, fs_next(&fs, NULL, 4, b, sizeof b));
    IS(-6, fs_next(&fs, NULL, 0, NULL, 16));
    IS(-4, fs_next(&fs, "full", 4, NULL, 0));
    IS(2, fs_count(&fs));
    fs.fuse = 0;
    IS(-7, fs_put(&fs, NULL, 4, NULL, 4)); /* the order of the refusals is the store's */
    fs.fuse = FLOATSTORE_NO_FAULT;
}

/* Each refusal has words of its own, and no other number has them. */
static void words(void) {
    IS(0, strcmp("done", floatstore_text(0)));
    IS(0, strcmp("done", floatstore_text(INT64_MAX)));
    for (int a = 1; a <= 9; a++)
        for (int b = 0; b <= 10; b++) IS(a == b, strcmp(floatstore_text(-a), floatstore_text(-b)) == 0);
    IS(0, strcmp(floatstore_text(-10), floatstore_text(INT64_MIN)));
    IS(FLOATSTORE_VERSION_NUMBER, floatstore_version());
}

int main(void) {
    short_calls();
    null_pointers();
    words();
    printf("the short calls: %s\n", faults ? "FAILED" : "answer as the plain ones do; NULL and the words as documented");
    return faults != 0;
}
