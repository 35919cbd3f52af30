/* floatstore_fs.h: the calls of floatstore.h with what is always lent written once. Inline functions only; floatstore.h has the rules.
 *
 *     static uint8_t chip[FLOATSTORE_CHIP_LEN(16)];
 *     static uint32_t work[FLOATSTORE_WORK_LEN(16)];
 *     static struct floatstore_fs fs = FS_INIT(chip, work);
 *
 *     if (fs_start(&fs) < 0) ..
 *     fs_put(&fs, "depth", 5, &v, sizeof v);
 *
 * NULL is taken here, unlike in floatstore.h: with length 0 it is no bytes (an empty value, the key before all others of next, no buffer). With another length
 * there is nothing to read or fill, and it is refused like what is too long or too short: a key with 1, a value with 2, a buffer that is needed with 6.
 */
#ifndef FLOATSTORE_FS_H
#define FLOATSTORE_FS_H

#ifdef FLOATSTORE_DRIVER_H
#error "floatstore_fs.h is for a chip that is memory: it has no calls for floatstore_driver.h"
#endif
#include "floatstore.h"
#include "floatstore_text.h"

struct floatstore_fs {
    uint8_t *chip;
    size_t chip_len; /* bytes */
    uint32_t *work;
    size_t work_len; /* words of 32 bits */
    uint64_t fuse; /* the fault script, for tests */
    const uint8_t *noise; /* for tests: FLOATSTORE_NOISE bytes, or NULL for zeros */
};

/* Sizes are taken from the arrays, and tested when this is compiled: a pointer in the place of an array, an area counted in bytes, one that is too short or a
 * chip that isn't whole blocks is an array of a negative size to the compiler. */
#define FS_INIT(chip_array, work_array)                                                                                             \
    {                                                                                                                               \
        (chip_array), sizeof(chip_array) + FS_MUST_(FS_CHIP_IS_WHOLE_BLOCKS_(chip_array)), (work_array),                            \
            sizeof(work_array) / 4 + FS_MUST_(FS_WORK_IS_LONG_ENOUGH_(chip_array, work_array)), FLOATSTORE_NO_FAULT, NULL           \
    }
#define FS_MUST_(holds) (0 * sizeof(char[(holds) ? 1 : -1]))
#define FS_CHIP_IS_WHOLE_BLOCKS_(chip_array)                                                                                        \
    (sizeof((chip_array)[0]) == 1 && sizeof(chip_array) % FLOATSTORE_BLOCK == 0 &&                                                  \
     sizeof(chip_array) / FLOATSTORE_BLOCK >= FLOATSTORE_MIN_BLOCKS && sizeof(chip_array) / FLOATSTORE_BLOCK <= FLOATSTORE_MAX_BLOCKS)
#define FS_WORK_IS_LONG_ENOUGH_(chip_array, work_array)                                                                             \
    (sizeof((work_array)[0]) == 4 && sizeof(work_array) / 4 >= FLOATSTORE_WORK_LEN(sizeof(chip_array) / FLOATSTORE_BLOCK))

/* The same where there are no arrays. Both sizes are in BYTES; start refuses with 5 what doesn't fit. */
static inline struct floatstore_fs fs_of(uint8_t *chip, size_t chip_bytes, uint32_t *work, size_t work_bytes) {
    struct floatstore_fs fs;
    fs.chip = chip;
    fs.chip_len = chip_bytes;
    fs.work = work;
    fs.work_len = work_bytes / 4;
    fs.fuse = FLOATSTORE_NO_FAULT;
    fs.noise = NULL;
    return fs;
}

#define FS_KEY(text) (text), strlen(text) /* a key that is a string; for this, include <string.h> */

/* ---- what stands for NULL */
static inline const uint8_t *fs_noise_(const struct floatstore_fs *fs) {
    static const uint8_t zeros[FLOATSTORE_NOISE] = {0};
    return fs->noise ? fs->noise : zeros;
}
static inline const uint8_t *fs_bytes_(const void *bytes) {
    static const uint8_t zeros[FLOATSTORE_MAX_VALUE + 1] = {0}; /* long enough to be lent as a key or a value that is too long */
    return bytes ? (const uint8_t *)bytes : zeros;
}
static inline size_t fs_len_(const void *bytes, size_t len, size_t too_long) { return bytes || len == 0 ? len : too_long; }
#define FS_KEY_(key, len) fs_bytes_(key), fs_len_(key, len, FLOATSTORE_MAX_KEY + 1)
#define FS_VALUE_(value, len) fs_bytes_(value), fs_len_(value, len, FLOATSTORE_MAX_VALUE + 1)
#define FS_BUFFER_(buffer, len) (buffer) ? (uint8_t *)(buffer) : &none, (buffer) ? (len) : 0

/* ---- the calls */
static inline int64_t fs_format(struct floatstore_fs *fs) {
    return floatstore_format(fs->chip, fs->chip_len, fs->work, fs->work_len, &fs->fuse, fs_noise_(fs));
}
static inline int64_t fs_start(struct floatstore_fs *fs) { return floatstore_start(fs->chip, fs->chip_len, fs->work, fs->work_len, &fs->fuse); }
static inline int64_t fs_start_seeing(struct floatstore_fs *fs, struct floatstore_seen *seen) {
    return floatstore_start_seeing(fs->chip, fs->chip_len, fs->work, fs->work_len, &fs->fuse, seen);
}
static inline int64_t fs_put(struct floatstore_fs *fs, const void *key, size_t key_len, const void *value, size_t value_len) {
    return floatstore_put(fs->chip, fs->chip_len, fs->work, fs->work_len, &fs->fuse, fs_noise_(fs), FS_KEY_(key, key_len), FS_VALUE_(value, value_len));
}
static inline int64_t fs_get(const struct floatstore_fs *fs, const void *key, size_t key_len, void *buffer, size_t buffer_len) {
    uint8_t none = 0;
    return floatstore_get(fs->chip, fs->chip_len, fs->work, fs->work_len, &fs->fuse, FS_KEY_(key, key_len), FS_BUFFER_(buffer, buffer_len));
}
static inline int64_t fs_delete(struct floatstore_fs *fs, const void *key, size_t key_len) {
    return floatstore_delete(fs->chip, fs->chip_len, fs->work, fs->work_len, &fs->fuse, fs_noise_(fs), FS_KEY_(key, key_len));
}
static inline int64_t fs_count(const struct floatstore_fs *fs) { return floatstore_count(fs->chip, fs->chip_len, fs->work, fs->work_len, &fs->fuse); }
static inline int64_t fs_next(const struct floatstore_fs *fs, const void *key, size_t key_len, void *buffer, size_t buffer_len) {
    uint8_t none = 0;
    return floatstore_next(fs->chip, fs->chip_len, fs->work, fs->work_len, &fs->fuse, FS_KEY_(key, key_len), FS_BUFFER_(buffer, buffer_len));
}

#endif
