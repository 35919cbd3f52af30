/* floatstore_driver.h: the calls of floatstore.h for a chip behind a driver, as on a float. For C firmware; docs/PORT-OTHER.md has the
 * way to a board.
 *
 * What floatstore.h says of sizes, work area, answers, power failures and costs holds here too. What is different:
 *   chip     is a pointer of your own, as to your driver's state: the store hands it to the three functions below and never looks
 *            through it. chip_len is still FLOATSTORE_CHIP_LEN(B): the bytes of the chip, or of the part of it, that the store has.
 *   fuse     and noise are gone. The power of a float needs no script, and a test of yours can fail in the three functions.
 *   library  libfloatstore_driver.a of `tools/port TARGET`. The calls have other names in it (below), so that a program compiled with
 *            one header never links with the archive of the other.
 *
 * WHERE YOUR DRIVER FAILS, it answers something else than 0. The store asks the chip for nothing more; the call answers -7 as if the
 * power had gone, and so does every call until a start. The chip may have whatever docs/FAULTS.md allows after a power failure during
 * that operation: the map is the one before the call or the one after it. Try a start, once or as often as you like. Of a get, a next
 * or a start_seeing that answers -7, what stands in the buffer or in *seen means nothing.
 *
 * The calls are not re-entrant: one at a time, and none from within the three functions.
 */
#ifndef FLOATSTORE_DRIVER_H
#define FLOATSTORE_DRIVER_H

#ifdef FLOATSTORE_H
#error "floatstore.h and floatstore_driver.h are for two builds of the library: include one of them"
#endif
#include "floatstore.h" /* what both share: sizes, refusals, struct floatstore_seen */

#define floatstore_version floatstore_driver_version
#define floatstore_format floatstore_driver_format
#define floatstore_start floatstore_driver_start
#define floatstore_start_seeing floatstore_driver_start_seeing
#define floatstore_put floatstore_driver_put
#define floatstore_get floatstore_driver_get
#define floatstore_delete floatstore_driver_delete
#define floatstore_count floatstore_driver_count
#define floatstore_next floatstore_driver_next

#ifdef __cplusplus
extern "C" {
#endif

/* WHAT YOU BRING. chip is what you gave the call; bytes, pages and blocks count from 0 within chip_len. Answer 0 where it is done, and
 * ANYTHING ELSE where the chip failed. 0 MUST MEAN DONE: not queued, not in a cache, but asked of the chip's status, which says that it
 * is no longer busy. A driver that answers 0 earlier voids what is promised, at the next power failure; so does a read that answers 0
 * with other bytes than the chip's. */

/* The len bytes of the chip from byte `at` on: 1 to 256, all within one page. `to` may be any address: the buffer of a get is one. */
int floatstore_chip_read(void *chip, uint32_t at, uint8_t *to, uint32_t len);

/* Programs a page, 256 bytes from byte 256 * page on. Called only for a page that read blank. */
int floatstore_chip_write(void *chip, uint32_t page, const uint8_t bytes[256]);

/* Erases a block, 4,096 bytes from byte 4,096 * block on. */
int floatstore_chip_erase(void *chip, uint32_t block);

/* THE CALLS, each as floatstore.h says. */
int64_t floatstore_version(void);
int64_t floatstore_format(void *chip, size_t chip_len, uint32_t *work, size_t work_len);
int64_t floatstore_start(void *chip, size_t chip_len, uint32_t *work, size_t work_len);
int64_t floatstore_start_seeing(void *chip, size_t chip_len, uint32_t *work, size_t work_len, struct floatstore_seen *seen);
int64_t floatstore_put(void *chip, size_t chip_len, uint32_t *work, size_t work_len, const uint8_t *key, size_t key_len, const uint8_t *value,
                       size_t value_len);
int64_t floatstore_get(void *chip, size_t chip_len, uint32_t *work, size_t work_len, const uint8_t *key, size_t key_len, uint8_t *buffer,
                       size_t buffer_len);
int64_t floatstore_delete(void *chip, size_t chip_len, uint32_t *work, size_t work_len, const uint8_t *key, size_t key_len);
int64_t floatstore_count(void *chip, size_t chip_len, uint32_t *work, size_t work_len);
int64_t floatstore_next(void *chip, size_t chip_len, uint32_t *work, size_t work_len, const uint8_t *key, size_t key_len, uint8_t *buffer,
                        size_t buffer_len);

#ifdef __cplusplus
}
#endif

#endif
