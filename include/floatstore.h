/* floatstore.h: a key-value store on a flash chip, safe against power failures. For C firmware.
 *
 * To its caller the store is a map: a key of 1 to 16 bytes (0x21 to 0x7E) has a value of 0 to 220 bytes, or none. Whatever a call but
 * format was doing when the power failed, after the next floatstore_start the map is the one before that call or the one after it.
 * floatstore_fs.h has the same calls with less to write, floatstore_text.h the answers in words, floatstore_driver.h the calls for a
 * chip behind a driver of yours.
 * The library behind this header, libfloatstore.a, is proved: docs/STATEMENTS.md says sentence by sentence what.
 *
 * WHAT YOU LEND. The store has no memory of its own and calls nothing but memcpy and memset (and, on a processor of 32 bits, its
 * compiler's division of 64 bits): no malloc, no clock, no interrupts.
 *   chip   the chip's bytes, chip_len = FLOATSTORE_CHIP_LEN(B) for B blocks, FLOATSTORE_MIN_BLOCKS <= B <= FLOATSTORE_MAX_BLOCKS.
 *          A blank chip (all bytes 0xFF) is a store with an empty map; nothing has to be written before its first start.
 *   work   memory for the store's index, work_len = FLOATSTORE_WORK_LEN(B) WORDS of 32 bits or more, not bytes. Its content means
 *          nothing before a start, and is the store's from then on: lend the same words, unchanged, to each call until the next
 *          start. Use a chip through one area: a start on a second one makes the first stale, and a call on that may lose what
 *          was put.
 *   fuse   the fault script, one number; see below. On a float: let it point to UINT64_MAX and forget it.
 *   noise  4,096 bytes, looked at only when the script cuts an operation. On a float: any 4,096 bytes.
 * No two of these may overlap, nor may a key, a value or a buffer overlap them or each other: the buffer of get and next is not
 * the key that they are given. Each pointer must be valid for its length. C can't check that, and neither can the library. NULL is
 * never valid here, with a length of 0 either: lend any byte (floatstore_fs.h takes NULL). Nothing else is asked of a caller: any
 * lengths, any bytes on the chip and in the work area are answered. But an area is believed where its first word is 1 and its next
 * three are in range, whoever wrote them: if no start did, or the area was changed since, a call does at most B erases and 16 B
 * page writes, and writes blank pages only, but it may answer anything.
 *
 * WHAT A CALL ANSWERS. At least 0: it is done (get: the value's length; next: the key's; count: the number of keys; the others: 0).
 * Below 0: refused, minus a number of enum floatstore_refusal; of several that apply, the first of the order 5, 7, 8, 1, 2, 4, 6, 3.
 * A call refused with 1 to 6 has changed nothing.
 *
 * WHAT A POWER FAILURE LOOKS LIKE. The call that was under way answers -7, and so does every later call until a start. Of that
 * call you know after the start: its put or delete happened whole, or not at all. Ask with floatstore_get if it matters. Of a
 * format that was cut short you know only that it can be called again after a start, whatever that start answers.
 * On a real float the processor goes with the chip, nobody sees the -7, and life goes on at floatstore_start after the reboot.
 *
 * THE FAULT SCRIPT lets your tests play it: *fuse counts the erases and page writes to come.
 *   0            the power is gone: every call answers -7
 *   1            the next erase or page write is cut short, and *fuse becomes 0. A cut write leaves new | noise on its page (the
 *                first 256 bytes of noise); a cut erase leaves the noise itself in its block: any bytes whatever
 *   more         it is one less after each erase and each page write
 *   UINT64_MAX   no failure within anyone's lifetime
 * After a cut, set *fuse anew and call floatstore_start.
 *
 * WHAT A CALL COSTS AT MOST. Put and delete 1 erase and 10 page writes, whatever the number B of blocks; and one page write more for
 * each power failure since the cleaning, of which each call does a little, was last up to date, while those are at most 5. After
 * more than 5, or at first on a chip that an earlier version wrote, until it has caught up: 8(B-2)/15 + 1 erases and 8(B-2) + B page
 * writes. On an area that no start made ready, whatever is in it: B - 2 erases and 16 B - 15 page writes. Start, get, count and next
 * none; format B erases. Over a life with n puts and deletes and q power failures, of a chip that was blank at first: n/6 + q
 * erases, and any two blocks' erases differ by at most 1 + q.
 */
#ifndef FLOATSTORE_H
#define FLOATSTORE_H

#include <stddef.h>
#include <stdint.h>

#ifdef __cplusplus
extern "C" {
#endif

/* The version of this header, as in the file VERSION: docs/DECISIONS.md, "Version numbers", says what each number promises. */
#define FLOATSTORE_VERSION_MAJOR 0
#define FLOATSTORE_VERSION_MINOR 10
#define FLOATSTORE_VERSION_PATCH 0
#define FLOATSTORE_VERSION "0.10.0"
#define FLOATSTORE_VERSION_NUMBER (10000 * FLOATSTORE_VERSION_MAJOR + 100 * FLOATSTORE_VERSION_MINOR + FLOATSTORE_VERSION_PATCH) /* 1000: these grow */

#define FLOATSTORE_PAGE 256u /* bytes of a page */
#define FLOATSTORE_BLOCK 4096u /* bytes of a block: 16 pages */
#define FLOATSTORE_NOISE 4096u /* bytes of noise */
#define FLOATSTORE_MIN_BLOCKS 4u
#define FLOATSTORE_MAX_BLOCKS 4096u
#define FLOATSTORE_MAX_KEY 16u /* bytes of a key, at least 1: a buffer of so many is long enough for every next */
#define FLOATSTORE_MAX_VALUE 220u /* bytes of a value, 0 and more: a buffer of so many is long enough for every get */

#define FLOATSTORE_CHIP_LEN(B) ((size_t)4096 * (size_t)(B)) /* bytes */
#define FLOATSTORE_WORK_LEN(B) ((size_t)16 * (size_t)(B) + 16) /* words of 32 bits */
#define FLOATSTORE_ROOM(B) ((size_t)8 * ((size_t)(B) - 2)) /* keys that the store holds */

#define FLOATSTORE_NO_FAULT UINT64_MAX /* for *fuse */

/* A call that is refused answers minus one of these. */
enum floatstore_refusal {
    FLOATSTORE_BAD_KEY = 1, /* the key's length is 0 (but for next) or above 16; put: or a byte of it is outside 0x21 to 0x7E */
    FLOATSTORE_LONG_VALUE = 2, /* put: the value is longer than 220 */
    FLOATSTORE_NO_ROOM = 3, /* put: the key has no value yet, and the map has 8(B-2) keys already */
    FLOATSTORE_NO_VALUE = 4, /* get, delete: the key has no value; next: no larger key has one */
    FLOATSTORE_BAD_SIZE = 5, /* chip_len isn't 4,096 B for an allowed B, or the work area is too short */
    FLOATSTORE_SHORT_BUFFER = 6, /* get, next: the buffer is shorter than the value or the key, and was left unchanged */
    FLOATSTORE_POWER_GONE = 7, /* the power has gone since the last start */
    FLOATSTORE_NOT_STARTED = 8, /* start: these bytes are no store; other calls: no start has succeeded since */
    FLOATSTORE_NUMBERS_OUT = 9 /* numbers have run out: this design has none, so it is never answered */
};

/* What a start saw of the chip's pages, for those who compare chips: a page is blank (all 0xFF), sound (by its form: its last two
 * bytes count the 0 bits before them, or, on an old page, its second half is the flipped copy of the first), or spoilt, as a cut
 * write or erase leaves it. */
struct floatstore_seen {
    uint64_t blank, sound, spoilt; /* how many pages of each kind: together 16 B */
    uint64_t page, byte; /* if spoilt > 0: the first spoilt page, and where: at byte 254, where the count stands, if its form is the
                          * count; else at the lowest byte (0 to 127) that disagrees with its copy, or at 0 if each agrees */
};

#ifndef FLOATSTORE_DRIVER_H /* floatstore_driver.h takes all that is above, and has these calls without fuse and noise */

/* The library's own version: FLOATSTORE_VERSION_NUMBER, if header and library are of one age. */
int64_t floatstore_version(void);

/* Erases every block; the map is empty. For the workshop: a start must follow, also where it was cut short. */
int64_t floatstore_format(uint8_t *chip, size_t chip_len, uint32_t *work, size_t work_len, uint64_t *fuse, const uint8_t *noise);

/* Reads the chip and makes the store ready; the map is the one that was there. It writes nothing to the chip, so it can't be cut. */
int64_t floatstore_start(const uint8_t *chip, size_t chip_len, uint32_t *work, size_t work_len, const uint64_t *fuse);

/* The same start, which also looks at every page and fills *seen, where it is done and where it is refused with 8: a chip that is
 * no store can be looked at. Refused with 5 or 7 it leaves *seen as it was. */
int64_t floatstore_start_seeing(const uint8_t *chip, size_t chip_len, uint32_t *work, size_t work_len, const uint64_t *fuse,
                                struct floatstore_seen *seen);

/* The key has this value from now on, whether or not it had one. Its bytes must be 0x21 to 0x7E; the other calls take any, so that
 * old keys can be found and removed. */
int64_t floatstore_put(uint8_t *chip, size_t chip_len, uint32_t *work, size_t work_len, uint64_t *fuse, const uint8_t *noise,
                       const uint8_t *key, size_t key_len, const uint8_t *value, size_t value_len);

/* The value's length; the value stands at the start of the buffer, and the rest of the buffer is unchanged. */
int64_t floatstore_get(const uint8_t *chip, size_t chip_len, const uint32_t *work, size_t work_len, const uint64_t *fuse,
                       const uint8_t *key, size_t key_len, uint8_t *buffer, size_t buffer_len);

/* The key has no value any more. */
int64_t floatstore_delete(uint8_t *chip, size_t chip_len, uint32_t *work, size_t work_len, uint64_t *fuse, const uint8_t *noise,
                          const uint8_t *key, size_t key_len);

/* How many keys have a value. */
int64_t floatstore_count(const uint8_t *chip, size_t chip_len, const uint32_t *work, size_t work_len, const uint64_t *fuse);

/* The next larger key that has a value, in the order of bytes, a shorter key before its longer continuations; key_len = 0 asks for
 * the first. Its length; the key stands at the start of the buffer, and the rest of the buffer is unchanged. To list the keys, give
 * each call the key that the last one gave, until one answers -FLOATSTORE_NO_VALUE: each key is given once. Between the calls
 * anything may happen, puts, deletes, power failures and starts: no key is given twice, and a key that has a value all the while
 * is given. */
int64_t floatstore_next(const uint8_t *chip, size_t chip_len, const uint32_t *work, size_t work_len, const uint64_t *fuse,
                        const uint8_t *key, size_t key_len, uint8_t *buffer, size_t buffer_len);

#endif

#ifdef __cplusplus
}
#endif

#endif
