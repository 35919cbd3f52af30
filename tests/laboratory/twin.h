/* A plain C twin of the store, written from the documents and docs/FORMAT.md and sharing no line with it. twin_bug plants a fault; 0 is the right twin. */
#ifndef TWIN_H
#define TWIN_H

#include <stddef.h>
#include <stdint.h>

enum {
    RIGHT,
    SEALS_EARLY, /* the head is sealed before the last live value is copied */
    READS_SPARE, /* start believes what stands in the spare: a deleted key comes back */
    HALF_COUNTED, /* the low byte of the count alone is compared: mixed values */
    TRUSTS_BLANK, /* the spare isn't erased if its first page reads blank */
    ERASES_TWICE, /* the spare is erased twice, to be sure: right, but it wears unevenly */
    ERASES_BLANK, /* the spare is erased in the first round too, where it is blank: right while a cut erase only turned bits from 0 to 1 */
    EITHER_FORM, /* a page is believed that is sound in either form, whatever byte 0 says: mixed values, by cuts that were made for it */
    HALF_FLIPPED, /* of an old page the flipped copy of the first 64 bytes alone is compared: mixed values on old chips */
    STAYS_PUT, /* the cursor isn't moved back when a block is opened: it runs ahead, nothing is carried, and an opening copies a whole block */
    WIDE, /* the zone is wider by 7 places: carries beyond it, which wear more than they save */
    NARROW, /* the zone is narrower by 1: a value may be left for the opening */
    SEVEN, /* seven looks a call: the same */
    CARRIES_DEAD, /* a value is carried that a later record overrides: it comes back */
    LEAVES_ENTRY, /* a carry leaves the index entry where it was: the value is copied once more */
    BUGS
};
extern int twin_bug;
extern size_t twin_looks; /* places that a put or delete looks at: 8. With 0 it is the store of version 0.9.0, which cleaned at openings alone */
extern const char *const twin_bugs[BUGS];

int64_t twin_format(uint8_t *chip, size_t chip_len, uint32_t *work, size_t work_len, uint64_t *fuse, const uint8_t *noise);
int64_t twin_start(const uint8_t *chip, size_t chip_len, uint32_t *work, size_t work_len, const uint64_t *fuse);
int64_t twin_put(uint8_t *chip, size_t chip_len, uint32_t *work, size_t work_len, uint64_t *fuse, const uint8_t *noise, const uint8_t *key,
                 size_t key_len, const uint8_t *value, size_t value_len);
int64_t twin_get(const uint8_t *chip, size_t chip_len, const uint32_t *work, size_t work_len, const uint64_t *fuse, const uint8_t *key,
                 size_t key_len, uint8_t *buffer, size_t buffer_len);
int64_t twin_delete(uint8_t *chip, size_t chip_len, uint32_t *work, size_t work_len, uint64_t *fuse, const uint8_t *noise, const uint8_t *key,
                    size_t key_len);
int64_t twin_count(const uint8_t *chip, size_t chip_len, const uint32_t *work, size_t work_len, const uint64_t *fuse);

#endif
