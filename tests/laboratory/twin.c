#include "twin.h"
#include <string.h>

int twin_bug = RIGHT;
size_t twin_looks = 8;
const char *const twin_bugs[BUGS] = {
    "none",
    "the head is sealed before the last copy",
    "start believes the spare",
    "the low byte of the count alone is compared",
    "a spare whose first page is blank isn't erased",
    "the spare is erased twice",
    "the spare is erased in the first round too",
    "a page is believed that is sound in either form, whatever byte 0 says",
    "of an old page half of the flipped copy is compared",
    "the cursor isn't moved back at an opening",
    "a zone wider by 7: carries beyond it",
    "a zone narrower by 1",
    "seven looks",
    "a dead value is carried",
    "a carry leaves the index entry",
};

/* The words of the work area. The index is in no order: a twin needn't be fast. */
enum { MARK, HEAD, NEXT, KEYS, PASSED, INDEX = 16 };
enum { NOT_STARTED, READY, DARK };
enum { PLACES = 15, PAGE = 256, BLOCK = 4096, COUNT = 254, OLD_LONGEST = 96, LONGEST = 220, VALUE = 1, NOTE = 2, SEAL = 3 };

static size_t blocks(size_t chip_len, size_t work_len) {
    size_t b = chip_len / BLOCK;
    return chip_len % BLOCK == 0 && 4 <= b && b <= 4096 && work_len >= 16 * b + 16 ? b : 0;
}

/* ---- the chip */

static void chip_erase(uint8_t *chip, size_t block, uint64_t *fuse, const uint8_t *noise) {
    if (*fuse == 0) return;
    for (size_t i = 0; i < BLOCK; i++) chip[BLOCK * block + i] = *fuse == 1 ? noise[i] : 0xFF;
    --*fuse;
}

static void chip_write(uint8_t *chip, size_t page, const uint8_t *new, uint64_t *fuse, const uint8_t *noise) {
    if (*fuse == 0) return;
    for (size_t i = 0; i < PAGE; i++) chip[PAGE * page + i] = (chip[PAGE * page + i] & new[i]) | (*fuse == 1 ? noise[i] : 0);
    --*fuse;
}

/* ---- what a page says */

static int is_blank(const uint8_t *page) {
    for (size_t i = 0; i < PAGE; i++)
        if (page[i] != 0xFF) return 0;
    return 1;
}

/* The old form: bytes 128 to 255 are the flipped copy of those before them. */
static int is_flipped(const uint8_t *page) {
    for (size_t i = 0; i < (twin_bug == HALF_FLIPPED ? 64 : 128); i++)
        if (page[128 + i] != 255 - page[i]) return 0;
    return 1;
}

static unsigned zero_bits(const uint8_t *page) {
    static const uint8_t of[16] = {4, 3, 3, 2, 3, 2, 2, 1, 3, 2, 2, 1, 2, 1, 1, 0};
    unsigned zeros = 0;
    for (int i = 0; i < COUNT; i++) zeros += of[page[i] / 16] + of[page[i] % 16];
    return zeros;
}

/* The new form: the last two bytes are the number of the 0 bits before them. */
static int is_counted(const uint8_t *page) {
    unsigned zeros = zero_bits(page);
    return (twin_bug == HALF_COUNTED || page[COUNT] == zeros / 256) && page[COUNT + 1] == zeros % 256;
}

static int is_sound(const uint8_t *page) {
    if (twin_bug == EITHER_FORM) return is_flipped(page) || is_counted(page);
    return page[0] == 1 ? is_flipped(page) : page[0] == 2 && is_counted(page);
}

/* VALUE, NOTE, or 0 for nothing */
static int says(const uint8_t *page) {
    if (page[2] < 1 || page[2] > 16 || !is_sound(page)) return 0;
    if (page[1] == VALUE && page[3] <= (page[0] == 1 ? OLD_LONGEST : LONGEST)) return VALUE;
    return page[1] == NOTE && page[3] == 0 ? NOTE : 0;
}

static void fill_page(uint8_t *page, int kind, const uint8_t *key, size_t key_len, const uint8_t *value, size_t value_len) {
    memset(page, 0, PAGE);
    page[0] = 2, page[1] = (uint8_t)kind, page[2] = (uint8_t)key_len, page[3] = (uint8_t)value_len;
    memcpy(page + 16, key, key_len);
    memcpy(page + 32, value, value_len);
    unsigned zeros = zero_bits(page);
    page[COUNT] = (uint8_t)(zeros / 256), page[COUNT + 1] = (uint8_t)(zeros % 256);
}

static int is_sealed(const uint8_t *chip, size_t block) { return !is_blank(chip + BLOCK * block + PAGE * PLACES); }

/* ---- the index */

static size_t find(const uint8_t *chip, const uint32_t *work, const uint8_t *key, size_t key_len) {
    size_t i;
    for (i = 0; i < work[KEYS]; i++) {
        const uint8_t *page = chip + PAGE * (size_t)work[INDEX + i];
        if (page[2] == key_len && memcmp(page + 16, key, key_len) == 0) break;
    }
    return i;
}

static void note_page(const uint8_t *chip, uint32_t *work, size_t p) {
    const uint8_t *page = chip + PAGE * p;
    int kind = says(page);
    size_t i = kind ? find(chip, work, page + 16, page[2]) : 0;
    if (kind == VALUE) {
        work[INDEX + i] = (uint32_t)p;
        work[KEYS] += i == work[KEYS];
    } else if (kind == NOTE && i < work[KEYS]) {
        work[INDEX + i] = work[INDEX + --work[KEYS]];
    }
}

/* The entry that is page p; the number of keys if none is. */
static size_t entry_of(const uint32_t *work, size_t p) {
    size_t i;
    for (i = 0; i < work[KEYS] && work[INDEX + i] != p; i++) {}
    return i;
}

/* ---- the log: the places of all blocks but the spare, from the oldest block to the head */

static size_t page_of_place(const uint32_t *work, size_t b, size_t place) { return 16 * ((work[HEAD] + 2 + place / PLACES) % b) + place % PLACES; }

/* ---- start */

static size_t find_head(const uint8_t *chip, size_t b) {
    for (size_t h = 1; h < b; h++)
        if (is_sealed(chip, h - 1) && !is_sealed(chip, h)) return h;
    return 0;
}

static int is_ring(const uint8_t *chip, size_t b, size_t h) {
    int later = 1, first = 1;
    for (size_t x = 0; x < b; x++) {
        if (x != h && x != (h + 1) % b && !is_sealed(chip, x)) later = 0;
        if (x < h && !is_sealed(chip, x)) first = 0;
        for (size_t j = 0; x > h && j < 16; j++)
            if (!is_blank(chip + BLOCK * x + PAGE * j)) first = 0;
    }
    return !is_sealed(chip, h) && (later || first);
}

int64_t twin_start(const uint8_t *chip, size_t chip_len, uint32_t *work, size_t work_len, const uint64_t *fuse) {
    size_t b = blocks(chip_len, work_len);
    if (!b) return -5;
    if (!*fuse) return -7;
    size_t h = find_head(chip, b);
    work[MARK] = NOT_STARTED;
    if (!is_ring(chip, b, h)) return -8;
    work[KEYS] = 0;
    for (size_t x = h + (twin_bug == READS_SPARE ? 1 : 2); x <= h + b; x++)
        for (size_t j = 0; j < PLACES; j++) note_page(chip, work, 16 * (x % b) + j);
    if (work[KEYS] > 8 * (b - 2)) return -8;
    size_t next = PLACES;
    while (next > 0 && is_blank(chip + BLOCK * h + PAGE * (next - 1))) next--;
    work[HEAD] = (uint32_t)h, work[NEXT] = (uint32_t)next, work[MARK] = READY;
    /* the cursor: the first place that has a live value */
    size_t end = PLACES * (b - 2) + next, place = 0;
    while (place < end && entry_of(work, page_of_place(work, b, place)) == work[KEYS]) place++;
    work[PASSED] = (uint32_t)place;
    return 0;
}

/* ---- put and delete */

/* The value on page `from` is written anew on page `to`. Answers whether the power stayed. */
static int carry(uint8_t *chip, size_t from, size_t to, uint64_t *fuse, const uint8_t *noise) {
    const uint8_t *old = chip + PAGE * from;
    uint8_t copy[PAGE];
    fill_page(copy, VALUE, old + 16, old[2], old + 32, old[3]);
    chip_write(chip, to, copy, fuse, noise);
    return *fuse != 0;
}

/* So many looks at the places behind the cursor, while the head has fewer than `top` pages and the cursor is in its zone: what is live there is carried to the head.
 * Answers whether the power stayed. */
static int sweep(uint8_t *chip, size_t b, uint32_t *work, uint64_t *fuse, const uint8_t *noise, size_t *looks, size_t top) {
    size_t zone = b - 2 + (twin_bug == WIDE ? 7 : 0) - (twin_bug == NARROW);
    for (; *looks && work[NEXT] < top && work[PASSED] < work[NEXT] + zone; --*looks, work[PASSED]++) {
        size_t from = page_of_place(work, b, work[PASSED]), to = 16 * work[HEAD] + work[NEXT], i = entry_of(work, from);
        if (i == work[KEYS] && !(twin_bug == CARRIES_DEAD && says(chip + PAGE * from) == VALUE)) continue;
        if (!carry(chip, from, to, fuse, noise)) return 0;
        if (twin_bug != LEAVES_ENTRY) note_page(chip, work, to);
        work[NEXT]++;
    }
    return 1;
}

/* The oldest block has left the log: places have numbers less by 15, and those that the opening looked at are passed. */
static void move_back(uint32_t *work, size_t *looks) {
    size_t made = work[PASSED] < PLACES ? PLACES - work[PASSED] : 0;
    *looks -= made < *looks ? made : *looks;
    if (twin_bug != STAYS_PUT) work[PASSED] = (uint32_t)(work[PASSED] + made - PLACES);
}

/* Opens the next block. Answers whether the power stayed. */
static int open_next(uint8_t *chip, size_t b, uint32_t *work, uint64_t *fuse, const uint8_t *noise) {
    size_t h = work[HEAD], spare = (h + 1) % b, oldest = (h + 2) % b, copies = 0, live = 0;
    uint8_t page[PAGE];
    for (size_t i = 0; i < work[KEYS]; i++) live += work[INDEX + i] / 16 == oldest;
    if ((is_sealed(chip, oldest) || twin_bug == ERASES_BLANK) && !(twin_bug == TRUSTS_BLANK && is_blank(chip + BLOCK * spare))) {
        chip_erase(chip, spare, fuse, noise);
        if (twin_bug == ERASES_TWICE) chip_erase(chip, spare, fuse, noise);
    }
    fill_page(page, SEAL, noise, 0, noise, 0);
    for (size_t j = 0; *fuse && j < PLACES; j++) {
        size_t from = 16 * oldest + j, to = 16 * spare + copies, i = entry_of(work, from);
        if (i == work[KEYS]) continue;
        if (twin_bug == SEALS_EARLY && copies + 1 == live) chip_write(chip, 16 * h + PLACES, page, fuse, noise);
        carry(chip, from, to, fuse, noise);
        work[INDEX + i] = (uint32_t)to;
        copies++;
    }
    if (*fuse && !(twin_bug == SEALS_EARLY && live)) chip_write(chip, 16 * h + PLACES, page, fuse, noise);
    work[HEAD] = (uint32_t)spare, work[NEXT] = (uint32_t)copies;
    return *fuse != 0;
}

static int64_t lent(size_t chip_len, const uint32_t *work, size_t work_len, const uint64_t *fuse) {
    if (!blocks(chip_len, work_len)) return -5;
    if (!*fuse || work[MARK] == DARK) return -7;
    return work[MARK] == READY ? 0 : -8;
}

static int64_t change(uint8_t *chip, size_t chip_len, uint32_t *work, uint64_t *fuse, const uint8_t *noise, const uint8_t *page) {
    size_t b = chip_len / BLOCK, looks = twin_looks - (twin_bug == SEVEN);
    int power = sweep(chip, b, work, fuse, noise, &looks, PLACES);
    if (power && work[NEXT] == PLACES) {
        for (; power && work[NEXT] == PLACES; move_back(work, &looks)) power = open_next(chip, b, work, fuse, noise);
        power = power && sweep(chip, b, work, fuse, noise, &looks, PLACES - 1); /* a place is left for the record */
    }
    size_t p = 16 * work[HEAD] + work[NEXT];
    if (power) chip_write(chip, p, page, fuse, noise);
    if (!*fuse) return work[MARK] = DARK, -7;
    work[NEXT]++;
    note_page(chip, work, p);
    return 0;
}

int64_t twin_put(uint8_t *chip, size_t chip_len, uint32_t *work, size_t work_len, uint64_t *fuse, const uint8_t *noise, const uint8_t *key,
                 size_t key_len, const uint8_t *value, size_t value_len) {
    int64_t refused = lent(chip_len, work, work_len, fuse);
    uint8_t page[PAGE];
    if (refused) return refused;
    if (key_len < 1 || key_len > 16) return -1;
    for (size_t i = 0; i < key_len; i++)
        if (key[i] < 0x21 || key[i] > 0x7E) return -1;
    if (value_len > LONGEST) return -2;
    if (find(chip, work, key, key_len) == work[KEYS] && work[KEYS] >= 8 * (chip_len / BLOCK - 2)) return -3;
    fill_page(page, VALUE, key, key_len, value, value_len);
    return change(chip, chip_len, work, fuse, noise, page);
}

int64_t twin_delete(uint8_t *chip, size_t chip_len, uint32_t *work, size_t work_len, uint64_t *fuse, const uint8_t *noise, const uint8_t *key,
                    size_t key_len) {
    int64_t refused = lent(chip_len, work, work_len, fuse);
    uint8_t page[PAGE];
    if (refused) return refused;
    if (key_len < 1 || key_len > 16) return -1;
    if (find(chip, work, key, key_len) == work[KEYS]) return -4;
    fill_page(page, NOTE, key, key_len, key, 0);
    return change(chip, chip_len, work, fuse, noise, page);
}

/* ---- the rest */

int64_t twin_get(const uint8_t *chip, size_t chip_len, const uint32_t *work, size_t work_len, const uint64_t *fuse, const uint8_t *key,
                 size_t key_len, uint8_t *buffer, size_t buffer_len) {
    int64_t refused = lent(chip_len, work, work_len, fuse);
    if (refused) return refused;
    if (key_len < 1 || key_len > 16) return -1;
    size_t i = find(chip, work, key, key_len);
    if (i == work[KEYS]) return -4;
    const uint8_t *page = chip + PAGE * (size_t)work[INDEX + i];
    if (buffer_len < page[3]) return -6;
    memcpy(buffer, page + 32, page[3]);
    return page[3];
}

int64_t twin_count(const uint8_t *chip, size_t chip_len, const uint32_t *work, size_t work_len, const uint64_t *fuse) {
    (void)chip;
    int64_t refused = lent(chip_len, work, work_len, fuse);
    return refused ? refused : work[KEYS];
}

int64_t twin_format(uint8_t *chip, size_t chip_len, uint32_t *work, size_t work_len, uint64_t *fuse, const uint8_t *noise) {
    size_t b = blocks(chip_len, work_len);
    if (!b) return -5;
    if (!*fuse || work[MARK] == DARK) return -7;
    work[MARK] = NOT_STARTED;
    for (size_t x = 0; x < b && *fuse; x++) chip_erase(chip, x, fuse, noise);
    if (!*fuse) return work[MARK] = DARK, -7;
    return 0;
}
