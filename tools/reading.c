#include "reading.h"
#include <stdlib.h>
#include <string.h>

int page_is_blank(const uint8_t *page) {
    for (size_t i = 0; i < 256; i++)
        if (page[i] != 0xFF) return 0;
    return 1;
}

/* ---- the two forms (section 1) */

size_t flip_disagreement(const uint8_t *page, size_t *first) {
    size_t bits = 0;
    *first = 128;
    for (size_t i = 128; i-- > 0;) {
        unsigned same = (unsigned)(page[i] ^ page[128 + i]) ^ 255u;
        if (same) *first = i;
        for (; same; same &= same - 1) bits++;
    }
    return bits;
}

static size_t zeros_of(const uint8_t *bytes, size_t len) {
    size_t zeros = 0;
    for (size_t i = 0; i < len; i++) zeros += (size_t)__builtin_popcount(255u - bytes[i]);
    return zeros;
}

size_t payload_zeros(const uint8_t *page) { return zeros_of(page, 254); }
size_t page_count(const uint8_t *page) { return 256u * page[254] + page[255]; }

int page_is_sound(const uint8_t *page) {
    size_t first;
    if (page[0] == FLIPPED) return flip_disagreement(page, &first) == 0;
    return page[0] == COUNTED && page_count(page) == payload_zeros(page);
}

size_t page_spoilt_at(const uint8_t *page) {
    size_t first;
    if (page[0] == COUNTED) return 254;
    return flip_disagreement(page, &first) ? first : 0;
}

size_t longest_value(const uint8_t *page) { return page[0] == COUNTED ? 220 : 96; }

/* Section 3 of the format. */
int page_says(const uint8_t *page) {
    if (!page_is_sound(page) || page[2] < 1 || page[2] > 16) return 0;
    if (page[1] == 1 && page[3] <= longest_value(page)) return 1;
    return page[1] == 2 && page[3] == 0 ? 2 : 0;
}

int block_is_sealed(const uint8_t *chip, size_t block) { return !page_is_blank(chip + 4096 * block + 256 * 15); }

/* ---- where the ring stands (section 4) */

static size_t find_head(const uint8_t *chip, size_t blocks) {
    for (size_t h = 1; h < blocks; h++)
        if (block_is_sealed(chip, h - 1) && !block_is_sealed(chip, h)) return h;
    return 0;
}

static int all_sealed_but(const uint8_t *chip, size_t blocks, size_t a, size_t b) {
    for (size_t x = 0; x < blocks; x++)
        if (x != a && x != b && !block_is_sealed(chip, x)) return 0;
    return 1;
}

static int first_round(const uint8_t *chip, size_t blocks, size_t head) {
    for (size_t x = 0; x < head; x++)
        if (!block_is_sealed(chip, x)) return 0;
    for (size_t p = 16 * head + 16; p < 16 * blocks; p++)
        if (!page_is_blank(chip + 256 * p)) return 0;
    return 1;
}

static void place_ring(struct reading *r, const uint8_t *chip, size_t head) {
    r->head = head;
    r->spare = (r->head + 1) % r->blocks;
    r->oldest = (r->head + 2) % r->blocks;
    for (r->next = 15; r->next > 0 && page_is_blank(chip + 4096 * r->head + 256 * (r->next - 1));) r->next--;
}

static void find_ring(struct reading *r, const uint8_t *chip) {
    place_ring(r, chip, find_head(chip, r->blocks));
    r->later = all_sealed_but(chip, r->blocks, r->head, r->spare);
    r->is_ring = !block_is_sealed(chip, r->head) && (r->later || first_round(chip, r->blocks, r->head));
}

/* ---- the log replayed: a table from keys to the page of their value, hashed */

static size_t slot(const uint8_t *chip, const uint32_t *table, size_t size, const uint8_t *page) {
    uint32_t h = 2166136261u;
    for (size_t i = 0; i < page[2]; i++) h = (h ^ page[16 + i]) * 16777619u;
    size_t i = h % size;
    while (table[i]) {
        const uint8_t *there = chip + 256 * (size_t)(table[i] - 1);
        if (there[2] == page[2] && memcmp(there + 16, page + 16, page[2]) == 0) break;
        i = (i + 1) % size;
    }
    return i;
}

/* A page of the log. A key that was seen keeps its slot, so that the table needs no removal; its live page has the kind LIVE. */
static void replay(struct reading *r, const uint8_t *chip, uint32_t *table, size_t size, size_t p) {
    int what = page_says(chip + 256 * p);
    if (!what) return;
    size_t i = slot(chip, table, size, chip + 256 * p);
    if (table[i] && r->kinds[table[i] - 1] == LIVE) r->kinds[table[i] - 1] = OLD, r->keys--;
    if (table[i]) r->newest[table[i] - 1] = 0;
    table[i] = (uint32_t)p + 1;
    r->newest[p] = 1;
    if (what == 1) r->kinds[p] = LIVE, r->keys++;
}

static char kind_of(const uint8_t *page) {
    if (page_is_blank(page)) return BLANK;
    if (!page_is_sound(page)) return SPOILT;
    int what = page_says(page);
    if (what) return what == 1 ? OLD : NOTE;
    return page[1] == 3 ? SEAL : OTHER;
}

static int read_pages(struct reading *r, const uint8_t *chip, size_t blocks) {
    memset(r, 0, sizeof *r);
    r->blocks = blocks;
    r->kinds = malloc(16 * blocks);
    r->newest = calloc(16 * blocks, 1);
    if (!r->kinds || !r->newest) return forget_reading(r), 0;
    for (size_t p = 0; p < 16 * blocks; p++) r->kinds[p] = kind_of(chip + 256 * p);
    return 1;
}

static int read_log(struct reading *r, const uint8_t *chip) {
    size_t size = 32 * r->blocks;
    uint32_t *table = calloc(size, sizeof *table);
    if (!table) return forget_reading(r), 0;
    for (size_t x = r->head + 2; r->is_ring && x <= r->head + r->blocks; x++)
        for (size_t j = 0; j < 15; j++) replay(r, chip, table, size, 16 * (x % r->blocks) + j);
    for (size_t p = 0; p < 16 * r->blocks; p++) r->of[(size_t)r->kinds[p]]++;
    free(table);
    return 1;
}

int read_chip(struct reading *r, const uint8_t *chip, size_t blocks) {
    if (!read_pages(r, chip, blocks)) return 0;
    find_ring(r, chip);
    return read_log(r, chip);
}

int read_as(struct reading *r, const uint8_t *chip, size_t blocks, const struct guess *g) {
    if (!read_pages(r, chip, blocks)) return 0;
    place_ring(r, chip, g->head);
    r->later = g->later;
    r->is_ring = 1;
    return read_log(r, chip);
}

size_t log_place(const struct reading *r, size_t page) { return 16 * ((page / 16 + r->blocks - r->spare) % r->blocks) + page % 16; }
size_t log_page(const struct reading *r, size_t place) { return 16 * ((place / 16 + r->spare) % r->blocks) + place % 16; }

/* ---- guesses at the ring */

size_t page_zeros(const uint8_t *page) { return zeros_of(page, 256); }

static size_t at_most_whole(size_t bits) { return bits < WHOLE ? bits : WHOLE; }

static size_t block_zeros(const uint8_t *chip, size_t block) {
    size_t zeros = 0;
    for (size_t j = 0; j < 16 && zeros < WHOLE; j++) zeros += page_zeros(chip + 4096 * block + 256 * j);
    return at_most_whole(zeros);
}

static size_t cost_of_no_seal(const uint8_t *chip, size_t block) { return at_most_whole(page_zeros(chip + 4096 * block + 256 * 15)); }
static size_t cost_of_a_seal(const uint8_t *chip, size_t block) { return block_is_sealed(chip, block) ? 0 : WHOLE; }

size_t block_cost(const struct guess *g, const uint8_t *chip, size_t blocks, size_t block) {
    if (block == g->head) return cost_of_no_seal(chip, block);
    if (g->later) return block == (g->head + 1) % blocks ? 0 : cost_of_a_seal(chip, block);
    return block < g->head ? cost_of_a_seal(chip, block) : block_zeros(chip, block);
}

static int better(const void *a, const void *b) {
    const struct guess *x = a, *y = b;
    if (x->cost != y->cost) return x->cost < y->cost ? -1 : 1;
    if (x->looks != y->looks) return x->looks < y->looks ? -1 : 1;
    if (x->later != y->later) return y->later - x->later;
    return x->head == y->head ? 0 : (x->head < y->head) == x->later ? -1 : 1;
}

static enum looks looks_of(const uint8_t *chip, size_t block) {
    int first = page_is_blank(chip + 4096 * block), last = page_is_blank(chip + 4096 * block + 256 * 14);
    return !last ? FULL : first ? EMPTY : OPEN;
}

/* In one pass for each round: the sum over all blocks, and what the head and the spare take off it. */
void guess_rings(struct guess *all, const uint8_t *chip, size_t blocks) {
    size_t seals = 0, below = 0, above = 0;
    for (size_t x = 0; x < blocks; x++) seals += cost_of_a_seal(chip, x), above += block_zeros(chip, x);
    for (size_t h = 0; h < blocks; h++) {
        size_t spare = (h + 1) % blocks, blank = block_zeros(chip, h);
        above -= blank;
        all[h] = (struct guess){h, below + cost_of_no_seal(chip, h) + above, 0, looks_of(chip, h)};
        size_t rest = seals - cost_of_a_seal(chip, h) - cost_of_a_seal(chip, spare);
        all[blocks + h] = (struct guess){h, rest + cost_of_no_seal(chip, h), 1, looks_of(chip, h)};
        below += cost_of_a_seal(chip, h);
    }
    qsort(all, 2 * blocks, sizeof *all, better);
}

void forget_reading(struct reading *r) {
    free(r->kinds);
    free(r->newest);
    r->kinds = NULL, r->newest = NULL;
}

const char *block_role(const struct reading *r, const uint8_t *chip, size_t block) {
    if (!r->is_ring) return block_is_sealed(chip, block) ? "sealed" : "";
    if (block == r->head) return "head";
    if (!r->later) return block_is_sealed(chip, block) ? "sealed" : "unused";
    return block == r->spare ? "spare" : block == r->oldest ? "oldest" : "sealed";
}
