/* salvage: everything that can still be read on a chip, also where start refuses it.
 *
 * The guess at the ring: for each block as the head, in the first round and in a later one, count the bits that must be wrong for the chip to be that
 * ring by section 4 of docs/FORMAT.md (a block counts for 64 at most), and take the least. A page that is spoilt in one bit is read as what it may have been,
 * where there are no more than two such things. */
#include "floatstore_tool.h"
#include <stdlib.h>
#include <string.h>

enum { OTHERS = 16 }; /* so many other guesses are followed */

static struct salvage {
    struct reading best, other[OTHERS];
    struct guess *all, guessed[OTHERS];
    size_t others, as_good; /* other guesses with the same cost: followed, and in all */
    int accepted, doubt; /* by start; whether the spare may be the head all the same */
    size_t *records, count; /* the pages that say something, by key, then oldest first */
    size_t *lost_after; /* by place of the log: how many unreadable pages come after it that may be of any key */
    size_t *partly, parts; /* the other unreadable pages */
    struct repair *repairs;
    size_t repaired;
    uint8_t *one_bit; /* of each page: whether it is among the repairs */
} s;

static const uint8_t *page_at(size_t p) { return image.chip + FLOATSTORE_PAGE * p; }
static int in_log(const struct reading *r, size_t p) { return p % 16 < 15 && p / 16 != r->spare; }

/* A head is blank for a moment only, between the seal of the block before it and its first record. */
static int head_is_blank(void) { return s.best.next == 0 && (s.best.later || s.best.head > 0); }

/* Whether a record may have been lost there: a page of the log that says nothing, though something was written to it. A page is written with 96 bits 0 at
 * least, in bytes 4 to 15; one with fewer than WHOLE of them was never written to its end. A block but the head is full, and in the head no blank page
 * stands before a written one. */
static int unreadable(size_t p) {
    if (!in_log(&s.best, p) || page_says(page_at(p)) || s.one_bit[p]) return 0;
    size_t zeros = page_zeros(page_at(p));
    if (p / 16 == s.best.head) return zeros >= WHOLE || (zeros == 0 && p % 16 < s.best.next) || (head_is_blank() && p % 16 == 0);
    return s.best.later || p / 16 < s.best.head || zeros >= WHOLE;
}
static int same_record(const uint8_t *a, const uint8_t *b) { return a[1] == b[1] && a[3] == b[3] && memcmp(a + 32, b + 32, a[3]) == 0; }
static int compare_keys(const uint8_t *x, const uint8_t *y) {
    int order = memcmp(x + 16, y + 16, x[2] < y[2] ? x[2] : y[2]);
    return order ? order : x[2] - y[2];
}

static int says_the_same(const uint8_t *a, const uint8_t *b) { return compare_keys(a, b) == 0 && same_record(a, b); }

/* ---- a page that is spoilt in one bit: with a flipped copy there are two pages that it may have been, with a count there may be many */

struct repair {
    size_t page;
    int two; /* both may be, and say different things */
    uint8_t as[2][FLOATSTORE_PAGE];
};

/* The store writes zeros where nothing is said. */
static int zeros_where_due(const uint8_t *page) {
    for (size_t i = 4; i < (page[0] == COUNTED ? 254 : 128); i++)
        if (page[i] && (i < 16 || (i < 32 && i >= 16u + page[2]) || i >= 32u + page[3])) return 0;
    return 1;
}

/* Whether a page may be sound but for one bit, seen without trying each: one bit of the halves agrees, or the count is off by one or in one bit. */
static int one_bit_apart(const uint8_t *page) {
    size_t first, said = page_count(page), has = payload_zeros(page), apart = said > has ? said - has : has - said;
    return flip_disagreement(page, &first) == 1 || (apart & (apart - 1)) == 0;
}

/* A page that it may have been: kept if it says something that none before it said. Answers whether there are two at most. */
static int keep_reading(struct repair *to, size_t *kept, const uint8_t *page) {
    if (!page_says(page) || !zeros_where_due(page)) return 1;
    for (size_t i = 0; i < *kept; i++)
        if (says_the_same(to->as[i], page)) return 1;
    if (*kept == 2) return 0;
    memcpy(to->as[(*kept)++], page, FLOATSTORE_PAGE);
    return 1;
}

/* All pages that are one bit from it are tried. */
static int repair(struct repair *to, size_t p) {
    uint8_t page[FLOATSTORE_PAGE];
    size_t kept = 0;
    memcpy(page, page_at(p), FLOATSTORE_PAGE);
    if (!one_bit_apart(page)) return 0;
    *to = (struct repair){.page = p};
    for (size_t bit = 0; bit < 8 * FLOATSTORE_PAGE; bit++) {
        page[bit / 8] ^= (uint8_t)(1u << bit % 8);
        if (!keep_reading(to, &kept, page)) return 0;
        page[bit / 8] ^= (uint8_t)(1u << bit % 8);
    }
    to->two = kept == 2;
    return kept > 0;
}

static void repair_all(void) {
    s.repairs = room_for(s.best.of[SPOILT] * sizeof *s.repairs);
    s.one_bit = room_for(16 * image.blocks);
    for (size_t p = 0; p < 16 * image.blocks; p++) {
        s.one_bit[p] = s.best.kinds[p] == SPOILT && repair(&s.repairs[s.repaired], p);
        s.repaired += s.one_bit[p];
    }
}

/* ---- the guess */

static void follow(const struct guess *g) {
    if (s.others == OTHERS) return;
    s.guessed[s.others] = *g;
    read_guess(&s.other[s.others++], g);
}

/* An opening that was cut short leaves copies of live values in a spare that isn't sealed. If there are other records, an erase was cut there (which
 * may leave any bytes), or the seal before it was lost and it is the head. */
static int spare_may_be_head(void) {
    size_t spare = s.best.spare;
    if (!s.best.later || block_is_sealed(image.chip, spare)) return 0;
    for (size_t p = 16 * spare; p < 16 * spare + 15; p++) {
        int known = !page_says(page_at(p));
        for (size_t q = 16 * s.best.oldest; !known && q < 16 * s.best.oldest + 15; q++) known = page_says(page_at(q)) && says_the_same(page_at(p), page_at(q));
        if (!known) return 1;
    }
    return 0;
}

static void guess(void) {
    s.all = room_for(2 * image.blocks * sizeof *s.all);
    guess_rings(s.all, image.chip, image.blocks);
    read_image(&s.best);
    s.accepted = s.best.is_ring && s.best.keys <= FLOATSTORE_ROOM(image.blocks);
    if (s.best.is_ring) {
        s.doubt = spare_may_be_head();
        if (s.doubt) follow(&(struct guess){s.best.spare, WHOLE, 1, OPEN});
        return;
    }
    forget_reading(&s.best);
    read_guess(&s.best, &s.all[0]);
    for (size_t i = 1; i < 2 * image.blocks && s.all[i].cost == s.all[0].cost; i++) {
        if (s.all[i].head == s.all[0].head) continue; /* the same log, whichever round */
        s.as_good++;
        follow(&s.all[i]);
    }
}

static void print_guess_itself(const struct guess *g) {
    if (g->later) printf("a later round with head block %zu, spare block %zu", g->head, (g->head + 1) % image.blocks);
    else printf("the first round with head block %zu", g->head);
}

/* What in a block speaks against the guess. */
static void print_wrong_block(const struct guess *g, size_t b) {
    size_t cost = block_cost(g, image.chip, image.blocks, b), zeros = page_zeros(page_at(16 * b + 15));
    if (!cost) return;
    if (b == g->head) printf("  block %zu is wrong: its page 15 must be blank in the head, and %zu of its bits read 0\n", b, zeros);
    else if (!g->later && b > g->head) printf("  block %zu is wrong: it must be blank, and isn't\n", b);
    else printf("  block %zu is wrong: it must be sealed, and its page 15 is blank\n", b);
}

static void print_other_guess(const struct guess *g) {
    printf("or       "), print_guess_itself(g);
    printf(", by as few bits");
    if (g->looks > s.all[0].looks) printf("; but that block is %s", g->looks == FULL ? "full" : "blank, and a head holds records");
    putchar('\n');
}

static void print_guess(void) {
    struct reading r;
    read_image(&r);
    if (s.accepted) printf("start    takes the chip: head block %zu\n", r.head);
    else printf("start    refuses (8): "), print_faults(stdout, &r), printf("\n");
    forget_reading(&r);
    if (s.doubt)
        printf("doubt    block %zu, the spare, isn't sealed and has records that no cut opening leaves there: an erase was cut, or\n", s.best.spare);
    if (s.doubt)
        printf("         the seal of block %zu was lost and block %zu is the head; keys that differ then aren't sure\n", s.best.head, s.best.spare);
    if (head_is_blank()) printf("doubt    the head, block %zu, is blank: so it is for a moment only, or it was lost\n", s.best.head);
    if (s.all[0].cost == 0) return;
    printf("guess    "), print_guess_itself(&s.all[0]);
    printf(": explained by %zu wrong bit%s, a block counting for %d at most: the least of all %zu heads and rounds\n", s.all[0].cost,
           s.all[0].cost == 1 ? "" : "s", WHOLE, 2 * image.blocks);
    for (size_t b = 0; b < image.blocks; b++) print_wrong_block(&s.all[0], b);
    if (s.as_good == 0) printf("sure     no other head fits so well\n");
    for (size_t i = 0; i < s.others; i++) print_other_guess(&s.guessed[i]);
    if (s.as_good > s.others) printf("or       %zu more, which aren't followed here\n", s.as_good - s.others);
}

/* ---- the records */

static int by_key_then_age(const void *a, const void *b) {
    size_t p = *(const size_t *)a, q = *(const size_t *)b;
    int order = compare_keys(page_at(p), page_at(q));
    if (order) return order;
    return log_place(&s.best, p) < log_place(&s.best, q) ? -1 : 1;
}

/* A write that was cut, like charge that was lost, leaves bits 1 that should be 0, and never the other way round. By byte 0 such a page may have been of the
 * flipped form, of the count form, or of both. One with two bits 0 where the halves must differ, or with more bits 0 than it counts, was hurt otherwise, as
 * was one that is sound and no record: it may have been anything. */
static int rises_from(const uint8_t *page, enum form form) {
    if (page_is_sound(page) || !(page[0] & form)) return 0;
    if (form == COUNTED) return payload_zeros(page) < page_count(page);
    for (size_t i = 0; i < 128; i++)
        if ((page[i] | page[128 + i]) != 255) return 0;
    return 1;
}

static int rises_only(const uint8_t *page) { return rises_from(page, FLIPPED) || rises_from(page, COUNTED); }

/* Of the flipped form a bit is known where the halves differ, of the count form where it is 0. */
static int byte_may_be(const uint8_t *page, enum form form, size_t i, uint8_t byte) {
    uint8_t known = (uint8_t)(form == FLIPPED ? page[i] ^ page[128 + i] : ~page[i]);
    return ((page[i] ^ byte) & known) == 0;
}

static int may_be_in(const uint8_t *page, enum form form, const uint8_t *key_page) {
    if (!rises_from(page, form) || !byte_may_be(page, form, 2, key_page[2])) return 0;
    for (size_t i = 16; i < 16u + key_page[2]; i++)
        if (!byte_may_be(page, form, i, key_page[i])) return 0;
    return 1;
}

/* Whether a page that rises only may be a record of the key. */
static int may_be_of(const uint8_t *page, const uint8_t *key_page) { return may_be_in(page, FLIPPED, key_page) || may_be_in(page, COUNTED, key_page); }

static void collect(void) {
    size_t pages = 16 * image.blocks;
    s.records = room_for(pages * sizeof *s.records);
    s.partly = room_for(pages * sizeof *s.partly);
    s.lost_after = room_for(pages * sizeof *s.lost_after);
    for (size_t p = 0; p < pages; p++) {
        if (page_says(page_at(p))) s.records[s.count++] = p;
        if (unreadable(p) && rises_only(page_at(p))) s.partly[s.parts++] = p;
    }
    qsort(s.records, s.count, sizeof *s.records, by_key_then_age);
    for (size_t i = pages, after = 0; i-- > 0;) {
        size_t p = log_page(&s.best, i);
        s.lost_after[i] = after;
        after += unreadable(p) && !rises_only(page_at(p));
    }
}

/* How many pages that can't be read come after a place and may be records of the key. */
static size_t lost_after(const uint8_t *key_page, size_t place) {
    size_t lost = s.lost_after[place];
    for (size_t i = 0; i < s.parts; i++) lost += log_place(&s.best, s.partly[i]) > place && may_be_of(page_at(s.partly[i]), key_page);
    return lost;
}

static const char *state_of(size_t p) {
    if (p % 16 == 15) return "no place";
    if (p / 16 == s.best.spare) return "spare";
    return s.best.newest[p] ? "newest" : "older";
}

static void print_records(void) {
    printf("\nrecord\tblock\tplace\tpage\tstate\tkey\tvalue\n");
    for (size_t i = 0; i < 16 * image.blocks; i++) {
        size_t p = log_page(&s.best, i);
        if (!page_says(page_at(p))) continue;
        printf("record\t%zu\t%zu\t%zu\t%s\t", p / 16, p % 16, p, state_of(p));
        print_record(page_at(p));
        putchar('\n');
    }
}

/* ---- what each key has, by the guess */

/* The records of one key: from, up to and without end. */
struct group {
    size_t from, end;
};

static struct group group_at(size_t from) {
    struct group g = {from, from + 1};
    while (g.end < s.count && compare_keys(page_at(s.records[from]), page_at(s.records[g.end])) == 0) g.end++;
    return g;
}

/* The newest record of a group by a reading, or NULL where all are in its spare. */
static const uint8_t *newest_of(const struct group *g, const struct reading *r, size_t *page) {
    for (size_t i = g->from; i < g->end; i++) {
        *page = s.records[i];
        if (r->newest[*page]) return page_at(*page);
    }
    return NULL;
}

/* A page spoilt in one bit that may be a later record of the key. */
static const struct repair *later_repair(const uint8_t *key_page, size_t place) {
    const struct repair *found = NULL;
    for (size_t i = 0; i < s.repaired; i++) {
        const struct repair *x = &s.repairs[i];
        if (!in_log(&s.best, x->page) || log_place(&s.best, x->page) < place) continue;
        if (compare_keys(x->as[0], key_page) == 0 || (x->two && compare_keys(x->as[1], key_page) == 0)) found = x;
    }
    return found;
}

/* By how many of the other guesses the key has something else. */
static size_t other_opinions(const struct group *g, const uint8_t *newest) {
    size_t page, differ = 0;
    for (size_t i = 0; i < s.others; i++) {
        const uint8_t *there = newest_of(g, &s.other[i], &page);
        differ += !there || !same_record(there, newest);
    }
    return differ;
}

/* Answers whether the key is sure. */
static int print_sureness(const struct group *g, const uint8_t *newest, size_t page) {
    size_t place = log_place(&s.best, page), after = lost_after(newest, place), differ = other_opinions(g, newest);
    const struct repair *r = later_repair(newest, place);
    if (r) printf("overridden by page %zu, which is spoilt in one bit: see below", r->page);
    else if (after) printf("unless one of %zu unreadable page%s after it that may be of this key is", after, after == 1 ? "" : "s");
    else printf("sure");
    if (differ) printf("%s by this guess; otherwise by %zu of the %zu others", r || after ? ";" : "", differ, s.others);
    putchar('\n');
    return !r && !after && !differ;
}

/* A value that is live when its block is cleaned is copied on: if the spare's last record is a value, the log must know the key. */
static int print_lost_key(const struct group *g) {
    size_t last = s.records[g->end - 1];
    const uint8_t *page = page_at(last);
    if (!s.best.later || page[1] != 1) return 0;
    printf("key\t");
    print_record(page);
    printf("\tLOST or never there: only the spare has it (page %zu), and no later record does\n", last);
    return 1;
}

/* A key of which no sound page is left. Answers how many there are. */
static size_t print_one_bit_keys(void) {
    size_t keys = 0;
    for (size_t i = 0; i < s.repaired; i++) {
        size_t known = 0;
        for (size_t j = 0; j < s.count; j++) known += compare_keys(page_at(s.records[j]), s.repairs[i].as[0]) == 0;
        if (known || !in_log(&s.best, s.repairs[i].page)) continue;
        printf("key\t");
        print_record(s.repairs[i].as[0]);
        printf("\tonly page %zu says so, which is spoilt in one bit: see below\n", s.repairs[i].page);
        keys++;
    }
    return keys;
}

static void print_keys(void) {
    size_t sure = 0, keys = 0, lost = 0;
    printf("\nkey\tkey\tvalue\thow sure\n");
    for (struct group g = {0, 0}; g.end < s.count;) {
        size_t page;
        g = group_at(g.end);
        const uint8_t *newest = newest_of(&g, &s.best, &page);
        if (!newest) {
            lost += (size_t)print_lost_key(&g);
            continue;
        }
        printf("key\t");
        print_record(newest);
        putchar('\t');
        keys++, sure += (size_t)print_sureness(&g, newest, page);
    }
    keys += print_one_bit_keys();
    printf("\nkeys     %zu with a newest record, %zu sure, %zu not; %zu more that only the spare has\n", keys, sure, keys - sure, lost);
}

/* ---- what was lost */

static void print_repair(const struct repair *r) {
    printf("one bit  page %zu (block %zu, place %zu%s) is spoilt in one bit: it said ", r->page, r->page / 16, r->page % 16,
           in_log(&s.best, r->page) ? "" : ", not of the log");
    print_record(r->as[0]);
    if (r->two) printf(", or "), print_record(r->as[1]);
    putchar('\n');
}

/* How much of a block can't be read. */
static void print_block_loss(size_t b) {
    size_t lost = 0;
    for (size_t j = 0; j < 15; j++) lost += (size_t)unreadable(16 * b + j);
    if (lost) printf("lost     block %zu (%s): %zu of its 15 records can't be read\n", b, block_role(&s.best, image.chip, b), lost);
}

static void print_losses(void) {
    size_t in = 0;
    for (size_t p = 0; p < 16 * image.blocks; p++) in += (size_t)unreadable(p);
    if (s.best.of[BLANK] == 16 * image.blocks) printf("\nlost     the chip is blank: an empty store, or all of it\n");
    else if (in == 0)
        printf("\nlost     nothing that was in the log: every page that was written there can be read%s\n", s.repaired ? ", but for one bit" : "");
    else printf("\nlost     %zu of the pages that were written in the log can't be read; one may be a write that was cut, and lost nothing then\n", in);
    for (size_t b = 0; b < image.blocks; b++) print_block_loss(b);
    for (size_t i = 0; i < s.repaired; i++) print_repair(&s.repairs[i]);
}

/* The map alone, as export writes it; what a page spoilt in one bit said is not taken. */
static void write_map(void) {
    begin_entries();
    for (struct group g = {0, 0}; g.end < s.count;) {
        size_t page;
        g = group_at(g.end);
        const uint8_t *newest = newest_of(&g, &s.best, &page);
        if (newest && newest[1] == 1) write_entry(newest + 16, newest[2], newest + 32, newest[3]);
    }
    end_entries();
}

void do_salvage(int argc, char **argv) {
    (void)argc;
    load(argv[2], TO_READ);
    guess();
    repair_all();
    collect();
    if (option.json || option.csv) {
        write_map();
        return;
    }
    printf("chip     %zu blocks, %zu pages, room for %zu keys\n", image.blocks, 16 * image.blocks, FLOATSTORE_ROOM(image.blocks));
    print_guess();
    print_records();
    print_keys();
    print_losses();
}
