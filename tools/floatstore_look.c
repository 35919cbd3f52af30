/* The commands that look at an image and change nothing: check, dump, diff, history. */
#include "floatstore_tool.h"
#include <inttypes.h>
#include <stdlib.h>
#include <string.h>

static const uint8_t *page_at(size_t p) { return image.chip + FLOATSTORE_PAGE * p; }

/* ---- what start means by 8 */

/* The newest of the keys that are too many: the last of the log. */
static void print_surplus(FILE *out, const struct reading *r) {
    size_t room = FLOATSTORE_ROOM(r->blocks), seen = 0, shown = 0;
    fprintf(out, "it has %zu keys, and there is room for %zu; the newest are too many:", r->keys, room);
    for (size_t i = 16; i < 16 * r->blocks; i++) {
        const uint8_t *page = page_at(log_page(r, i));
        if (r->kinds[log_page(r, i)] != LIVE || seen++ < room) continue;
        if (shown++ >= 5) continue;
        fputc(' ', out);
        for (size_t k = 0; k < page[2]; k++) fprintf(out, page[16 + k] > ' ' && page[16 + k] <= '~' ? "%c" : "\\x%02x", page[16 + k]);
    }
    if (shown > 5) fprintf(out, " and %zu more", shown - 5);
}

typedef int test(const struct reading *r, size_t block);
static int blank_block(size_t block) {
    for (size_t j = 0; j < 16; j++)
        if (!page_is_blank(page_at(16 * block + j))) return 0;
    return 1;
}
static int unsealed_later(const struct reading *r, size_t b) { return b != r->head && b != r->spare && !block_is_sealed(image.chip, b); }
static int unsealed_below(const struct reading *r, size_t b) { return b < r->head && !block_is_sealed(image.chip, b); }
static int used_above(const struct reading *r, size_t b) { return b > r->head && !blank_block(b); }

/* "block 5 and 2 more aren't sealed", or nothing where no block fails the test. */
static void print_failing(FILE *out, const struct reading *r, test *fails, const char *begin, const char *what) {
    size_t first = 0, failing = 0;
    for (size_t b = 0; b < r->blocks; b++)
        if (fails(r, b) && failing++ == 0) first = b;
    if (failing == 1) fprintf(out, "%sblock %zu isn't %s", begin, first, what);
    if (failing > 1) fprintf(out, "%sblock %zu and %zu more aren't %s", begin, first, failing - 1, what);
}

void print_faults(FILE *out, const struct reading *r) {
    if (r->is_ring) {
        print_surplus(out, r);
        return;
    }
    if (block_is_sealed(image.chip, r->head)) {
        fprintf(out, "all %zu blocks are sealed, and one must be the head", r->blocks);
        return;
    }
    fprintf(out, "the head would be block %zu, but ", r->head);
    print_failing(out, r, unsealed_later, "for a later round ", "sealed");
    print_failing(out, r, unsealed_below, ", for the first ", "sealed");
    print_failing(out, r, used_above, ", for the first ", "blank");
}

/* ---- check */

static void print_places(const struct reading *r, char kind, const char *what) {
    size_t shown = 0;
    for (size_t p = 0; p < 16 * r->blocks; p++) {
        if (r->kinds[p] != kind) continue;
        if (shown++ < 20) printf("  page %zu: block %zu, place %zu, the %s%s\n", p, p / 16, p % 16, block_role(r, image.chip, p / 16), what);
    }
    if (shown > 20) printf("  and %zu more\n", shown - 20);
}

/* Pages that neither are blank nor say anything: in the spare an erase or a copy was cut, elsewhere the write of a record or of a seal. */
static void print_cuts(const struct reading *r) {
    if (r->of[SPOILT] == 0) {
        printf("cuts     no page was left half written or half erased\n");
        return;
    }
    int one = r->of[SPOILT] == 1;
    printf("cuts     %zu page%s left half written or half erased: %s nothing, until %s block is erased\n", r->of[SPOILT], one ? " was" : "s were",
           one ? "it says" : "they say", one ? "its" : "their");
    print_places(r, SPOILT, "");
    for (size_t b = 0; b < r->blocks; b++)
        if (r->kinds[16 * b + 15] == SPOILT && strcmp(block_role(r, image.chip, b), "spare") != 0)
            printf("  the seal of block %zu was cut short, and counts as a seal\n", b);
}

/* The library's map against the one read by the format alone. */
static void compare_readers(const struct reading *r) {
    if (count() != (int64_t)r->keys) die(DAMAGED, "%s: the library counts %" PRId64 " keys, the format %zu", image.name, count(), r->keys);
    for (size_t p = 0; p < 16 * r->blocks; p++) {
        const uint8_t *page = page_at(p);
        uint8_t value[FLOATSTORE_MAX_VALUE];
        if (r->kinds[p] != LIVE) continue;
        int64_t len = get(page + 16, page[2], value, sizeof value);
        if (len != page[3] || memcmp(value, page + 32, page[3]) != 0) die(DAMAGED, "%s: library and format differ on the key of page %zu", image.name, p);
    }
    printf("readers  the library and docs/FORMAT.md agree on all %zu keys\n", r->keys);
}

/* What the library's start saw of the pages, also of a chip that it refuses. Answers what start answered. */
static int64_t print_seen(void) {
    struct floatstore_seen seen;
    int64_t answer = floatstore_start_seeing(image.chip, image.len, image.work, image.words, &image.fuse, &seen);
    if (answer != -FLOATSTORE_NOT_STARTED) done(answer);
    printf("start    saw %" PRIu64 " blank, %" PRIu64 " sound and %" PRIu64 " spoilt pages", seen.blank, seen.sound, seen.spoilt);
    if (seen.spoilt > 0) printf("; the first spoilt one is page %" PRIu64 ", at byte %" PRIu64, seen.page, seen.byte);
    printf("\n");
    return answer;
}

void do_check(int argc, char **argv) {
    struct reading r;
    size_t sealed = 0;
    (void)argc;
    load(argv[2], TO_READ);
    read_image(&r);
    for (size_t b = 0; b < r.blocks; b++) sealed += (size_t)block_is_sealed(image.chip, b);
    printf("chip     %zu blocks, %zu pages, room for %zu keys\n", r.blocks, 16 * r.blocks, FLOATSTORE_ROOM(r.blocks));
    printf("pages    %zu blank, %zu live values, %zu older values, %zu notes, %zu seals, %zu spoilt, %zu other\n", r.of[BLANK], r.of[LIVE], r.of[OLD],
           r.of[NOTE], r.of[SEAL], r.of[SPOILT], r.of[OTHER]);
    if (!r.is_ring) {
        done(print_seen()); /* refused, in words */
        die(DAMAGED, "%s: start takes it, and docs/FORMAT.md sees no ring", image.name);
    }
    printf("ring     head: block %zu, its next place %zu; ", r.head, r.next);
    if (r.later) printf("spare: block %zu; oldest: block %zu; %zu blocks sealed\n", r.spare, r.oldest, sealed);
    else printf("first round, nothing erased yet; %zu blocks sealed, %zu unused\n", sealed, r.blocks - 1 - r.head);
    print_cuts(&r);
    done(print_seen());
    printf("map      %" PRId64 " of %zu keys\n", count(), FLOATSTORE_ROOM(r.blocks));
    compare_readers(&r);
}

/* ---- the ring as start finds it, or the best guess at it */

/* Answers whether start takes the chip. */
static int read_somehow(struct reading *r) {
    read_image(r);
    if (r->is_ring) return r->keys <= FLOATSTORE_ROOM(r->blocks);
    struct guess *all = room_for(2 * r->blocks * sizeof *all);
    guess_rings(all, image.chip, image.blocks);
    forget_reading(r);
    read_guess(r, all);
    free(all);
    return 0;
}

void print_record(const uint8_t *page) {
    show(page + 16, page[2]);
    putchar('\t');
    if (page[1] == 1) show(page + 32, page[3]);
    else fputs("(deleted)", stdout);
}

/* ---- history */

static const char *record_state(const struct reading *r, size_t p) {
    if (p % 16 == 15) return "no place";
    if (p / 16 == r->spare && r->later) return "spare";
    return r->newest[p] ? "newest" : "older";
}

void do_history(int argc, char **argv) {
    struct reading r;
    size_t found = 0;
    struct bytes key = bytes_of(argv[3]);
    (void)argc;
    load(argv[2], TO_READ);
    int sound = read_somehow(&r);
    for (size_t i = 0; i < 16 * r.blocks; i++) {
        size_t p = log_page(&r, i);
        const uint8_t *page = page_at(p);
        if (!page_says(page) || page[2] != key.len || memcmp(page + 16, key.at, key.len) != 0) continue;
        if (found++ == 0) printf("page\tblock\tplace\tstate\tkey\tvalue\n");
        printf("%zu\t%zu\t%zu\t%s\t", p, p / 16, p % 16, record_state(&r, p));
        print_record(page);
        putchar('\n');
    }
    if (!sound) die(DAMAGED, "%s: start refuses it; the order is a guess: see floatstore salvage %s", image.name, image.name);
    if (!found) die(REFUSED, "%s: no page says anything of that key", image.name);
}

/* ---- dump */

static void print_hex(const uint8_t *page) {
    for (size_t i = 0; i < FLOATSTORE_PAGE; i += 16) {
        printf("%3zu ", i);
        for (size_t j = i; j < i + 16; j++) printf(" %02x", page[j]);
        printf("  ");
        for (size_t j = i; j < i + 16; j++) putchar(page[j] >= ' ' && page[j] <= '~' ? page[j] : '.');
        putchar('\n');
    }
}

/* Where the halves agree: the first eight bytes, and how many bits. */
static void print_flips(const uint8_t *page) {
    size_t first, bytes = 0, bits = flip_disagreement(page, &first);
    printf("not sound at byte");
    for (size_t i = 0; i < 128; i++)
        if (page[i] + page[128 + i] != 255 && bytes++ < 8) printf(" %zu", i);
    if (bytes > 8) printf(" and %zu more", bytes - 8);
    printf("; %zu bits from sound", bits);
}

static void print_disagreement(const uint8_t *page) {
    size_t first;
    printf("it says nothing: not blank, and ");
    if (page[0] == COUNTED) printf("not sound: it counts %zu bits 0 and has %zu", page_count(page), payload_zeros(page));
    else if (flip_disagreement(page, &first)) print_flips(page);
    else printf("not sound: no form has the number %u", page[0]);
    printf("; %zu bits from blank\n", page_zeros(page));
}

/* PAGE is a number, or BLOCK:PLACE. */
static size_t page_number(char *word) {
    char *colon = strchr(word, ':');
    if (colon) *colon = 0;
    uint64_t n = number_of(word, colon ? "a block" : "a page"), place = colon ? number_of(colon + 1, "a place") : 0;
    if (n >= (colon ? image.blocks : 16 * image.blocks) || place > 15) die(MISUSED, "the chip has %zu blocks of 16 pages, counted from 0", image.blocks);
    return colon ? 16 * n + place : n;
}

void do_dump(int argc, char **argv) {
    struct reading r;
    (void)argc;
    load(argv[2], TO_READ);
    size_t p = page_number(argv[3]);
    read_somehow(&r);
    const uint8_t *page = page_at(p);
    printf("page %zu: block %zu, place %zu", p, p / 16, p % 16);
    printf("; form %u, kind %u, lengths %u and %u\n", page[0], page[1], page[2], page[3]);
    if (page_says(page)) {
        printf("it says: %s, ", record_state(&r, p));
        print_record(page);
        putchar('\n');
    } else if (r.kinds[p] == SPOILT) {
        print_disagreement(page);
    } else {
        printf("it says nothing: %s\n", r.kinds[p] == BLANK ? "it is blank" : r.kinds[p] == SEAL ? "it is a seal" : "it is sound, and no record");
    }
    print_hex(page);
}

/* ---- diff */

struct side {
    struct image image;
    struct reading reading;
};

static struct side load_side(const char *name) {
    struct side s;
    image.file = -1; /* the other side stays locked */
    load(name, TO_READ);
    if (!read_somehow(&s.reading)) printf("! %s: start refuses it, and its map here is a guess\n", name);
    s.image = image;
    return s;
}

static int by_key(const void *a, const void *b) {
    const uint8_t *x = *(const uint8_t *const *)a, *y = *(const uint8_t *const *)b;
    int order = memcmp(x + 16, y + 16, x[2] < y[2] ? x[2] : y[2]);
    return order ? order : x[2] - y[2];
}

/* The live pages, in the order of their keys. */
static const uint8_t **live_pages(const struct side *s) {
    const uint8_t **live = room_for((s->reading.keys + 1) * sizeof *live);
    size_t n = 0;
    for (size_t p = 0; p < 16 * s->image.blocks; p++)
        if (s->reading.kinds[p] == LIVE) live[n++] = s->image.chip + FLOATSTORE_PAGE * p;
    qsort(live, n, sizeof *live, by_key);
    live[n] = NULL;
    return live;
}

static void print_side(char sign, const uint8_t *page) {
    printf("%c ", sign);
    print_record(page);
    putchar('\n');
}

static size_t diff_maps(const struct side *a, const struct side *b) {
    const uint8_t **x = live_pages(a), **y = live_pages(b);
    size_t differences = 0;
    while (*x || *y) {
        int order = !*x ? 1 : !*y ? -1 : by_key(x, y);
        int same = order == 0 && (*x)[3] == (*y)[3] && memcmp(*x + 32, *y + 32, (*x)[3]) == 0;
        if (!same && order <= 0) print_side('-', *x);
        if (!same && order >= 0) print_side('+', *y);
        differences += (size_t)!same;
        x += order <= 0, y += order >= 0;
    }
    return differences;
}

static size_t diff_pages(const struct side *a, const struct side *b) {
    size_t pages = 16 * (a->image.blocks < b->image.blocks ? a->image.blocks : b->image.blocks), differences = 0;
    for (size_t p = 0; p < pages; p++) {
        const uint8_t *x = a->image.chip + 256 * p, *y = b->image.chip + 256 * p;
        size_t bytes = 0;
        for (size_t i = 0; i < 256; i++) bytes += x[i] != y[i];
        if (!bytes) continue;
        if (differences++ < 50)
            printf("page %zu: block %zu, place %zu: %c to %c, %zu bytes differ\n", p, p / 16, p % 16, a->reading.kinds[p], b->reading.kinds[p], bytes);
    }
    if (differences > 50) printf("and %zu more pages\n", differences - 50);
    return differences;
}

void do_diff(int argc, char **argv) {
    (void)argc;
    struct side a = load_side(argv[2]), b = load_side(argv[3]);
    size_t keys = diff_maps(&a, &b), pages = diff_pages(&a, &b);
    if (a.image.blocks != b.image.blocks) printf("%zu blocks and %zu blocks\n", a.image.blocks, b.image.blocks);
    printf("%zu keys and %zu pages differ\n", keys, pages);
    fflush(stdout);
    if (keys || pages || a.image.blocks != b.image.blocks) exit(ferror(stdout) ? REFUSED : DIFFERENT);
}
