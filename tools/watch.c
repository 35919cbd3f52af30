#include "watch.h"
#include <floatstore.h>
#include <stdlib.h>
#include <string.h>

int make_world(struct world *w, size_t blocks) {
    w->chip_len = FLOATSTORE_CHIP_LEN(blocks), w->work_len = FLOATSTORE_WORK_LEN(blocks), w->fuse = FLOATSTORE_NO_FAULT;
    w->chip = malloc(w->chip_len);
    w->work = calloc(w->work_len, sizeof *w->work);
    return w->chip && w->work;
}

void copy_world(struct world *to, const struct world *from) {
    memcpy(to->chip, from->chip, from->chip_len);
    memcpy(to->work, from->work, from->work_len * sizeof *to->work);
    to->chip_len = from->chip_len, to->work_len = from->work_len, to->fuse = from->fuse;
}

static int all_are(uint8_t byte, const uint8_t *at, size_t len) {
    for (size_t i = 0; i < len; i++)
        if (at[i] != byte) return 0;
    return 1;
}

/* Which piece of so many bytes differs. Answers 0 if none or several do. */
static int piece(size_t *at, const uint8_t *a, const uint8_t *b, size_t len, size_t size) {
    size_t many = 0;
    for (size_t i = 0; i < len / size; i++)
        if (memcmp(a + size * i, b + size * i, size) != 0) *at = i, many++;
    return many == 1;
}

/* The worlds that the watcher works in, made once for each size. */
static struct world whole, before, ones, zeros;

static int make_room(const struct world *w) {
    struct world *all[] = {&whole, &before, &ones, &zeros};
    if (whole.chip_len == w->chip_len && whole.work_len == w->work_len) return 1;
    for (size_t i = 0; i < 4; i++) {
        free(all[i]->chip);
        free(all[i]->work);
        if (!make_world(all[i], w->chip_len / FLOATSTORE_BLOCK)) return 0;
    }
    return 1;
}

/* Leaves the call in the worlds `ones` and `zeros`, cut at operation k with such noise. */
int watch_one(struct op *op, size_t k, call *c, const void *what, const struct world *w) {
    static uint8_t all_ones[FLOATSTORE_NOISE], all_zeros[FLOATSTORE_NOISE];
    memset(all_ones, 0xFF, sizeof all_ones);
    if (!make_room(w)) return 0;
    copy_world(&ones, w);
    copy_world(&zeros, w);
    ones.fuse = zeros.fuse = k;
    c(what, &ones, all_ones);
    c(what, &zeros, all_zeros);
    op->kind = WRITE;
    if (piece(&op->at, ones.chip, zeros.chip, w->chip_len, FLOATSTORE_PAGE)) return 1;
    op->kind = ERASE;
    if (!piece(&op->at, ones.chip, zeros.chip, w->chip_len, FLOATSTORE_BLOCK)) return 0;
    size_t at = FLOATSTORE_BLOCK * op->at;
    return all_are(0xFF, ones.chip + at, FLOATSTORE_BLOCK) && all_are(0, zeros.chip + at, FLOATSTORE_BLOCK);
}

/* What is wrong with an operation, by the chip before it. */
static const char *judge(const struct op *op, const uint8_t *chip, size_t len) {
    size_t at;
    int as_before = memcmp(chip, ones.chip, len) == 0;
    if (op->kind == WRITE && !as_before) return "a page was written that was not blank, or more than a page";
    if (op->kind == ERASE && !as_before && !(piece(&at, chip, ones.chip, len, FLOATSTORE_BLOCK) && at == op->at)) return "an erase changed more than a block";
    return NULL;
}

const char *watch(struct op *ops, size_t max, size_t *len, call *c, const void *what, const struct world *w) {
    static const uint8_t noise[FLOATSTORE_NOISE];
    if (!make_room(w)) return "there is no memory";
    copy_world(&whole, w);
    copy_world(&before, w);
    whole.fuse = FLOATSTORE_NO_FAULT;
    if (c(what, &whole, noise) < 0) return "a call is refused";
    *len = (size_t)(FLOATSTORE_NO_FAULT - whole.fuse);
    for (size_t k = 1; *len <= max && k <= *len; k++) {
        struct op *op = &ops[k - 1];
        if (!watch_one(op, k, c, what, w)) return "an operation is neither an erase nor the write of a page that was blank";
        const char *wrong = judge(op, before.chip, w->chip_len);
        if (wrong) return wrong;
        memcpy(before.chip, op->kind == WRITE ? zeros.chip : ones.chip, w->chip_len);
    }
    return *len <= max && memcmp(before.chip, whole.chip, w->chip_len) != 0 ? "a call left something else than its operations" : NULL;
}

void count_wear(struct wear *wear, const struct op *ops, size_t len) {
    for (size_t i = 0; i < len; i++)
        if (ops[i].kind == ERASE) wear->of[ops[i].at]++, wear->all++;
}
