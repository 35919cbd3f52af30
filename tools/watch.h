/* What a call does to the chip, seen from outside, by cutting it at each operation on two copies of the chip: with noise of all ones and of all zeros. By docs/FAULTS.md
 * ones leave a write undone and an erase done; zeros complete a write, and leave a block of zeros in the place of an erase. So the two copies differ in the page that was
 * written, or in all bytes of the block that was erased. */
#ifndef WATCH_H
#define WATCH_H

#include <floatstore.h>
#include <stddef.h>
#include <stdint.h>

struct op {
    enum { ERASE, WRITE } kind;
    size_t at; /* the block, or the page */
};

struct world {
    uint8_t *chip;
    uint32_t *work;
    uint64_t fuse;
    size_t chip_len, work_len;
};

/* A put or a delete, as the watcher calls it again and again. */
typedef int64_t call(const void *what, struct world *w, const uint8_t *noise);

int make_world(struct world *w, size_t blocks);
void copy_world(struct world *to, const struct world *from);

/* The k-th operation that a call would do on a store that stays as it is. Answers whether it is an erase or a write at all. */
int watch_one(struct op *op, size_t k, call *c, const void *what, const struct world *w);

/* All its operations; *len may exceed max, and then none are seen. Answers NULL, or what is wrong with them: one that is neither an erase nor the write of a page
 * that was blank, or one that touches more than its block or page. */
const char *watch(struct op *ops, size_t max, size_t *len, call *c, const void *what, const struct world *w);

/* Erases, by block and in all. */
struct wear {
    size_t of[FLOATSTORE_MAX_BLOCKS], all;
};
void count_wear(struct wear *wear, const struct op *ops, size_t len);

#endif
