/* The crash laboratory (lab.c), for the programs that bring it a store: stores.c and driven.c. */
#ifndef LAB_H
#define LAB_H

#include "watch.h"
#include <floatstore.h>
#include <stddef.h>
#include <stdint.h>

#ifndef LAB_BLOCKS
#define LAB_BLOCKS 16 /* the largest chip that is tried. Where it is another, all are of that size */
#endif
enum { MAX_B = LAB_BLOCKS, ROOM = 8 * (MAX_B - 2), KEYS = ROOM + 8 };

/* The model of the map: keys are numbered, in their order. */
struct entry {
    uint8_t has, len, value[FLOATSTORE_MAX_VALUE];
};
struct map {
    struct entry of[KEYS];
    size_t count;
};
struct change {
    size_t key;
    struct entry to; /* what the key has afterwards */
};

/* A store that is tried. */
struct store {
    int64_t (*format)(uint8_t *, size_t, uint32_t *, size_t, uint64_t *, const uint8_t *);
    int64_t (*start)(const uint8_t *, size_t, uint32_t *, size_t, const uint64_t *);
    int64_t (*put)(uint8_t *, size_t, uint32_t *, size_t, uint64_t *, const uint8_t *, const uint8_t *, size_t, const uint8_t *, size_t);
    int64_t (*get)(const uint8_t *, size_t, const uint32_t *, size_t, const uint64_t *, const uint8_t *, size_t, uint8_t *, size_t);
    int64_t (*delete)(uint8_t *, size_t, uint32_t *, size_t, uint64_t *, const uint8_t *, const uint8_t *, size_t);
    int64_t (*count)(const uint8_t *, size_t, const uint32_t *, size_t, const uint64_t *);
    int64_t (*next)(const uint8_t *, size_t, const uint32_t *, size_t, const uint64_t *, const uint8_t *, size_t, uint8_t *, size_t); /* may be none */
    int64_t (*start_seeing)(const uint8_t *, size_t, uint32_t *, size_t, const uint64_t *, struct floatstore_seen *); /* the same */
    void (*also)(const struct world *, const struct map *, const struct change *); /* what else is tried before each change, on copies; may be none */
    const struct store *earlier; /* one that writes chips as version 0.9.0 did, which this one must take over; may be none */
    int bears_lies; /* whether it may be lent an area of lies: a twin may not */
};

extern const struct store library; /* the proved one, on a chip in memory */

/* Histories on the store for so many seconds, from number `first` on (NULL: 1), and a report. They are the same on every machine. Answers the exit status: 0,
 * nothing found. What is found ends the program with 1. */
int laboratory(const char *name, const struct store *tried, const char *seconds, const char *first);
void found(const char *form, ...);

/* Chance, of this history. */
uint32_t draw(uint32_t below);

/* The calls of the store that is tried. */
int64_t start(struct world *w);
int64_t count(struct world *w);
int64_t get(struct world *w, size_t key, uint8_t *buffer, size_t len);
int64_t run(struct world *w, const struct change *c, const uint8_t *noise);

size_t key_of(size_t i, uint8_t *key);
void make(struct map *m, const struct change *c);

/* Whether the store says of each key what the map says, and gives the map's keys in a walk. */
int same(struct world *w, const struct map *m);

/* The first words of the work area (crates/lent); from word 16 on stands the index. */
enum { MARK_WORD, HEAD_WORD, NEXT_WORD, KEYS_WORD, PASSED_WORD, WORDS, INDEX_WORD = 16 };

/* What a put (or a delete: no value) did to a chip, on which `before` stood, with an area that began so: it answered, and left so much of the fuse. The other store must do
 * the same, and put down the same words. Its area is made by a start of its own, but for the cursor: that is where the history has brought it. */
struct did {
    const uint8_t *before, *chip, *noise, *key, *value;
    size_t len, key_len, value_len;
    uint64_t fuse, left;
    int64_t answer;
    const uint32_t *work; /* as the call left it */
    uint32_t passed; /* before the call */
};
void mirror(const struct store *other, const struct did *d);

#endif
