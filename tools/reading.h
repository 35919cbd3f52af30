/* A chip read by docs/FORMAT.md alone, without the library: which page says what, where the ring stands, which map it is. */
#ifndef READING_H
#define READING_H

#include <stddef.h>
#include <stdint.h>

/* What a page is, as a character of the map. */
enum kind {
    BLANK = '.', /* all bytes 0xFF */
    LIVE = 'v', /* a value that its key has */
    OLD = 'o', /* a value that a later page of the log overrides, or one in the spare */
    NOTE = 'n', /* a note of a deletion */
    SEAL = '#', /* page 15 of a sealed block, sound */
    OTHER = '?', /* sound, and says nothing that this format knows */
    SPOILT = 'x' /* neither blank nor sound: a write or an erase was cut short */
};

struct reading {
    size_t blocks, head, spare, oldest, next; /* next: the place of the next record in the head, 15 if it is full */
    int is_ring, later; /* later: each block but the head and the spare is sealed */
    size_t keys; /* of the map */
    size_t of[128]; /* how many pages of each kind */
    char *kinds; /* of each page */
    uint8_t *newest; /* of each page: whether it is the last record of its key in the log */
};

int page_is_blank(const uint8_t *page);
int page_is_sound(const uint8_t *page);

/* Byte 0 of a page: its form, by which it is tested. */
enum form { FLIPPED = 1, COUNTED = 2 };

/* The flipped form: how many bits of a page agree with their copy, from which each must differ; and the first byte with one, 128 if there is none. */
size_t flip_disagreement(const uint8_t *page, size_t *first);

/* The count form: how many bits of the payload are 0, and how many its last two bytes say. */
size_t payload_zeros(const uint8_t *page);
size_t page_count(const uint8_t *page);

size_t page_spoilt_at(const uint8_t *page); /* of a spoilt page: the byte that start_seeing tells */
size_t longest_value(const uint8_t *page); /* by its form */

/* Reads a chip of an allowed size. Answers 0 where memory is short. */
int read_chip(struct reading *r, const uint8_t *chip, size_t blocks);
void forget_reading(struct reading *r);

/* 1 a value, 2 a note of a deletion, 0 nothing. */
int page_says(const uint8_t *page);
int block_is_sealed(const uint8_t *chip, size_t block);
size_t page_zeros(const uint8_t *page); /* how many of its bits are 0 */

/* A ring that the chip may have been: head and round, and how many bits must be wrong for that, a block counting for WHOLE at most, since a block that is
 * wrong throughout is one fault. 0 for the ring that start finds. */
enum { WHOLE = 64 };
enum looks { OPEN, FULL, EMPTY }; /* a head: some pages written, then blank ones; none blank; all blank, which it is but for a moment */
struct guess {
    size_t head, cost;
    int later;
    enum looks looks;
};

/* All 2 B guesses, best first: by cost, then by looks, then later rounds; in the first round the later head, since a seal is lost more easily than a
 * block is made. */
void guess_rings(struct guess *all, const uint8_t *chip, size_t blocks);
size_t block_cost(const struct guess *g, const uint8_t *chip, size_t blocks, size_t block); /* what the block adds to the cost */

/* Reads a chip as if its ring were the guessed one. Answers 0 where memory is short. */
int read_as(struct reading *r, const uint8_t *chip, size_t blocks, const struct guess *g);

/* The place of a page in the log, oldest first, from 0; the spare's pages come before all others, and are not of the log. */
size_t log_place(const struct reading *r, size_t page);
size_t log_page(const struct reading *r, size_t place); /* the other way */

/* "head", "spare", "oldest", "sealed" or "unused": what a block is to the ring. */
const char *block_role(const struct reading *r, const uint8_t *chip, size_t block);

#endif
