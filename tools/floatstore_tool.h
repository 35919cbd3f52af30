/* What the parts of the tool share: the image in memory, the options, bytes as words, and the ways to end. */
#ifndef FLOATSTORE_TOOL_H
#define FLOATSTORE_TOOL_H

#include "reading.h"
#include <floatstore.h>
#include <stddef.h>
#include <stdint.h>
#include <stdio.h>

/* How the tool ends. */
enum { DONE = 0, REFUSED = 1, MISUSED = 2, DAMAGED = 3, DIFFERENT = 4 };

/* One line on standard error, and the end. */
_Noreturn void die(int status, const char *form, ...) __attribute__((format(printf, 2, 3)));

struct options {
    const char *svg, *noise;
    uint64_t cut, offset, blocks;
    int raw, force, json, csv;
};
extern struct options option;

/* ---- an image in memory */

struct image {
    const char *name;
    int file; /* open and locked, as long as the tool runs; -1 if none */
    uint8_t *chip, *was; /* was: the bytes as they are in the file */
    uint8_t noise[FLOATSTORE_NOISE];
    uint32_t *work;
    size_t blocks, len, words;
    uint64_t fuse;
};
extern struct image image;

enum purpose { TO_READ, TO_CHANGE };
void load(const char *name, enum purpose why);
void save(void); /* the image, in place */
void make_image(const char *name, size_t blocks); /* a new file; saved by save_new */
void save_new(void);
void save_picture(const char *name, const char *text, size_t len);

const char *refusal_words(int64_t number);
int64_t done(int64_t answer); /* the answer, or the end in words */
void start(void);
int64_t get(const uint8_t *key, size_t key_len, uint8_t *buffer, size_t len);
int64_t put(const uint8_t *key, size_t key_len, const uint8_t *value, size_t len);
int64_t next(const uint8_t *key, size_t key_len, uint8_t *buffer, size_t len);
int64_t count(void);
void read_image(struct reading *r);
void read_guess(struct reading *r, const struct guess *g);

/* ---- bytes as words: text, or hex digits after 'hex:' */

struct bytes {
    size_t len;
    uint8_t *at;
};
void *room_for(size_t len); /* memory, or the end */
struct bytes bytes_of(const char *word);
struct bytes value_of(const char *word); /* or '-', standard input, or @FILE */
struct bytes all_of(const char *name); /* the bytes of a file, or of standard input for '-' */
void show(const uint8_t *at, size_t len);
uint64_t number_of(const char *word, const char *what);

/* ---- a map as text */

typedef void entry(const uint8_t *key, size_t key_len, const uint8_t *value, size_t len);
void begin_entries(void);
entry write_entry;
void end_entries(void);
void read_entries(struct bytes text, entry *each);

/* ---- the commands that have a file of their own */

void do_check(int argc, char **argv);
void do_map(int argc, char **argv);
void do_salvage(int argc, char **argv);
void do_dump(int argc, char **argv);
void do_diff(int argc, char **argv);
void do_history(int argc, char **argv);

/* Which rule of the ring a chip breaks, or that it has too many keys: what start means by 8. In at most one line, without its end. */
void print_faults(FILE *out, const struct reading *r);
void print_record(const uint8_t *page); /* key and value, or key and 'deleted' */

#endif
