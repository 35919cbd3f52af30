/* The longest call and the mean one, beside those of an earlier build of the library, linked in under the names floatstore_before_*: erases, page writes, and the
 * time that a chip takes for them. On blank chips keys are put in turn until the store is full, or half full; then so many times as there are pages in four rounds of
 * the ring, in turn, in no order, or one and the same key. The longest is of all those puts, the mean of the last half. The fuse counts a put's erases and writes; an
 * opening moves the head, which is word 1 of the work area, and erases a block once the ring has gone round. Then chips of the earlier library are taken over. */
#include "chance.h"
#include "letters.h"
#include <floatstore.h>
#include <stdio.h>
#include <stdlib.h>
#include <string.h>

int64_t floatstore_before_start(const uint8_t *, size_t, uint32_t *, size_t, const uint64_t *);
int64_t floatstore_before_put(uint8_t *, size_t, uint32_t *, size_t, uint64_t *, const uint8_t *, const uint8_t *, size_t, const uint8_t *, size_t);

enum { BEFORE, AFTER, LIBRARIES };
static const struct library {
    int64_t (*start)(const uint8_t *, size_t, uint32_t *, size_t, const uint64_t *);
    int64_t (*put)(uint8_t *, size_t, uint32_t *, size_t, uint64_t *, const uint8_t *, const uint8_t *, size_t, const uint8_t *, size_t);
} libraries[LIBRARIES] = {{floatstore_before_start, floatstore_before_put}, {floatstore_start, floatstore_put}};

enum { IN_TURN, IN_NO_ORDER, ONE_KEY, WAYS };
static const char *const ways[WAYS] = {"in turn", "in no order", "one key"};

static double erase_ms, page_ms;

struct cost {
    uint64_t erases, writes;
};
static double ms(double erases, double writes) { return erase_ms * erases + page_ms * writes; }

static void print_time(double t) {
    if (t < 1000) printf(" %.1f ms |", t);
    else printf(" %.1f s |", t / 1000);
}

struct store {
    const struct library *library;
    uint8_t *chip;
    uint32_t *work;
    size_t blocks, len, words, opened;
};

static struct cost put(struct store *s, size_t i) {
    static const uint8_t noise[FLOATSTORE_NOISE], value[96];
    uint8_t key[LETTERS];
    uint64_t fuse = FLOATSTORE_NO_FAULT;
    struct cost c = {0, 0};
    size_t head = s->work[1];
    letters(key, (uint32_t)i * 2654435761u);
    if (s->library->put(s->chip, s->len, s->work, s->words, &fuse, noise, key, sizeof key, value, sizeof value) != 0) puts("a put is refused"), exit(1);
    for (; head != s->work[1]; head = (head + 1) % s->blocks) c.erases += s->opened++ >= s->blocks - 2;
    c.writes = FLOATSTORE_NO_FAULT - fuse - c.erases;
    return c;
}

static void measure(struct store *s, size_t keys, int way) {
    struct cost worst = {0, 0}, sum = {0, 0};
    size_t calls = 4 * 15 * s->blocks, counted = calls / 2;
    uint64_t fuse = FLOATSTORE_NO_FAULT;
    memset(s->chip, 0xFF, s->len);
    if (s->library->start(s->chip, s->len, s->work, s->words, &fuse) != 0) puts("a start is refused"), exit(1);
    s->opened = 0, chance_state = 1;
    for (size_t i = 0; i < keys + calls; i++) {
        struct cost c = put(s, i < keys || way == IN_TURN ? i % keys : way == IN_NO_ORDER ? chance((uint32_t)keys) : 0);
        if (ms((double)c.erases, (double)c.writes) > ms((double)worst.erases, (double)worst.writes)) worst = c;
        if (i >= keys + calls - counted) sum.erases += c.erases, sum.writes += c.writes;
    }
    double erases = (double)sum.erases / (double)counted, writes = (double)sum.writes / (double)counted;
    printf(" %llu + %llu |", (unsigned long long)worst.erases, (unsigned long long)worst.writes);
    print_time(ms((double)worst.erases, (double)worst.writes));
    printf(" %.3f + %.2f |", erases, writes);
    print_time(ms(erases, writes));
}

static void compare(size_t blocks, size_t share, int way) {
    size_t keys = FLOATSTORE_ROOM(blocks) / share;
    printf("| %zu | %zu | %s |", blocks, keys, ways[way]);
    for (int i = 0; i < LIBRARIES; i++) {
        struct store s = {&libraries[i], NULL, NULL, blocks, FLOATSTORE_CHIP_LEN(blocks), FLOATSTORE_WORK_LEN(blocks), 0};
        s.chip = malloc(s.len), s.work = calloc(s.words, sizeof *s.work);
        if (!s.chip || !s.work) puts("no memory"), exit(1);
        measure(&s, keys, way);
        free(s.chip), free(s.work);
    }
    puts("");
}

/* A chip that the earlier library filled, and on which it put one key until there were `left` places before an opening whose oldest blocks have nothing but live
 * values. Then the new one takes it over, and puts that key on until its cleaning has caught up: the cursor, word 4, is as far before the next place, word 2, as it may be.
 * Answers how many puts that took. */
static size_t catch_up(struct store *s, size_t left, struct cost *worst) {
    size_t room = FLOATSTORE_ROOM(s->blocks), calls = 0;
    uint64_t fuse = FLOATSTORE_NO_FAULT;
    memset(s->chip, 0xFF, s->len);
    s->library = &libraries[BEFORE], s->opened = 0;
    for (int i = 0; i < LIBRARIES; i++) {
        s->library = &libraries[i];
        if (s->library->start(s->chip, s->len, s->work, s->words, &fuse) != 0) puts("a start is refused"), exit(1);
        for (size_t j = 0; i == BEFORE && j < 15 * (s->blocks - 1) - left; j++) put(s, j < room ? j : 0);
    }
    for (; s->work[4] + 1 < s->work[2] + s->blocks - 2; calls++) {
        struct cost c = put(s, 0);
        if (ms((double)c.erases, (double)c.writes) > ms((double)worst->erases, (double)worst->writes)) *worst = c;
    }
    return calls;
}

static void take_over(size_t blocks) {
    struct store s = {NULL, NULL, NULL, blocks, FLOATSTORE_CHIP_LEN(blocks), FLOATSTORE_WORK_LEN(blocks), 0};
    struct cost worst = {0, 0};
    size_t most = 0;
    s.chip = malloc(s.len), s.work = calloc(s.words, sizeof *s.work);
    if (!s.chip || !s.work) puts("no memory"), exit(1);
    for (size_t left = 0; left < 4 * blocks; left += 1 + left / 8) {
        size_t calls = catch_up(&s, left, &worst);
        if (calls > most) most = calls;
    }
    printf("| %zu | %zu | %llu + %llu |", blocks, most, (unsigned long long)worst.erases, (unsigned long long)worst.writes);
    print_time(ms((double)worst.erases, (double)worst.writes));
    puts("");
    free(s.chip), free(s.work);
}

int main(int argc, char **argv) {
    static const size_t sizes[] = {16, 512, 2048, 4096};
    erase_ms = argc > 1 ? atof(argv[1]) : 45, page_ms = argc > 2 ? atof(argv[2]) : 0.7;
    puts("| blocks | keys | put | before, longest: erases + writes | it takes | mean: erases + writes | it takes | after, longest | it takes | mean | it takes |");
    puts("|---|---|---|---|---|---|---|---|---|---|---|");
    for (size_t i = 0; i < sizeof sizes / sizeof *sizes; i++)
        for (size_t share = 1; share <= 2; share++)
            for (int way = 0; way < WAYS; way++) compare(sizes[i], share, way);
    puts("\nA full chip of the earlier library, taken over at the worst moment:\n\n| blocks | puts until its cleaning has caught up | the longest of them: erases + writes | it takes |");
    puts("|---|---|---|---|");
    for (size_t i = 0; i < sizeof sizes / sizeof *sizes; i++) take_over(sizes[i]);
    return 0;
}
