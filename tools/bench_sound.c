/* How long the test of a page and the making of one take, beside the same in plain C (compiled by clang -O2, like this file): in turns, in one run, processor time, the least
 * of several rounds. Of 64 sound pages that differ, so that they stand in the cache and no two tests are the same. */
#define _POSIX_C_SOURCE 200809L
#include <stdbool.h>
#include <stddef.h>
#include <stdint.h>
#include <stdio.h>
#include <stdlib.h>
#include <string.h>
#include <time.h>

enum { PAGES = 64, ROUNDS = 200, TIMES = 2000, FLIPPED = 1, COUNTED = 2 };

bool measured_is_sound(const uint8_t *page);
void measured_fill(uint8_t *page, size_t used);

/* ---- plain C */

/* Eight bytes at a time. */
static bool flipped_by_words(const uint8_t *page) {
    uint64_t apart = 0;
    for (size_t i = 0; i < 128; i += 8) {
        uint64_t word, copy;
        memcpy(&word, page + i, 8);
        memcpy(&copy, page + 128 + i, 8);
        apart |= word ^ ~copy;
    }
    return apart == 0;
}

static bool flipped_by_bytes(const uint8_t *page) {
    uint8_t apart = 0;
    for (size_t i = 0; i < 128; i++) apart |= (uint8_t)(page[i] ^ page[128 + i] ^ 255);
    return apart == 0;
}

/* Eight bytes at a time, and the last six one by one. */
static unsigned zeros_by_words(const uint8_t *page) {
    unsigned ones = 0;
    for (size_t i = 0; i < 248; i += 8) {
        uint64_t word;
        memcpy(&word, page + i, 8);
        ones += (unsigned)__builtin_popcountll(word);
    }
    for (size_t i = 248; i < 254; i++) ones += (unsigned)__builtin_popcount(page[i]);
    return 2032 - ones;
}

static unsigned zeros_by_bytes(const uint8_t *page) {
    unsigned ones = 0;
    for (size_t i = 0; i < 254; i++) ones += (unsigned)__builtin_popcount(page[i]);
    return 2032 - ones;
}

static bool is_sound(const uint8_t *page, bool flipped(const uint8_t *), unsigned zeros(const uint8_t *)) {
    if (page[0] == COUNTED) return 256u * page[254] + page[255] == zeros(page);
    return page[0] == FLIPPED && flipped(page);
}

static void fill(uint8_t *page, unsigned zeros(const uint8_t *)) {
    unsigned n = zeros(page);
    page[254] = (uint8_t)(n / 256);
    page[255] = (uint8_t)(n % 256);
}

/* as the other side has them: called, with a page whose length the type says */
__attribute__((noinline)) static bool words_is_sound(const uint8_t *page) { return is_sound(page, flipped_by_words, zeros_by_words); }
__attribute__((noinline)) static bool bytes_is_sound(const uint8_t *page) { return is_sound(page, flipped_by_bytes, zeros_by_bytes); }
__attribute__((noinline)) static void words_fill(uint8_t *page, size_t used) {
    if (used <= 254) fill(page, zeros_by_words);
}
__attribute__((noinline)) static void bytes_fill(uint8_t *page, size_t used) {
    if (used <= 254) fill(page, zeros_by_bytes);
}

/* ---- the pages */

static uint8_t pages[PAGES][256];

static void make_pages(uint8_t form) {
    uint32_t x = 1;
    for (size_t p = 0; p < PAGES; p++) {
        for (size_t i = 1; i < 254; i++) pages[p][i] = (uint8_t)((x = x * 1103515245u + 12345u) >> 24);
        pages[p][0] = form;
        for (size_t i = 0; form == FLIPPED && i < 128; i++) pages[p][128 + i] = (uint8_t)~pages[p][i];
        if (form == COUNTED) fill(pages[p], zeros_by_bytes);
    }
}

/* ---- the measure */

static double seconds(void) {
    struct timespec t;
    clock_gettime(CLOCK_PROCESS_CPUTIME_ID, &t);
    return (double)t.tv_sec + 1e-9 * (double)t.tv_nsec;
}

static void check(bool right) {
    if (right) return;
    puts("a page is judged or made otherwise than it should be");
    exit(1);
}

/* Nanoseconds a page. */
static double time_tests(bool test(const uint8_t *)) {
    size_t sound = 0;
    double t = seconds();
    for (size_t n = 0; n < TIMES; n++)
        for (size_t p = 0; p < PAGES; p++) sound += test(pages[p]);
    t = seconds() - t;
    check(sound == (size_t)TIMES * PAGES);
    return 1e9 * t / (TIMES * PAGES);
}

/* All 254 bytes are used; the count isn't there yet. */
static double time_fills(void make(uint8_t *, size_t)) {
    double t = seconds();
    for (size_t n = 0; n < TIMES; n++)
        for (size_t p = 0; p < PAGES; p++) {
            pages[p][254] = pages[p][255] = 0;
            make(pages[p], 254);
        }
    t = seconds() - t;
    for (size_t p = 0; p < PAGES; p++) check(bytes_is_sound(pages[p]));
    return 1e9 * t / (TIMES * PAGES);
}

static void keep_least(double *least, double t) {
    if (t < *least) *least = t;
}

static void print_ratios(const char *what, const double *least) {
    printf("%s: %.1f ns; in C by words %.1f ns: %.2f; byte by byte %.1f ns: %.2f\n", what, least[0], least[1], least[0] / least[1], least[2], least[0] / least[2]);
}

static void compare_tests(const char *what, uint8_t form) {
    bool (*tests[3])(const uint8_t *) = {measured_is_sound, words_is_sound, bytes_is_sound};
    double least[3] = {1e9, 1e9, 1e9};
    make_pages(form);
    for (int round = 0; round < ROUNDS; round++)
        for (int i = 0; i < 3; i++) keep_least(&least[i], time_tests(tests[i]));
    print_ratios(what, least);
    pages[PAGES - 1][200] ^= 16;
    for (int i = 0; i < 3; i++) check(!tests[i](pages[PAGES - 1]));
}

static void compare_fills(const char *what) {
    void (*makes[3])(uint8_t *, size_t) = {measured_fill, words_fill, bytes_fill};
    double least[3] = {1e9, 1e9, 1e9};
    make_pages(COUNTED);
    for (int round = 0; round < ROUNDS; round++)
        for (int i = 0; i < 3; i++) keep_least(&least[i], time_fills(makes[i]));
    print_ratios(what, least);
}

int main(void) {
    compare_tests("is it sound, the flipped copy", FLIPPED);
    compare_tests("is it sound, the count", COUNTED);
    compare_fills("made, the count");
    return 0;
}
