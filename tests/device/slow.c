/* examples/port/nor.c on a chip that takes its time, as the emulated one never does. The chip is one by the data sheet: busy after a program and an erase, when
 * it takes no command but 0x05; its latch falls with each; and it can hang, be away, be protected or lose its bus. And examples/port/firmware.c there, whose main is
 * called firmware and whose printf heard: whichever transaction fails, it keeps what it is given. Exit status 0: nothing is wrong. */
#undef main
#undef printf
#include "nor.h"
#include <floatstore_driver.h>
#include <stdarg.h>
#include <stdio.h>
#include <string.h>

enum { BASE = 4096, LEN = 0x120000 };
enum broken { WELL, HANGS, ONES, ZEROS, PROTECTED, BUS };

static struct {
    uint8_t bytes[LEN];
    uint32_t busy, program, erase; /* microseconds: for how long it still is, and how long each takes */
    int latch;
    enum broken broken;
    uint64_t clock;
    unsigned ignored; /* commands, while it was busy */
    unsigned transactions, fail_at; /* so many were asked for; this one fails */
} chip;

static uint8_t status_bits(void) { return (uint8_t)((chip.busy > 0) | chip.latch << 1 | (chip.broken == PROTECTED ? 0x0C : 0)); }

static void program(uint32_t at, const uint8_t *bytes, size_t len) {
    for (size_t i = 0; i < len; i++) chip.bytes[(at & ~255u) + ((at + i) & 255)] &= bytes[i];
    chip.busy = chip.program;
}

static void erase(uint32_t at) {
    memset(chip.bytes + (at & ~4095u), 0xFF, 4096);
    chip.busy = chip.erase;
}

static void answer(const uint8_t *out, size_t out_len, uint8_t *in, size_t in_len) {
    uint32_t at = out_len >= 4 ? ((uint32_t)out[1] << 16 | (uint32_t)out[2] << 8 | out[3]) % LEN : 0;
    if (out[0] == 0x05) memset(in, status_bits(), in_len);
    else if (chip.busy) chip.ignored++;
    else if (out[0] == 0x06) chip.latch = 1;
    else if (out[0] == 0x03) memcpy(in, chip.bytes + at, in_len);
    else if (chip.latch && chip.broken != PROTECTED && out[0] == 0x02) program(at, out + 4, out_len - 4);
    else if (chip.latch && chip.broken != PROTECTED && out[0] == 0x20) erase(at);
    if (out[0] == 0x02 || out[0] == 0x20) chip.latch = 0;
}

int nor_spi(void *bus, const uint8_t *out, size_t out_len, uint8_t *in, size_t in_len) {
    (void)bus;
    if (chip.broken == BUS || ++chip.transactions == chip.fail_at) return 1;
    if (chip.broken == ONES || chip.broken == ZEROS) {
        if (in_len) memset(in, chip.broken == ONES ? 0xFF : 0, in_len);
    } else {
        answer(out, out_len, in, in_len);
    }
    return 0;
}

void nor_wait(void *bus, uint32_t us) {
    (void)bus;
    chip.clock += us;
    if (chip.broken != HANGS) chip.busy -= us < chip.busy ? us : chip.busy;
}

static struct nor nor = {.bus = NULL, .base = BASE};
static uint8_t page[256], back[256];
static int checks, wrong;

static void check(int holds, const char *what) {
    checks++;
    if (!holds) wrong++, printf("WRONG: %s\n", what);
}

static void renew(enum broken broken) {
    memset(&chip, 0, sizeof chip);
    memset(chip.bytes, 0xFF, LEN);
    chip.program = 700, chip.erase = 45000, chip.broken = broken;
}

/* A program and an erase that take so long. */
static void takes_its_time(uint32_t program_us, uint32_t erase_us) {
    renew(WELL);
    chip.program = program_us, chip.erase = erase_us;
    check(floatstore_chip_write(&nor, 5, page) == 0 && chip.busy == 0 && chip.clock >= program_us, "a write answers 0 once the chip isn't busy");
    check(memcmp(chip.bytes + BASE + 5 * 256, page, 256) == 0, "the page stands where it should");
    chip.clock = 0;
    check(floatstore_chip_erase(&nor, 0) == 0 && chip.busy == 0 && chip.clock >= erase_us, "an erase answers 0 once the chip isn't busy");
    check(chip.bytes[BASE + 5 * 256] == 0xFF, "the block is erased");
    memcpy(chip.bytes + BASE + 4096, page, 256);
    chip.busy = erase_us; /* the processor was reset during an erase */
    check(floatstore_chip_read(&nor, 4096, back, 256) == 0 && memcmp(back, page, 256) == 0, "a read waits until the chip isn't busy");
    check(chip.ignored == 0, "nothing is asked of a busy chip but its status");
}

static void fails(enum broken broken, const char *what) {
    renew(broken);
    check(floatstore_chip_write(&nor, 0, page) != 0 && floatstore_chip_erase(&nor, 0) != 0, what);
    check(chip.clock < 3000000, "it ends");
    check(broken == ZEROS || broken == PROTECTED || broken == HANGS || floatstore_chip_read(&nor, 0, back, 256) != 0, what);
}

/* ---- the page of firmware */

int firmware(void);
int heard(const char *form, ...);
static char said[256];
int heard(const char *form, ...) {
    va_list words;
    size_t at = strlen(said);
    va_start(words, form);
    int n = vsnprintf(said + at, sizeof said - at, form, words);
    va_end(words);
    return n;
}

static int dives(const char *want) {
    said[0] = 0;
    return firmware() == 0 && strcmp(said, want) == 0;
}

/* One transaction fails: the firmware makes its dive all the same, and the next one goes on from there. */
static void goes_on(void) {
    static const char *const first = "dive 1 to 1000 m\n2 keys have a value\n", *const second = "dive 2 to 1250 m\n2 keys have a value\n";
    renew(WELL);
    check(dives(first) && dives(second), "the page of firmware says what it should");
    unsigned all = chip.transactions, kept = 0;
    for (unsigned i = 1; i <= all; i++) {
        renew(WELL);
        chip.fail_at = i;
        kept += dives(first) && dives(second);
    }
    check(all > 100 && kept == all, "the page of firmware keeps what it is given, whichever transaction fails");
}

int main(void) {
    for (int i = 0; i < 256; i++) page[i] = (uint8_t)(i * 7);
    takes_its_time(700, 45000);
    takes_its_time(5000, 400000);
    fails(HANGS, "a chip that stays busy is a failure");
    fails(ONES, "a line that reads as ones is a failure");
    fails(ZEROS, "a line that reads as zeros is a failure of a write and of an erase");
    fails(PROTECTED, "a chip that is protected is a failure");
    fails(BUS, "a bus that fails is a failure");
    renew(HANGS);
    chip.busy = 1;
    check(floatstore_chip_read(&nor, 0, back, 32) != 0, "a read of a chip that stays busy is a failure");
    goes_on();
    if (!wrong) printf("nor.c and firmware.c on a chip that takes its time: %d checks\n", checks);
    return wrong != 0;
}
