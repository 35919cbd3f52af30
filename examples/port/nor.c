/* The library's three functions, for a serial NOR flash: see nor.h. Each answers 0 only once the status has said that the chip isn't busy. Where the chip is
 * still busy after its longest time, where the bus fails, or where the chip doesn't take the command, they answer 1, and the library's call answers -7. */
#include "nor.h"
#include <floatstore_driver.h>
#include <string.h>

/* The chip's longest times, by its data sheet, doubled; and how long to wait before the status is asked again. */
#define PROGRAM_US 10000u
#define ERASE_US 1000000u
#define POLL_US 100u

enum { PROGRAM = 0x02, READ = 0x03, STATUS = 0x05, ENABLE = 0x06, ERASE = 0x20 };
enum { BUSY = 0x01, LATCH = 0x02, PROTECTED = 0x3C }; /* bits of the status */

static int status(struct nor *nor, uint8_t *bits) {
    const uint8_t out[] = {STATUS};
    return nor_spi(nor->bus, out, sizeof out, bits, 1);
}

/* 0: the chip isn't busy, or no longer. It counts what it waits, so it ends whether or not a clock runs. */
static int ready(struct nor *nor, uint32_t us) {
    for (uint32_t waited = 0; waited <= us; waited += POLL_US) {
        uint8_t bits;
        if (status(nor, &bits)) return 1;
        if (!(bits & BUSY)) return 0;
        nor_wait(nor->bus, POLL_US);
    }
    return 1;
}

/* 0: the chip takes the next program or erase. Where there is no chip, the line reads as all ones, which is busy for ever, or as all zeros, which is no latch.
 * A chip whose blocks are protected would take the command and do nothing. */
static int enable(struct nor *nor) {
    const uint8_t out[] = {ENABLE};
    uint8_t bits;
    if (ready(nor, ERASE_US) || nor_spi(nor->bus, out, sizeof out, NULL, 0) || status(nor, &bits)) return 1;
    return (bits & (BUSY | LATCH | PROTECTED)) != LATCH;
}

static void begin(uint8_t out[4], uint8_t command, uint32_t at) {
    out[0] = command, out[1] = (uint8_t)(at >> 16), out[2] = (uint8_t)(at >> 8), out[3] = (uint8_t)at;
}

/* A processor may be reset while its chip works on: so a read waits too. */
int floatstore_chip_read(void *chip, uint32_t at, uint8_t *to, uint32_t len) {
    struct nor *nor = chip;
    uint8_t out[4];
    begin(out, READ, nor->base + at);
    return ready(nor, ERASE_US) || nor_spi(nor->bus, out, sizeof out, to, len);
}

int floatstore_chip_write(void *chip, uint32_t page, const uint8_t bytes[256]) {
    struct nor *nor = chip;
    uint8_t out[4 + 256];
    begin(out, PROGRAM, nor->base + 256 * page);
    memcpy(out + 4, bytes, 256);
    return enable(nor) || nor_spi(nor->bus, out, sizeof out, NULL, 0) || ready(nor, PROGRAM_US);
}

int floatstore_chip_erase(void *chip, uint32_t block) {
    struct nor *nor = chip;
    uint8_t out[4];
    begin(out, ERASE, nor->base + 4096 * block);
    return enable(nor) || nor_spi(nor->bus, out, sizeof out, NULL, 0) || ready(nor, ERASE_US);
}
