/* nor.h: Floatstore's chip behind a serial line. For any serial NOR flash with these commands, addresses of 3 bytes, and pages of 256:
 * read 0x03, page program 0x02, sector erase 0x20 (4,096 bytes), write enable 0x06, read status 0x05. Nearly all of today have them; its data sheet says.
 *
 * nor.c has the three functions that floatstore_driver.h asks for, firmware.c is a page that uses them. Your board brings nor_spi and nor_wait. */
#ifndef NOR_H
#define NOR_H

#include <stddef.h>
#include <stdint.h>

/* What is lent to the library as `chip`. */
struct nor {
    void *bus; /* your board's own, handed to the two functions below and not looked at here */
    uint32_t base; /* the first byte of the store on the chip, a multiple of 4,096 */
};

/* Select the chip, send out_len bytes, receive in_len bytes, deselect: three lines on most boards (tests/device/ast1030.c has one). 0: done. */
int nor_spi(void *bus, const uint8_t *out, size_t out_len, uint8_t *in, size_t in_len);

/* At least so many microseconds go by: sleep, or let other tasks run. */
void nor_wait(void *bus, uint32_t us);

#endif
