/* qemu -M npcm750-evb: a Nuvoton NPCM750, Cortex-A9, memory at 0. The flash is at chip select 0 of the controller FIU0, which sends or receives a byte at a
 * time. The serial line is a 16550, its registers 4 apart. A reset is not played here. */
#include "board.h"
#include "nor.h"

#define FIU ((volatile uint32_t *)0xFB000000u)
#define UART ((volatile uint32_t *)0xF0001000u)
enum { CFG = 2, CTS = 3, CMD = 4, DR0 = 12 }; /* CTS, bit 0: go, and 0 when done; bit 16: not selected */

static void go(uint32_t what) {
    FIU[CFG] = what;
    FIU[CTS] = 1;
    while (FIU[CTS] & 1) {}
}

int nor_spi(void *bus, const uint8_t *out, size_t out_len, uint8_t *in, size_t in_len) {
    (void)bus;
    FIU[CTS] = 0;
    for (; out_len--; go(1u << 10)) FIU[CMD] = *out++;
    for (; in_len--; *in++ = (uint8_t)FIU[DR0]) go(1u << 24);
    FIU[CTS] = 1u << 16;
    return 0;
}

void nor_wait(void *bus, uint32_t us) { (void)bus, (void)us; } /* the emulated chip is never busy */

void board_say(char c) {
    while (!(UART[5] & 0x20)) {}
    UART[0] = (uint8_t)c;
}

void board_reset(void) {
    for (;;) {}
}

__attribute__((section(".vectors"), naked, used)) void reset(void) {
    __asm__ volatile("mrc p15, 0, r0, c0, c0, 5\nands r0, r0, #3\n1: bne 1b\nldr sp, =stack_top\nb board_main");
}
