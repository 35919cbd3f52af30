/* qemu -M ast1030-evb: an Aspeed AST1030, Cortex-M4F, 768 KiB of memory at 0. The flash is at chip select 0 of the controller FMC, whose window lies at
 * 0x80000000: in user mode each byte written to or read from the window is one byte on the bus. The serial line is a 16550, its registers 4 apart. */
#include "board.h"
#include "nor.h"

#define FMC ((volatile uint32_t *)0x7E620000u)
#define WINDOW (*(volatile uint8_t *)0x80000000u)
#define UART ((volatile uint32_t *)0x7E784000u)
enum { CONF = 0, CE0 = 4 }; /* CONF, bit 16: the flash may be written to. CE0, bits 1:0: 3 is user mode; bit 2: not selected */

/* Three lines: select, send and receive, deselect. */
int nor_spi(void *bus, const uint8_t *out, size_t out_len, uint8_t *in, size_t in_len) {
    (void)bus;
    FMC[CONF] |= 1u << 16, FMC[CE0] = 3 | 4, FMC[CE0] = 3;
    while (out_len--) WINDOW = *out++;
    while (in_len--) *in++ = WINDOW;
    FMC[CE0] = 3 | 4;
    return 0;
}

void nor_wait(void *bus, uint32_t us) { (void)bus, (void)us; } /* the emulated chip is never busy */

void board_say(char c) {
    while (!(UART[5] & 0x20)) {}
    UART[0] = (uint8_t)c;
}

void board_reset(void) {
    __asm__ volatile("dsb" ::: "memory");
    *(volatile uint32_t *)0xE000ED0Cu = 0x05FA0004u;
    for (;;) {}
}

static void fault(void) {
    for (const char *p = "\nfault\n"; *p; p++) board_say(*p);
    for (;;) {}
}

extern uint32_t stack_top[];
void board_main(void);
__attribute__((section(".vectors"), used)) static const uintptr_t vectors[16] = {
    (uintptr_t)stack_top, (uintptr_t)board_main, (uintptr_t)fault, (uintptr_t)fault, (uintptr_t)fault, (uintptr_t)fault, (uintptr_t)fault,
};
