/* What the tests ask of an emulated board, beside nor_spi and nor_wait of examples/port/nor.h. The board calls main, and spins where it ends. */
#ifndef BOARD_H
#define BOARD_H

#include <stdint.h>

void board_say(char c); /* a character out on the serial line; printf goes there too */
void board_reset(void); /* the processor begins anew, the flash and the memory of the section .kept stay */

#endif
