/* What the boards share: memory is set to 0, main is called, and printf speaks on the serial line. */
#include "board.h"
#include <stdio.h>

extern uint32_t bss_start[], bss_end[];
int main(void);

void board_main(void) {
    for (volatile uint32_t *p = bss_start; p < bss_end; p++) *p = 0;
    int status = main();
    printf("end %d\n", status);
    for (;;) {} /* the host ends the emulator, once it has written all of the chip's image */
}

static int say(char c, FILE *file) {
    (void)file;
    board_say(c);
    return (unsigned char)c;
}
static FILE line = FDEV_SETUP_STREAM(say, NULL, NULL, _FDEV_SETUP_WRITE);
FILE *const stdout = &line;
