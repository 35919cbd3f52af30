/* The board where there is a system: the program that the others are compared with. */
#include "board.h"
#include <stdio.h>

void say(const char *text) { fputs(text, stdout); }
void board_save(const char *name, const void *bytes, uint32_t len) {
    FILE *f = fopen(name, "wb");
    if (!f || fwrite(bytes, 1, len, f) != len || fclose(f)) puts("the file was not written");
}
void board_paint(void) {}
uint32_t board_depth(void) { return 0; }
int main(void) { return work(); }
