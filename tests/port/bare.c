/* The boards mps2-an386, mps2-an505 (Cortex-M) and virt (RISC-V) of qemu, without a C library: start-up, semihosting, the painted stack, and the four functions
 * that the library and gcc ask for. */
#include "board.h"

extern uint32_t stack_top[], bss_start[], bss_end[]; /* board.ld */

static uint32_t host(uint32_t operation, const void *words) {
#ifdef __riscv
    register uint32_t a0 __asm__("a0") = operation;
    register const void *a1 __asm__("a1") = words;
    __asm__ volatile(".option push\n.option norvc\n.balign 16\nslli x0, x0, 0x1f\nebreak\nsrai x0, x0, 7\n.option pop" : "+r"(a0) : "r"(a1) : "memory");
    return a0;
#else
    register uint32_t r0 __asm__("r0") = operation;
    register const void *r1 __asm__("r1") = words;
    __asm__ volatile("bkpt 0xab" : "+r"(r0) : "r"(r1) : "memory");
    return r0;
#endif
}

void say(const char *text) { host(0x04, text); }

static void stop(int status) {
    uint32_t words[2] = {0x20026u, (uint32_t)status};
    for (;;) host(0x20, words);
}

void board_save(const char *name, const void *bytes, uint32_t len) {
    uint32_t n = 0;
    while (name[n]) n++;
    uint32_t open[3] = {(uint32_t)(uintptr_t)name, 5 /* wb */, n};
    uint32_t file = host(0x01, open);
    uint32_t write[3] = {file, (uint32_t)(uintptr_t)bytes, len};
    if (file == 0xFFFFFFFFu || host(0x05, write) != 0) say("the file was not written\n");
    host(0x02, &file);
}

#define PAINT 0x5AFE57ACu
#define OWN_FRAME 16 /* words: the painter's own frame is left alone */
#define PAINTED 1536 /* words: a call that takes more is told as taking all of these */
static volatile uint32_t *painted_to;
__attribute__((noinline)) void board_paint(void) {
    uint32_t here;
    painted_to = (uint32_t *)((uintptr_t)&here & ~(uintptr_t)15) - OWN_FRAME;
    for (volatile uint32_t *p = painted_to - PAINTED; p < painted_to; p++) *p = PAINT;
}
__attribute__((noinline)) uint32_t board_depth(void) {
    volatile uint32_t *p = painted_to - PAINTED;
    while (p < painted_to && *p == PAINT) p++;
    return (uint32_t)((painted_to + OWN_FRAME - p) * 4);
}

/* compiled with -fno-tree-loop-distribute-patterns, so that none of them becomes a call of itself */
void *memmove(void *to, const void *from, size_t n) {
    uint8_t *t = to;
    const uint8_t *f = from;
    if (t < f)
        for (size_t i = 0; i < n; i++) t[i] = f[i];
    else
        for (size_t i = n; i-- > 0;) t[i] = f[i];
    return to;
}
void *memcpy(void *to, const void *from, size_t n) { return memmove(to, from, n); }
void *memset(void *to, int byte, size_t n) {
    for (size_t i = 0; i < n; i++) ((uint8_t *)to)[i] = (uint8_t)byte;
    return to;
}
int memcmp(const void *a, const void *b, size_t n) {
    const uint8_t *x = a, *y = b;
    for (size_t i = 0; i < n; i++)
        if (x[i] != y[i]) return x[i] - y[i];
    return 0;
}

static void fault(void) {
    say("a fault\n");
    stop(3);
}

void begin(void);
void begin(void) {
    for (volatile uint32_t *p = bss_start; p < bss_end; p++) *p = 0;
#ifdef TRAP_UNALIGNED /* as a Cortex-M0 would */
    *(volatile uint32_t *)0xE000ED14 |= 8;
#endif
    stop(work());
}

#ifdef __riscv
__attribute__((naked, section(".vectors"))) void reset(void);
void reset(void) { __asm__ volatile(".option push\n.option arch, +zicsr\nla sp, stack_top\nla t0, trap\ncsrw mtvec, t0\n.option pop\nj begin"); }
__attribute__((used)) static void (*const keep)(void) = fault;
__asm__(".balign 4\ntrap: j fault");
#else
__attribute__((section(".vectors"), used)) static const uintptr_t vectors[16] = {
    (uintptr_t)stack_top, (uintptr_t)begin, (uintptr_t)fault, (uintptr_t)fault, (uintptr_t)fault, (uintptr_t)fault, (uintptr_t)fault,
};
/* the names that the Arm ABI has for them */
void __aeabi_memcpy(void *to, const void *from, size_t n);
void __aeabi_memcpy(void *to, const void *from, size_t n) { memmove(to, from, n); }
void __aeabi_memset(void *to, size_t n, int byte);
void __aeabi_memset(void *to, size_t n, int byte) { memset(to, byte, n); }
void __aeabi_memclr(void *to, size_t n);
void __aeabi_memclr(void *to, size_t n) { memset(to, 0, n); }
__asm__(".global __aeabi_memcpy4, __aeabi_memcpy8, __aeabi_memmove, __aeabi_memmove4, __aeabi_memclr4, __aeabi_memclr8\n"
        ".thumb_set __aeabi_memcpy4, __aeabi_memcpy\n.thumb_set __aeabi_memcpy8, __aeabi_memcpy\n.thumb_set __aeabi_memmove, __aeabi_memcpy\n"
        ".thumb_set __aeabi_memmove4, __aeabi_memcpy\n.thumb_set __aeabi_memclr4, __aeabi_memclr\n.thumb_set __aeabi_memclr8, __aeabi_memclr");
#endif
