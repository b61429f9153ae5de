/* The line by semihosting: standard input, output and error of the host. */
#include "monitor.h"

enum { OPEN = 1, WRITE_FILE = 5, READ_FILE = 6, EXIT = 0x20 };
const uint32_t gathered_most = OUT_BYTES;
static uint32_t handles[3];

/* What a debugger or QEMU does for the monitor: these three instructions, in one page. */
static uint32_t ask(uint32_t operation, uint32_t first, uint32_t second, uint32_t third) {
    uint32_t block[3] = { first, second, third };
    register uint32_t a0 __asm__("a0") = operation, a1 __asm__("a1") = (uint32_t)block;
    __asm__ volatile(".balign 16; slli x0, x0, 0x1f; ebreak; srai x0, x0, 7" : "+r"(a0) : "r"(a1) : "memory");
    return a0;
}

void line_open(void) {
    for (int i = INPUT; i <= ENDING; i++) handles[i] = ask(OPEN, (uint32_t)":tt", 4 * i, 3);
}

int line_write(enum stream stream, const void *from, uint32_t count) { return !count || ask(WRITE_FILE, handles[stream], (uint32_t)from, count) == 0; }

uint32_t line_read(uint8_t *into, uint32_t most) {
    uint32_t left = ask(READ_FILE, handles[INPUT], (uint32_t)into, most);
    if (left > most) stop("read fault", FILE_FAULT);
    return most - left;
}

void line_close(enum status status) {
    ask(EXIT, 0x20026, status, 0);
    for (;;) ;
}
