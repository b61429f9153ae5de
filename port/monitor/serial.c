/* A serial line: each byte at once. It has no end of its input, so the byte 4 (EOT) stands for it. */
#include "monitor.h"

const uint32_t gathered_most = 1;

void line_open(void) { serial_open(); }

int line_write(enum stream stream, const void *from, uint32_t count) {
    for (const uint8_t *at = from; count--; at++) serial_put(*at);
    return stream != INPUT;
}

uint32_t line_read(uint8_t *into, uint32_t most) {
    *into = serial_get();
    return most && *into != 4;
}

void line_close(enum status status) {
    board_stop(status);
    for (;;) __asm__ volatile("wfi");
}
