/* The console: bytes of the image by one line or another. Output is written when enough bytes are gathered, before each read and at the end. */
#include "monitor.h"

static uint8_t in[IN_BYTES], out[OUT_BYTES];
static uint32_t in_next, in_count, out_count, at_end;

void console_flush(void) {
    uint32_t count = out_count;
    out_count = 0;
    if (count && !line_write(OUTPUT, out, count)) stop("write fault", FILE_FAULT);
}

void console_put(uint32_t byte) {
    out[out_count++] = byte;
    if (out_count == gathered_most) console_flush();
}

int console_get(void) {
    console_flush();
    if (in_next == in_count && !at_end) {
        in_next = 0;
        in_count = line_read(in, sizeof in);
        at_end = !in_count;
    }
    return at_end ? -1 : in[in_next++];
}

void console_say(const char *text) {
    uint32_t count = 0;
    while (text[count]) count++;
    line_write(ENDING, text, count);
}

__attribute__((weak)) void put(uint32_t byte) { console_put(byte); }
__attribute__((weak)) int get(void) { return console_get(); }
