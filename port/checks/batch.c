/* For tests: many images in one run. Behind each other lie, for each, the number of bytes of its input, that of its file up to a page's end, the input, and
   from the next page on the file. What comes of it is written in pieces: a letter, a number and as many bytes. The linker puts the functions __wrap_NAME in
   place of the monitor's, which are __real_NAME. */
#include "../monitor/monitor.h"

uint32_t batch_file;
static uint32_t next __attribute__((section(".stack")));   /* not cleared when the monitor starts again */
static uint32_t in_left;
static const uint8_t *in;
void _start(void) __attribute__((noreturn));
void say_statistics(void);
void *memcpy(void *to, const void *from, uint32_t count);
void __real_line_open(void);
int __real_line_write(enum stream stream, const void *from, uint32_t count);
void __real_line_close(enum status status) __attribute__((noreturn));

static int write_piece(uint32_t letter, const void *from, uint32_t count) {
    uint32_t head[2] = { letter, count };
    return __real_line_write(OUTPUT, head, sizeof head) && __real_line_write(OUTPUT, from, count);
}

void __wrap_line_open(void) {
    const uint32_t *head = (const uint32_t *)(next ? next : BATCH_AT);
    __real_line_open();
    if (!head[1]) __real_line_close(ENDED_0);
    in_left = head[0];
    in = (const uint8_t *)(head + 2);
    batch_file = ((uint32_t)in + in_left + PAGE - 1) & -PAGE;
    next = batch_file + head[1];
}

int __wrap_line_write(enum stream stream, const void *from, uint32_t count) { return write_piece(stream == OUTPUT ? 'o' : 's', from, count); }

uint32_t __wrap_line_read(uint8_t *into, uint32_t most) {
    uint32_t count = in_left < most ? in_left : most;
    memcpy(into, in, count);
    in += count;
    in_left -= count;
    return count;
}

void __wrap_line_close(enum status status) {
    say_statistics();
    if (!write_piece('e', &status, 4)) __real_line_close(FILE_FAULT);
    _start();
}
