/* How a run begins and ends: the line of `cycc exec --ending`, and its status. The monitor runs in machine mode, the image in user mode. */
#include "monitor.h"

void monitor(void) {
    line_open();
    uint32_t start = load();
    fence();
    into_image(start, areas[STACK].at + areas[STACK].bytes);
}

/* Says a number to a base, with at least so many digits. */
void say_number(uint32_t number, uint32_t base, int digits) {
    char text[11], *at = text + sizeof text - 1;
    *at = 0;
    for (; digits > 0 || number; digits--, number /= base) *--at = "0123456789abcdef"[number % base];
    console_say(at);
}

void stop(const char *ending, enum status status) {
    console_flush();
    console_say(ending);
    console_say("\n");
    line_close(status);
}

void stop_ended(uint32_t status) {
    int is_negative = (int32_t)status < 0;
    console_flush();
    console_say(is_negative ? "ended -" : "ended ");
    say_number(is_negative ? -status : status, 10, 1);
    stop("", status ? ENDED : ENDED_0);
}

/* The program counter as the image has it at its own addresses, wherever its code was placed. */
void stop_at_fault(const char *name, uint32_t pc) {
    console_flush();
    console_say("fault ");
    console_say(name);
    console_say(" at 0x");
    say_number(pc + 0x00010000 - areas[CODE].at, 16, 8);
    stop("", FAULT);
}
