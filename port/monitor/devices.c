/* Registers of devices for an image, by its bytes alone (lib/device.cyc). The byte 16 begins a request: 16 is the byte itself; 'r', the width and four bytes
   of an address read a register, whose four bytes are the next of the input; 'w' and four bytes more write one. All other bytes are text. */
#include "monitor.h"

static const struct { uint32_t from, to; } registers[] = REGISTERS;
static uint8_t request[11];                  /* the byte 16, the kind, the width, the address, the value */
static uint32_t gathered, answer, answers;

static uint32_t word_of(const uint8_t *bytes) { return bytes[0] | bytes[1] << 8 | bytes[2] << 16 | (uint32_t)bytes[3] << 24; }

/* Whether the board lets an image reach this register. */
static int is_reached(uint32_t width, uint32_t at) {
    if ((width != 1 && width != 2 && width != 4) || at % width) return 0;
    for (uint32_t i = 0; i < COUNT(registers); i++)
        if (at >= registers[i].from && at < registers[i].to && width <= registers[i].to - at) return 1;
    return 0;
}

/* Does a request that is whole. One that isn't allowed is an output that fails. */
#define REACH(type) (request[1] == 'r' ? *(volatile type *)at : (*(volatile type *)at = value))
static void serve_request(uint32_t width, uint32_t at, uint32_t value) {
    console_flush();
    if ((request[1] != 'r' && request[1] != 'w') || !is_reached(width, at) || answers) stop("write fault", FILE_FAULT);
    answer = width == 1 ? REACH(uint8_t) : width == 2 ? REACH(uint16_t) : REACH(uint32_t);
    answers = request[1] == 'r' ? 4 : 0;
}

void put(uint32_t byte) {
    if (!gathered && byte != 16) { console_put(byte); return; }
    request[gathered++] = byte;
    if (gathered < 2 || (request[1] == 'r' && gathered < 7) || (request[1] == 'w' && gathered < 11)) return;
    gathered = 0;
    if (request[1] == 16) console_put(16);
    else serve_request(request[2], word_of(request + 3), word_of(request + 7));
}

int get(void) {
    if (!answers) return console_get();
    return answer >> 8 * (4 - answers--) & 255;
}
