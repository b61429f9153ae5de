/* SiFive's E31 on a board of the FE310's kind: 16 KB of memory, no MMU. The code runs where it lies in flash; tools/place says where the rest goes. */
#define MOST_PAGES 3u
#define FILE_AT 0x20500000u
#define LIES(area, at) (at)
#define IMAGE_MEMORY { { 0x80001000u, 0x80004000u }, { 0x20500000u, 0x40000000u } }
#define IN_BYTES 64
#define OUT_BYTES 512

/* The registers that lib/device.cyc may reach: the pins, the serial line, the timer. */
#define REGISTERS { { 0x10012000u, 0x10012044u }, { 0x10013000u, 0x1001301Cu }, { 0x0200BFF8u, 0x0200C000u } }

#define SERIAL ((volatile uint32_t *)0x10013000u)
static inline void serial_open(void) { SERIAL[2] = 1; SERIAL[3] = 1; }
static inline void serial_put(uint32_t byte) { while (SERIAL[0] >> 31) ; SERIAL[0] = byte; }
static inline int serial_get(void) { uint32_t word; do word = SERIAL[1]; while (word >> 31); return word & 255; }
static inline void board_stop(uint32_t status) { (void)status; }    /* it waits until it is reset */
