/* QEMU's board virt: memory from 0x80000000, an MMU. The image has any addresses; its code, data, stack and arena lie where LIES says. */
#define HAS_MMU
#define MOST_PAGES 4096u
#define FILE_AT 0x80200000u
#define LIES(area, at) ((const uint32_t[]){ 0x80800000u, 0x80900000u, 0x81000000u, 0x82000000u })[area]
#define IMAGE_MEMORY { { 0x80200000u, 0x83000000u } }
#define IN_BYTES 512
#define OUT_BYTES 4096

/* The registers that lib/device.cyc may reach: the serial line, the timer, the power. */
#define REGISTERS { { 0x10000000u, 0x10000008u }, { 0x0200BFF8u, 0x0200C000u }, { 0x00100000u, 0x00100004u } }

#define SERIAL ((volatile uint8_t *)0x10000000u)                   /* a 16550 */
static inline void serial_open(void) { }
static inline void serial_put(uint32_t byte) { while (!(SERIAL[5] & 0x20)) ; SERIAL[0] = byte; }
static inline int serial_get(void) { while (!(SERIAL[5] & 1)) ; return SERIAL[0]; }

/* The power switch hands a status to QEMU. */
static inline void board_stop(uint32_t status) { *(volatile uint32_t *)0x00100000u = status ? status << 16 | 0x3333 : 0x5555; }
