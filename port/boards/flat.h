/* A core without devices whose memory lies at the image's own addresses (QEMU: -machine none, memory from 0). */
#define MOST_PAGES 4096u
#define FILE_AT 0x09000000u
#define LIES(area, at) (at)
#define IMAGE_MEMORY { { 0x00010000u, 0x08000000u }, { 0x10000000u, 0x12000000u } }
#define IN_BYTES 512
#define OUT_BYTES 4096
#define REGISTERS { { 0, 0 } }
