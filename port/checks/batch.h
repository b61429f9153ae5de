/* A board for tests: many images in one run, so the address of an image's file changes. */
#include BATCH_OF
extern uint32_t batch_file;
#undef FILE_AT
#define FILE_AT batch_file
