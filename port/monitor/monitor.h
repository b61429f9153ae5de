/* What the parts of the monitor know of each other. */
#pragma once
#include <stdint.h>
#include BOARD

#define PAGE 4096u
#define COUNT(table) (sizeof (table) / sizeof *(table))
#define READ_REGISTER(name) ({ uint32_t value; __asm__ volatile("csrr %0, " name : "=r"(value)); value; })
enum { CALL = 8 };                           /* the cause of an ECALL of user mode */

/* An area of the image: its addresses as the image has them, where it lies on the core's bus (the same without an MMU), and the rights there. */
enum { CODE, DATA, STACK, ARENA, AREAS };
enum { READ = 1, WRITE = 2, EXECUTE = 4 };
struct area { uint32_t at, lies, bytes, rights; };
extern struct area areas[AREAS];

uint32_t load(void);                         /* loader.c: the program counter at the start */
void fence(void);                            /* fence.c */
void into_image(uint32_t pc, uint32_t x2) __attribute__((noreturn));    /* trap.S */

/* run.c: statuses are those of `cycc exec` */
enum status { ENDED_0, ENDED, RAISED, EXHAUSTED, STEP_LIMIT, FAULT, FILE_FAULT, HOST_MEMORY, REFUSED };
void stop(const char *ending, enum status status) __attribute__((noreturn));
void stop_ended(uint32_t status) __attribute__((noreturn));
void stop_at_fault(const char *name, uint32_t pc) __attribute__((noreturn));
void say_number(uint32_t number, uint32_t base, int digits);

/* console.c: bytes of the image, and the line with the ending. devices.c has put and get with the registers of devices */
void put(uint32_t byte), console_put(uint32_t byte);
int get(void), console_get(void);            /* -1 at the end of the input */
void console_flush(void);
void console_say(const char *text);

/* semihosting.c or serial.c: where these bytes come from and go to */
enum stream { INPUT, OUTPUT, ENDING };
extern const uint32_t gathered_most;         /* how many bytes of the output are written at once */
void line_open(void);
int line_write(enum stream stream, const void *from, uint32_t count);   /* whether all were written */
uint32_t line_read(uint8_t *into, uint32_t most);                       /* how many were read: none at the end of the input */
void line_close(enum status status) __attribute__((noreturn));
