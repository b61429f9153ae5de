/* What the compiled program asks of a C library on WebAssembly: blocks of memory, moves of bytes, operations on 128 bits, and what the system is.
   A block has 16 bytes in front of it: the number of its class, and how many bytes were asked for. A class has four sizes for each power of two,
   and a list of its free blocks. The link of that list stands in front of the block too, so the bytes of a freed block stay as they were. */
typedef unsigned long u64;
typedef unsigned char u8;
typedef struct { u64 granted; void *at; } answer;
typedef struct head { u64 class; union { u64 bytes; struct head *next; }; } head;

enum { CLASSES = 256, PAGE = 65536 };
static const u64 LONGEST = 1ul << 31;

extern u8 __heap_base;
static u64 top;
static head *kept[CLASSES];
static u8 *arena;
static u64 arena_bytes;

void *memcpy(void *to, const void *from, u64 n) { __builtin_memcpy(to, from, n); return to; }
void *memmove(void *to, const void *from, u64 n) { __builtin_memmove(to, from, n); return to; }
void *memset(void *to, int byte, u64 n) { __builtin_memset(to, byte, n); return to; }

static u64 size_of_class(int class) { return (u64)(4 + class % 4) << (class / 4); }

/* The least class of at least so many bytes: 4 times 2 to the power k is class 4 k. */
static int class_of(u64 bytes) {
    if (bytes < 32) bytes = 32;
    int power = 61 - __builtin_clzl(bytes), class = 4 * power + (int)((bytes >> power) & 3);
    return size_of_class(class) < bytes ? class + 1 : class;
}

/* A block behind all others, or none where the memory can't be made longer. */
static head *fresh(u64 bytes) {
    if (!top) top = ((u64)&__heap_base + 15) & ~15ul;
    u64 end = (top + bytes + 15) & ~15ul, have = __builtin_wasm_memory_size(0) * (u64)PAGE;
    if (end > have && __builtin_wasm_memory_grow(0, (end - have + PAGE - 1) / PAGE) == (u64)-1) return 0;
    head *block = (head *)top;
    top = end;
    return block;
}

static void *grab(u64 bytes) {
    if (bytes > LONGEST) return 0;
    int class = class_of(bytes + sizeof(head));
    head *block = kept[class];
    if (block) kept[class] = block->next;
    else block = fresh(size_of_class(class));
    if (!block) return 0;
    block->class = (u64)class;
    block->bytes = bytes;
    return block + 1;
}

static answer of_block(void *at) { answer it = { at != 0, at ? at : (void *)16 }; return it; }

/* An arena has 4,160 bytes for each of its pages (docs/STORES.md, Raw pages). The last block that may be one is kept for who looks at it. */
static void note_arena(void *at, u64 bytes) {
    if (at && bytes >= 4160 && bytes % 4160 == 0) { arena = at; arena_bytes = bytes; }
}

answer rattle_alloc(u64 size, u64 align) {
    void *at = grab(size ? size : align);
    note_arena(at, size);
    return of_block(at);
}

void rattle_dealloc(void *at) {
    head *block = (head *)at - 1;
    block->next = kept[block->class];
    kept[block->class] = block;
}

answer rattle_realloc(void *at, u64 old_size, u64 size, u64 align) {
    head *block = (head *)at - 1;
    u64 bytes = size ? size : align, had = block->bytes;
    if (bytes + sizeof(head) <= size_of_class((int)block->class)) { block->bytes = bytes; return of_block(at); }
    void *to = grab(bytes);
    if (to) { memcpy(to, at, had < bytes ? had : bytes); rattle_dealloc(at); }
    return of_block(to);
}

u64 arena_at(void) { return (u64)arena; }
u64 arena_length(void) { return arena_bytes; }

static int last;
int rattle_errno(void) { return last; }
void rattle_set_errno(int error) { last = error; }

/* A signal is never sent here. */
u64 __sysv_signal(int signal, u64 handler) { return 0; }

/* The proved program first asks whether the processor has the instructions that it was compiled for, and says by __write where it hasn't. Here it is compiled
   for WebAssembly, which has all that it needs: each bit of the answer is set. */
static const u8 every[32] = { [0 ... 31] = 255 };
const void *__x86_get_cpuid_feature_leaf(unsigned leaf) { return every; }

long write(int file, const void *from, u64 bytes);
long __write(int file, const void *from, u64 bytes) { return write(file, from, bytes); }

typedef struct { u64 low, high; } wide;

wide __multi3(u64 al, u64 ah, u64 bl, u64 bh) {
    u64 a0 = al & 0xffffffff, a1 = al >> 32, b0 = bl & 0xffffffff, b1 = bl >> 32;
    u64 p = a0 * b0, q = a1 * b0 + (p >> 32), r = a0 * b1 + (q & 0xffffffff);
    wide it = { (r << 32) | (p & 0xffffffff), a1 * b1 + (q >> 32) + (r >> 32) + al * bh + ah * bl };
    return it;
}

wide __ashlti3(u64 low, u64 high, int by) {
    by &= 127;
    if (by >= 64) { wide it = { 0, low << (by - 64) }; return it; }
    wide it = { low << by, by ? high << by | low >> (64 - by) : high };
    return it;
}

wide __lshrti3(u64 low, u64 high, int by) {
    by &= 127;
    if (by >= 64) { wide it = { high >> (by - 64), 0 }; return it; }
    wide it = { by ? low >> by | high << (64 - by) : low, high >> by };
    return it;
}
