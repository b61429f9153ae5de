/* Loading: the refusals of docs/IMAGE.md in their order, and the four areas. */
#include "monitor.h"
#include "store/store.h"

struct area areas[AREAS];

struct header { uint32_t magic, version, entry, code, data, pages, stack_pages; };

/* What tools/place puts before an image: how many bytes it has, and the addresses of its areas. `code_at` is 0 where the code runs from where it lies. */
struct placed { uint32_t magic, length, code_at, data_at, stack_at, arena_at, reserved[2]; };

/* What the compiler calls too, where C has no library. By words where the address is a multiple of 4, as an area's is. */
void *memset(void *to, int byte, uint32_t count) {
    uint32_t words = (uint32_t)to % 4 ? 0 : count / 4;
    for (uint32_t i = 0; i < words; i++) ((uint32_t *)to)[i] = (byte & 255) * 0x01010101u;
    for (uint32_t i = 4 * words; i < count; i++) ((uint8_t *)to)[i] = byte;
    return to;
}

void *memcpy(void *to, const void *from, uint32_t count) {
    const uint8_t *it = from;
    for (uint8_t *at = to; count--; at++) *at = *it++;
    return to;
}

static void refuse(const char *name) {
    console_say("image: ");
    stop(name, REFUSED);
}

/* The bytes of the header, for an image of this many bytes that isn't refused. */
static uint32_t checked(const struct header *h, uint32_t length) {
    uint32_t bytes = length >= 8 && h->version == 2 ? 28 : 24;
    if (length < bytes || (uint64_t)bytes + h->code + h->data > length) refuse("Short");
    if (h->magic != 0x31495943) refuse("Magic");
    if (h->version != 1 && h->version != 2) refuse("Version");
    if (h->code == 0 || h->code > 1048576 || h->code % 4 || h->data > 1048576 || h->pages < 1 || h->pages > 4096) refuse("Limit");
    if (h->version == 2 && (h->stack_pages < 1 || h->stack_pages > 4096)) refuse("Limit");
    if (h->entry % 4 || h->entry >= h->code) refuse("Entry");
    if (bytes + h->code + h->data != length) refuse("Trailing");
    return bytes;
}

/* Whether the board has memory there which isn't the monitor's. */
static int is_memory(uint32_t from, uint32_t bytes) {
    static const struct { uint32_t from, to; } memory[] = IMAGE_MEMORY;
    for (uint32_t i = 0; i < COUNT(memory); i++)
        if (from >= memory[i].from && from <= memory[i].to && bytes <= memory[i].to - from) return 1;
    return 0;
}

/* Makes an area of these bytes, or of zeros, unless it is code that runs from where it lies. Zeros go up to the end of the last page, which no fence by
   pages keeps from the image. */
static void make(int number, uint32_t at, uint32_t bytes, uint32_t rights, const uint8_t *from) {
    struct area *area = &areas[number];
    *area = (struct area){ at, LIES(number, at), bytes, rights };
    if (!is_memory(area->lies, bytes) || area->lies % 4 || (at - area->lies) % PAGE) refuse("no memory of the board for the image's areas");
    for (int i = 0; i < number; i++)
        if (area->lies < areas[i].lies + areas[i].bytes && areas[i].lies < area->lies + bytes) refuse("two areas of the image meet");
    if (area->lies == (uint32_t)from) return;
    memset((void *)area->lies, 0, (bytes + PAGE - 1) & -PAGE);
    if (from) memcpy((void *)area->lies, from, bytes);
}

uint32_t load(void) {
    const struct placed *file = (const struct placed *)FILE_AT;
    const struct header *h = (const struct header *)(file + 1);
    if (file->magic != 0x31425943) refuse("none at the board's address for it");
    const uint8_t *code = (const uint8_t *)h + checked(h, file->length);
    uint32_t stack_pages = h->version == 2 ? h->stack_pages : 256;
    if (h->pages > MOST_PAGES || stack_pages > MOST_PAGES) refuse("more pages than the board has");
    make(CODE, file->code_at ? file->code_at : (uint32_t)code, h->code, READ | EXECUTE, code);
    make(DATA, file->data_at, h->data, READ | WRITE, code + h->code);
    make(STACK, file->stack_at, stack_pages * PAGE, READ | WRITE, 0);
    make(ARENA, file->arena_at, h->pages * PAGE, READ | WRITE, 0);
    store_new(h->pages, h->version == 2 ? 1048576 : 4096);
    return areas[CODE].at + h->entry;
}
