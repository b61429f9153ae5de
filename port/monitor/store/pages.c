/* Which pages are free. Freeing a region links its whole chain in front of the list, so it takes the same time whatever the region holds. */
#include "pages.h"

struct page pages[MOST_PAGES + 1];
uint32_t longest_block;
static uint32_t page_count, ever_used, freed;

void store_new(uint32_t count, uint32_t longest) {
    page_count = count;
    longest_block = longest;
    pages[0] = (struct page){ .kind = HEAP, .as.region.used = PAGE };
}

uint32_t address_of(uint32_t page) { return areas[ARENA].at + (page - 1) * PAGE; }

struct page *page_of(uint32_t number, enum kind kind) { return number <= ever_used && pages[number].kind == kind ? &pages[number] : 0; }

uint32_t take_run(uint32_t count) {
    if (count > page_count - ever_used) return 0;
    ever_used += count;
    return ever_used - count + 1;
}

uint32_t take_page(void) {
    uint32_t page = freed;
    if (!page) return take_run(1);
    freed = pages[page].next;
    pages[page] = (struct page){ 0 };
    return page;
}

void free_chain(struct page *first) {
    first->next = freed;
    freed = first->as.region.newest;
}
