/* Unique blocks: pages cut into 128 >> class slots of 32 << class bytes. A page stays with its class; a class's chain has its pages with a vacant slot. */
#include "pages.h"

static uint16_t vacant[8];                   /* for each class the first page of its chain */

/* A page with a vacant slot, or 0. */
static uint32_t vacant_page(uint32_t class) {
    uint32_t page = vacant[class] ? vacant[class] : take_page();
    if (!page) return 0;
    pages[page].kind = CUT;
    pages[page].class = class;
    return vacant[class] = page;
}

enum answer unique_alloc(struct call *call) {
    uint32_t class = 0, slot = 0;
    if (call->first > PAGE) return FULL;
    while ((32u << class) < call->first) class++;
    uint32_t number = vacant_page(class);
    if (!number) return FULL;
    struct page *page = &pages[number];
    while (page->as.cut.bits[slot / 32] == 0xFFFFFFFFu) slot += 32;
    while (page->as.cut.bits[slot / 32] >> slot % 32 & 1) slot++;
    page->as.cut.bits[slot / 32] |= 1u << slot % 32;
    call->value = address_of(number) + slot * (32u << class);
    if (++page->as.cut.live == (128u >> class)) vacant[class] = page->next;
    return GRANTED;
}

enum answer unique_free(struct call *call) {
    struct page *page = page_of((call->first - areas[ARENA].at) / PAGE + 1, CUT);
    if (!page || call->first % (32u << page->class)) return BAD;
    uint32_t slot = call->first % PAGE / (32u << page->class);
    if (!(page->as.cut.bits[slot / 32] >> slot % 32 & 1)) return BAD;
    page->as.cut.bits[slot / 32] &= ~(1u << slot % 32);
    if (page->as.cut.live-- == (128u >> page->class)) {
        page->next = vacant[page->class];
        vacant[page->class] = page - pages;
    }
    return GRANTED;
}
