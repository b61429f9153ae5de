/* Regions and keys of dynamic regions, and the blocks in them. A number is the first page's; a region's chain begins at its newest page. An open key's number
   is a handle; of a closed one the blocks stay live, and it alone can be freed. The heap is a region that is never freed. */
#include "pages.h"

static enum answer begin(enum kind kind, struct call *call) {
    uint32_t page = take_page();
    if (!page) return FULL;
    pages[page].kind = kind;
    pages[page].as.region.newest = pages[page].as.region.current = page;
    call->value = page;
    return GRANTED;
}

/* Changes what a number stands for. Where that is nothing, its pages are free. */
static enum answer turn(enum kind from, enum kind to, uint32_t number) {
    struct page *first = page_of(number, from);
    if (!first) return BAD;
    first->kind = to;
    if (to == OTHER) free_chain(first);
    return GRANTED;
}

enum answer region_new(struct call *call) { return begin(LEXICAL, call); }
enum answer region_free(struct call *call) { return turn(LEXICAL, OTHER, call->first); }
enum answer key_new(struct call *call) { return begin(CLOSED_KEY, call); }
enum answer key_open(struct call *call) { return turn(CLOSED_KEY, OPEN_KEY, call->first); }
enum answer key_close(struct call *call) { return turn(OPEN_KEY, CLOSED_KEY, call->first); }
enum answer key_free(struct call *call) { return turn(CLOSED_KEY, OTHER, call->first); }

/* Puts a page in front of a region's chain. */
static void link_page(struct page *first, uint32_t page) {
    pages[page].next = first->as.region.newest;
    first->as.region.newest = page;
}

/* A block longer than a page has a run of its own; the page from which blocks are cut stays. */
static enum answer large_block(struct page *first, uint32_t bytes, uint32_t *address) {
    uint32_t count = (bytes + PAGE - 1) / PAGE, page = take_run(count);
    if (!page) return FULL;
    *address = address_of(page);
    while (count--) link_page(first, page++);
    return GRANTED;
}

static enum answer small_block(struct page *first, uint32_t bytes, uint32_t *address) {
    if (PAGE - first->as.region.used < bytes) {
        uint32_t page = take_page();
        if (!page) return FULL;
        link_page(first, page);
        first->as.region.current = page;
        first->as.region.used = 0;
    }
    *address = address_of(first->as.region.current) + first->as.region.used;
    first->as.region.used += bytes;
    return GRANTED;
}

/* The handle is tested before the length. */
enum answer region_alloc(struct call *call) {
    struct page *first = page_of(call->first, call->first ? LEXICAL : HEAP);
    uint32_t bytes = call->second ? (call->second + 7) & ~7u : 8;
    if (!first) first = page_of(call->first, OPEN_KEY);
    if (!first) return BAD;
    if (call->second > longest_block) return FULL;
    return bytes > PAGE ? large_block(first, bytes, &call->value) : small_block(first, bytes, &call->value);
}
