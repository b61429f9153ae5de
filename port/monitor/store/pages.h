/* The pages of the arena, as the parts of the store share them. */
#pragma once
#include "../monitor.h"
#include "store.h"

/* What a page is: a region's first page, by what its number stands for; cut into unique blocks; or something else, also free. */
enum kind { OTHER, HEAP, LEXICAL, CLOSED_KEY, OPEN_KEY, CUT };

/* Pages have the numbers from 1 on. The entry 0 is of no page: it stands for the heap, and as a number it is none. */
struct page {
    uint16_t next;                           /* on the list of freed pages, a region's chain or a class's chain */
    uint8_t kind, class;                     /* a cut page's slots have 32 << class bytes */
    union {
        struct { uint16_t newest, current, used; } region;  /* of a region's first page; its chain ends there */
        struct { uint32_t bits[4], live; } cut;             /* which slots are live, and how many */
    } as;
};
extern struct page pages[MOST_PAGES + 1];
extern uint32_t longest_block;

uint32_t take_page(void);                    /* a freed one before one that was never used; 0 where there is none */
uint32_t take_run(uint32_t count);           /* the first of adjacent pages that were never used, or 0 */
void free_chain(struct page *first);         /* the pages of a region */
uint32_t address_of(uint32_t page);
struct page *page_of(uint32_t number, enum kind kind);      /* a page that is of this kind, or 0 */
