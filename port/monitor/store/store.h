/* The store of an image, by the rules of docs/STORES.md: regions, blocks, unique blocks and keys. All its data is in the monitor's memory. */
#pragma once
#include <stdint.h>

/* A request of the image: its arguments x10 and x11, and what x10 is behind it. */
struct call { uint32_t first, second, value; };

/* BAD is any refusal that the machine makes a BadCall: a wrong handle or key, no block, a key in the wrong state. */
enum answer { GRANTED, FULL, BAD };

void store_new(uint32_t pages, uint32_t longest_block);
enum answer region_new(struct call *), region_alloc(struct call *), region_free(struct call *), unique_alloc(struct call *), unique_free(struct call *);
enum answer key_new(struct call *), key_open(struct call *), key_close(struct call *), key_free(struct call *);
