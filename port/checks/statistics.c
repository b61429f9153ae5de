/* For tests: what a run executed, asked for and took, as `cycc exec --stats` has it. Functions __wrap_NAME are called in place of the monitor's (batch.c). */
#include "../monitor/store/pages.h"

uint32_t image_steps[2];                     /* the instructions of the image, and the counter when it went on last (counting.S) */
uint32_t calls_made[14];
static uint32_t taken, most_taken;
uint32_t __real_take_page(void), __real_take_run(uint32_t count);
void __real_free_chain(struct page *first);

static uint32_t count_taken(uint32_t page, uint32_t more) {
    taken += page ? more : 0;
    if (taken > most_taken) most_taken = taken;
    return page;
}

uint32_t __wrap_take_page(void) { return count_taken(__real_take_page(), 1); }
uint32_t __wrap_take_run(uint32_t count) { return count_taken(__real_take_run(count), count); }

void __wrap_free_chain(struct page *first) {
    for (struct page *page = &pages[first->as.region.newest]; page != first; page = &pages[page->next]) taken--;
    taken--;
    __real_free_chain(first);
}

static void say_line(const char *name, uint32_t number) {
    console_say(name);
    console_say(" ");
    say_number(number, 10, 1);
    console_say("\n");
}

void say_statistics(void) {
    static const char *const names[14] = { 0, "putchar", "getchar", 0, "region_new", "region_alloc", "region_free", "unique_alloc", "unique_free", "key_new",
        "key_open", "key_close", "key_free" };
    say_line("instructions", image_steps[0]);
    say_line("pages", most_taken);
    for (int i = 0; i < 14; i++)
        if (names[i] && calls_made[i]) say_line(names[i], calls_made[i]);
}
