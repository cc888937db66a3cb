/*
 * How deep a stack the library's functions take: they run on a stack of their own that was painted, and what they overwrote is
 * counted, with the frame of the function that calls them. The same run without calls is counted off. It is what was seen, and no
 * bound: examples/footprint runs it.
 */
#include "slipq.h"

#include <stdio.h>
#include <string.h>
#include <ucontext.h>

#define STACK (256 * 1024)
#define PAINT 0xA5
#define SMALL_PAGE 256

static uint8_t stack[STACK];
static uint8_t image[4 * SLIPQ_LARGEST_PAGE];
static uint8_t buffer[SLIPQ_LARGEST_PAGE];
static uint8_t slip[SLIPQ_LARGEST_PAGE];
static ucontext_t caller;
static ucontext_t callee;

static volatile int is_dry; /* whether the calls are left out */
static uint32_t seed;

static uint32_t drawn(uint32_t below) {
    seed = seed * 1664525u + 1013904223u;
    return (seed >> 8) % below;
}

/* Any of the calls, whole or cut. */
static void any_call(const slipq_geometry *g) {
    size_t limit = drawn(2) ? drawn(40) : 100000;
    size_t length = drawn(8) ? drawn(80) : drawn(g->page);

    switch (drawn(9)) {
    case 0: slipq_peek_limited(image, sizeof image, g, buffer, sizeof buffer, limit); break;
    case 1: slipq_pop_limited(image, sizeof image, g, buffer, sizeof buffer, limit); break;
    case 2: slipq_find_max_fit_limited(image, sizeof image, g, limit); break;
    case 3: slipq_space_left_limited(image, sizeof image, g, limit); break;
    case 4: slipq_pop(image, sizeof image, g, buffer, sizeof buffer); break;
    case 5: slipq_item(image, sizeof image, g, 0, g->word); break;
    case 6: slipq_page_state(image, sizeof image, g, 0); break;
    default: slipq_push_limited(image, sizeof image, g, slip, length, drawn(4), limit); break;
    }
}

/* Histories at every word, with few small pages and the most, and with few of the largest; a byte is damaged now and then. */
static void histories(void) {
    static const uint32_t pages[] = {1, 2, SLIPQ_MOST_PAGES, 1, 2, 4};
    slipq_geometry g = {0, 0, 0, 0};
    uint32_t shape, i;

    for (shape = 0; shape < 24; shape++) {
        g.word = 4u << shape % 4;
        g.page = shape < 12 ? SMALL_PAGE : SLIPQ_LARGEST_PAGE;
        g.end = pages[shape / 4] * g.page;
        memset(image, 0xFF, sizeof image);
        for (i = 0; i < 1500; i++) {
            if (drawn(100) == 0)
                image[drawn(g.end)] &= (uint8_t)drawn(256);
            if (!is_dry)
                any_call(&g);
        }
        if (!is_dry)
            slipq_erase_all(image, sizeof image, &g);
    }
}

/* The bytes of the stack that a run overwrites, from its top down to the lowest. */
static unsigned long depth(int dry) {
    unsigned long at;

    is_dry = dry;
    seed = 1;
    memset(stack, PAINT, sizeof stack);
    getcontext(&callee);
    callee.uc_stack.ss_sp = stack;
    callee.uc_stack.ss_size = sizeof stack;
    callee.uc_link = &caller;
    makecontext(&callee, histories, 0);
    swapcontext(&caller, &callee);
    for (at = 0; at < sizeof stack && stack[at] == PAINT; at++)
        ;
    return (unsigned long)sizeof stack - at;
}

int main(void) {
    unsigned long without = depth(1);

    printf("%lu\n", depth(0) - without);
    return 0;
}
