/*
 * A tour of the queue in C: push, peek, pop, and a push that a power cut stops after every number of stores.
 * examples/run builds it and compares what it prints with examples/tour.txt.
 */
#include "slipq.h"

#include <stdio.h>
#include <string.h>

#define PAGE 64
#define WORD 4
#define PAGES 2

/* the range from address 0 on */
static const slipq_geometry geometry = {0, PAGES * PAGE, PAGE, WORD};

static uint8_t image[PAGES * PAGE];
static uint8_t buffer[PAGE];

static uint64_t push(const char *slip) {
    return slipq_push(image, sizeof image, &geometry, (const uint8_t *)slip, strlen(slip), 0);
}

static void print_slip(uint32_t length) {
    printf(" \"%.*s\"", (int)length, (const char *)buffer);
}

/* Pops all slips of a copy, so that the queue stays as it is. */
static void print_list(const uint8_t *from) {
    uint8_t copy[sizeof image];
    uint64_t answer;

    memcpy(copy, from, sizeof copy);
    printf("waiting:");
    for (;;) {
        answer = slipq_pop(copy, sizeof copy, &geometry, buffer, sizeof buffer);
        if (SLIPQ_ROW(answer) != SLIPQ_DONE)
            break;
        print_slip(SLIPQ_VALUE(answer));
    }
    printf("\n");
}

int main(void) {
    static const char *const slips[] = {"Moser, Franz", "Moser, Paul", "Auer, Maria"};
    static const char late[] = "Moser, Josef";
    uint64_t answer;
    size_t i;

    if (SLIPQ_ROW(slipq_check(sizeof image, &geometry)) != SLIPQ_DONE)
        return 1;
    memset(image, 0xFF, sizeof image);

    for (i = 0; i < sizeof slips / sizeof slips[0]; i++) {
        answer = push(slips[i]);
        printf("push \"%s\": row %u\n", slips[i], (unsigned)SLIPQ_ROW(answer));
    }

    answer = slipq_peek(image, sizeof image, &geometry, buffer, sizeof buffer);
    printf("peek: row %u,", (unsigned)SLIPQ_ROW(answer));
    print_slip(SLIPQ_VALUE(answer));
    answer = slipq_pop(image, sizeof image, &geometry, buffer, sizeof buffer);
    printf("\npop: row %u,", (unsigned)SLIPQ_ROW(answer));
    print_slip(SLIPQ_VALUE(answer));
    printf("\n");
    print_list(image);

    answer = slipq_peek(image, sizeof image, &geometry, buffer, 8);
    printf("peek with a buffer of 8: row %u, %u bytes needed\n", (unsigned)SLIPQ_ROW(answer), (unsigned)SLIPQ_VALUE(answer));

    /* the same push, each time with one store more */
    for (i = 0;; i++) {
        uint8_t copy[sizeof image];

        memcpy(copy, image, sizeof copy);
        answer = slipq_push_limited(copy, sizeof copy, &geometry, (const uint8_t *)late, strlen(late), 0, i);
        printf("push \"%s\", limit %u: row %u, ", late, (unsigned)i, (unsigned)SLIPQ_ROW(answer));
        print_list(copy);
        if (SLIPQ_ROW(answer) != SLIPQ_CUT)
            break;
    }
    return 0;
}
