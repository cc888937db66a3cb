/*
 * The way to a real chip: the queue works on an image in memory, and its stores go to the chip one at a time.
 *
 * A driver of a chip has two functions, one that programs a word and one that erases a page. The limited form of a call with
 * the limits 1, 2, 3 .. on copies of one image shows what each store changes: the image after k stores, against the image after
 * k - 1, differs in one word or in one page, and that is handed to the driver. Should the power fail on the way, the chip is as
 * the queue expects it after a cut. A call of n stores is made n times so; a device that cannot spare that needs the proved code
 * to drive the chip itself.
 *
 * The chip has to allow a second write to a written word: pop clears a checksum that push wrote.
 * examples/run builds this and compares what it prints with examples/chip.txt.
 */
#include "slipq.h"

#include <stdio.h>
#include <string.h>

#define PAGE 64
#define WORD 4
#define PAGES 2
#define SIZE (PAGES * PAGE)

static const slipq_geometry geometry = {0, SIZE, PAGE, WORD};

/* ---- a toy chip, and its driver: put a real one here */

static uint8_t chip[SIZE];

/* Programming clears bits and cannot set them. */
static void chip_program_word(uint32_t address, const uint8_t *word) {
    uint32_t i;

    printf("  program %02X: %02X %02X %02X %02X\n", (unsigned)address, word[0], word[1], word[2], word[3]);
    for (i = 0; i < WORD; i++)
        chip[address + i] &= word[i];
}

static void chip_erase_page(uint32_t address) {
    printf("  erase %02X\n", (unsigned)address);
    memset(chip + address, 0xFF, PAGE);
}

/* ---- from images to stores */

/* Hands on the one store between two images. A bit that was set again tells an erase; a store may change nothing, too. */
static void hand_on(const uint8_t *before, const uint8_t *after) {
    uint32_t at;

    for (at = 0; at < SIZE && before[at] == after[at]; at++)
        ;
    if (at == SIZE)
        return;
    if (after[at] & ~before[at])
        chip_erase_page(at - at % PAGE);
    else
        chip_program_word(at - at % WORD, after + (at - at % WORD));
}

/* One call of the queue, limited. The text is what a push adds and what a pop ignores; a pop's slip is left in the buffer. */
typedef uint64_t (*limited_call)(uint8_t *image, const char *text, size_t limit);

static uint8_t buffer[PAGE];

static uint64_t push(uint8_t *image, const char *text, size_t limit) {
    return slipq_push_limited(image, SIZE, &geometry, (const uint8_t *)text, strlen(text), 0, limit);
}

static uint64_t pop(uint8_t *image, const char *text, size_t limit) {
    (void)text;
    return slipq_pop_limited(image, SIZE, &geometry, buffer, sizeof buffer, limit);
}

/* Makes a call on the image and on the chip, store by store. */
static uint64_t drive(uint8_t *image, limited_call call, const char *text) {
    uint8_t before[SIZE];
    uint8_t after[SIZE];
    uint64_t answer;
    size_t limit;

    memcpy(before, image, SIZE);
    for (limit = 1;; limit++) {
        memcpy(after, image, SIZE);
        answer = call(after, text, limit);
        hand_on(before, after);
        if (SLIPQ_ROW(answer) != SLIPQ_CUT)
            break;
        memcpy(before, after, SIZE);
    }
    memcpy(image, after, SIZE);
    return answer;
}

int main(void) {
    static const char *const slips[] = {"Moser, Franz", "Auer, Maria", "Hofer, Anna", "Hofer, Paul"};
    uint8_t image[SIZE];
    uint64_t answer;
    size_t i;

    memset(chip, 0xFF, SIZE);
    memcpy(image, chip, SIZE); /* what the chip has is read once, at the start */

    for (i = 0; i < sizeof slips / sizeof slips[0]; i++) {
        printf("push \"%s\"\n", slips[i]);
        answer = drive(image, push, slips[i]);
        printf("  %s\n", SLIPQ_ROW_NAME(SLIPQ_ROW(answer)));
    }
    do {
        printf("pop\n");
        answer = drive(image, pop, "");
        printf("  %s", SLIPQ_ROW_NAME(SLIPQ_ROW(answer)));
        printf(" \"%.*s\"\n", (int)SLIPQ_VALUE(answer), (const char *)buffer);
    } while (SLIPQ_ROW(answer) == SLIPQ_DONE);

    printf("the chip has %s\n", memcmp(chip, image, SIZE) == 0 ? "what the image has" : "something else than the image");
    return memcmp(chip, image, SIZE) != 0;
}
