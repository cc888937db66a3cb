/* Each macro of the header used once, for rust/check: a compiler looks at a macro only where it is used. Nothing runs this. */
#include "slipq.h"

#if SLIPQ_VERSION_NUMBER < 1
#error "the header has no version"
#endif

const char *slipq_header_texts(uint64_t answer, int is_version);
uint32_t slipq_header_numbers(uint64_t answer, size_t length);

const char *slipq_header_texts(uint64_t answer, int is_version) {
    return is_version ? SLIPQ_VERSION : SLIPQ_ROW_NAME(SLIPQ_ROW(answer));
}

uint32_t slipq_header_numbers(uint64_t answer, size_t length) {
    static const slipq_geometry geometry = {0, SLIPQ_MOST_PAGES * SLIPQ_LARGEST_PAGE, SLIPQ_LARGEST_PAGE, 4};
    uint32_t value = SLIPQ_VALUE(answer);

    if (SLIPQ_ROW(slipq_check(length, &geometry)) != SLIPQ_DONE || value == SLIPQ_NO_FIT)
        return 0;
    return SLIPQ_ITEM_KIND(value) + SLIPQ_ITEM_LENGTH(value);
}
