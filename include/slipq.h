/*
 * slipq: a queue of slips on NOR flash, over an image in memory.
 *
 * The functions of libdock.a, which `rust/library` makes. Plain C89 but for
 * <stdint.h>; fit for C++. From the repository's root:
 *
 *     cc -Iinclude -o program program.c -Ltarget/staticlib -ldock
 *
 *     static const slipq_geometry g = {0, 4 * 256, 256, 4};
 *     uint8_t image[4 * 256];
 *     uint8_t buffer[256];
 *     uint64_t answer;
 *
 *     memset(image, 0xFF, sizeof image);
 *     answer = slipq_push(image, sizeof image, &g,
 *                         (const uint8_t *)"Hofer", 5, 0);
 *     if (SLIPQ_ROW(answer) != SLIPQ_DONE)
 *         puts(SLIPQ_ROW_NAME(SLIPQ_ROW(answer)));
 *     answer = slipq_pop(image, sizeof image, &g, buffer, sizeof buffer);
 *     if (SLIPQ_ROW(answer) == SLIPQ_DONE)
 *         fwrite(buffer, 1, SLIPQ_VALUE(answer), stdout);
 *
 * What every function takes
 *   image, image_len   the lent image. An address is a place in it.
 *   geometry           the range, and the bytes of a page and of a word. A later
 *                      version may add fields behind these four: an initializer
 *                      sets those to 0 that it does not name.
 *   Bytes of the image outside the range never change and have no say.
 *
 * What a caller has to keep
 *   A geometry points to a struct; each other pointer is valid for the length
 *   that follows it, and is not null even where that length is 0. Image,
 *   geometry, slip and buffer do not overlap. Apart from that every function
 *   takes any numbers and any bytes, and ends.
 *
 * Threads
 *   The library keeps no state: an image has one caller at a time, and calls on
 *   different images may run at once.
 *
 * Footprint
 *   text 24118, data 0, stack 1760: bytes, as examples/footprint measured them.
 *   Nothing is allocated, and of the C library memcpy and memset are called.
 *
 * What every function answers
 *   A row of document 01, the customer's paper of exact rules (SLIPQ_ROW: 0 done,
 *   1 empty, otherwise a refusal), in bits 0 to 7, and the value that comes with
 *   it (SLIPQ_VALUE), 0 where there is none, from bit 32 on. Bits 8 to 31 are 0,
 *   and are kept for later versions: read an answer by the two macros alone. The
 *   geometry is checked first, by rows 9 to 17 in their order; such a refusal
 *   changes nothing. Where slipq_page_state and slipq_item look for what is not
 *   there they answer SLIPQ_NOT_THERE, which is no row of document 01.
 *   docs/REFUSALS.md has for each row when it comes and what it leaves.
 *
 * Power cuts
 *   A store is one word that is ANDed into the image, or one page that is set to
 *   FF. The second form of a call, slipq_X_limited, makes at most `limit` stores:
 *   with fewer than the call needs it answers SLIPQ_CUT, and image and buffer are
 *   as a power cut after so many stores leaves them. Otherwise it is the call
 *   without a limit. examples/chip.c hands those stores on to a chip, one by one.
 */
#ifndef SLIPQ_H
#define SLIPQ_H

#include <stddef.h>
#include <stdint.h>

#ifdef __cplusplus
extern "C" {
#endif

/* This header's version, as text and as a number that grows: 10000 * major + 100 * minor + patch. */
#define SLIPQ_VERSION "0.3.0"
#define SLIPQ_VERSION_NUMBER 200

/* Where the queue lives in the image; all in bytes. */
typedef struct slipq_geometry {
    uint32_t start; /* the range's first address */
    uint32_t end;   /* the address behind the range's last */
    uint32_t page;  /* a page: what is erased at once */
    uint32_t word;  /* a word: what is written at once */
} slipq_geometry;

/* The most bytes of a page, and the most pages of a range. */
#define SLIPQ_LARGEST_PAGE 65536u
#define SLIPQ_MOST_PAGES 256u

/* C++ can be told to warn of C's casts, also where a macro has them. */
#ifdef __cplusplus
#define SLIPQ_U32(number) (static_cast<uint32_t>(number))
#else
#define SLIPQ_U32(number) ((uint32_t)(number))
#endif

/* An answer's row, and the value that comes with it. */
#define SLIPQ_ROW(answer) SLIPQ_U32((answer) & 0xFFu)
#define SLIPQ_VALUE(answer) SLIPQ_U32((answer) >> 32)

/* The rows. */
#define SLIPQ_DONE 0u
#define SLIPQ_EMPTY 1u /* peek or pop met no present slip */

/* A call's own refusals. */
#define SLIPQ_ITEM_TOO_BIG 2u     /* length over 65535, or over page - 2 words - header */
#define SLIPQ_FULL_STORAGE 3u     /* no room: the next page, or the sole page, has a live slip */
#define SLIPQ_BUFFER_TOO_SMALL 4u /* the value is the size needed */
#define SLIPQ_CORRUPTED 5u        /* a step failed, and again after one repair */
#define SLIPQ_CUT 7u              /* the store limit is used up */

/* Refusals of a geometry, in the order in which they are tested. */
#define SLIPQ_BAD_GEOMETRY 9u                     /* page or word is 0, or page not a multiple of word */
#define SLIPQ_START_RANGE_NOT_AT_PAGE_BOUNDARY 10u /* start not a multiple of page */
#define SLIPQ_END_RANGE_NOT_AT_PAGE_BOUNDARY 11u   /* end not a multiple of page */
#define SLIPQ_RANGE_TOO_SMALL 12u                 /* less than one page, or end below start */
#define SLIPQ_PAGES_TOO_SMALL 13u                 /* page under 3 words + header */
#define SLIPQ_WORD_SIZE_TOO_LARGE 14u             /* word over 32 */
#define SLIPQ_BAD_WORD 15u                        /* word not 4, 8, 16 or 32 */
#define SLIPQ_TOO_LARGE 16u                       /* page over SLIPQ_LARGEST_PAGE, or pages over SLIPQ_MOST_PAGES */
#define SLIPQ_OUTSIDE_IMAGE 17u                   /* the range ends beyond the image */

/* slipq_page_state and slipq_item alone: there is no such page, or no such address in its data. Document 01 has no such row. */
#define SLIPQ_NOT_THERE 255u

/* A row's name as text, as docs/REFUSALS.md has it. The row is looked at more than once: it must not have side effects. */
#define SLIPQ_ROW_NAME(row) \
    ((row) == SLIPQ_DONE ? "done" \
    : (row) == SLIPQ_EMPTY ? "Empty" \
    : (row) == SLIPQ_ITEM_TOO_BIG ? "ItemTooBig" \
    : (row) == SLIPQ_FULL_STORAGE ? "FullStorage" \
    : (row) == SLIPQ_BUFFER_TOO_SMALL ? "BufferTooSmall" \
    : (row) == SLIPQ_CORRUPTED ? "Corrupted" \
    : (row) == SLIPQ_CUT ? "Cut" \
    : (row) == SLIPQ_BAD_GEOMETRY ? "BadGeometry" \
    : (row) == SLIPQ_START_RANGE_NOT_AT_PAGE_BOUNDARY ? "StartRangeNotAtPageBoundary" \
    : (row) == SLIPQ_END_RANGE_NOT_AT_PAGE_BOUNDARY ? "EndRangeNotAtPageBoundary" \
    : (row) == SLIPQ_RANGE_TOO_SMALL ? "RangeTooSmall" \
    : (row) == SLIPQ_PAGES_TOO_SMALL ? "PagesTooSmall" \
    : (row) == SLIPQ_WORD_SIZE_TOO_LARGE ? "WordSizeTooLarge" \
    : (row) == SLIPQ_BAD_WORD ? "BadWord" \
    : (row) == SLIPQ_TOO_LARGE ? "TooLarge" \
    : (row) == SLIPQ_OUTSIDE_IMAGE ? "OutsideImage" \
    : (row) == SLIPQ_NOT_THERE ? "not there" \
    : "a row that this header does not know")

/* The value of a done slipq_find_max_fit where not even the empty slip fits. */
#define SLIPQ_NO_FIT 0xFFFFFFFFu

/* Values of slipq_page_state. */
#define SLIPQ_PAGE_OPEN 0u      /* neither mark is set */
#define SLIPQ_PAGE_PARTIAL 1u   /* the first mark is set */
#define SLIPQ_PAGE_CLOSED 2u    /* both marks are set */
#define SLIPQ_PAGE_CORRUPTED 3u /* the last mark alone is set: an erase was interrupted */

/* The value of slipq_item: what stands there, and a slip's length. */
#define SLIPQ_ITEM_KIND(value) SLIPQ_U32((value) & 7u)
#define SLIPQ_ITEM_LENGTH(value) SLIPQ_U32((value) >> 3)
#define SLIPQ_ITEM_END 0u       /* nothing more: the scan stops here */
#define SLIPQ_ITEM_NO_HEADER 1u /* no good header: the scan goes on one word */
#define SLIPQ_ITEM_WAITS 2u     /* a slip that waits */
#define SLIPQ_ITEM_POPPED 3u    /* a slip that was popped */
#define SLIPQ_ITEM_TORN 4u      /* a slip that was cut short: its checksum is wrong */

/* Tests a geometry for an image of so many bytes: done, or row 9 to 17. The calls make this test themselves. */
uint64_t slipq_check(size_t image_len, const slipq_geometry *geometry);

/*
 * Adds a slip behind the last one. `overwrite`: 0 is off; with any other number a full queue makes room by erasing its oldest page.
 * Rows: 0; 2, the image is unchanged; 3 (never when overwriting), repairs and the current page's start mark may be new, nothing
 * else; 5, repairs and earlier stores stay.
 */
uint64_t slipq_push(uint8_t *image, size_t image_len, const slipq_geometry *geometry, const uint8_t *slip, size_t slip_len,
                    uint32_t overwrite);
uint64_t slipq_push_limited(uint8_t *image, size_t image_len, const slipq_geometry *geometry, const uint8_t *slip, size_t slip_len,
                            uint32_t overwrite, size_t limit);

/*
 * Shows the oldest slip: the buffer's first `value` bytes. The slip stays in the queue; the image may change all the same, by
 * repairs and by erasing pages that have no slip left.
 * Rows: 0, the value is the slip's length; 1; 4, the value is the size needed: the slip's length rounded up to a word; 5. Buffer: the
 * rounded payloads that were read, torn ones too, were copied to its front one after another; bytes past the longest stay.
 */
uint64_t slipq_peek(uint8_t *image, size_t image_len, const slipq_geometry *geometry, uint8_t *buffer, size_t buffer_len);
uint64_t slipq_peek_limited(uint8_t *image, size_t image_len, const slipq_geometry *geometry, uint8_t *buffer, size_t buffer_len,
                            size_t limit);

/* Shows the oldest slip as slipq_peek does, and takes it from the queue. The same rows; a refused pop takes nothing. */
uint64_t slipq_pop(uint8_t *image, size_t image_len, const slipq_geometry *geometry, uint8_t *buffer, size_t buffer_len);
uint64_t slipq_pop_limited(uint8_t *image, size_t image_len, const slipq_geometry *geometry, uint8_t *buffer, size_t buffer_len,
                           size_t limit);

/*
 * The crate's find_max_fit: the bytes that a page or the current page's rest has for the next slip.
 * Rows: 0, the value is that number, or SLIPQ_NO_FIT; 5. Repairs may change the image.
 */
uint64_t slipq_find_max_fit(uint8_t *image, size_t image_len, const slipq_geometry *geometry);
uint64_t slipq_find_max_fit_limited(uint8_t *image, size_t image_len, const slipq_geometry *geometry, size_t limit);

/*
 * The crate's space_left: the bytes left over all pages, headers not counted off.
 * Rows: 0, the value is that number; 5. Repairs may change the image.
 */
uint64_t slipq_space_left(uint8_t *image, size_t image_len, const slipq_geometry *geometry);
uint64_t slipq_space_left_limited(uint8_t *image, size_t image_len, const slipq_geometry *geometry, size_t limit);

/* Sets every page of the range to FF, in page order; the queue is empty then. Row 0. */
uint64_t slipq_erase_all(uint8_t *image, size_t image_len, const slipq_geometry *geometry);
uint64_t slipq_erase_all_limited(uint8_t *image, size_t image_len, const slipq_geometry *geometry, size_t limit);

/* The state of page p, counted from 0: row 0 and SLIPQ_PAGE_..; a page that is not there is SLIPQ_NOT_THERE. Nothing changes. */
uint64_t slipq_page_state(const uint8_t *image, size_t image_len, const slipq_geometry *geometry, uint32_t p);

/*
 * What the scan of page p sees at an address: row 0 and SLIPQ_ITEM_KIND, SLIPQ_ITEM_LENGTH of the value. A page that is not there, or
 * an address outside its data (the page without its first and last word; the end of the data counts as inside, and nothing more stands
 * there), is SLIPQ_NOT_THERE. Nothing changes.
 * To see all of a page begin behind its first word. From a slip go on by its header (8 bytes rounded up to a word) and its length
 * rounded up to a word, from SLIPQ_ITEM_NO_HEADER by a word; stop at SLIPQ_ITEM_END and at the page's last word.
 */
uint64_t slipq_item(const uint8_t *image, size_t image_len, const slipq_geometry *geometry, uint32_t p, uint32_t address);

#ifdef __cplusplus
}
#endif

#endif
