/*
 * A place past 2^32 - 1. Of the refusals drawing's alone can have one: 5 at the event of place 2^32 stands at 2^32 - 1.
 * Blank events are zeros, so 48 GiB of them are pages that nobody wrote; the row may not be touched at all. A first
 * difference has its place whole; and where its parts end at pages that may not be read, nothing past them is.
 */
#define _DEFAULT_SOURCE

#include "hsc.h"

#include <stdio.h>
#include <string.h>
#include <sys/mman.h>
#include <unistd.h>

#define PLACE ((size_t)1 << 32)
#define LONGEST 200

/* The first kind that no event has. */
#define ILLEGAL HSC_KIND_COUNT

static void *lend(size_t size, int rights)
{
    void *pages = mmap(NULL, size, rights, MAP_PRIVATE | MAP_ANONYMOUS | MAP_NORESERVE, -1, 0);

    if (pages == MAP_FAILED)
        return NULL;
    madvise(pages, size, MADV_HUGEPAGE);
    return pages;
}

/* The zeros before last and the bytes one further on, of which last is the first that is not zero. */
static uint64_t difference_at(const uint8_t *last, size_t place)
{
    const uint8_t *first = last - 1 - place;

    return hsc_first_difference(first, place + 1, first + 1, place + 1);
}

/* A page of zeros, by its end; the page behind it may not be read. */
static uint8_t *page_end(void)
{
    size_t size = (size_t)sysconf(_SC_PAGESIZE);
    uint8_t *pages = lend(2 * size, PROT_READ | PROT_WRITE);

    return pages == NULL || mprotect(pages + size, size, PROT_NONE) != 0 ? NULL : pages + size;
}

/* Every length up to LONGEST, with every place or none. */
static int differs_up_to_the_end(uint8_t *first_end, uint8_t *second_end)
{
    for (size_t len = 0; len <= LONGEST; len++) {
        uint8_t *first = first_end - len, *second = second_end - len;

        for (size_t place = 0; place < len; place++) {
            first[place] = 1;
            if (hsc_first_difference(first, len, second, len) != place)
                return 0;
            first[place] = 0;
        }
        for (size_t longer = len; longer <= LONGEST; longer++) {
            if (hsc_first_difference(first, len, second_end - longer, longer) != len ||
                hsc_first_difference(first_end - longer, longer, second, len) != len)
                return 0;
        }
    }
    return 1;
}

int main(void)
{
    size_t count = PLACE + 1;
    uint8_t *events = lend(count * HSC_EVENT_SIZE, PROT_READ | PROT_WRITE);
    int32_t *row = lend(count * sizeof *row, PROT_NONE);
    uint8_t *first_end = page_end(), *second_end = page_end();
    uint8_t snapshot[HSC_SNAPSHOT_SIZE] = {1};
    uint8_t before[HSC_SNAPSHOT_SIZE];
    uint64_t status;

    if (events == NULL || row == NULL || first_end == NULL || second_end == NULL) {
        printf("past: skipped, 64 GiB of addresses are not to be had\n");
        return 0;
    }
    events[PLACE * HSC_EVENT_SIZE] = ILLEGAL;
    memcpy(before, snapshot, sizeof before);
    status = hsc_draw(snapshot, sizeof snapshot, events, count * HSC_EVENT_SIZE, row, count);
    if (hsc_number(status) != HSC_REFUSED_EVENT || hsc_place(status) != UINT32_MAX ||
        memcmp(snapshot, before, sizeof before) != 0) {
        printf("past: refused %u at %u\n", (unsigned)hsc_number(status), (unsigned)hsc_place(status));
        return 1;
    }
    if (difference_at(events + PLACE * HSC_EVENT_SIZE, PLACE + 5) != PLACE + 5) {
        printf("past: a first difference is not at 2^32 + 5\n");
        return 1;
    }
    if (!differs_up_to_the_end(first_end, second_end)) {
        printf("past: a first difference of parts at a page's end is not at its place\n");
        return 1;
    }
    printf("past: ok\n");
    return 0;
}
