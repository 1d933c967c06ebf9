/* Calls whose every argument in memory stands between two pages that may not be touched. */
#define _DEFAULT_SOURCE
#include <stdio.h>
#include <stdlib.h>
#include <string.h>
#include <sys/mman.h>
#include <unistd.h>
#include "fence.h"

enum { MARGIN = 64, MARK = 0xA5 };

unsigned long entry_number, fenced_calls;
static uint8_t *pages[THINGS_MOST];
static size_t pages_size;

void expect(int holds, const char *what, const char *file, int line)
{
    if (holds)
        return;
    fprintf(stderr, "%s:%d: entry %lu: not so: %s\n", file, line, entry_number, what);
    exit(1);
}

void fences_up(void)
{
    size_t page = (size_t)sysconf(_SC_PAGESIZE), k;
    pages_size = (THING_SIZE_MOST + MARGIN + page - 1) / page * page;
    for (k = 0; k < THINGS_MOST; k++) {
        uint8_t *fence = mmap(NULL, pages_size + 2 * page, PROT_NONE, MAP_PRIVATE | MAP_ANONYMOUS, -1, 0);
        EXPECT(fence != MAP_FAILED);
        pages[k] = fence + page;
        EXPECT(mprotect(pages[k], pages_size, PROT_READ | PROT_WRITE) == 0);
    }
}

/* on the side that has no fence, some bytes are marked */
static uint8_t *margin(size_t k, size_t size, int at_end)
{
    return at_end ? pages[k] + pages_size - size - MARGIN : pages[k] + size;
}

static int margin_kept(const uint8_t *at)
{
    size_t i;
    for (i = 0; i < MARGIN; i++)
        if (at[i] != MARK)
            return 0;
    return 1;
}

uint64_t fenced(lent_call *make, const void *numbers, const struct thing things[], size_t count, int at_end)
{
    void *at[THINGS_MOST] = {NULL};
    uint64_t answer;
    size_t k;
    EXPECT(count <= THINGS_MOST);
    for (k = 0; k < count; k++) {
        EXPECT(things[k].size <= THING_SIZE_MOST);
        at[k] = at_end ? pages[k] + pages_size - things[k].size : pages[k];
        memset(margin(k, things[k].size, at_end), MARK, MARGIN);
        if (things[k].size > 0)
            memcpy(at[k], things[k].before, things[k].size);
    }
    fenced_calls++;
    answer = make(numbers, at);
    for (k = 0; k < count; k++)
        if ((things[k].size > 0 && memcmp(at[k], things[k].after, things[k].size) != 0) || !margin_kept(margin(k, things[k].size, at_end)))
            expect(0, "it stands as it has to", "thing lent", (int)k);
    return answer;
}
