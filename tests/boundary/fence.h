/* Calls whose every argument in memory stands between two pages that may not be touched, flush against one of them: a byte too far is a crash. */
#ifndef FENCE_H
#define FENCE_H

#include <stddef.h>
#include <stdint.h>

enum { THINGS_MOST = 8, THING_SIZE_MOST = 8000 };

/* one thing that is lent: what stands in it before the call, and what has to stand in it afterwards */
struct thing {
    const void *before, *after;
    size_t size;
};

/* a call with its numbers, on the places of the things */
typedef uint64_t lent_call(const void *numbers, void *const at[]);

void fences_up(void);

/* What the call answers. Everything lent is compared with what has to stand in it; so are the bytes before it, or behind it, that are in reach. */
uint64_t fenced(lent_call *make, const void *numbers, const struct thing things[], size_t count, int at_end);

/* Says where, and ends the program, unless a thing holds. */
#define EXPECT(condition) expect((condition), #condition, __FILE__, __LINE__)
void expect(int holds, const char *what, const char *file, int line);

/* what `expect` tells besides, and how many calls were made between fences */
extern unsigned long entry_number, fenced_calls;

#endif
