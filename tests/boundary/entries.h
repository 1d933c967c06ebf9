/* Entries of a script (docs/REPLAY.md), and the call of the library that each stands for. */
#ifndef ENTRIES_H
#define ENTRIES_H

#include "tollherring.h"

enum { START_LINE = 1, START_CLERK = 2, COUNT = 3, ASK = 16, TO_CLERK = 17, ACCEPT = 18, USER_A_FREE = 19, USER_CANCELS = 20, TIMER = 21, CLERK_FELL = 22,
       CLERK_TICK = 23, TO_LINE = 32, LINE_REPORT = 33, LOOK = 34, LINE_ACT = 35, GUARD = 36, LINE_FELL = 37, LINE_TICK = 38, WRITE = 48, PRINT_CLERK = 64,
       PRINT_LINE = 65 };

/* the numbers of an entry, as they are handed to the library, and its bytes */
struct entry {
    unsigned code;
    uint64_t kind, service, can_keep, preference; /* of an ask */
    uint64_t choice;                              /* the act, the timer, or whether User A or the line is busy */
    uint64_t keep, retain;                        /* of a line desk's start */
    uint32_t lengths[4];                          /* of a clerk desk's: T1, T2 of CCBS, T2 of CCNR, T3 */
    uint32_t count;                               /* that an entry 3 says */
    tollherring_identifier identifier;
    uint64_t named;                               /* the place that the host names */
    tollherring_number number_a, number_b;        /* number_b: also the number of a line */
    tollherring_line_given lines[255];
    size_t lines_bytes;
    const uint8_t *bytes; /* of a message: they stand in the script */
    size_t length;
    size_t place, size; /* of a write */
    size_t room;        /* of a tick */
};

/* Where everything stands that a call is lent: the caller chooses the memory, so that it can be fenced. */
struct lent {
    tollherring_clerk *clerk;
    tollherring_line *line;
    const tollherring_identifier *identifier;
    const tollherring_number *number_a, *number_b;
    const uint8_t *bytes;
    const tollherring_line_given *lines;
    uint8_t *out;
    size_t room;
    tollherring_outcome *outcome;
    uint32_t count; /* of seconds: an entry has none of its own */
};

/* the desks' lengths before the first entry */
#define USUAL 20, 900, 3600, 20

/* Where the next entry begins; NULL where the script ends inside this one, or a code or a choice is not listed. */
const uint8_t *read_entry(struct entry *entry, const uint8_t *at, const uint8_t *end);

/* whether an entry names a request, as acts and reports do */
int has_name(unsigned code);

/* The call of a step or a start: what it answers. A start, and an entry 3, which calls nothing, have no outcome of their own: the answer is put into one. */
uint64_t call(const struct entry *entry, const struct lent *lent);

#endif
