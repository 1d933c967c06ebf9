/* The parts of the edges: edges.c has the steps, looks.c the calls that look at a desk or a message, ticks.c the ticks, places.c bytes that are spoilt, full.c
 * the desks that are filled. */
#ifndef EDGES_H
#define EDGES_H

#include "entries.h"
#include "fence.h"

struct desks {
    tollherring_clerk clerk;
    tollherring_line line;
};

/* Every place of both desks, and places that they don't have. Where the desks are sound the records stand without a gap. */
void try_looks(struct desks *desks, int sound);

/* A tick of both desks at a count, in every room that makes a difference. Where the desks are sound its messages are good ones. */
void try_ticks(const struct desks *desks, uint32_t count, int sound);

/* Lengths in range and out of it, deadlines as they are shown, and ticks before, at and behind them. */
void start_clerk(void);
void tick_clerk(void);
void tick_line(void);

/* The message of a write entry, read and written at every kind of place, and with fields out of range. */
void try_message(const struct entry *entry);

/* Where bytes went wrong, on bytes that are spoilt in known places; and refusals that have no place. */
void try_places(void);

void fill_clerk(void);
void fill_nameless(void);
void start_line(void);
void fill_line(void);

#endif
