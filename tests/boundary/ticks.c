/* Ticks: of any desks at any count, in every room that makes a difference, and of desks whose deadlines are known. Everything that is lent stands between fences. */
#include <string.h>
#include "edges.h"

/* a tick and its complete result */
struct ticking {
    struct desks desks;
    tollherring_ticked ticked;
    uint8_t out[TOLLHERRING_LINE_TICK_MOST + 1];
};

struct given {
    uint32_t count;
    size_t room;
};

static uint64_t clerk_tick(const void *numbers, void *const at[])
{
    const struct given *g = numbers;
    return tollherring_clerk_tick(at[0], g->count, at[1], g->room, at[2]);
}

static uint64_t line_tick(const void *numbers, void *const at[])
{
    const struct given *g = numbers;
    return tollherring_line_tick(at[0], g->count, at[1], g->room, at[2]);
}

/* one call between fences: it must leave what is told */
static void try_fenced(lent_call *tick, const struct desks *before, const struct ticking *after, uint32_t count, size_t room, int at_end)
{
    static tollherring_ticked never;
    static uint8_t fresh[sizeof after->out];
    struct given g;
    struct thing things[] = {{&before->clerk, &after->desks.clerk, sizeof before->clerk}, {fresh, after->out, 0}, {&never, &after->ticked, sizeof never}};
    memset(&never, 99, sizeof never);
    memset(fresh, 0xEE, sizeof fresh);
    if (tick == line_tick) {
        things[0].before = &before->line;
        things[0].after = &after->desks.line;
        things[0].size = sizeof before->line;
    }
    things[1].size = room;
    g.count = count;
    g.room = room;
    EXPECT(fenced(tick, &g, things, 3, at_end) == after->ticked.refusal);
}

/* nothing was done: the desks, the buffer, and the number alone */
static void told_nothing(struct ticking *t, const struct desks *before, uint64_t refusal)
{
    t->desks = *before;
    memset(&t->ticked, 0, sizeof t->ticked);
    t->ticked.refusal = refusal;
    memset(t->out, 0xEE, sizeof t->out);
}

/* the records that expired are told from the oldest on, with zeros behind them, and their messages have the lengths that are told; of a sound desk each is a ccCancel */
static void sane(const tollherring_ticked *k, const uint8_t *out, uint64_t most, uint64_t notice, int sound)
{
    static const tollherring_expiry zeros;
    tollherring_identifier identifier;
    tollherring_number number_a, number_b;
    tollherring_message message;
    uint64_t n, at = 0, taken, fault_at;
    EXPECT(k->expired <= most);
    for (n = 0; n < k->expired; n++) {
        const tollherring_expiry *e = &k->records[n];
        EXPECT(e->place < most && (n == 0 || e->place > e[-1].place) && e->notice == notice && e->clear == 0);
        EXPECT(e->length >= TOLLHERRING_MESSAGE_LEAST && e->length < TOLLHERRING_MESSAGE_MOST);
        EXPECT(tollherring_message_read(out + at, (size_t)e->length, &identifier, &number_a, &number_b, &message, &taken, &fault_at) == 0);
        EXPECT(taken == e->length && (!sound || message.type == TOLLHERRING_CC_CANCEL));
        at += e->length;
    }
    EXPECT(k->length == at);
    for (; n < 32; n++)
        EXPECT(memcmp(&k->records[n], &zeros, sizeof zeros) == 0);
}

/* the call in plain memory with more room than any tick takes */
static void tell(lent_call *tick, const struct desks *before, uint32_t count, struct ticking *t, int sound)
{
    struct given g;
    void *at[3];
    size_t i;
    t->desks = *before;
    memset(t->out, 0xEE, sizeof t->out);
    memset(&t->ticked, 99, sizeof t->ticked);
    at[0] = tick == clerk_tick ? (void *)&t->desks.clerk : (void *)&t->desks.line;
    at[1] = t->out;
    at[2] = &t->ticked;
    g.count = count;
    g.room = sizeof t->out;
    EXPECT(tick(&g, at) == t->ticked.refusal);
    EXPECT(t->ticked.refusal == 0 || (!sound && t->ticked.refusal == TOLLHERRING_OUT_OF_RANGE));
    if (t->ticked.refusal != 0 || t->ticked.expired == 0)
        EXPECT(memcmp(before, &t->desks, sizeof *before) == 0);
    sane(&t->ticked, t->out, tick == clerk_tick ? 16 : 32, tick == clerk_tick ? TOLLHERRING_FAILED : 0, sound);
    for (i = (size_t)t->ticked.length; i < sizeof t->out; i++)
        EXPECT(t->out[i] == 0xEE);
}

/* every room that makes a difference, against either fence; a desk that is ticked once more has none due */
static void try_tick(lent_call *tick, const struct desks *desks, uint32_t count, int sound)
{
    static struct ticking whole, none, again;
    size_t rooms[5], k;
    tell(tick, desks, count, &whole, sound);
    told_nothing(&none, desks, TOLLHERRING_NO_ROOM);
    rooms[0] = 0;
    rooms[1] = (size_t)whole.ticked.length - (whole.ticked.length > 0);
    rooms[2] = (size_t)whole.ticked.length;
    rooms[3] = (size_t)whole.ticked.length + 1;
    rooms[4] = tick == clerk_tick ? TOLLHERRING_CLERK_TICK_MOST : TOLLHERRING_LINE_TICK_MOST;
    for (k = whole.ticked.refusal != 0 ? 4 : 0; k < 5; k++) {
        try_fenced(tick, desks, rooms[k] < whole.ticked.length ? &none : &whole, count, rooms[k], 1);
        try_fenced(tick, desks, rooms[k] < whole.ticked.length ? &none : &whole, count, rooms[k], 0);
    }
    if (whole.ticked.refusal == 0) {
        tell(tick, &whole.desks, count, &again, sound);
        EXPECT(again.ticked.expired == 0);
    }
}

void try_ticks(const struct desks *desks, uint32_t count, int sound)
{
    try_tick(clerk_tick, desks, count, sound);
    try_tick(line_tick, desks, count, sound);
}

/* ---- desks whose deadlines are known */

static struct desks desks;
static uint8_t out[TOLLHERRING_MESSAGE_MOST];
static tollherring_outcome outcome;

/* each length at both ends of its range and beside them; a refused start leaves the memory as it was */
void start_clerk(void)
{
    static const uint32_t range[4][2] = {{1, 3600}, {60, 3600}, {60, 86400}, {10, 30}};
    static tollherring_clerk before, empty;
    size_t k, n;
    EXPECT(tollherring_clerk_start(&empty, USUAL) == 0);
    for (k = 0; k < 4; k++) {
        const uint32_t tried[] = {range[k][0], range[k][1], range[k][0] - 1, range[k][1] + 1, 0, 0x20000 + range[k][0], 0x80000000 + range[k][0], UINT32_MAX};
        for (n = 0; n < sizeof tried / sizeof tried[0]; n++) {
            uint32_t lengths[4] = {USUAL};
            uint64_t refusal;
            lengths[k] = tried[n];
            memset(&desks.clerk, 0x99, sizeof desks.clerk);
            before = desks.clerk;
            refusal = tollherring_clerk_start(&desks.clerk, lengths[0], lengths[1], lengths[2], lengths[3]);
            EXPECT(refusal == (n < 2 ? 0u : TOLLHERRING_OUT_OF_RANGE));
            EXPECT(n < 2 || memcmp(&before, &desks.clerk, sizeof before) == 0);
            EXPECT(n >= 2 || (memcmp(&empty, &desks.clerk, sizeof empty) == 0) == (tried[n] == ((const uint32_t[]){USUAL})[k]));
        }
    }
}

static tollherring_record record_at(int clerk, uint64_t place)
{
    tollherring_identifier identifier;
    tollherring_number number_a, number_b;
    tollherring_record r;
    memset(&r, 0, sizeof r);
    if (clerk)
        EXPECT(tollherring_clerk_record(&desks.clerk, place, &identifier, &number_a, &number_b, &r) == 0);
    else
        EXPECT(tollherring_line_record(&desks.line, place, &identifier, &number_a, &number_b, &r) == 0);
    return r;
}

/* request n, of a kind, about the one line */
static void ask(uint32_t count, uint8_t n, uint64_t kind)
{
    const tollherring_identifier identifier = {16, {8, n}};
    const tollherring_number number_a = {2, {4, n}}, number_b = {2, {8, 0}};
    EXPECT(tollherring_clerk_ask(&desks.clerk, count, &identifier, kind, &number_a, &number_b, 1, 1, TOLLHERRING_PREFER_NONE, out, sizeof out, &outcome) == 0);
}

/* what was sent last reaches the other end */
static void carry(uint32_t count, int to_clerk)
{
    uint8_t bytes[TOLLHERRING_MESSAGE_MOST];
    memcpy(bytes, out, sizeof bytes);
    if (to_clerk)
        EXPECT(tollherring_clerk_receive(&desks.clerk, count, TOLLHERRING_NO_PLACE, bytes, sizeof bytes, 0, out, sizeof out, &outcome) == 0);
    else
        EXPECT(tollherring_line_receive(&desks.line, count, TOLLHERRING_NO_PLACE, bytes, sizeof bytes, out, sizeof out, &outcome) == 0);
}

/* a tick for good, tried in every way: what it tells */
static tollherring_ticked tick(int clerk, uint32_t count)
{
    static struct ticking t;
    try_ticks(&desks, count, 1);
    tell(clerk ? clerk_tick : line_tick, &desks, count, &t, 1);
    desks = t.desks;
    return t.ticked;
}

static void start_both(void)
{
    static const tollherring_line_given lines[1] = {{{2, {8, 0}}, TOLLHERRING_CCBS + TOLLHERRING_CCNR}};
    EXPECT(tollherring_clerk_start(&desks.clerk, 25, 100, 200, 12) == 0);
    EXPECT(tollherring_line_start(&desks.line, lines, sizeof lines, 1, 0) == 0);
}

/* T1 from the ask, T2 from the acknowledgment by the kind, over the turn of the count; T3 from the recall, and T2 not in Ringout */
void tick_clerk(void)
{
    const tollherring_identifier fourth = {16, {8, 4}};
    const tollherring_number b = {2, {8, 0}};
    const uint32_t start = UINT32_MAX - 9; /* ten seconds before the turn */
    tollherring_ticked t;
    tollherring_record r;
    start_both();
    ask(start, 1, TOLLHERRING_CCBS);
    r = record_at(1, 0);
    EXPECT(r.timers == TOLLHERRING_T1 && r.t1 == 15 && r.t2 == 0 && r.t3 == 0 && r.guard == 0);
    ask(start + 1, 2, TOLLHERRING_CCNR);
    ask(start + 2, 3, TOLLHERRING_CCBS);
    ask(start + 3, 4, TOLLHERRING_CCNR);
    carry(start + 3, 0);
    carry(start + 4, 1);
    r = record_at(1, 3);
    EXPECT(r.timers == TOLLHERRING_T2 && r.t1 == 0 && r.t2 == 194 && r.t3 == 0);
    t = tick(1, start);
    EXPECT(t.expired == 0 && t.length == 0);
    t = tick(1, 14);
    EXPECT(t.expired == 0);
    t = tick(1, 15); /* one expired, the others move forward */
    EXPECT(t.expired == 1 && t.records[0].place == 0 && t.length == 19 && record_at(1, 0).t1 == 16);
    t = tick(1, 17); /* two, by the places before the tick */
    EXPECT(t.expired == 2 && t.records[0].place == 0 && t.records[1].place == 1 && record_at(1, 0).t2 == 194);
    EXPECT(tollherring_line_look(&desks.line, 20, &b, out, sizeof out, &outcome) == TOLLHERRING_NOTHING_TO_OFFER);
    EXPECT(tollherring_line_report(&desks.line, 20, &b, 1, out, sizeof out, &outcome) == 0);
    EXPECT(tollherring_line_report(&desks.line, 20, &b, 0, out, sizeof out, &outcome) == 0);
    EXPECT(tollherring_line_look(&desks.line, 20, &b, out, sizeof out, &outcome) == 0);
    carry(185, 1);
    r = record_at(1, 0);
    EXPECT(outcome.notice == TOLLHERRING_RECALL && r.timers == TOLLHERRING_T2 + TOLLHERRING_T3 && r.t2 == 194 && r.t3 == 197);
    EXPECT(tollherring_clerk_act(&desks.clerk, 190, TOLLHERRING_NO_PLACE, &fourth, TOLLHERRING_CLERK_ACT_ACCEPT, out, sizeof out, &outcome) == 0);
    r = record_at(1, 0);
    EXPECT(r.timers == TOLLHERRING_T2 && r.t2 == 194 && r.t3 == 0);
    t = tick(1, 1000); /* in Ringout */
    EXPECT(t.expired == 0 && record_at(1, 0).t2 == 194);
    EXPECT(tollherring_line_report(&desks.line, 1000, &b, 1, out + 1, 0, &outcome) == 0);
    carry(1000, 0);
    carry(1000, 1);
    EXPECT(outcome.notice == TOLLHERRING_BUSY_AGAIN_WAITING && record_at(1, 0).t2 == 194);
    t = tick(1, 1000); /* back in Invoked: it was due long ago */
    EXPECT(t.expired == 1 && t.records[0].place == 0 && t.records[0].notice == TOLLHERRING_FAILED);
}

/* the guard from acceptance, by the kind */
void tick_line(void)
{
    tollherring_ticked t;
    tollherring_record r;
    start_both();
    ask(0, 1, TOLLHERRING_CCNR);
    carry(500, 0);
    ask(0, 2, TOLLHERRING_CCBS);
    carry(600, 0);
    ask(0, 3, TOLLHERRING_CCBS);
    carry(700, 0);
    r = record_at(0, 0);
    EXPECT(r.timers == TOLLHERRING_GUARD && r.guard == 86960 && r.t1 == 0 && r.t2 == 0 && r.t3 == 0);
    EXPECT(record_at(0, 1).guard == 4260 && record_at(0, 2).guard == 4360);
    t = tick(0, 4259);
    EXPECT(t.expired == 0);
    t = tick(0, 4260);
    EXPECT(t.expired == 1 && t.records[0].place == 1 && t.records[0].notice == 0 && record_at(0, 1).guard == 4360);
    t = tick(0, 86960);
    EXPECT(t.expired == 2 && t.records[0].place == 0 && t.records[1].place == 1 && t.length == t.records[0].length + t.records[1].length);
}
