/* What a script's lines cannot show. Plays a script from standard input, and before each entry is played for good it is tried on copies of the desks, everything
 * fenced: with no room, one byte too little, just enough and more; with each plain number out of its range; with other named places; and on desks that hold
 * garbage. Whole memories are compared; so they are of ticks at many counts. Then bytes are spoilt in known places, desks are started and ticked, and filled. With the word `short` one byte less is lent than is said, and a fence has to end the program. */
#include <stdio.h>
#include <stdlib.h>
#include <string.h>
#include "edges.h"

#define SCRIPT_MOST 262144

/* a call and its complete result */
struct told {
    struct desks desks;
    tollherring_outcome outcome;
    uint8_t out[64];
};

struct with_room {
    const struct entry *entry;
    size_t room;
};

static size_t lie; /* how many bytes more are said to be there than are */
static uint32_t count; /* that every step is given */

static int on_clerk(const struct entry *e)
{
    return e->code != START_LINE && e->code < TO_LINE;
}

static uint64_t on_things(const void *numbers, void *const at[])
{
    const struct with_room *w = numbers;
    struct lent l;
    l.clerk = at[0];
    l.line = at[0];
    l.identifier = at[1];
    l.number_a = at[2];
    l.number_b = at[3];
    l.bytes = at[4];
    l.lines = at[5];
    l.out = at[6];
    l.room = w->room + lie;
    l.outcome = at[7];
    l.count = count;
    return call(w->entry, &l);
}

/* one call between fences: it must leave what is told, and answer the outcome's refusal */
static void try_fenced(const struct entry *e, const struct desks *before, const struct told *after, size_t room, int at_end)
{
    static const tollherring_outcome never = {99, 99, 99, 99, 99, 99, 99, 99, 99, 99, 99};
    struct with_room w;
    uint8_t fresh[64];
    struct thing things[] = {
        {&before->clerk, &after->desks.clerk, sizeof before->clerk},
        {&e->identifier, &e->identifier, sizeof e->identifier},
        {&e->number_a, &e->number_a, sizeof e->number_a},
        {&e->number_b, &e->number_b, sizeof e->number_b},
        {e->bytes, e->bytes, 0},
        {e->lines, e->lines, 0},
        {NULL, NULL, 0},
        {&never, &after->outcome, sizeof never},
    };
    if (!on_clerk(e)) {
        things[0].before = &before->line;
        things[0].after = &after->desks.line;
        things[0].size = sizeof before->line;
    }
    memset(fresh, 0xEE, sizeof fresh);
    things[4].size = e->length;
    things[5].size = e->lines_bytes;
    things[6].before = fresh;
    things[6].after = after->out;
    things[6].size = room;
    w.entry = e;
    w.room = room;
    EXPECT(fenced(on_things, &w, things, sizeof things / sizeof things[0], at_end) == after->outcome.refusal);
}

/* nothing was done: the desks, the buffer, and an outcome that has the number alone */
static void told_nothing(struct told *t, const struct desks *before, uint64_t refusal)
{
    t->desks = *before;
    memset(&t->outcome, 0, sizeof t->outcome);
    t->outcome.refusal = refusal;
    memset(t->out, 0xEE, sizeof t->out);
}

/* a place is told exactly where the bytes could not be read, and it is the reader's own: of a script's numbers none is out of range beside bytes */
static void faulty(const struct entry *e, const tollherring_outcome *o)
{
    tollherring_identifier identifier;
    tollherring_number number_a, number_b;
    tollherring_message message;
    uint64_t taken, place = 0, refusal = 0;
    if (e->code == TO_CLERK || e->code == TO_LINE)
        refusal = tollherring_message_read(e->bytes, e->length, &identifier, &number_a, &number_b, &message, &taken, &place);
    EXPECT(o->unread == (refusal != 0) && o->fault_at == place && place <= e->length);
    if (refusal != 0)
        EXPECT(o->refusal == refusal && o->next == 0 && o->length == 0 && (refusal == TOLLHERRING_BYTES_END || place < e->length));
}

/* the place of a record is told exactly where a step is about one: it was taken, and was no start, no line report and no request that is denied */
static void placed(const struct entry *e, const struct told *t)
{
    const tollherring_outcome *o = &t->outcome;
    int started = e->code < ASK, denied = e->code == TO_LINE && o->length > 0 && t->out[0] == TOLLHERRING_REQUEST_ERROR;
    EXPECT(o->has_record == (o->refusal == 0 && !started && e->code != LINE_REPORT && !denied));
    EXPECT(o->record_at < (on_clerk(e) ? 16u : 32u) && (o->has_record || o->record_at == 0));
}

/* what is so of every outcome, whatever the desk */
static void sane(const struct entry *e, const struct desks *before, const struct told *t)
{
    const tollherring_outcome *o = &t->outcome;
    size_t i;
    EXPECT(o->refusal < TOLLHERRING_NO_ROOM);
    EXPECT(o->length == 0 || (o->length >= TOLLHERRING_MESSAGE_LEAST && o->length <= TOLLHERRING_MESSAGE_MOST));
    EXPECT(o->next <= e->length && o->starts <= 15 && o->stops <= 15 && o->notice <= TOLLHERRING_BUSY_AGAIN_WAITING && o->clear <= 1);
    if (o->refusal != 0) {
        EXPECT(memcmp(before, &t->desks, sizeof *before) == 0);
        EXPECT(o->starts == 0 && o->stops == 0 && o->notice == 0 && o->clear == 0);
    }
    for (i = (size_t)o->length; i < sizeof t->out; i++)
        EXPECT(t->out[i] == 0xEE);
    faulty(e, o);
    placed(e, t);
}

/* the call in plain memory with more room than any message takes */
static void tell(const struct entry *e, const struct desks *before, struct told *t)
{
    struct lent l;
    t->desks = *before;
    memset(t->out, 0xEE, sizeof t->out);
    memset(&t->outcome, 99, sizeof t->outcome);
    l.clerk = &t->desks.clerk;
    l.line = &t->desks.line;
    l.identifier = &e->identifier;
    l.number_a = &e->number_a;
    l.number_b = &e->number_b;
    l.bytes = e->bytes ? e->bytes : t->out;
    l.lines = e->lines;
    l.out = t->out;
    l.room = sizeof t->out;
    l.outcome = &t->outcome;
    l.count = count;
    EXPECT(call(e, &l) == t->outcome.refusal);
    sane(e, before, t);
}

/* every room that makes a difference, against either fence */
static void try_rooms(const struct entry *e, const struct desks *before)
{
    static struct told whole, none;
    size_t rooms[5], k;
    tell(e, before, &whole);
    told_nothing(&none, before, TOLLHERRING_NO_ROOM);
    rooms[0] = 0;
    rooms[1] = (size_t)whole.outcome.length - (whole.outcome.length > 0);
    rooms[2] = (size_t)whole.outcome.length;
    rooms[3] = (size_t)whole.outcome.length + 1;
    rooms[4] = TOLLHERRING_MESSAGE_MOST;
    for (k = 0; k < 5; k++) {
        try_fenced(e, before, rooms[k] < whole.outcome.length ? &none : &whole, rooms[k], 1);
        try_fenced(e, before, rooms[k] < whole.outcome.length ? &none : &whole, rooms[k], 0);
    }
}

/* the plain numbers of each call, and values beside their ranges; 257 where a narrower number would make it 1 */
static const struct {
    unsigned from, to; /* codes */
    size_t field;
    uint64_t beside[3];
} numbers_given[] = {
    {ASK, ASK, offsetof(struct entry, kind), {0, 3, 257}},
    {ASK, ASK, offsetof(struct entry, service), {16384, 65535, 65536}},
    {ASK, ASK, offsetof(struct entry, can_keep), {2, 3, 257}},
    {ASK, ASK, offsetof(struct entry, preference), {3, 4, 257}},
    {TO_CLERK, TO_CLERK, offsetof(struct entry, choice), {2, 3, 257}},
    {ACCEPT, USER_CANCELS, offsetof(struct entry, choice), {0, 6, 257}},
    {TIMER, TIMER, offsetof(struct entry, choice), {0, 4, 257}},
    {CLERK_FELL, CLERK_FELL, offsetof(struct entry, choice), {0, 6, 257}},
    {LINE_REPORT, LINE_REPORT, offsetof(struct entry, choice), {2, 3, 257}},
    {LINE_ACT, LINE_ACT, offsetof(struct entry, choice), {0, 5, 6}},
    {LINE_FELL, LINE_FELL, offsetof(struct entry, choice), {0, 5, 257}},
    {START_LINE, START_LINE, offsetof(struct entry, keep), {2, 3, 257}},
    {START_LINE, START_LINE, offsetof(struct entry, retain), {2, 3, 257}},
};

static void try_numbers(const struct entry *e, const struct desks *before)
{
    static const uint64_t far[] = {0x10001, 0x100000001, 0x8000000000000001, UINT64_MAX};
    static struct entry wrong;
    static struct told none;
    size_t k, v;
    told_nothing(&none, before, TOLLHERRING_OUT_OF_RANGE);
    for (k = 0; k < sizeof numbers_given / sizeof numbers_given[0]; k++) {
        if (e->code < numbers_given[k].from || e->code > numbers_given[k].to)
            continue;
        wrong = *e;
        for (v = 0; v < 7; v++) {
            memcpy((char *)&wrong + numbers_given[k].field, v < 3 ? &numbers_given[k].beside[v] : &far[v - 3], sizeof(uint64_t));
            try_fenced(&wrong, before, &none, v % 2 ? 0 : TOLLHERRING_MESSAGE_MOST, v % 2 == 0);
        }
    }
}

/* the length of an identifier is 0 or 16 */
static void try_lengths(const struct entry *e, const struct desks *before)
{
    static const uint8_t lengths[] = {1, 8, 15, 17, 32, 128, 144, 255};
    static struct entry wrong;
    static struct told none;
    size_t k;
    if (e->code != ASK && !has_name(e->code))
        return;
    told_nothing(&none, before, TOLLHERRING_OUT_OF_RANGE);
    wrong = *e;
    for (k = 0; k < sizeof lengths; k++) {
        wrong.identifier.length = lengths[k];
        try_fenced(&wrong, before, &none, k % 2 ? 0 : TOLLHERRING_MESSAGE_MOST, k % 2 == 0);
    }
}

/* whether the place that the host names is not looked at: there is an identifier, or a message's own numbers say which record is meant */
static int place_ignored(const struct entry *e)
{
    tollherring_identifier identifier;
    tollherring_number number_a, number_b;
    tollherring_message m;
    uint64_t taken, place;
    if (has_name(e->code))
        return e->identifier.length == 16;
    if (tollherring_message_read(e->bytes, e->length, &identifier, &number_a, &number_b, &m, &taken, &place) != 0)
        return 1;
    return identifier.length == 16 || m.type <= TOLLHERRING_CCNR_REQUEST ||
           (m.carrier == TOLLHERRING_SETUP && (m.type == TOLLHERRING_CC_EXEC_POSSIBLE || m.type == TOLLHERRING_CC_RINGOUT ||
                                               m.type == TOLLHERRING_CC_RESUME || m.type == TOLLHERRING_CC_CANCEL));
}

/* other named places: where the place is not looked at, the same step; else one where no record stands, which is 6, or for a type of the other end 3 */
static void try_named(const struct entry *e, const struct desks *before)
{
    static const uint64_t near[] = {0, 1, 15, 31}, none[] = {32, 255, 256, (uint64_t)1 << 32, (uint64_t)1 << 61, TOLLHERRING_NO_PLACE};
    static struct entry other;
    static struct told whole, there;
    size_t k;
    int ignored;
    if (!has_name(e->code) && e->code != TO_CLERK && e->code != TO_LINE)
        return;
    ignored = place_ignored(e);
    tell(e, before, &whole);
    other = *e;
    for (k = 0; ignored && k < sizeof near / sizeof near[0]; k++) {
        other.named = near[k];
        try_fenced(&other, before, &whole, TOLLHERRING_MESSAGE_MOST, k % 2 == 0);
    }
    for (k = 0; k < sizeof none / sizeof none[0]; k++) {
        other.named = none[k];
        if (ignored) {
            try_fenced(&other, before, &whole, TOLLHERRING_MESSAGE_MOST, k % 2 == 0);
            continue;
        }
        tell(&other, before, &there);
        EXPECT(there.outcome.refusal == TOLLHERRING_NO_RECORD || there.outcome.refusal == TOLLHERRING_OTHER_END);
        try_fenced(&other, before, &there, TOLLHERRING_MESSAGE_MOST, k % 2 == 0);
    }
}

/* splitmix64: the same garbage in each run */
static uint64_t any(void)
{
    static uint64_t state = 9;
    uint64_t z = state += 0x9E3779B97F4A7C15;
    z = (z ^ z >> 30) * 0xBF58476D1CE4E5B9;
    z = (z ^ z >> 27) * 0x94D049BB133111EB;
    return z ^ z >> 31;
}

/* garbage of four sorts: any words; small ones, as states and lengths are; the desk with one word, or one bit, that is not its own */
static void spoil(uint64_t *words, size_t count, unsigned sort)
{
    size_t k;
    if (sort < 2)
        for (k = 0; k < count; k++)
            words[k] = sort == 0 ? any() : any() % 6;
    else if (sort == 2)
        words[any() % count] = any() >> any() % 64;
    else
        words[any() % count] ^= (uint64_t)1 << any() % 64;
}

static void spoil_desks(struct desks *desks)
{
    unsigned sort = (unsigned)(any() % 4);
    spoil(desks->clerk.words, TOLLHERRING_CLERK_WORDS, sort);
    spoil(desks->line.words, TOLLHERRING_LINE_WORDS, sort);
}

/* A tick at the count or behind it, by turns: at the deadlines that there can be, before them, and half a turn away; and on desks that hold garbage. Then, where the entry is
 * one, the tick for good. */
static void play_tick(const struct entry *e, struct desks *now)
{
    static const uint32_t later[] = {0, 1, 20, 900, 3600, 3660, 86460, 0x7FFFFFFF, 0x80000000, 0xFFFFFFFF};
    static struct desks spoilt;
    static tollherring_ticked ticked;
    static uint8_t out[TOLLHERRING_LINE_TICK_MOST];
    static size_t turn;
    size_t room = e->room < sizeof out ? e->room : sizeof out;
    try_ticks(now, count + later[turn % 10], 1);
    spoilt = *now;
    spoil_desks(&spoilt);
    try_ticks(&spoilt, count + later[turn++ % 10], 0);
    if (e->code == CLERK_TICK)
        tollherring_clerk_tick(&now->clerk, count, out, room, &ticked);
    else if (e->code == LINE_TICK)
        tollherring_line_tick(&now->line, count, out, room, &ticked);
}

/* a record of a sound desk as it is shown; zeros where there is none */
struct shown {
    tollherring_identifier identifier;
    tollherring_number number_a, number_b;
    tollherring_record record;
};

static int show(const struct desks *desks, int clerk, uint64_t place, struct shown *s)
{
    memset(s, 0, sizeof *s);
    if (clerk)
        return tollherring_clerk_record(&desks->clerk, place, &s->identifier, &s->number_a, &s->number_b, &s->record) == 0;
    return tollherring_line_record(&desks->line, place, &s->identifier, &s->number_a, &s->number_b, &s->record) == 0;
}

/* what a host that keeps places goes by: a step stores its record behind all others (T1, or the guard, starts), or ends it and moves those behind it forward by
 * one (a notice that says so, or the guard stops), or changes it where it stands; no other record changes */
static void kept_in_order(const struct entry *e, const struct desks *before, const struct told *t)
{
    static const int over[] = {0, 0, 1, 1, 0, 1, 1, 0, 1, 1, 0}; /* by notice */
    const tollherring_outcome *o = &t->outcome;
    int clerk = on_clerk(e), stored = (o->starts & (clerk ? TOLLHERRING_T1 : TOLLHERRING_GUARD)) != 0;
    int ended = clerk ? over[o->notice] : (o->stops & TOLLHERRING_GUARD) != 0;
    struct shown was, is;
    uint64_t place, count = 0;
    if (!o->has_record)
        return;
    while (show(before, clerk, count, &was))
        count++;
    EXPECT(stored ? o->record_at == count && !ended : o->record_at < count);
    for (place = 0; place < count + (uint64_t)stored; place++) {
        if (place == o->record_at)
            continue;
        EXPECT(show(before, clerk, place, &was) && show(&t->desks, clerk, place - (uint64_t)(ended && place > o->record_at), &is));
        EXPECT(memcmp(&was, &is, sizeof was) == 0);
    }
    EXPECT(show(&t->desks, clerk, count + (uint64_t)stored - (uint64_t)ended, &is) == 0);
}

/* a step in every way, and for good */
static void play_step(const struct entry *e, struct desks *now)
{
    static struct desks spoilt;
    static struct told next;
    try_rooms(e, now);
    try_numbers(e, now);
    try_lengths(e, now);
    try_named(e, now);
    spoilt = *now;
    spoil_desks(&spoilt);
    try_rooms(e, &spoilt);
    tell(e, now, &next);
    kept_in_order(e, now, &next);
    *now = next.desks;
}

static void play_print(const struct desks *now)
{
    static struct desks spoilt;
    spoilt = *now;
    try_looks(&spoilt, 1);
    spoil_desks(&spoilt);
    try_looks(&spoilt, 0);
}

static void play(const uint8_t *script, size_t length)
{
    static struct entry e;
    static struct desks now;
    const uint8_t *at = script, *end = script + length;
    EXPECT(tollherring_clerk_start(&now.clerk, USUAL) == 0);
    EXPECT(tollherring_line_start(&now.line, e.lines, 0, 0, 0) == 0);
    for (entry_number = 0; at != end && (at = read_entry(&e, at, end)) != NULL; entry_number++) {
        switch (e.code) {
        case COUNT: count = e.count; break;
        case WRITE: try_message(&e); break;
        case PRINT_CLERK: case PRINT_LINE: play_print(&now); play_tick(&e, &now); break;
        case CLERK_TICK: case LINE_TICK: play_tick(&e, &now); break;
        default: play_step(&e, &now);
        }
    }
}

int main(int argc, char **argv)
{
    static uint8_t script[SCRIPT_MOST];
    size_t length = fread(script, 1, SCRIPT_MOST, stdin);
    lie = argc > 1 && strcmp(argv[1], "short") == 0;
    fences_up();
    play(script, length);
    try_places();
    start_clerk();
    tick_clerk();
    tick_line();
    printf("%lu entries, %lu calls between fences\n", entry_number, fenced_calls);
    fill_clerk();
    fill_nameless();
    start_line();
    fill_line();
    return 0;
}
