/* Entries of a script (docs/REPLAY.md), and the call of the library that each stands for. */
#include <string.h>
#include "entries.h"

struct unread {
    const uint8_t *at, *end;
    int stopped;
};

static uint8_t byte_of(struct unread *u)
{
    if (u->at == u->end) {
        u->stopped = 1;
        return 0;
    }
    return *u->at++;
}

/* a byte that has to be one of those listed */
static uint8_t listed(struct unread *u, uint8_t least, uint8_t most)
{
    uint8_t value = byte_of(u);
    if (value < least || value > most)
        u->stopped = 1;
    return value;
}

static const uint8_t *run_of(struct unread *u, size_t count)
{
    const uint8_t *first = u->at;
    if (count > (size_t)(u->end - u->at)) {
        u->stopped = 1;
        return NULL;
    }
    u->at += count;
    return first;
}

/* 0, or 16 and so many bytes */
static void identifier_of(struct unread *u, tollherring_identifier *identifier)
{
    const uint8_t *bytes;
    identifier->length = byte_of(u);
    if (identifier->length != 0 && identifier->length != 16)
        u->stopped = 1;
    bytes = run_of(u, identifier->length);
    if (bytes && !u->stopped)
        memcpy(identifier->bytes, bytes, identifier->length);
}

/* the length, in range or not, and at most the first 15 of the bytes */
static void number_of(struct unread *u, tollherring_number *number)
{
    const uint8_t *digits;
    number->length = byte_of(u);
    digits = run_of(u, number->length);
    if (digits)
        memcpy(number->digits, digits, number->length < 15 ? number->length : 15);
}

static void message_of(struct unread *u, struct entry *e)
{
    e->length = byte_of(u);
    e->bytes = run_of(u, e->length);
}

/* low byte first */
static uint32_t number_of_bytes(struct unread *u, unsigned count)
{
    uint32_t value = 0;
    unsigned k;
    for (k = 0; k < count; k++)
        value |= (uint32_t)byte_of(u) << 8 * k;
    return value;
}

static void lengths_of(struct unread *u, struct entry *e)
{
    size_t k;
    for (k = 0; k < 4; k++)
        e->lengths[k] = number_of_bytes(u, 4);
}

static void room_of(struct unread *u, struct entry *e)
{
    e->room = number_of_bytes(u, 2);
    if (e->room > 2048)
        u->stopped = 1;
}

static void lines_of(struct unread *u, struct entry *e)
{
    size_t count = byte_of(u), k;
    uint8_t settings;
    for (k = 0; k < count && !u->stopped; k++) {
        number_of(u, &e->lines[k].number);
        e->lines[k].kinds = listed(u, 0, 3);
    }
    e->lines_bytes = count * sizeof e->lines[0];
    settings = listed(u, 0, 3);
    e->keep = settings & 1u;
    e->retain = settings >> 1;
}

static void ask_of(struct unread *u, struct entry *e)
{
    e->kind = listed(u, 1, 2);
    number_of(u, &e->number_a);
    number_of(u, &e->number_b);
    e->service = number_of_bytes(u, 2);
    e->can_keep = listed(u, 0, 1);
    e->preference = byte_of(u);
}

/* what stands behind the code, and behind the identifier of an ask or the name of an act or a report */
static void fields_of(struct unread *u, struct entry *e)
{
    switch (e->code) {
    case START_LINE: lines_of(u, e); break;
    case START_CLERK: lengths_of(u, e); break;
    case COUNT: e->count = number_of_bytes(u, 4); break;
    case ASK: ask_of(u, e); break;
    case TO_CLERK: e->choice = listed(u, 0, 1); e->named = byte_of(u); message_of(u, e); break;
    case ACCEPT: e->choice = TOLLHERRING_CLERK_ACT_ACCEPT; break;
    case USER_A_FREE: e->choice = listed(u, 0, 1) ? TOLLHERRING_CLERK_ACT_GO_ON : TOLLHERRING_CLERK_ACT_RESUME; break;
    case USER_CANCELS: e->choice = TOLLHERRING_CLERK_ACT_CANCEL; break;
    case CLERK_FELL: e->choice = TOLLHERRING_CLERK_ACT_FELL; break;
    case TIMER: case LINE_ACT: e->choice = listed(u, 1, 3); break;
    case LINE_FELL: e->choice = TOLLHERRING_LINE_ACT_FELL; break;
    case TO_LINE: e->named = byte_of(u); message_of(u, e); break;
    case LINE_REPORT: number_of(u, &e->number_b); e->choice = listed(u, 0, 1); break;
    case LOOK: number_of(u, &e->number_b); break;
    case CLERK_TICK: case LINE_TICK: room_of(u, e); break;
    case WRITE: message_of(u, e); e->place = byte_of(u); e->size = byte_of(u); break;
    case GUARD: case PRINT_CLERK: case PRINT_LINE: break;
    default: u->stopped = 1;
    }
}

int has_name(unsigned code)
{
    return (code >= ACCEPT && code <= CLERK_FELL) || (code >= LINE_ACT && code <= LINE_FELL);
}

const uint8_t *read_entry(struct entry *entry, const uint8_t *at, const uint8_t *end)
{
    struct unread u = {at, end, 0};
    memset(entry, 0, sizeof *entry);
    entry->code = byte_of(&u);
    if (entry->code == ASK || has_name(entry->code))
        identifier_of(&u, &entry->identifier);
    if (has_name(entry->code))
        entry->named = byte_of(&u);
    fields_of(&u, entry);
    return u.stopped ? NULL : u.at;
}

static uint64_t start(const struct entry *e, const struct lent *l)
{
    memset(l->outcome, 0, sizeof *l->outcome);
    if (e->code == START_CLERK)
        l->outcome->refusal = tollherring_clerk_start(l->clerk, e->lengths[0], e->lengths[1], e->lengths[2], e->lengths[3]);
    else if (e->code == START_LINE)
        l->outcome->refusal = tollherring_line_start(l->line, l->lines, e->lines_bytes, e->keep, e->retain);
    return l->outcome->refusal;
}

uint64_t call(const struct entry *e, const struct lent *l)
{
    switch (e->code) {
    case ASK:
        return tollherring_clerk_ask(l->clerk, l->count, l->identifier, e->kind, l->number_a, l->number_b, e->service, e->can_keep, e->preference,
                                     l->out, l->room, l->outcome);
    case TO_CLERK: return tollherring_clerk_receive(l->clerk, l->count, e->named, l->bytes, e->length, e->choice, l->out, l->room, l->outcome);
    case ACCEPT: case USER_A_FREE: case USER_CANCELS: case CLERK_FELL:
        return tollherring_clerk_act(l->clerk, l->count, e->named, l->identifier, e->choice, l->out, l->room, l->outcome);
    case TIMER: return tollherring_clerk_report(l->clerk, l->count, e->named, l->identifier, e->choice, l->out, l->room, l->outcome);
    case TO_LINE: return tollherring_line_receive(l->line, l->count, e->named, l->bytes, e->length, l->out, l->room, l->outcome);
    case LINE_REPORT: return tollherring_line_report(l->line, l->count, l->number_b, e->choice, l->out, l->room, l->outcome);
    case LOOK: return tollherring_line_look(l->line, l->count, l->number_b, l->out, l->room, l->outcome);
    case LINE_ACT: case LINE_FELL: return tollherring_line_act(l->line, l->count, e->named, l->identifier, e->choice, l->out, l->room, l->outcome);
    case GUARD: return tollherring_line_guard(l->line, l->count, e->named, l->identifier, l->out, l->room, l->outcome);
    default: return start(e, l);
    }
}
