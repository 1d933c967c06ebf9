/* Plays a script from standard input on the library and prints the lines of docs/REPLAY.md. Everything that is lent stands in a heap block of just
 * its own size, so that a checker sees a byte too far. With the word `short` it lends two bytes as 54, with `sum` it adds to the greatest int:
 * faults that a checker has to find. */
#include <limits.h>
#include <stdio.h>
#include <stdlib.h>
#include <string.h>
#include "entries.h"

#define SCRIPT_MOST 262144

static void fail(const char *what)
{
    fflush(stdout);
    fprintf(stderr, "replay: %s\n", what);
    exit(2);
}

static void *block(size_t size)
{
    void *made = malloc(size);
    if (!made)
        fail("no memory");
    return made;
}

/* a copy that ends where its block ends */
static void *copy(const void *from, size_t size)
{
    void *made = block(size);
    if (size > 0)
        memcpy(made, from, size);
    return made;
}

static void print_bytes(const uint8_t *bytes, size_t length)
{
    static const char digits[] = "0123456789abcdef";
    size_t i;
    if (length == 0)
        putchar('-');
    for (i = 0; i < length; i++) {
        putchar(digits[bytes[i] / 16]);
        putchar(digits[bytes[i] % 16]);
    }
}

static void print_field(uint64_t value)
{
    printf(" %llu", (unsigned long long)value);
}

/* the last fields of a step and of a write: only bytes that cannot be read have the place of a fault, and only some steps are about a record */
static void print_place(int there, uint64_t place)
{
    if (there)
        print_field(place);
    else
        fputs(" -", stdout);
}

static void print_digits(const tollherring_number *number)
{
    size_t i;
    fputs(number->length ? " " : " -", stdout);
    for (i = 0; i < number->length; i++)
        putchar('0' + number->digits[i]);
}

/* a deadline, of a timer that runs */
static void print_deadline(const tollherring_record *r, uint64_t timer, uint64_t deadline)
{
    print_place((r->timers & timer) != 0, deadline);
}

static void print_outcome(unsigned long number, const tollherring_outcome *o, const uint8_t *out, size_t left)
{
    printf("%lu", number);
    print_field(o->refusal);
    putchar(' ');
    print_bytes(out, (size_t)o->length);
    print_field(o->starts);
    print_field(o->stops);
    print_field(o->notice);
    print_field(o->clear);
    print_field(left);
    print_place(o->unread == 1, o->fault_at);
    print_place(o->has_record == 1, o->record_at);
    putchar('\n');
}

/* a step, and what it has to leave alone: the answer is the outcome's, and behind the message nothing is written */
static void play_step(unsigned long number, const struct entry *e, const struct lent *desks, size_t room_held)
{
    struct lent l = *desks;
    void *held[] = {copy(e->bytes, e->length), copy(e->lines, e->lines_bytes), copy(&e->identifier, sizeof e->identifier),
                    copy(&e->number_a, sizeof e->number_a), copy(&e->number_b, sizeof e->number_b)};
    size_t i;
    l.bytes = held[0];
    l.lines = held[1];
    l.identifier = held[2];
    l.number_a = held[3];
    l.number_b = held[4];
    l.outcome = block(sizeof *l.outcome);
    memset(l.out, 0xEE, room_held);
    if (call(e, &l) != l.outcome->refusal)
        fail("the answer is not the outcome's");
    for (i = (size_t)l.outcome->length; i < room_held; i++)
        if (l.out[i] != 0xEE)
            fail("a byte behind the message is written");
    print_outcome(number, l.outcome, l.out, e->length - (size_t)l.outcome->next);
    for (i = 0; i < sizeof held / sizeof held[0]; i++)
        free(held[i]);
    free(l.outcome);
}

/* a tick, and what it has to leave alone */
static void play_tick(unsigned long number, const struct entry *e, const struct lent *desks)
{
    tollherring_ticked *t = block(sizeof *t);
    uint8_t *out = block(e->room);
    uint64_t refusal, k;
    memset(out, 0xEE, e->room);
    refusal = e->code == CLERK_TICK ? tollherring_clerk_tick(desks->clerk, desks->count, out, e->room, t)
                                    : tollherring_line_tick(desks->line, desks->count, out, e->room, t);
    if (refusal != t->refusal)
        fail("the answer is not the one that is told");
    printf("%lu", number);
    print_field(refusal);
    print_field(t->expired);
    fputs(t->expired ? " " : " -", stdout);
    for (k = 0; k < t->expired; k++)
        printf(k ? ",%llu" : "%llu", (unsigned long long)t->records[k].place);
    print_field(t->length);
    putchar(' ');
    print_bytes(out, e->room);
    putchar('\n');
    free(out);
    free(t);
}

static void play_write(unsigned long number, const struct entry *e)
{
    tollherring_identifier identifier;
    tollherring_number number_a, number_b;
    uint8_t *bytes = copy(e->bytes, e->length), *buffer = block(e->size);
    tollherring_message message;
    uint64_t taken, written = 0, place = 0, unread, refusal;
    memset(buffer, 0xEE, e->size);
    refusal = unread = tollherring_message_read(bytes, e->length, &identifier, &number_a, &number_b, &message, &taken, &place);
    if (refusal == 0)
        refusal = tollherring_message_write(&identifier, &number_a, &number_b, &message, buffer, e->size, e->place, &written);
    printf("%lu", number);
    print_field(refusal);
    print_field(written);
    putchar(' ');
    print_bytes(buffer, e->size);
    print_place(unread != 0, place);
    putchar('\n');
    free(bytes);
    free(buffer);
}

/* a record as it is shown */
struct shown {
    tollherring_identifier identifier;
    tollherring_number number_a, number_b;
    tollherring_record record;
};

/* how both desks' records begin: identifier, kind, A, B, service */
static void print_record(const char *mark, const struct shown *s)
{
    fputs(mark, stdout);
    print_bytes(s->identifier.bytes, s->identifier.length);
    print_field(s->record.kind);
    print_digits(&s->number_a);
    print_digits(&s->number_b);
    print_field(s->record.service);
}

/* a choice that may be open: keep is one less in the script's lines */
static void print_choice(uint64_t value, uint64_t less)
{
    if (value == 0)
        fputs(" -", stdout);
    else
        print_field(value - less);
}

static void print_clerk(unsigned long number, const tollherring_clerk *desk)
{
    struct shown s;
    uint64_t count = 0, place;
    while (tollherring_clerk_record(desk, count, &s.identifier, &s.number_a, &s.number_b, &s.record) == 0)
        count++;
    printf("%lu c", number);
    print_field(count);
    putchar('\n');
    for (place = 0; place < count; place++) {
        tollherring_clerk_record(desk, place, &s.identifier, &s.number_a, &s.number_b, &s.record);
        print_record("c ", &s);
        print_field(s.record.can_keep);
        print_choice(s.record.keep, 1);
        print_choice(s.record.connection, 0);
        print_field(s.record.state);
        print_field(s.record.down);
        print_deadline(&s.record, TOLLHERRING_T1, s.record.t1);
        print_deadline(&s.record, TOLLHERRING_T2, s.record.t2);
        print_deadline(&s.record, TOLLHERRING_T3, s.record.t3);
        putchar('\n');
    }
}

static uint64_t print_lines(const tollherring_line *desk, int silent)
{
    tollherring_number digits;
    tollherring_line_status status;
    uint64_t count = 0;
    for (; tollherring_line_at(desk, count, &digits, &status) == 0; count++) {
        if (silent)
            continue;
        putchar('l');
        print_digits(&digits);
        print_field(status.kinds);
        print_field(status.busy);
        putchar('\n');
    }
    return count;
}

static uint64_t print_requests(const tollherring_line *desk, int silent)
{
    struct shown s;
    uint64_t count = 0;
    for (; tollherring_line_record(desk, count, &s.identifier, &s.number_a, &s.number_b, &s.record) == 0; count++) {
        if (silent)
            continue;
        print_record("r ", &s);
        print_choice(s.record.keep, 1);
        print_choice(s.record.connection, 0);
        print_field(s.record.state);
        print_field(s.record.active);
        print_field(s.record.suspended);
        print_field(s.record.down);
        print_deadline(&s.record, TOLLHERRING_GUARD, s.record.guard);
        putchar('\n');
    }
    return count;
}

static void print_line_desk(unsigned long number, const tollherring_line *desk)
{
    printf("%lu l", number);
    print_field(print_lines(desk, 1));
    print_field(print_requests(desk, 1));
    putchar('\n');
    print_lines(desk, 0);
    print_requests(desk, 0);
}

static void play(const uint8_t *script, size_t length, struct lent *desks, size_t room_held)
{
    const uint8_t *at = script, *end = script + length;
    struct entry *e = block(sizeof *e);
    unsigned long number;
    for (number = 0; at != end; number++) {
        at = read_entry(e, at, end);
        if (!at) {
            printf("stop %lu\n", number);
            break;
        }
        if (e->code == COUNT)
            desks->count = e->count;
        switch (e->code) {
        case CLERK_TICK: case LINE_TICK: play_tick(number, e, desks); break;
        case WRITE: play_write(number, e); break;
        case PRINT_CLERK: print_clerk(number, desks->clerk); break;
        case PRINT_LINE: print_line_desk(number, desks->line); break;
        default: play_step(number, e, desks, room_held);
        }
    }
    free(e);
}

int main(int argc, char **argv)
{
    const char *fault = argc > 1 ? argv[1] : "";
    size_t room_held = strcmp(fault, "short") == 0 ? TOLLHERRING_MESSAGE_LEAST - 1 : TOLLHERRING_MESSAGE_MOST;
    uint8_t *script = block(SCRIPT_MOST);
    size_t length = fread(script, 1, SCRIPT_MOST, stdin);
    struct lent desks;
    memset(&desks, 0, sizeof desks);
    desks.clerk = block(sizeof *desks.clerk);
    desks.line = block(sizeof *desks.line);
    desks.out = block(room_held);
    desks.room = TOLLHERRING_MESSAGE_MOST;
    if (tollherring_clerk_start(desks.clerk, USUAL) != 0)
        fail("the usual lengths are refused");
    if (tollherring_line_start(desks.line, (const tollherring_line_given *)script, 0, 0, 0) != 0)
        fail("a desk without lines is refused");
    if (strcmp(fault, "sum") == 0)
        printf("%d\n", INT_MAX - 2 + argc + 1);
    play(script, length, &desks, room_held);
    free(script);
    free(desks.clerk);
    free(desks.line);
    free(desks.out);
    return 0;
}
