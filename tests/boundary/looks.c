/* The calls that look: records and lines of a desk, and messages read and written. What is refused writes nothing at all, but for the place of a reader's
 * fault. */
#include <string.h>
#include "edges.h"

/* ---- records and lines */

static uint64_t clerk_record(const void *place, void *const at[])
{
    return tollherring_clerk_record(at[0], *(const uint64_t *)place, at[1], at[2], at[3], at[4]);
}

static uint64_t line_record(const void *place, void *const at[])
{
    return tollherring_line_record(at[0], *(const uint64_t *)place, at[1], at[2], at[3], at[4]);
}

static uint64_t line_at(const void *place, void *const at[])
{
    return tollherring_line_at(at[0], *(const uint64_t *)place, at[1], at[2]);
}

enum { NUMBERS = sizeof(tollherring_record) / sizeof(uint64_t) };

/* the timers that run are those of the state, and one that does not run has no deadline */
static int timers_in_range(const tollherring_record *r, int at_clerk)
{
    static const uint64_t running[] = {0, TOLLHERRING_T1, TOLLHERRING_T2, TOLLHERRING_T2 + TOLLHERRING_T3, TOLLHERRING_T2, TOLLHERRING_T2};
    const uint64_t deadlines[] = {r->t1, r->t2, r->t3, r->guard};
    size_t k;
    for (k = 0; k < 4; k++)
        if (deadlines[k] > UINT32_MAX || (deadlines[k] != 0 && !(r->timers >> k & 1u)))
            return 0;
    return r->timers == (at_clerk ? running[r->state] : (uint64_t)TOLLHERRING_GUARD);
}

/* whatever the desk holds, a record that is shown has numbers of its lists */
static int record_in_range(const uint64_t name[NUMBERS], const uint64_t words[NUMBERS], uint64_t states)
{
    static const tollherring_identifier none;
    tollherring_identifier identifier;
    tollherring_record r;
    memcpy(&identifier, name, sizeof identifier);
    memcpy(&r, words, sizeof r);
    return (identifier.length == 16 || memcmp(&identifier, &none, sizeof none) == 0) && r.kind >= 1 && r.kind <= 2 && r.can_keep <= 1 && r.keep <= 2 && r.connection <= 2 && r.state >= 1 && r.state <= states &&
           r.active <= 1 && r.suspended <= 1 && r.down <= 1 && timers_in_range(&r, states == 5);
}

/* how each looks: the desk's size, the number for a place that has nothing, the most places, and the sizes of what is written */
struct look {
    lent_call *call;
    size_t desk;
    uint64_t refusal, most;
    size_t count, sizes[4];
};

static const struct look looks[] = {
    {clerk_record, sizeof(tollherring_clerk), TOLLHERRING_NO_RECORD, 16, 4, {sizeof(tollherring_identifier), 16, 16, sizeof(tollherring_record)}},
    {line_record, sizeof(tollherring_line), TOLLHERRING_NO_RECORD, 32, 4, {sizeof(tollherring_identifier), 16, 16, sizeof(tollherring_record)}},
    {line_at, sizeof(tollherring_line), TOLLHERRING_NO_LINE, 16, 2, {16, sizeof(tollherring_line_status), 0, 0}},
};

/* whether there is something at the place */
static int try_place(const struct look *look, void *desk, uint64_t place)
{
    uint64_t fresh[NUMBERS], made[4][NUMBERS], answer;
    void *plain[5];
    struct thing things[5];
    size_t k;
    memset(fresh, 0x99, sizeof fresh);
    memset(made, 0x99, sizeof made);
    plain[0] = desk;
    things[0].before = things[0].after = desk;
    things[0].size = look->desk;
    for (k = 0; k < look->count; k++) {
        plain[k + 1] = made[k];
        things[k + 1].before = fresh;
        things[k + 1].after = made[k];
        things[k + 1].size = look->sizes[k];
    }
    answer = look->call(&place, plain);
    EXPECT(answer == 0 || answer == look->refusal);
    for (k = 0; answer != 0 && k < look->count; k++)
        EXPECT(memcmp(made[k], fresh, sizeof fresh) == 0);
    EXPECT(answer != 0 || look->count < 4 || record_in_range(made[0], made[3], look->call == clerk_record ? 5 : 3));
    EXPECT(fenced(look->call, &place, things, look->count + 1, 1) == answer);
    EXPECT(fenced(look->call, &place, things, look->count + 1, 0) == answer);
    return answer == 0;
}

void try_looks(struct desks *desks, int sound)
{
    static const uint64_t far[] = {33, 255, 256, 65536, (uint64_t)1 << 32, (uint64_t)1 << 61, UINT64_MAX};
    size_t k, f;
    for (k = 0; k < sizeof looks / sizeof looks[0]; k++) {
        void *desk = k == 0 ? (void *)&desks->clerk : (void *)&desks->line;
        uint64_t place;
        int gone = 0;
        for (place = 0; place < looks[k].most; place++) {
            int there = try_place(&looks[k], desk, place);
            EXPECT(!sound || !(gone && there));
            gone = gone || !there;
        }
        EXPECT(!try_place(&looks[k], desk, looks[k].most));
        for (f = 0; f < sizeof far / sizeof far[0]; f++)
            EXPECT(!try_place(&looks[k], desk, far[f]));
    }
}

/* ---- messages */

/* a message as it is read: each number of digits behind its length, and the fields */
struct parts {
    tollherring_identifier identifier;
    tollherring_number number_a, number_b;
    tollherring_message message;
    uint64_t taken;
    uint64_t place; /* of the fault, where there is one */
};

struct place {
    size_t room, place;
};

static uint64_t read_message(const void *length, void *const at[])
{
    return tollherring_message_read(at[0], *(const size_t *)length, at[1], at[2], at[3], at[4], at[5], at[6]);
}

static uint64_t write_message(const void *numbers, void *const at[])
{
    const struct place *p = numbers;
    return tollherring_message_write(at[0], at[1], at[2], at[3], at[4], p->room, p->place, at[5]);
}

/* the refusal, and the parts as they stand afterwards: of a message that is read all but the place, else the place alone */
static uint64_t try_read(const struct entry *e, struct parts *parts)
{
    static struct parts fresh, kept;
    struct thing things[] = {{e->bytes, e->bytes, 0}, {&fresh.identifier, &parts->identifier, sizeof fresh.identifier}, {&fresh.number_a, &parts->number_a, 16},
                             {&fresh.number_b, &parts->number_b, 16}, {&fresh.message, &parts->message, sizeof fresh.message},
                             {&fresh.taken, &parts->taken, sizeof fresh.taken}, {&fresh.place, &parts->place, sizeof fresh.place}};
    uint64_t answer;
    memset(&fresh, 0x99, sizeof fresh);
    *parts = fresh;
    things[0].size = e->length;
    answer = tollherring_message_read(e->bytes, e->length, &parts->identifier, &parts->number_a, &parts->number_b, &parts->message, &parts->taken,
                                      &parts->place);
    EXPECT(answer <= TOLLHERRING_OUT_OF_RANGE);
    kept = answer == 0 ? *parts : fresh;
    kept.place = answer == 0 ? fresh.place : parts->place;
    EXPECT(memcmp(parts, &kept, sizeof kept) == 0);
    EXPECT(answer == 0 || parts->place <= e->length);
    EXPECT(fenced(read_message, &e->length, things, 7, 1) == answer);
    EXPECT(fenced(read_message, &e->length, things, 7, 0) == answer);
    return answer;
}

/* a message put at a place of a room that is full of 0xEE: the bytes that it has to put there, or a refusal and none */
static void try_write(const struct parts *parts, const uint8_t *bytes, size_t room, size_t place, uint64_t refusal)
{
    static const uint64_t never = 99;
    uint8_t fresh[640], made[640];
    struct thing things[] = {{&parts->identifier, &parts->identifier, sizeof parts->identifier}, {&parts->number_a, &parts->number_a, 16},
                             {&parts->number_b, &parts->number_b, 16}, {&parts->message, &parts->message, sizeof parts->message}, {NULL, NULL, 0}, {&never, NULL, sizeof never}};
    struct place at;
    at.room = room;
    at.place = place;
    memset(fresh, 0xEE, sizeof fresh);
    memset(made, 0xEE, sizeof made);
    if (refusal == 0)
        memcpy(made + place, bytes, (size_t)parts->taken);
    things[4].before = fresh;
    things[4].after = made;
    things[4].size = room;
    things[5].after = refusal == 0 ? &parts->taken : &never;
    EXPECT(fenced(write_message, &at, things, 6, 1) == refusal);
    EXPECT(fenced(write_message, &at, things, 6, 0) == refusal);
}

/* the greatest value of each type's own field; an error is never 0 */
static const uint64_t field_most[] = {0, 5, 5, 1, 2, 0, 0, 2, 0, 0, 0, 0, 0};

/* one number that is out of range, in a room where nothing fits and in one where all does: 2 comes before 12 */
static void try_wrong(const struct parts *parts, const uint8_t *bytes, size_t field, uint64_t value)
{
    struct parts wrong = *parts;
    memcpy((char *)&wrong.message + field, &value, sizeof value);
    try_write(&wrong, bytes, 0, 0, TOLLHERRING_OUT_OF_RANGE);
    try_write(&wrong, bytes, 64, 3, TOLLHERRING_OUT_OF_RANGE);
}

/* a number that the type has no field for is not looked at */
static void try_unused(const struct parts *parts, const uint8_t *bytes, size_t field, uint64_t value)
{
    struct parts other = *parts;
    memcpy((char *)&other.message + field, &value, sizeof value);
    try_write(&other, bytes, 64, 3, 0);
}

/* whether a message has two numbers of digits and a service: a request, and types 5, 6, 9 and 10 in Setup */
static int has_elements(const tollherring_message *m)
{
    return m->type <= TOLLHERRING_CCNR_REQUEST ||
           (m->carrier == TOLLHERRING_SETUP && (m->type == TOLLHERRING_CC_EXEC_POSSIBLE || m->type == TOLLHERRING_CC_RINGOUT ||
                                                m->type == TOLLHERRING_CC_RESUME || m->type == TOLLHERRING_CC_CANCEL));
}

static void try_fields(const struct parts *parts, const uint8_t *bytes)
{
    static const uint64_t far[] = {257, 65537, UINT64_MAX};
    uint64_t type = parts->message.type, most = field_most[type];
    size_t k;
    for (k = 0; k < 3; k++) {
        try_wrong(parts, bytes, offsetof(tollherring_message, type), far[k]);
        try_wrong(parts, bytes, offsetof(tollherring_message, carrier), far[k]);
        (most > 0 ? try_wrong : try_unused)(parts, bytes, offsetof(tollherring_message, field), far[k]);
        (has_elements(&parts->message) ? try_wrong : try_unused)(parts, bytes, offsetof(tollherring_message, service), k == 0 ? 16384 : far[k]);
    }
    for (k = 0; k < 2; k++) {
        try_wrong(parts, bytes, offsetof(tollherring_message, type), k == 0 ? 0 : 13);
        try_wrong(parts, bytes, offsetof(tollherring_message, carrier), k == 0 ? 0 : 6);
    }
    if (most > 0)
        try_wrong(parts, bytes, offsetof(tollherring_message, field), most + 1);
    if (type == TOLLHERRING_REQUEST_ERROR || type == TOLLHERRING_RINGOUT_ERROR)
        try_wrong(parts, bytes, offsetof(tollherring_message, field), 0);
}

/* numbers of digits: too many, none, and a digit that is none. Where a message has none they are not looked at */
static void try_digits(const struct parts *parts, const uint8_t *bytes)
{
    uint64_t refusal = has_elements(&parts->message) ? TOLLHERRING_OUT_OF_RANGE : 0;
    struct parts wrong = *parts;
    wrong.number_a.length = 16;
    try_write(&wrong, bytes, 64, 0, refusal);
    wrong = *parts;
    wrong.number_b.length = 0;
    try_write(&wrong, bytes, 64, 0, refusal);
    wrong = *parts;
    wrong.number_b.length = 1;
    wrong.number_b.digits[0] = 10;
    try_write(&wrong, bytes, 64, 0, refusal);
}

/* an identifier: a length that is neither 0 nor 16, also where nothing fits; of one that is not there the bytes don't count */
static void try_identifier(const struct parts *parts, const uint8_t *bytes)
{
    static const uint8_t lengths[] = {1, 8, 15, 17, 128, 255};
    struct parts wrong = *parts;
    size_t k;
    for (k = 0; k < sizeof lengths; k++) {
        wrong.identifier.length = lengths[k];
        try_write(&wrong, bytes, k % 2 ? 0 : 64, 0, TOLLHERRING_OUT_OF_RANGE);
    }
    if (parts->identifier.length == 0) {
        wrong = *parts;
        memset(wrong.identifier.bytes, 0x5A, sizeof wrong.identifier.bytes);
        try_write(&wrong, bytes, 64, 0, 0);
    }
}

void try_message(const struct entry *e)
{
    static const tollherring_identifier no_identifier;
    static const tollherring_number no_number;
    static struct parts parts;
    size_t taken;
    if (try_read(e, &parts) != 0)
        return;
    taken = (size_t)parts.taken;
    EXPECT(taken >= TOLLHERRING_MESSAGE_LEAST && taken <= TOLLHERRING_MESSAGE_MOST && taken <= e->length);
    EXPECT(parts.message.type >= 1 && parts.message.type <= 12 && parts.message.field <= field_most[parts.message.type]);
    EXPECT(parts.identifier.length == 16 || memcmp(&parts.identifier, &no_identifier, sizeof no_identifier) == 0);
    if (!has_elements(&parts.message))
        EXPECT(parts.message.service == 0 && memcmp(&parts.number_a, &no_number, 16) == 0 && memcmp(&parts.number_b, &no_number, 16) == 0);
    try_write(&parts, e->bytes, e->place + taken, e->place, 0);
    try_write(&parts, e->bytes, e->place + taken + e->size, e->place, 0);
    try_write(&parts, e->bytes, e->place + taken - 1, e->place, TOLLHERRING_NO_ROOM);
    try_write(&parts, e->bytes, e->place, e->place, TOLLHERRING_NO_ROOM);
    try_write(&parts, e->bytes, e->place, e->place + 1, TOLLHERRING_NO_ROOM);
    try_write(&parts, e->bytes, 0, 0, TOLLHERRING_NO_ROOM);
    try_write(&parts, e->bytes, 64, SIZE_MAX, TOLLHERRING_NO_ROOM);
    try_write(&parts, e->bytes, 64, SIZE_MAX - taken + 1, TOLLHERRING_NO_ROOM);
    try_fields(&parts, e->bytes);
    try_digits(&parts, e->bytes);
    try_identifier(&parts, e->bytes);
}
