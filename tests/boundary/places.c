/* Where bytes went wrong. Messages that are good are cut short at every length and spoilt in known places, and both desks and the reader have to tell the
 * place and write nothing else; refusals that are not of the bytes have no place. Everything that is lent stands between fences. */
#include <string.h>
#include "edges.h"

/* a message with room behind it, so that a number may grow by a byte */
struct bytes {
    uint8_t at[TOLLHERRING_MESSAGE_MOST + 1];
    size_t length;
};

/* where the parts of the longest request stand, behind the head so many bytes earlier where there is no identifier */
enum { TYPE = 0, CARRIER = 1, LENGTH = 2, IDENTIFIER = 3, NUMBER_A = 19, NUMBER_B = 35, SERVICE = 51, FLAGS = 53 };

struct given {
    size_t length;
    uint64_t user_a_busy;
};

static uint64_t to_clerk(const void *numbers, void *const at[])
{
    const struct given *g = numbers;
    return tollherring_clerk_receive(at[0], 7, 0, at[1], g->length, g->user_a_busy, at[2], TOLLHERRING_MESSAGE_MOST, at[3]);
}

static uint64_t to_line(const void *numbers, void *const at[])
{
    const struct given *g = numbers;
    return tollherring_line_receive(at[0], 7, 0, at[1], g->length, at[2], TOLLHERRING_MESSAGE_MOST, at[3]);
}

static uint64_t to_reader(const void *numbers, void *const at[])
{
    const struct given *g = numbers;
    return tollherring_message_read(at[0], g->length, at[1], at[2], at[3], at[4], at[5], at[6]);
}

/* bytes for a desk without records: the outcome is this one whole, and it sends the message, if any; the desk stays, and so does what is behind the message */
static void try_desk(lent_call *receive, const struct given *g, const uint8_t *bytes, const tollherring_outcome *told, const uint8_t *message)
{
    static const tollherring_outcome never = {99, 99, 99, 99, 99, 99, 99, 99, 99, 99, 99};
    static struct desks desks;
    uint8_t fresh[TOLLHERRING_MESSAGE_MOST], out[TOLLHERRING_MESSAGE_MOST];
    struct thing things[] = {{&desks.clerk, &desks.clerk, sizeof desks.clerk}, {bytes, bytes, 0}, {fresh, out, sizeof out}, {&never, told, sizeof never}};
    memset(fresh, 0xEE, sizeof fresh);
    memset(out, 0xEE, sizeof out);
    EXPECT(tollherring_clerk_start(&desks.clerk, USUAL) == 0);
    EXPECT(tollherring_line_start(&desks.line, (const tollherring_line_given *)fresh, 0, 0, 0) == 0);
    if (receive == to_line) {
        things[0].before = things[0].after = &desks.line;
        things[0].size = sizeof desks.line;
    }
    things[1].size = g->length;
    if (told->length > 0)
        memcpy(out, message, (size_t)told->length);
    EXPECT(fenced(receive, g, things, 4, 1) == told->refusal);
    EXPECT(fenced(receive, g, things, 4, 0) == told->refusal);
}

/* the reader: on a refusal the place alone is written, and of what was lent every other byte stays */
static void try_reader(const struct given *g, const uint8_t *bytes, uint64_t refusal, uint64_t place)
{
    uint8_t fresh[32];
    uint64_t told = place;
    struct thing things[] = {{bytes, bytes, 0}, {fresh, fresh, 17}, {fresh, fresh, 16}, {fresh, fresh, 16}, {fresh, fresh, sizeof(tollherring_message)},
                             {fresh, fresh, sizeof(uint64_t)}, {fresh, &told, sizeof told}};
    memset(fresh, 0x99, sizeof fresh);
    things[0].size = g->length;
    EXPECT(fenced(to_reader, g, things, 7, 1) == refusal);
    EXPECT(fenced(to_reader, g, things, 7, 0) == refusal);
}

/* bytes that cannot be read, at both desks and in the reader; User A busy or not */
static void try_unread(const struct bytes *b, uint64_t refusal, uint64_t place)
{
    tollherring_outcome told = {0, 0, 0, 0, 0, 0, 0, 1, 0, 0, 0};
    struct given g = {0, 0};
    told.refusal = refusal;
    told.fault_at = place;
    g.length = b->length;
    try_reader(&g, b->at, refusal, place);
    try_desk(to_line, &g, b->at, &told, NULL);
    try_desk(to_clerk, &g, b->at, &told, NULL);
    g.user_a_busy = 1;
    try_desk(to_clerk, &g, b->at, &told, NULL);
}

/* a good message of a type, with an identifier or without; a request is as long as there is */
static struct bytes good(uint64_t type, uint64_t carrier, uint8_t length)
{
    tollherring_identifier identifier = {0, {0xA0, 0xFF, 0x80, 0, 0x80, 0x80, 6, 7, 8, 9, 10, 11, 12, 13, 14, 0xAF}};
    static const tollherring_number number = {15, {1, 2, 3, 4, 5, 6, 7, 8, 9, 0, 1, 2, 3, 4, 9}};
    tollherring_message message;
    struct bytes b;
    uint64_t written;
    identifier.length = length;
    message.type = type;
    message.carrier = carrier;
    message.service = 300;
    message.field = 1;
    memset(&b, 0xEE, sizeof b);
    EXPECT(tollherring_message_write(&identifier, &number, &number, &message, b.at, TOLLHERRING_MESSAGE_MOST, 0, &written) == 0);
    b.length = (size_t)written;
    EXPECT(b.at[LENGTH] == length);
    return b;
}

/* how many bytes earlier the fields stand */
static size_t earlier(const struct bytes *b)
{
    return 16u - b->at[LENGTH];
}

/* one byte is another, and all else stays */
static void try_byte(const struct bytes *b, size_t at, uint8_t value, uint64_t refusal)
{
    struct bytes wrong = *b;
    wrong.at[at] = value;
    try_unread(&wrong, refusal, at);
}

/* two bytes are one number that is none, or is out of range: the place is its first byte. With the second byte cut off, it is the length */
static void try_pair(const struct bytes *b, size_t at, uint8_t first, uint8_t second, uint64_t refusal)
{
    struct bytes wrong = *b;
    wrong.at[at] = first;
    wrong.at[at + 1] = second;
    if (wrong.length < at + 2)
        wrong.length = at + 2;
    try_unread(&wrong, refusal, at);
    wrong.length = at + 1;
    try_unread(&wrong, TOLLHERRING_BYTES_END, at + 1);
}

/* a number that stands at a place: 80 80 and 80 00 are no numbers; 80 01 is 128, and out of the range of all but a service */
static void try_number(const struct bytes *b, size_t at, int is_service)
{
    try_pair(b, at, 0x80, 0x80, TOLLHERRING_BYTES_END);
    try_pair(b, at, 0xFF, 0xFF, TOLLHERRING_BYTES_END);
    try_pair(b, at, 0x80, 0x00, TOLLHERRING_BYTES_END);
    if (!is_service)
        try_pair(b, at, 0x80, 0x01, TOLLHERRING_OUT_OF_RANGE);
}

/* the length of an identifier: a number as any other, and out of range unless it is 0 or 16. With 80 behind it, it is no number; 16 in two bytes is not shortest */
static void try_length(const struct bytes *b)
{
    static const uint8_t lengths[] = {1, 8, 15, 17, 127};
    size_t k;
    for (k = 0; k < sizeof lengths; k++)
        try_byte(b, LENGTH, lengths[k], TOLLHERRING_OUT_OF_RANGE);
    try_number(b, LENGTH, 0);
    try_pair(b, LENGTH, 0x90, 0x00, TOLLHERRING_BYTES_END);
    try_pair(b, LENGTH, 0x90, 0x01, TOLLHERRING_OUT_OF_RANGE);
}

/* the two numbers of digits and the service, and the flags of a request */
static void try_elements(const struct bytes *b, int is_request)
{
    size_t k, less = earlier(b);
    EXPECT(b->length == TOLLHERRING_MESSAGE_MOST - less - !is_request);
    for (k = 1; k <= 15; k++) {
        try_byte(b, NUMBER_A - less + k, k % 2 ? 10 : 0x80, TOLLHERRING_OUT_OF_RANGE);
        try_byte(b, NUMBER_B - less + k, k % 2 ? 0xFF : 10, TOLLHERRING_OUT_OF_RANGE);
    }
    try_byte(b, NUMBER_A - less, 16, TOLLHERRING_OUT_OF_RANGE);
    try_byte(b, NUMBER_B - less, 16, TOLLHERRING_OUT_OF_RANGE);
    try_byte(b, NUMBER_B - less, 0, TOLLHERRING_OUT_OF_RANGE);
    try_number(b, NUMBER_A - less, 0);
    try_number(b, NUMBER_B - less, 0);
    try_number(b, SERVICE - less, 1);
    if (is_request) {
        try_byte(b, FLAGS - less, 6, TOLLHERRING_OUT_OF_RANGE);
        try_number(b, FLAGS - less, 0);
    }
}

/* the first fault from the left is told, whatever stands behind it */
static void try_order(const struct bytes *b)
{
    struct bytes wrong = *b;
    size_t less = earlier(b);
    wrong.at[FLAGS - less] = 6;
    try_unread(&wrong, TOLLHERRING_OUT_OF_RANGE, FLAGS - less);
    wrong.at[NUMBER_A - less + 3] = 10;
    try_unread(&wrong, TOLLHERRING_OUT_OF_RANGE, NUMBER_A - less + 3);
    wrong.at[LENGTH] = 8;
    try_unread(&wrong, TOLLHERRING_OUT_OF_RANGE, LENGTH);
    wrong.at[CARRIER] = 0x80;
    wrong.at[CARRIER + 1] = 0x80;
    try_unread(&wrong, TOLLHERRING_BYTES_END, CARRIER);
    wrong.length = CARRIER + 1;
    try_unread(&wrong, TOLLHERRING_BYTES_END, CARRIER + 1);
    wrong.at[TYPE] = 13;
    wrong.length = TYPE + 1;
    try_unread(&wrong, TOLLHERRING_OUT_OF_RANGE, TYPE);
}

/* a number that the host gives is no byte: a 2 without a place, also where the bytes could not be read either */
static void try_host_number(const struct bytes *b)
{
    static const tollherring_outcome told = {TOLLHERRING_OUT_OF_RANGE, 0, 0, 0, 0, 0, 0, 0, 0, 0, 0};
    struct given g = {0, 2};
    for (; g.length <= b->length; g.length++)
        try_desk(to_clerk, &g, b->at, &told, NULL);
}

/* what a desk refuses was read: 3, and 6 with its reply, have no fault, and are about no record. The reply has the identifier of what it answers, or none */
static void try_desks_own(uint8_t length)
{
    tollherring_outcome other_end = {TOLLHERRING_OTHER_END, 0, 0, 0, 0, 0, 0, 0, 0, 0, 0}, no_record = {TOLLHERRING_NO_RECORD, 0, 0, 0, 0, 0, 0, 0, 0, 0, 0};
    struct bytes b = good(TOLLHERRING_CC_RINGOUT, TOLLHERRING_SETUP, length);
    uint8_t reply[IDENTIFIER + 16 + 1];
    struct given g = {0, 0};
    g.length = b.length;
    other_end.next = no_record.next = b.length;
    no_record.length = IDENTIFIER + length + 1u;
    memcpy(reply, b.at, IDENTIFIER + 16);
    reply[TYPE] = TOLLHERRING_RINGOUT_ERROR;
    reply[CARRIER] = TOLLHERRING_RELEASE_COMPLETE;
    reply[IDENTIFIER + length] = TOLLHERRING_FAILURE_TO_MATCH;
    try_desk(to_line, &g, b.at, &no_record, reply);
    try_desk(to_clerk, &g, b.at, &other_end, NULL);
}

/* one message: cut at every length, and each of its numbers spoilt */
static void try_parts(const struct bytes *b, uint64_t type)
{
    struct bytes cut = *b;
    size_t head = IDENTIFIER + b->at[LENGTH];
    for (cut.length = 0; cut.length < b->length; cut.length++)
        try_unread(&cut, TOLLHERRING_BYTES_END, cut.length);
    try_byte(b, TYPE, 0, TOLLHERRING_OUT_OF_RANGE);
    try_byte(b, TYPE, 13, TOLLHERRING_OUT_OF_RANGE);
    try_byte(b, CARRIER, 0, TOLLHERRING_OUT_OF_RANGE);
    try_byte(b, CARRIER, 6, TOLLHERRING_OUT_OF_RANGE);
    try_number(b, TYPE, 0);
    try_number(b, CARRIER, 0);
    try_length(b);
    if (b->length == head + 1) {
        try_byte(b, head, type == TOLLHERRING_RESULT ? 2 : 3, TOLLHERRING_OUT_OF_RANGE);
        try_number(b, head, 0);
    } else if (b->length > head) {
        try_elements(b, type <= TOLLHERRING_CCNR_REQUEST);
    }
    if (type <= TOLLHERRING_CCNR_REQUEST)
        try_order(b);
    try_host_number(b);
}

void try_places(void)
{
    uint64_t type;
    for (type = TOLLHERRING_CCBS_REQUEST; type <= TOLLHERRING_CALL_FAILED; type++) {
        unsigned k;
        for (k = 0; k < 4; k++) {
            struct bytes b = good(type, k < 2 ? TOLLHERRING_SETUP : TOLLHERRING_FACILITY, k % 2 ? 16 : 0);
            try_parts(&b, type);
        }
    }
    try_desks_own(16);
    try_desks_own(0);
}
