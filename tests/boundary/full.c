/* Desks that are filled, over both ends: what the clerk's desk sends is what reaches the line desk. */
#include <string.h>
#include "edges.h"

enum { HEAD = 19 }; /* type, carrier, the identifier's length and its bytes */

static tollherring_clerk clerk;
static tollherring_line line;
static uint8_t out[TOLLHERRING_MESSAGE_MOST];
static tollherring_outcome outcome;

/* number_a differs for each n, so that no request is a duplicate; a line is named by one digit and 7 behind it */
static uint64_t ask(uint8_t n, uint8_t line_digit)
{
    const tollherring_identifier identifier = {16, {9, 9, n}};
    const tollherring_number number_a = {3, {(uint8_t)(n / 100), (uint8_t)(n / 10 % 10), (uint8_t)(n % 10)}}, number_b = {2, {line_digit, 7}};
    return tollherring_clerk_ask(&clerk, 0, &identifier, TOLLHERRING_CCBS, &number_a, &number_b, 300, 1, TOLLHERRING_PREFER_NONE, out, sizeof out, &outcome);
}

/* the same without an identifier, and with the same withheld number_a: nothing tells one from the next */
static uint64_t ask_nameless(uint8_t line_digit)
{
    static const tollherring_identifier none;
    static const tollherring_number withheld;
    const tollherring_number number_b = {2, {line_digit, 7}};
    return tollherring_clerk_ask(&clerk, 0, &none, TOLLHERRING_CCBS, &withheld, &number_b, 300, 1, TOLLHERRING_PREFER_NONE, out, sizeof out, &outcome);
}

/* 16 asks are taken and the 17th is 5; one that is live is 4 also there; a freed place is used again */
void fill_clerk(void)
{
    const tollherring_identifier third = {16, {9, 9, 3}};
    static tollherring_clerk full;
    uint8_t n;
    EXPECT(tollherring_clerk_start(&clerk, USUAL) == 0);
    for (n = 0; n < 16; n++)
        EXPECT(ask(n, 1) == 0 && outcome.length > 0 && outcome.starts == TOLLHERRING_T1 && outcome.has_record && outcome.record_at == n);
    full = clerk;
    EXPECT(ask(16, 1) == TOLLHERRING_FULL && outcome.length == 0 && outcome.starts == 0);
    EXPECT(ask(3, 1) == TOLLHERRING_LIVE && memcmp(&full, &clerk, sizeof full) == 0);
    EXPECT(tollherring_clerk_act(&clerk, 0, TOLLHERRING_NO_PLACE, &third, TOLLHERRING_CLERK_ACT_CANCEL, out, sizeof out, &outcome) == 0);
    EXPECT(outcome.notice == TOLLHERRING_CANCELLED && outcome.length == HEAD && out[0] == TOLLHERRING_CC_CANCEL && outcome.record_at == 3);
    EXPECT(ask(16, 1) == 0 && outcome.record_at == 15);
    EXPECT(ask(3, 1) == TOLLHERRING_FULL);
}

/* asks without an identifier are never live: 16 that are all alike, and the 17th is 5. Named by their places; those behind one that ends move forward */
void fill_nameless(void)
{
    static const tollherring_identifier none;
    tollherring_identifier identifier;
    tollherring_number number_a, number_b;
    tollherring_record record;
    uint8_t n;
    EXPECT(tollherring_clerk_start(&clerk, USUAL) == 0);
    for (n = 0; n < 16; n++)
        EXPECT(ask_nameless((uint8_t)(n / 2)) == 0 && out[2] == 0 && outcome.record_at == n);
    EXPECT(ask_nameless(9) == TOLLHERRING_FULL && ask(1, 9) == TOLLHERRING_FULL);
    for (n = 0; n < 16; n++) {
        EXPECT(tollherring_clerk_record(&clerk, 0, &identifier, &number_a, &number_b, &record) == 0);
        EXPECT(identifier.length == 0 && number_a.length == 0 && number_b.digits[0] == n / 2);
        EXPECT(tollherring_clerk_report(&clerk, 0, 16, &none, TOLLHERRING_T1_RAN_OUT, out, sizeof out, &outcome) == TOLLHERRING_NO_RECORD);
        EXPECT(tollherring_clerk_report(&clerk, 0, 0, &none, TOLLHERRING_T1_RAN_OUT, out, sizeof out, &outcome) == 0);
        EXPECT(outcome.notice == TOLLHERRING_FAILED && outcome.length == TOLLHERRING_MESSAGE_LEAST && outcome.record_at == 0);
    }
    EXPECT(tollherring_clerk_record(&clerk, 0, &identifier, &number_a, &number_b, &record) == TOLLHERRING_NO_RECORD);
}

/* a request, made by a clerk's desk, reaches the line desk behind 7 bytes' worth of another message: what it is answered, by its first byte */
static unsigned request(uint8_t n, uint8_t line_digit)
{
    uint8_t both[TOLLHERRING_MESSAGE_MOST + 7];
    size_t length;
    EXPECT(tollherring_clerk_start(&clerk, USUAL) == 0);
    EXPECT(ask(n, line_digit) == 0);
    length = (size_t)outcome.length;
    memset(both, 0xFF, sizeof both);
    memcpy(both, out, length);
    EXPECT(tollherring_line_receive(&line, 0, TOLLHERRING_NO_PLACE, both, length + 7, out, sizeof out, &outcome) == 0);
    EXPECT(outcome.next == length && outcome.length == HEAD + 1 && out[2] == 16 && out[3] == 9 && out[5] == n);
    EXPECT(outcome.starts == (out[0] == TOLLHERRING_RESULT ? TOLLHERRING_GUARD : 0u) && outcome.has_record == (out[0] == TOLLHERRING_RESULT));
    return out[0] == TOLLHERRING_REQUEST_ERROR ? 100u + out[HEAD] : out[0];
}

/* a start with so many bytes of lines; one line's kinds may be given */
static uint64_t start(size_t bytes, uint8_t kinds)
{
    tollherring_line_given given[18];
    uint8_t k;
    memset(given, 0, sizeof given);
    for (k = 0; k < 18; k++) {
        given[k].number.length = 2;
        given[k].number.digits[0] = k % 10;
        given[k].number.digits[1] = k < 10 ? 7 : 8;
        given[k].kinds = k == 3 ? kinds : TOLLHERRING_CCBS + TOLLHERRING_CCNR;
    }
    return tollherring_line_start(&line, given, bytes, 1, 0);
}

/* whole lines, at most 16, with kinds that there are; else the desk stays as it was */
void start_line(void)
{
    static tollherring_line before;
    unsigned bytes, kinds;
    for (bytes = 0; bytes <= 18 * 17; bytes++) {
        memset(&line, 0x99, sizeof line);
        before = line;
        EXPECT(start(bytes, 3) == (bytes % 17 == 0 && bytes <= 16 * 17 ? 0u : TOLLHERRING_OUT_OF_RANGE));
        EXPECT((memcmp(&before, &line, sizeof line) == 0) == (bytes % 17 != 0 || bytes > 16 * 17));
    }
    for (kinds = 0; kinds < 256; kinds++)
        EXPECT(start(16 * 17, (uint8_t)kinds) == (kinds <= 3 ? 0u : TOLLHERRING_OUT_OF_RANGE));
}

/* 5 requests of a line and the 6th is short; 32 and the 33rd is short; an unknown line is long also there */
void fill_line(void)
{
    const tollherring_identifier guarded = {16, {9, 9, 2}};
    static tollherring_line full;
    uint8_t n;
    EXPECT(start(16 * 17, 3) == 0);
    for (n = 0; n < 5; n++)
        EXPECT(request(n, 0) == TOLLHERRING_RESULT);
    EXPECT(request(5, 0) == 101);
    for (n = 5; n < 32; n++)
        EXPECT(request(n, (uint8_t)(n / 5)) == TOLLHERRING_RESULT);
    full = line;
    EXPECT(request(32, 9) == 101);
    EXPECT(request(31, 9) == 101);
    EXPECT(memcmp(&full, &line, sizeof full) == 0);
    EXPECT(tollherring_line_guard(&line, 0, 7, &guarded, out, sizeof out, &outcome) == 0 && outcome.stops == TOLLHERRING_GUARD && outcome.record_at == 2);
    EXPECT(request(32, 9) == TOLLHERRING_RESULT && outcome.record_at == 31);
    EXPECT(request(2, 9) == 101);
    EXPECT(start(0, 3) == 0 && request(1, 1) == 102);
}
