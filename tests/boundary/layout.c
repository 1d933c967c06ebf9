/* What include/tollherring.h promises of sizes and places, held against the compiler's, and its use as the first and only header. Compiled as C99, as
 * C11 and as C++11: a struct that is laid out otherwise does not compile. */
#include "tollherring.h"

#define HOLDS(name, condition) typedef char holds_##name[(condition) ? 1 : -1]
#define WORD(type, field, k) HOLDS(type##_##field, offsetof(tollherring_##type, field) == 8 * (k) && sizeof ((tollherring_##type *)0)->field == 8)

HOLDS(clerk_size, sizeof(tollherring_clerk) == 2080 && offsetof(tollherring_clerk, words) == 0);
HOLDS(line_size, sizeof(tollherring_line) == 4752 && offsetof(tollherring_line, words) == 0);
HOLDS(identifier_size, sizeof(tollherring_identifier) == 17 && offsetof(tollherring_identifier, length) == 0 && offsetof(tollherring_identifier, bytes) == 1);
HOLDS(number_size, sizeof(tollherring_number) == 16 && offsetof(tollherring_number, length) == 0 && offsetof(tollherring_number, digits) == 1);
HOLDS(no_place, TOLLHERRING_NO_PLACE == UINT64_MAX);
HOLDS(outcome_size, sizeof(tollherring_outcome) == 88);
HOLDS(record_size, sizeof(tollherring_record) == 112);
HOLDS(ticked_size, sizeof(tollherring_ticked) == 8 * 131 && offsetof(tollherring_ticked, records) == 24);
HOLDS(expiry_size, sizeof(tollherring_expiry) == 32);
HOLDS(status_size, sizeof(tollherring_line_status) == 16);
HOLDS(message_size, sizeof(tollherring_message) == 32);
HOLDS(given_size, sizeof(tollherring_line_given) == 17);
HOLDS(given_number, offsetof(tollherring_line_given, number) == 0);
HOLDS(given_kinds, offsetof(tollherring_line_given, kinds) == 16);
HOLDS(lengths, sizeof(size_t) == 8 && sizeof(void *) == 8);

WORD(outcome, refusal, 0);
WORD(outcome, length, 1);
WORD(outcome, next, 2);
WORD(outcome, starts, 3);
WORD(outcome, stops, 4);
WORD(outcome, notice, 5);
WORD(outcome, clear, 6);
WORD(outcome, unread, 7);
WORD(outcome, fault_at, 8);
WORD(outcome, has_record, 9);
WORD(outcome, record_at, 10);

WORD(record, kind, 0);
WORD(record, service, 1);
WORD(record, can_keep, 2);
WORD(record, keep, 3);
WORD(record, connection, 4);
WORD(record, state, 5);
WORD(record, active, 6);
WORD(record, suspended, 7);
WORD(record, down, 8);
WORD(record, timers, 9);
WORD(record, t1, 10);
WORD(record, t2, 11);
WORD(record, t3, 12);
WORD(record, guard, 13);

WORD(ticked, refusal, 0);
WORD(ticked, length, 1);
WORD(ticked, expired, 2);

WORD(expiry, place, 0);
WORD(expiry, notice, 1);
WORD(expiry, clear, 2);
WORD(expiry, length, 3);

WORD(line_status, kinds, 0);
WORD(line_status, busy, 1);

WORD(message, type, 0);
WORD(message, carrier, 1);
WORD(message, service, 2);
WORD(message, field, 3);

/* With this word the identifier and numberB change places in the calls: no compiler may take that. */
#ifdef SWAPPED
#define IDENTIFIER &number_b
#define NUMBER_B &identifier
#else
#define IDENTIFIER &identifier
#define NUMBER_B &number_b
#endif

/* one ask, one act and one tick, so that the names are linked too: as C++ they have to be the C names */
int main(void)
{
    const tollherring_identifier identifier = {16, {7}};
    const tollherring_number number_a = {3, {4, 1, 1}}, number_b = {2, {8, 0}};
    tollherring_clerk desk;
    tollherring_outcome outcome;
    tollherring_ticked ticked;
    uint8_t out[TOLLHERRING_MESSAGE_MOST];
    if (tollherring_clerk_start(&desk, 20, 900, 3600, 20) != 0)
        return 1;
    if (tollherring_clerk_ask(&desk, 4294967295u, IDENTIFIER, TOLLHERRING_CCBS, &number_a, NUMBER_B, 1, 1, TOLLHERRING_PREFER_RETAIN, out, sizeof out, &outcome) != 0)
        return 1;
    if (outcome.length != 28 || out[0] != TOLLHERRING_CCBS_REQUEST || out[1] != TOLLHERRING_SETUP || out[2] != 16 || outcome.starts != TOLLHERRING_T1)
        return 1;
    if (tollherring_clerk_tick(&desk, 18, out, sizeof out, &ticked) != 0 || ticked.expired != 0)
        return 1;
    return tollherring_clerk_act(&desk, 18, TOLLHERRING_NO_PLACE, IDENTIFIER, TOLLHERRING_CLERK_ACT_CANCEL, out, sizeof out, &outcome) == 0 ? 0 : 1;
}
