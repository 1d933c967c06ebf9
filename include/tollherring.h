/* Tollherring: ring-back (ITU-T H.450.9, call completion) for telephone proxies. C99, and C++.
 *
 * Two desks. The clerk's desk is User A's end: it asks to be rung back, and holds at most 16 records. The line desk is User B's end: it keeps the
 * requests until the line is free, for at most 16 lines, at most 32 records in all and 5 for one line (one more is denied, which is no refusal). A host
 * allocates a desk once, starts it, and lends it to each call for the whole working day. It does not look into it. docs/HOST.md tells, step by step, what
 * a host has to do; link with libtollherring.a, for x86-64.
 *
 * A step has the same head and the same tail everywhere: the desk and the count of seconds (below); and `out`, `room` and `outcome`. What the step sends, the
 * reply that goes with a refusal too, is written at the front of `out` (TOLLHERRING_MESSAGE_MOST bytes are always enough); the bytes behind it stay as they
 * were. `outcome` is written whole. The call answers the refusal's number, or 0. After a refusal the desk is as it was, and the outcome has no timer, no notice
 * and no word to clear a call: beside the number there is perhaps a reply to be sent, and after receive `next`, or where the bytes went wrong. Two refusals are
 * the call's own and leave `out` as it was too, and `outcome` then has the number and zeros: 2 for a number out of range, before anything else is looked at;
 * and 12 where the message has no room, in place of what would have been answered, so that the same input can be handed in again.
 *
 * Whatever numbers and bytes are passed, there is an answer, and any words are a desk, garbage too: every call is total, whatever the desk's memory holds,
 * and touches nothing but what it is lent. What the caller owes is only what C itself asks for: every pointer points to as many bytes as
 * its type or its length says and is not NULL (with length 0 neither); what is written (the desk, `out`, `outcome`, every pointer that is not const) overlaps
 * nothing else that the call is given, while inputs may be the same; one desk is not used by two threads at a time. No call keeps a pointer, allocates, or
 * does input or output.
 */
#ifndef TOLLHERRING_H
#define TOLLHERRING_H

#include <stddef.h>
#include <stdint.h>

#ifdef __cplusplus
extern "C" {
#endif

/* ---- how a request and a line are named. An identifier and a number of digits are two types, and are passed by pointer: a compiler tells one that is given
 * for the other (in C++, and in C by gcc 14 and clang 16, it is an error; older ones warn). */

/* The CallIdentifier of the failed call: `length` 16 and its bytes. Length 0: there is none, and the bytes don't count; a struct of zeros says so. Any other
 * length is refused with 2. */
typedef struct tollherring_identifier {
    uint8_t length; /* 16 or 0 */
    uint8_t bytes[16];
} tollherring_identifier;

/* A number of digits: how many, then a byte 0 to 9 for each; what stands behind the last digit doesn't count. */
typedef struct tollherring_number {
    uint8_t length; /* 1 to 15; 0 for a numberA that is withheld */
    uint8_t digits[15];
} tollherring_number;

/* A request without an identifier is named by a place: that of its record in its desk, from 0, in the order of storing. When a record ends, those behind it
 * move forward by one. A place where no record stands names none; this one never has a record. */
#define TOLLHERRING_NO_PLACE ((uint64_t)-1)

/* Which record a message, an act or a report is about. Types 1 and 2 are about none: they make a record, and no place is looked at. All others:
 *
 *     a. it has an identifier, and a record has the same: that one. Its place is not looked at, nor are a message's numbers.
 *     b. else, a message of type 5, 6, 9 or 10 in Setup: its numbers and service are matched. A record fits if not both have an identifier, numberB and service
 *        are equal, and numberA is equal where neither is withheld. It is the oldest record that fits and is in a state that the message is for (5 Invoked,
 *        6 and 9 Await, 10 any); 7 if some fit and none is, 6 if none fits. The named place is not looked at.
 *     c. else, without an identifier: the record at the place that the host names with it, which may have an identifier; 6 if none stands there.
 *     d. else 6.
 *
 * A host whose every message, act and report has an identifier gives TOLLHERRING_NO_PLACE throughout. docs/HOST.md tells how the others keep places. */

/* ---- the desks: allocated by the host, and not looked into. Words of 64 bits, so that a desk may be copied, or kept in memory, as it is. A call has an answer on
 * any words; what it means for requests is known of a desk that was started. */

#define TOLLHERRING_CLERK_WORDS 260
#define TOLLHERRING_LINE_WORDS 594

typedef struct tollherring_clerk {
    uint64_t words[TOLLHERRING_CLERK_WORDS];
} tollherring_clerk;

typedef struct tollherring_line {
    uint64_t words[TOLLHERRING_LINE_WORDS];
} tollherring_line;

/* ---- the count of seconds, which every step and every tick is given
 *
 * It runs freely and wraps from 2^32 - 1 to 0: the seconds since the proxy was started will do, as long as no desk is older. It need not be the time of day, and
 * the two ends need not agree on it, but for one desk it is one count, which never goes back. The desk notes with a record when each of its timers runs out; a
 * timer is due from that count on, for 2^31 seconds.
 *
 * A host either ticks or keeps the timers itself. One that ticks calls tollherring_clerk_tick, tollherring_line_tick, once a second say and at least once a
 * day, the first time within a day of the start, and carries out what it is told there; it has no timer to start or stop. (`starts` and `stops` also tell that a
 * record was stored, with T1 or the guard started, and at the line desk that one ended, with the guard stopped.) One that keeps its own timers goes by `starts`
 * and `stops` and reports a timer that ran out (tollherring_clerk_report, tollherring_line_guard). It never ticks, and may give any count, 0 always. Reports by
 * hand are taken from either. */

/* ---- what a step does */

typedef struct tollherring_outcome {
    uint64_t refusal;    /* 0, or why nothing changed: TOLLHERRING_... below */
    uint64_t length;     /* how many bytes of `out` are the message to be sent; 0: nothing is sent */
    uint64_t next;       /* after receive: how many bytes were read; 0 where the bytes themselves were refused (1, 2), and on 12. Else 0 */
    uint64_t starts;     /* timers to start: a sum of TOLLHERRING_T1, T2, T3, GUARD */
    uint64_t stops;      /* timers to stop: the same, also the one that was just reported. No timer is in both. All are those of the one record that the step
                            was about */
    uint64_t notice;     /* what to tell User A: TOLLHERRING_ACCEPTED and so on, 0 for nothing */
    uint64_t clear;      /* 1: clear the call */
    uint64_t unread;     /* 1: the bytes given to receive could not be read (1, 2), and `fault_at` tells where they went wrong. Else 0, also on a 2 for a number
                            that was given beside the bytes */
    uint64_t fault_at;   /* where `unread` is 1: an index, from 0, into the bytes that were given. It is the first byte of the faulty number, also where its
                            second byte is the fault (80 80, 80 00) or its value is out of range, and a length of digits or of an identifier is such a number;
                            the digit that is over 9; or, where the bytes end inside the message, their length. Else 0, which alone tells nothing: ask `unread`.
                            A support desk that has the bytes, the refusal and this need not count: what stands before it was read without fault */
    uint64_t has_record; /* 1: the step was about a record, and `record_at` is its place. 0: it was refused, or was a denied request or a line report */
    uint64_t record_at;  /* where `has_record` is 1: the place where the record stands now, or stood until this step ended it. Of an ask and of an accepted request
                            it is where the record was stored, of a Look that of the one which was offered. Else 0, which alone tells nothing */
} tollherring_outcome;

/* timers, in `starts` and `stops`, and of a record in `timers` */
#define TOLLHERRING_T1 1
#define TOLLHERRING_T2 2
#define TOLLHERRING_T3 4
#define TOLLHERRING_GUARD 8

/* notices */
#define TOLLHERRING_ACCEPTED 1
#define TOLLHERRING_DENIED_SHORT 2
#define TOLLHERRING_DENIED_LONG 3
#define TOLLHERRING_RECALL 4
#define TOLLHERRING_COMPLETED 5
#define TOLLHERRING_FAILED 6
#define TOLLHERRING_BUSY_AGAIN_KEPT 7
#define TOLLHERRING_BUSY_AGAIN_ENDED 8
#define TOLLHERRING_CANCELLED 9
#define TOLLHERRING_BUSY_AGAIN_WAITING 10 /* busy again, now waiting for free: the request was CCNR, was kept and is CCBS from now on */

/* refusals */
#define TOLLHERRING_BYTES_END 1       /* bytes end inside a message: `fault_at` is their length; or a number is over two bytes or not shortest: it is less */
#define TOLLHERRING_OUT_OF_RANGE 2    /* a field or a number given is out of range */
#define TOLLHERRING_OTHER_END 3       /* the message type isn't for this end */
#define TOLLHERRING_LIVE 4            /* an ask uses an identifier that is live at this desk */
#define TOLLHERRING_FULL 5            /* the clerk's desk is full: 16 records */
#define TOLLHERRING_NO_RECORD 6       /* no record with that identifier, that fits, or at that place */
#define TOLLHERRING_NO_ROW 7          /* the record's state has no row for this input, or records fit and none is in a state that the message is for; so for
                                         "the connection fell", of an RLS record or before the acknowledgment */
#define TOLLHERRING_CARRIER 8         /* carrier not allowed for this type and record: the table below */
#define TOLLHERRING_NOT_RUNNING 9     /* that timer isn't running, or is T2 in Ringout, where it is not heeded */
#define TOLLHERRING_NO_LINE 10        /* no such line */
#define TOLLHERRING_NOTHING_TO_OFFER 11 /* a Look has nothing to offer: the usual answer, and no fault */
#define TOLLHERRING_NO_ROOM 12        /* no room in `out`, in a tick for all of its messages */

/* ---- messages are bytes, in a form of Tollherring's own (a host that talks to other makers' ends translates from and to H.450.9's APDUs):
 *
 *     type, carrier, the identifier's length (16, or 0: it has none), its bytes, and then the fields of the type:
 *     1, 2                     numberA, numberB, service, flags     flags are can-keep (0, 1) + 2 * preference (0, 1, 2)
 *     5, 6, 9, 10 in Setup     numberA, numberB, service            those of the record that it is sent for. In another carrier they have no field
 *     3                        keep (0, 1)
 *     4                        TOLLHERRING_SHORT or TOLLHERRING_LONG
 *     7                        TOLLHERRING_REMOTE_USER_BUSY_AGAIN or TOLLHERRING_FAILURE_TO_MATCH
 *
 * A number is one byte up to 127, and else two: the lowest seven bits with the top bit set, then the rest (300 is AC 02). A number of digits is how many
 * there are, then a byte 0 to 9 for each. What a host needs of a message that it sends: out[0] is its type, out[1] the carrier that it goes in, and where
 * out[2] is 16 the 16 bytes from out + 3 on are the identifier of the request; with or without one, `record_at` of the outcome tells which record it is of.
 * (The reply to a refused message is of none: it goes back where the message came from.)
 *
 * The kinds of request are CCBS, Completion of Calls to Busy Subscribers, and CCNR, Completion of Calls on No Reply. The line desk chooses for each request
 * that it stores, and for its life, between RET, signalling connection retained, and RLS, signalling connection released. A RET record whose connection fell
 * (an act at each end, below) stays RET and sends by the carriers of RLS. A desk sends a message in the carrier named here; it takes one in that carrier and in
 * those of the last column, and refuses it in every other with 8, after 2, 3, 6 and 7. What it takes goes by the choice alone: a RET record, its connection down
 * or not, takes the carriers of RLS too, because the other end may have seen the fall first:
 *
 *     type                          to     sent in                                    taken as well in
 *     1 ccbsRequest, 2 ccnrRequest  line   Setup
 *     3 result                      clerk  RET Connect, RLS Release Complete          (both: the carrier tells the clerk's desk the choice)
 *     4 request error               clerk  Release Complete
 *     5 ccExecPossible              clerk  RET Facility, RLS or down Setup            RET Setup
 *     6 ccRingout                   line   Setup
 *     7 ringout error               clerk  Release Complete
 *     8 ccSuspend                   line   RET Facility, RLS or down Release Complete RET Release Complete and Connect, RLS Connect
 *     9 ccResume                    line   RET Facility, RLS or down Setup            RET Setup
 *     10 ccCancel                   both   RET Release Complete, RLS or down Setup;   (Setup and Release Complete, whatever the choice)
 *                                          before the result came, and as the reply
 *                                          to a refused message: Release Complete
 *     11 call alerts                clerk  Alerting                                   Connect
 *     12 call failed                clerk  Release Complete
 */

#define TOLLHERRING_MESSAGE_LEAST 3
#define TOLLHERRING_MESSAGE_MOST 54

/* the first byte */
#define TOLLHERRING_CCBS_REQUEST 1
#define TOLLHERRING_CCNR_REQUEST 2
#define TOLLHERRING_RESULT 3
#define TOLLHERRING_REQUEST_ERROR 4
#define TOLLHERRING_CC_EXEC_POSSIBLE 5
#define TOLLHERRING_CC_RINGOUT 6
#define TOLLHERRING_RINGOUT_ERROR 7
#define TOLLHERRING_CC_SUSPEND 8
#define TOLLHERRING_CC_RESUME 9
#define TOLLHERRING_CC_CANCEL 10
#define TOLLHERRING_CALL_ALERTS 11
#define TOLLHERRING_CALL_FAILED 12

/* the second byte */
#define TOLLHERRING_SETUP 1
#define TOLLHERRING_CONNECT 2
#define TOLLHERRING_FACILITY 3
#define TOLLHERRING_RELEASE_COMPLETE 4
#define TOLLHERRING_ALERTING 5

/* errors: the field of type 4, and that of type 7 */
#define TOLLHERRING_SHORT 1
#define TOLLHERRING_LONG 2
#define TOLLHERRING_REMOTE_USER_BUSY_AGAIN 1
#define TOLLHERRING_FAILURE_TO_MATCH 2

/* ---- what a tick does. It is told whole; on a refusal, the number and zeros */

#define TOLLHERRING_CLERK_TICK_MOST 864
#define TOLLHERRING_LINE_TICK_MOST 1728

/* a record that expired: it is gone, and its timers with it */
typedef struct tollherring_expiry {
    uint64_t place;  /* where it stood before the tick. A list kept in the desk's order loses these entries from the last one on, so that each place is still right */
    uint64_t notice; /* what to tell User A: at the clerk's desk TOLLHERRING_FAILED, at the line's 0 */
    uint64_t clear;  /* 1: clear the call */
    uint64_t length; /* how many bytes of `out` are its message, which stands behind that of the record before it in this list, the first at the front */
} tollherring_expiry;

typedef struct tollherring_ticked {
    uint64_t refusal;               /* 0, or why nothing changed: TOLLHERRING_NO_ROOM; 2 only on words that no start made */
    uint64_t length;                /* how many bytes of `out` were written, all messages together; those behind stay as they were */
    uint64_t expired;               /* how many records expired */
    tollherring_expiry records[32]; /* these, from the oldest on, and zeros behind them */
} tollherring_ticked;

/* ---- the clerk's desk (User A's end) */

/* kinds and preferences of an ask: retain asks for RET, release for RLS */
#define TOLLHERRING_CCBS 1
#define TOLLHERRING_CCNR 2
#define TOLLHERRING_PREFER_NONE 0
#define TOLLHERRING_PREFER_RETAIN 1
#define TOLLHERRING_PREFER_RELEASE 2

/* acts at this end, for tollherring_clerk_act alone: User A's, and the fall of the retained connection */
#define TOLLHERRING_CLERK_ACT_ACCEPT 1
#define TOLLHERRING_CLERK_ACT_RESUME 2 /* User A is free again: back to waiting */
#define TOLLHERRING_CLERK_ACT_GO_ON 3  /* User A is free again: on to recall */
#define TOLLHERRING_CLERK_ACT_CANCEL 4
#define TOLLHERRING_CLERK_ACT_FELL 5   /* the retained connection of this request was released without a ccCancel */

/* the timer that ran out, for tollherring_clerk_report alone: not the bits of `starts` and `stops` */
#define TOLLHERRING_T1_RAN_OUT 1
#define TOLLHERRING_T2_RAN_OUT 2
#define TOLLHERRING_T3_RAN_OUT 3

/* An empty desk, with the lengths of its timers in seconds: T1 1 to 3600, though only 10 to 30 conforms to H.450.9, clause 11.4.1; T2 of a CCBS request 60 to
 * 3600 and of a CCNR request 60 to 86400; T3 10 to 30. 20, 900, 3600 and 20 are the usual ones. Refusal 2 for a length out of range: then no desk is made, and
 * the memory is as it was. A host that keeps its own timers has to give lengths too; nothing but the deadlines comes of them. */
uint64_t tollherring_clerk_start(tollherring_clerk *desk, uint32_t t1, uint32_t t2_ccbs, uint32_t t2_ccnr, uint32_t t3);

/* User A asks to be rung back. `service`, 0 to 16383, is the service of the failed call as both ends number it; it is carried, and compared where a message
 * is matched to a record. can_keep, 0 or 1: whether this end can keep a request that meets a busy line again; it is kept if both ends say so. The preference
 * goes before the line desk's default. Refusals 2, 4 (only with an identifier), 5, 12. */
uint64_t tollherring_clerk_ask(tollherring_clerk *desk, uint32_t count, const tollherring_identifier *identifier, uint64_t kind,
                               const tollherring_number *number_a, const tollherring_number *number_b, uint64_t service, uint64_t can_keep,
                               uint64_t preference, uint8_t *out, size_t room, tollherring_outcome *outcome);

/* Bytes reach this end; `place`: of the record that a message without an identifier is about, as the host knows it, or TOLLHERRING_NO_PLACE; user_a_busy 0
 * or 1. One message is read, from the front. Refusals 1, 2, 3, 6, 7, 8, 12; a 1, and a 2 of the bytes, are `unread`. */
uint64_t tollherring_clerk_receive(tollherring_clerk *desk, uint32_t count, uint64_t place, const uint8_t *bytes, size_t length, uint64_t user_a_busy,
                                   uint8_t *out, size_t room, tollherring_outcome *outcome);

/* An act at this end, on the record with this identifier, or where that has length 0 on the one at this place. Refusals 2, 6, 7, 12. */
uint64_t tollherring_clerk_act(tollherring_clerk *desk, uint32_t count, uint64_t place, const tollherring_identifier *identifier, uint64_t act, uint8_t *out,
                               size_t room, tollherring_outcome *outcome);

/* A timer ran out, of the record that is so named: by hand, whatever its deadline. Refusals 2, 6, 9, 12. */
uint64_t tollherring_clerk_report(tollherring_clerk *desk, uint32_t count, uint64_t place, const tollherring_identifier *identifier, uint64_t timer,
                                  uint8_t *out, size_t room, tollherring_outcome *outcome);

/* The desk's timers at a count: each record with one that runs and is due expires, as if it had been reported by hand, from the oldest record on; of one record
 * T1 before T2 before T3. T2 is not heeded in Ringout. Refusal 12 where the messages don't all have room, and then no record has expired:
 * TOLLHERRING_CLERK_TICK_MOST bytes are always enough. (On words that are no started desk's it may be 2: a record in them has no message.) */
uint64_t tollherring_clerk_tick(tollherring_clerk *desk, uint32_t count, uint8_t *out, size_t room, tollherring_ticked *ticked);

/* ---- the line desk (User B's end) */

/* a line as it is given to start: its number, and the kinds that it allows, 1 CCBS + 2 CCNR */
typedef struct tollherring_line_given {
    tollherring_number number;
    uint8_t kinds;
} tollherring_line_given;

/* acts at this end, for tollherring_line_act alone */
#define TOLLHERRING_LINE_ACT_ALERTED 1
#define TOLLHERRING_LINE_ACT_CALL_FAILED 2
#define TOLLHERRING_LINE_ACT_CANCEL 3
#define TOLLHERRING_LINE_ACT_FELL 4 /* the retained connection of this request was released without a ccCancel */

/* A desk with its lines, all free; whether it keeps a request that meets a busy line again, if the clerk's end can too, and whether it retains connections
 * where the clerk's end has no preference, 0 or 1 each. `size` is the size of `lines` in
 * bytes (sizeof, not how many): 17 for a line, at most 16 lines; none at all is allowed, and so is a line that allows no kind. Refusal 2 for more lines, a
 * size that ends inside a line, bad digits or kinds, and one number twice: then no desk is made, and the memory is as it was. */
uint64_t tollherring_line_start(tollherring_line *desk, const tollherring_line_given *lines, size_t size, uint64_t keep, uint64_t retain);

/* Bytes reach this end; `place` as at the clerk's. One message is read, from the front. Refusals 1, 2, 3, 6, 7, 8, 12; 1 and 2 are `unread`. */
uint64_t tollherring_line_receive(tollherring_line *desk, uint32_t count, uint64_t place, const uint8_t *bytes, size_t length, uint8_t *out, size_t room,
                                  tollherring_outcome *outcome);

/* A line is busy (1) or free (0). It is about no request and sends nothing. Refusals 2, 10. */
uint64_t tollherring_line_report(tollherring_line *desk, uint32_t count, const tollherring_number *number, uint64_t busy, uint8_t *out, size_t room,
                                 tollherring_outcome *outcome);

/* A Look at a line. Refusals 10, 11, 12. */
uint64_t tollherring_line_look(tollherring_line *desk, uint32_t count, const tollherring_number *number, uint8_t *out, size_t room,
                               tollherring_outcome *outcome);

/* An act at this end, on the record with this identifier, or where that has length 0 on the one at this place. Refusals 2, 6, 7, 12. */
uint64_t tollherring_line_act(tollherring_line *desk, uint32_t count, uint64_t place, const tollherring_identifier *identifier, uint64_t act, uint8_t *out,
                              size_t room, tollherring_outcome *outcome);

/* The guard ran out, of the record that is so named: by hand, whatever its deadline. Refusals 2 (the identifier's length), 6, 12. */
uint64_t tollherring_line_guard(tollherring_line *desk, uint32_t count, uint64_t place, const tollherring_identifier *identifier, uint8_t *out, size_t room,
                                tollherring_outcome *outcome);

/* The desk's guards at a count, as tollherring_clerk_tick: 3660 seconds for a request that was accepted as CCBS, 86460 as CCNR. Refusal 12:
 * TOLLHERRING_LINE_TICK_MOST bytes are always enough. */
uint64_t tollherring_line_tick(tollherring_line *desk, uint32_t count, uint8_t *out, size_t room, tollherring_ticked *ticked);

/* ---- looking at a desk: the records of the clerk's desk in the order of storing, those of the line desk in the order of acceptance, from place 0 on without
 * gaps, so that the first place without one ends the list. A record that goes moves those behind it one place forward. */

/* keep and connection of a record */
#define TOLLHERRING_NOT_CHOSEN 0
#define TOLLHERRING_NOT_KEPT 1
#define TOLLHERRING_KEPT 2
#define TOLLHERRING_RETAINED 1 /* RET: the signalling connection stays */
#define TOLLHERRING_RELEASED 2 /* RLS: a new one for each invoke */

/* states of a record at the clerk's desk, and at the line desk */
#define TOLLHERRING_CLERK_STATE_WAIT_ACK 1
#define TOLLHERRING_CLERK_STATE_INVOKED 2
#define TOLLHERRING_CLERK_STATE_WAIT_ANSWER 3
#define TOLLHERRING_CLERK_STATE_RINGOUT 4
#define TOLLHERRING_CLERK_STATE_SUSPENDED 5
#define TOLLHERRING_LINE_STATE_INVOKED 1
#define TOLLHERRING_LINE_STATE_AWAIT 2
#define TOLLHERRING_LINE_STATE_ALERT 3

typedef struct tollherring_record {
    uint64_t kind;       /* TOLLHERRING_CCBS or TOLLHERRING_CCNR */
    uint64_t service;
    uint64_t can_keep;   /* what the clerk's end sent, 0 or 1; at the line desk 0 */
    uint64_t keep;       /* TOLLHERRING_NOT_CHOSEN, TOLLHERRING_NOT_KEPT or TOLLHERRING_KEPT: here 1 is no */
    uint64_t connection; /* TOLLHERRING_NOT_CHOSEN, TOLLHERRING_RETAINED or TOLLHERRING_RELEASED: as agreed at the start, also where it fell */
    uint64_t state;      /* TOLLHERRING_CLERK_STATE_WAIT_ACK and so on; TOLLHERRING_LINE_STATE_INVOKED and so on */
    uint64_t active;     /* the line desk's activity mark, 0 or 1: the line was busy since, or at, acceptance; a CCNR request waits for it. At the clerk's desk 0 */
    uint64_t suspended;  /* the line desk's suspended mark, 0 or 1; at the clerk's desk 0 */
    uint64_t down;       /* 1: this end was told that the retained connection fell. Else 0, and always for RLS */
    uint64_t timers;     /* those that run: a sum of TOLLHERRING_T1, T2, T3, GUARD */
    uint64_t t1;         /* the counts at which they run out, in the count that the steps were given; 0 for one that does not run, which alone tells nothing: ask `timers` */
    uint64_t t2;
    uint64_t t3;
    uint64_t guard;
} tollherring_record;

typedef struct tollherring_line_status {
    uint64_t kinds; /* 1 CCBS + 2 CCNR */
    uint64_t busy;  /* 0 or 1 */
} tollherring_line_status;

/* The record at a place: 0; or 6 for a place that has none, and then nothing is written. Of a record without an identifier seventeen zeros are written:
 * its length is 0. */
uint64_t tollherring_clerk_record(const tollherring_clerk *desk, uint64_t place, tollherring_identifier *identifier, tollherring_number *number_a,
                                  tollherring_number *number_b, tollherring_record *record);
uint64_t tollherring_line_record(const tollherring_line *desk, uint64_t place, tollherring_identifier *identifier, tollherring_number *number_a,
                                 tollherring_number *number_b, tollherring_record *record);

/* The line at a place, in the order in which they were given to start: 0; or 10 for a place that has none, and then nothing is written. */
uint64_t tollherring_line_at(const tollherring_line *desk, uint64_t place, tollherring_number *number, tollherring_line_status *status);

/* ---- messages as such, for logs and for those that a host hands in by itself: the desks take and give bytes */

typedef struct tollherring_message {
    uint64_t type;
    uint64_t carrier;
    uint64_t service; /* types 1 and 2, and 5, 6, 9 and 10 in Setup; else 0 */
    uint64_t field;   /* types 1 and 2: flags, can-keep + 2 * preference; 3: keep; 4 and 7: the error; else 0 */
} tollherring_message;

/* One message from the front of some bytes; how many bytes it takes. Of an identifier that it doesn't have seventeen zeros are written, of numbers of digits
 * sixteen each. Refusals 1, 2, and then `fault_at` is written, as an outcome has it, and nothing else; where a message is read, that is left as it was. */
uint64_t tollherring_message_read(const uint8_t *bytes, size_t length, tollherring_identifier *identifier, tollherring_number *number_a,
                                  tollherring_number *number_b, tollherring_message *message, uint64_t *taken, uint64_t *fault_at);

/* A message at a place of a buffer of `room` bytes; how many bytes it takes. What its type, in its carrier, has no field for is not looked at. Refusals 2,
 * 12, and then nothing is written. */
uint64_t tollherring_message_write(const tollherring_identifier *identifier, const tollherring_number *number_a, const tollherring_number *number_b,
                                   const tollherring_message *message, uint8_t *out, size_t room, size_t place, uint64_t *written);

#ifdef __cplusplus
}
#endif

#endif
