//! The cases: what a desk was given before, the input that is measured, and the refusal that it must be answered with. The count starts at 0 and goes on by one
//! with each input, so that every record has deadlines of its own.

use crate::clerk;
use crate::codec::{message_bytes, Carrier, Content, Elements, Message, RequestFields};
use crate::outcome::Kind;
use crate::side::{given, Ask, ClerkInput, CodecInput, Identifier, LineInput, Name, Number, NO_PLACE, ROOM};

pub struct Case<I> {
    pub name: &'static str,
    pub given: Vec<I>,
    pub input: I,
    pub refusal: u64,
}

impl<I> Case<I> {
    /// The count with the input that is measured.
    pub fn count(&self) -> u32 {
        self.given.len() as u32
    }
}

fn case<I>(name: &'static str, given: Vec<I>, input: I, refusal: u64) -> Case<I> {
    Case { name, given, input, refusal }
}

/// Sixteen bytes that differ from one number to the next in both halves, as random identifiers do.
pub fn identifier(n: usize) -> Identifier {
    let low = (n as u64 + 1).wrapping_mul(0x9E37_79B9_7F4A_7C15);
    let high = (n as u64 + 77).wrapping_mul(0xBF58_476D_1CE4_E5B9);
    let mut bytes = [0; 16];
    bytes[..8].copy_from_slice(&low.to_le_bytes());
    bytes[8..].copy_from_slice(&high.to_le_bytes());
    bytes
}

/// The n-th request by its identifier.
pub fn name(n: usize) -> Name {
    Name::new(Some(identifier(n)), NO_PLACE)
}

/// A request by its record's place.
pub fn at_place(place: usize) -> Name {
    Name::new(None, place)
}

/// Fifteen digits, the most there are, so that a request takes 54 bytes; they differ in the last two, as numbers of one house do.
fn digits(leading: u8, n: usize) -> Vec<u8> {
    let mut digits = vec![leading; 15];
    digits[13] = (n / 10 % 10) as u8;
    digits[14] = (n % 10) as u8;
    digits
}

pub fn line_number(n: usize) -> Number {
    Number::new(digits(4, n))
}

/// The n-th request's message. Types 5, 6, 9 and 10 in Setup have its numbers: those of its caller and of a line.
fn bytes_for(carrier: Carrier, n: usize, line: usize, content: Content) -> Vec<u8> {
    let elements = Elements { number_a: digits(7, n), number_b: digits(4, line), service: 16383 };
    message_bytes(&Message { carrier, identifier: Some(identifier(n)), content, elements: None }.with_elements(&elements))
}

fn bytes(carrier: Carrier, n: usize, content: Content) -> Vec<u8> {
    bytes_for(carrier, n, n % 16, content)
}

/// A message of an end that tells neither identifier nor numberA.
fn nameless(carrier: Carrier, line: usize, content: Content) -> Vec<u8> {
    let elements = Elements { number_a: vec![], number_b: digits(4, line), service: 16383 };
    message_bytes(&Message { carrier, identifier: None, content, elements: None }.with_elements(&elements))
}

/// A message with more bytes behind it, which are the caller's.
fn followed(mut message: Vec<u8>) -> Vec<u8> {
    message.extend([0xEE; 4096]);
    message
}

/// Can keep, and prefers that the connection is retained.
const RETAIN: u32 = 3;
/// Can keep, and prefers that it is released.
const RELEASE: u32 = 5;

fn request_content(kind: Kind, number_a: Vec<u8>, line: usize, flags: u32) -> Content {
    let fields = RequestFields { number_a, number_b: digits(4, line), service: 16383, flags };
    match kind {
        Kind::Ccbs => Content::CcbsRequest(fields),
        Kind::Ccnr => Content::CcnrRequest(fields),
    }
}

/// The n-th request, for a line: 54 bytes.
fn request(kind: Kind, n: usize, line: usize) -> Vec<u8> {
    bytes(Carrier::Setup, n, request_content(kind, digits(7, n), line, RETAIN))
}

fn ask_from(identifier: Option<Identifier>, number_a: Vec<u8>, number_b: Vec<u8>) -> ClerkInput {
    let (a, b) = (Number::new(number_a), Number::new(number_b));
    let own = clerk::Ask {
        identifier,
        kind: Kind::Ccbs,
        number_a: a.digits,
        number_b: b.digits,
        service: 16383,
        can_keep: true,
        preference: 1,
    };
    let (identifier, number_a, number_b) = (given(identifier), a.sixteen, b.sixteen);
    ClerkInput::Ask(Ask { identifier, kind: 1, number_a, number_b, service: 16383, can_keep: 1, preference: 1, own })
}

fn ask(n: usize) -> ClerkInput {
    ask_from(Some(identifier(n)), digits(7, n), digits(4, n))
}

/// A desk with so many asks; Wait-Ack.
fn asked(count: usize) -> Vec<ClerkInput> {
    (0..count).map(ask).collect()
}

fn clerk_bytes(carrier: Carrier, n: usize, content: Content) -> ClerkInput {
    ClerkInput::Bytes(bytes(carrier, n, content), NO_PLACE, 1)
}

fn result(n: usize) -> ClerkInput {
    clerk_bytes(Carrier::Connect, n, Content::RequestResult { keep: 1 })
}

/// A full desk, all acknowledged; Invoked.
fn invoked() -> Vec<ClerkInput> {
    (0..16).map(ask).chain((0..16).map(result)).collect()
}

/// A full desk, all acknowledged in this carrier and recalled; Wait-Answer, where T2 and T3 run.
fn recalled(carrier: Carrier) -> Vec<ClerkInput> {
    let results = (0..16).map(|n| clerk_bytes(carrier, n, Content::RequestResult { keep: 1 }));
    let possible = |n| ClerkInput::Bytes(bytes(Carrier::Setup, n, Content::CcExecPossible), NO_PLACE, 0);
    (0..16).map(ask).chain(results).chain((0..16).map(possible)).collect()
}

/// An empty desk that has worked: so many asks, each cancelled. What it costs must not grow with its past.
fn worked(asks: usize) -> Vec<ClerkInput> {
    (0..asks).flat_map(|_| [ask(0), ClerkInput::Act(name(0), 4)]).collect()
}

/// A full desk of requests that nothing tells apart; the last alone is acknowledged, and Invoked.
fn last_invoked() -> Vec<ClerkInput> {
    let result = nameless(Carrier::Connect, 0, Content::RequestResult { keep: 1 });
    (0..16).map(|_| ask_from(None, vec![], digits(4, 0))).chain([ClerkInput::Bytes(result, 15, 1)]).collect()
}

/// T1 of the n-th ask is due at 20 and n; of a record that was recalled T3 before T2, from 52 on.
fn clerk_tick_cases() -> Vec<Case<ClerkInput>> {
    let tick = |count| ClerkInput::Tick(count, ROOM);
    let last_unanswered = || (0..16).map(ask).chain((0..15).map(result)).collect();
    let released = || recalled(Carrier::ReleaseComplete);
    vec![
        case("tick, empty desk", vec![], tick(0), 0),
        case("tick, nothing due, 16 records, T1 runs", asked(16), tick(19), 0),
        case("tick, nothing due, 16 records, T2 runs", invoked(), tick(35), 0),
        case("tick, nothing due, 16 records, T2 and T3 run", recalled(Carrier::Connect), tick(51), 0),
        case("tick, the oldest of 16 due", asked(16), tick(20), 0),
        case("tick, the last of 16 due", last_unanswered(), tick(35), 0),
        case("tick, all 16 due", asked(16), tick(35), 0),
        case("tick, all 16 due, messages of 53 bytes", released(), tick(67), 0),
        case("tick, all 16 due, a byte of room missing (12)", released(), ClerkInput::Tick(67, 16 * 53 - 1), 12),
    ]
}

fn clerk_step_cases() -> Vec<Case<ClerkInput>> {
    let cancelled = |n| clerk_bytes(Carrier::ReleaseComplete, n, Content::CcCancel);
    let alerts = |n| clerk_bytes(Carrier::Alerting, n, Content::CallAlerts);
    let possible = |n| clerk_bytes(Carrier::Facility, n, Content::CcExecPossible);
    let cut = bytes(Carrier::Facility, 0, Content::CcExecPossible)[..18].to_vec();
    let fitting = ClerkInput::Bytes(nameless(Carrier::Setup, 0, Content::CcExecPossible), NO_PLACE, 1);
    vec![
        case("ask, empty desk", vec![], ask(0), 0),
        case("ask, empty desk after 2000 asks and cancels", worked(2000), ask(0), 0),
        case("ask, the sixteenth", asked(15), ask(15), 0),
        case("ask, refused: live (4), last place", asked(16), ask(15), 4),
        case("ask, refused: full (5)", asked(16), ask(16), 5),
        case("result, first place", asked(16), result(0), 0),
        case("result, middle place", asked(16), result(8), 0),
        case("result, last place", asked(16), result(15), 0),
        case("result, not found (6), replies", asked(16), result(99), 6),
        case("call alerts, refused by state (7), last place", asked(16), alerts(15), 7),
        case("ccExecPossible, User A busy, last place", invoked(), possible(15), 0),
        case("ccExecPossible in Setup, a fit by elements, last of 16 that fit", last_invoked(), fitting, 0),
        case("refused bytes (1)", asked(16), ClerkInput::Bytes(cut, NO_PLACE, 0), 1),
        case("ccCancel received, first place: delete", invoked(), cancelled(0), 0),
        case("ccCancel received, last place: delete", invoked(), cancelled(15), 0),
        case("act cancel, first place: delete", invoked(), ClerkInput::Act(name(0), 4), 0),
        case("act cancel, last place: delete", invoked(), ClerkInput::Act(name(15), 4), 0),
        case("act accept, refused by state (7), last place", invoked(), ClerkInput::Act(name(15), 1), 7),
        case("T2, first place: delete", invoked(), ClerkInput::Timer(name(0), 2), 0),
        case("T3, refused (9), last place", invoked(), ClerkInput::Timer(name(15), 3), 9),
    ]
}

pub fn clerk_cases() -> Vec<Case<ClerkInput>> {
    clerk_step_cases().into_iter().chain(clerk_tick_cases()).collect()
}

/// So many requests in turn on sixteen lines: the n-th is of line n modulo 16. Lines are free.
fn requested(kind: Kind, count: usize) -> Vec<LineInput> {
    (0..count).map(|n| LineInput::Bytes(request(kind, n, n % 16), NO_PLACE)).collect()
}

fn full_and(later: Vec<LineInput>) -> Vec<LineInput> {
    let mut given = requested(Kind::Ccbs, 32);
    given.extend(later);
    given
}

fn line_bytes(carrier: Carrier, n: usize, content: Content) -> LineInput {
    LineInput::Bytes(bytes(carrier, n, content), NO_PLACE)
}

fn look(line: usize) -> LineInput {
    LineInput::Look(line_number(line))
}

fn suspend(n: usize) -> LineInput {
    line_bytes(Carrier::Facility, n, Content::CcSuspend)
}

fn ringout(n: usize) -> LineInput {
    line_bytes(Carrier::Setup, n, Content::CcRingout)
}

/// The last record in Await: the older one of its line is suspended.
fn last_awaits() -> Vec<LineInput> {
    full_and(vec![look(15), suspend(15), look(15)])
}

/// A full desk, the last five of the last line and of callers that nothing tells apart; only the very last of them was offered. Four wait for activity (CCNR).
fn last_of_five_awaits() -> Vec<LineInput> {
    let mut given = requested(Kind::Ccbs, 27);
    let last = |kind| LineInput::Bytes(nameless(Carrier::Setup, 15, request_content(kind, vec![], 15, RETAIN)), NO_PLACE);
    given[15] = LineInput::Bytes(request(Kind::Ccbs, 15, 0), NO_PLACE);
    given.extend((0..4).map(|_| last(Kind::Ccnr)));
    given.extend([last(Kind::Ccbs), look(15)]);
    given
}

fn line_request_cases() -> Vec<Case<LineInput>> {
    let store = |n: usize| LineInput::Bytes(request(Kind::Ccbs, n, n % 16), NO_PLACE);
    let cut = bytes(Carrier::Setup, 0, Content::CcRingout)[..18].to_vec();
    vec![
        case("request stored, empty desk, first line", vec![], store(0), 0),
        case("request stored, the thirty-second, last line", requested(Kind::Ccbs, 31), store(31), 0),
        case("request denied: full desk, last line", full_and(vec![]), store(47), 0),
        case("request denied: no such line", full_and(vec![]), LineInput::Bytes(request(Kind::Ccbs, 40, 40), NO_PLACE), 0),
        case("refused bytes (1)", full_and(vec![]), LineInput::Bytes(cut, NO_PLACE), 1),
    ]
}

fn line_message_cases() -> Vec<Case<LineInput>> {
    let cancelled = |n| line_bytes(Carrier::ReleaseComplete, n, Content::CcCancel);
    let behind = followed(bytes(Carrier::Setup, 31, Content::CcRingout));
    let fitting = LineInput::Bytes(nameless(Carrier::Setup, 15, Content::CcRingout), NO_PLACE);
    let mut busy = last_awaits();
    busy.push(LineInput::Report(line_number(15), 1));
    vec![
        case("ccRingout, first place, first line", full_and(vec![look(0)]), ringout(0), 0),
        case("ccRingout, middle place, last line", full_and(vec![look(15)]), ringout(15), 0),
        case("ccRingout, last place, last line", last_awaits(), ringout(31), 0),
        case("ccRingout, last place, last line, 4096 bytes behind", last_awaits(), LineInput::Bytes(behind, NO_PLACE), 0),
        case("ccRingout, a fit by elements, last place, last of 5 that fit", last_of_five_awaits(), fitting, 0),
        case("ccRingout, last place, line busy: replies", busy, ringout(31), 0),
        case("ccRingout, not found (6), replies", full_and(vec![]), ringout(99), 6),
        case("ccRingout, refused by state (7), last place, replies", full_and(vec![]), ringout(31), 7),
        case("ccSuspend, last place", last_awaits(), suspend(31), 0),
        case("ccCancel received, first place: delete", full_and(vec![]), cancelled(0), 0),
        case("ccCancel received, last place: delete", full_and(vec![]), cancelled(31), 0),
    ]
}

fn line_own_cases() -> Vec<Case<LineInput>> {
    vec![
        case("Look offers, first place, first line", full_and(vec![]), look(0), 0),
        case("Look offers, last place, last line", full_and(vec![look(15), suspend(15)]), look(15), 0),
        case("Look, nothing fits (11), full desk, last line", requested(Kind::Ccnr, 32), look(15), 11),
        case("Look, no such line (10)", full_and(vec![]), look(40), 10),
        case("report busy, full desk, last line", full_and(vec![]), LineInput::Report(line_number(15), 1), 0),
        case("report free, full desk, last line", full_and(vec![]), LineInput::Report(line_number(15), 0), 0),
        case("guard, first place: delete", full_and(vec![]), LineInput::Guard(name(0)), 0),
        case("guard, last place: delete", full_and(vec![]), LineInput::Guard(name(31)), 0),
        case("guard, not found (6)", full_and(vec![]), LineInput::Guard(name(99)), 6),
        case("act cancel, first place: delete", full_and(vec![]), LineInput::Act(name(0), 3), 0),
        case("act alerted, refused by state (7), last place", full_and(vec![]), LineInput::Act(name(31), 1), 7),
    ]
}

/// The guard of the n-th request is due at 3660 and n (CCBS), or a day later (CCNR).
fn line_tick_cases() -> Vec<Case<LineInput>> {
    let tick = |count| LineInput::Tick(count, ROOM);
    let released = || {
        let request = |n| line_bytes(Carrier::Setup, n, request_content(Kind::Ccbs, digits(7, n), n % 16, RELEASE));
        (0..32).map(request).collect()
    };
    let mut last_ccbs = requested(Kind::Ccnr, 31);
    last_ccbs.push(LineInput::Bytes(request(Kind::Ccbs, 31, 15), NO_PLACE));
    vec![
        case("tick, empty desk", vec![], tick(0), 0),
        case("tick, nothing due, 32 records", full_and(vec![]), tick(3659), 0),
        case("tick, the oldest of 32 due", full_and(vec![]), tick(3660), 0),
        case("tick, the last of 32 due", last_ccbs, tick(3691), 0),
        case("tick, all 32 due", full_and(vec![]), tick(3691), 0),
        case("tick, all 32 due, messages of 53 bytes", released(), tick(3691), 0),
        case("tick, all 32 due, a byte of room missing (12)", released(), LineInput::Tick(3691, 32 * 53 - 1), 12),
    ]
}

pub fn line_cases() -> Vec<Case<LineInput>> {
    line_request_cases().into_iter().chain(line_message_cases()).chain(line_own_cases()).chain(line_tick_cases()).collect()
}

/// The longest message, one with its elements, one with an identifier alone, the shortest, and bytes refused at the end of a request (its last digit is no digit) or at once.
pub fn codec_cases() -> Vec<Case<CodecInput>> {
    let long = || request(Kind::Ccbs, 0, 0);
    let ringout = || bytes(Carrier::Setup, 0, Content::CcRingout);
    let short = || bytes(Carrier::Facility, 0, Content::CcSuspend);
    let least = || nameless(Carrier::Facility, 0, Content::CcSuspend);
    let mut late = long();
    late[50] = 10;
    vec![
        case("read, 54 bytes", vec![], CodecInput::Read(long()), 0),
        case("read, 54 bytes, 4096 behind", vec![], CodecInput::Read(followed(long())), 0),
        case("read, 53 bytes, ccRingout in Setup", vec![], CodecInput::Read(ringout()), 0),
        case("read, 19 bytes", vec![], CodecInput::Read(short()), 0),
        case("read, 3 bytes", vec![], CodecInput::Read(least()), 0),
        case("read, refused (2) at byte 51", vec![], CodecInput::Read(late), 2),
        case("read, refused (1) at 18 bytes", vec![], CodecInput::Read(short()[..18].to_vec()), 1),
        case("write, 54 bytes", vec![CodecInput::Read(long())], CodecInput::Write(7), 0),
        case("write, 19 bytes", vec![CodecInput::Read(short())], CodecInput::Write(7), 0),
        case("write, 3 bytes", vec![CodecInput::Read(least())], CodecInput::Write(7), 0),
        case("write, refused (12), 54 bytes", vec![CodecInput::Read(long())], CodecInput::Write(ROOM - 52), 12),
    ]
}
