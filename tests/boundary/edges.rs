//! What a script's lines cannot show of the Rust module: each step of an evening at both desks in every room, with an identifier and without, a connection that falls, refusals that
//! have a reply, full desks, the numbers that are lists, messages at every place, bytes that are spoilt in known places, and ticks. What Rust's types exclude (a busy of 2, an act that is not
//! listed, an identifier of eight bytes or in place of a number) cannot be written here.

#[path = "../../rust/tollherring.rs"]
mod tollherring;

use std::fmt::Debug;
use tollherring::*;

/// A step on copies of the desk in every room from none to more than enough: too little is NoRoom, and nothing is done; else it is all the same step, and behind
/// the message nothing is written. Then the step for good: what it sends.
fn step<D: Clone + PartialEq>(desk: &mut D, call: impl for<'o> Fn(&mut D, &'o mut [u8]) -> Outcome<'o>) -> Told {
    let mut after = desk.clone();
    let mut whole = [0xEE; 64];
    let told = Told::of(call(&mut after, &mut whole));
    for room in 0..=whole.len() {
        let mut tried = desk.clone();
        let mut out = vec![0xEE; room].into_boxed_slice();
        let here = Told::of(call(&mut tried, &mut out));
        if room < told.message.len() {
            assert!(here == Told { refusal: Some(Refusal::NoRoom), ..Told::default() });
            assert!(tried == *desk && out.iter().all(|byte| *byte == 0xEE));
        } else {
            assert!(here == told && tried == after && out[..] == whole[..room]);
        }
    }
    assert!(whole[told.message.len()..].iter().all(|byte| *byte == 0xEE));
    assert!(told.refusal.is_none() || *desk == after);
    *desk = after;
    told
}

/// An outcome that has let go of its buffer.
#[derive(Clone, PartialEq, Debug, Default)]
struct Told {
    refusal: Option<Refusal>,
    message: Vec<u8>,
    kind: Option<(MessageType, Carrier)>,
    next: usize,
    starts: u64,
    stops: u64,
    notice: Option<Notice>,
    clear: bool,
    fault_at: Option<usize>,
    record_at: Option<usize>,
}

impl Told {
    fn of(outcome: Outcome) -> Told {
        assert_eq!(outcome.result().err(), outcome.refusal);
        Told {
            refusal: outcome.refusal,
            message: outcome.message.unwrap_or(&[]).to_vec(),
            kind: outcome.message_type().zip(outcome.carrier()),
            next: outcome.next,
            starts: outcome.starts.number(),
            stops: outcome.stops.number(),
            notice: outcome.notice,
            clear: outcome.clear,
            fault_at: outcome.fault_at,
            record_at: outcome.record_at,
        }
    }

    fn sends(&self, message_type: MessageType, carrier: Carrier) -> bool {
        self.refusal.is_none() && self.kind == Some((message_type, carrier))
    }

    /// Not for a fault of the bytes: there is no place of one. Nor is there one of a record.
    fn refuses(&self, refusal: Refusal) -> bool {
        *self == Told { refusal: Some(refusal), next: self.next, ..Told::default() }
    }

    fn refuses_at(&self, fault: Fault) -> bool {
        *self == Told { refusal: Some(fault.refusal), fault_at: Some(fault.at), ..Told::default() }
    }

    /// Done, about the record at a place, and nothing else to be said.
    fn only_done(&self, place: usize) -> bool {
        *self == Told { record_at: Some(place), ..Told::default() }
    }
}

fn number(text: &str) -> Number {
    Number::of_text(text).expect("digits")
}

fn identifier(n: u8) -> Identifier {
    let mut identifier = [7; 16];
    identifier[15] = n;
    Identifier(identifier)
}

fn name(n: u8) -> Name {
    Name::Identifier(identifier(n))
}

/// Of seconds, where it makes no difference.
const COUNT: u32 = 77;

const KEPT: Ask = Ask { kind: Kind::Ccbs, service: 16383, can_keep: true, preference: Preference::Retain };

/// Request n, from a number of its own, about a line: what a clerk's desk sends.
fn request(n: u8, line: &str) -> Vec<u8> {
    let caller = number(&format!("{:015}", n));
    step(&mut ClerkDesk::default(), |desk, out| {
        desk.ask(COUNT, Some(identifier(n)), &caller, &number(line), &KEPT, out)
    })
    .message
}

fn desk_of(lines: &[&str]) -> Result<LineDesk, Refusal> {
    let given: Vec<LineGiven> = lines.iter().map(|line| LineGiven { number: number(line), kinds: 3 }).collect();
    LineDesk::start(&given, true, false)
}

/// Both ends, with the longest message that there is: asked, acknowledged, offered, suspended, resumed, offered again, busy again, offered, rung, alerted. With an identifier the
/// host names no place; without one it is the first record at both ends, and the rung one is found by its numbers.
fn evening(id: Option<Identifier>) {
    let (mut clerk, mut line) = (ClerkDesk::default(), desk_of(&["801234567890123"]).expect("one line"));
    let b = number("801234567890123");
    let longest = MESSAGE_MOST - if id.is_some() { 0 } else { 16 };
    let (place, name) = id.map_or((Some(0), Name::Place(0)), |id| (None, Name::Identifier(id)));
    assert!(
        line.report(COUNT, &b, true).result().is_ok()
            && line.report(COUNT, &number("1"), true).refusal == Some(Refusal::NoLine)
    );
    let asked = step(&mut clerk, |desk, out| desk.ask(COUNT, id, &number("499999999999999"), &b, &KEPT, out));
    assert!(
        asked.sends(MessageType::CcbsRequest, Carrier::Setup) && asked.message.len() == longest && asked.starts == 1
    );
    assert!(asked.record_at == Some(0));
    let accepted = step(&mut line, |desk, out| desk.receive(COUNT, None, &asked.message, out));
    assert!(accepted.sends(MessageType::Result, Carrier::Connect) && accepted.starts == 8 && accepted.next == longest);
    assert!(accepted.record_at == Some(0));
    let known = step(&mut clerk, |desk, out| desk.receive(COUNT, place, &accepted.message, false, out));
    assert!(known.notice == Some(Notice::Accepted) && known.record_at == Some(0));
    assert!(step(&mut line, |desk, out| desk.look(COUNT, &b, out)).refuses(Refusal::NothingToOffer));
    assert!(line.report(COUNT, &b, false).result().is_ok());
    let offered = step(&mut line, |desk, out| desk.look(COUNT, &b, out));
    let suspended = step(&mut clerk, |desk, out| desk.receive(COUNT, place, &offered.message, true, out));
    assert!(suspended.sends(MessageType::CcSuspend, Carrier::Facility));
    assert!(step(&mut clerk, |desk, out| desk.report(COUNT, name, Timer::T3, out)).refuses(Refusal::NotRunning));
    assert!(step(&mut line, |desk, out| desk.receive(COUNT, place, &suspended.message, out)).refusal.is_none());
    let resumed = step(&mut clerk, |desk, out| desk.act(COUNT, name, Act::Resume, out));
    assert!(step(&mut line, |desk, out| desk.receive(COUNT, place, &resumed.message, out)).refusal.is_none());
    ring(&mut clerk, &mut line, name, place, &b, true);
    ring(&mut clerk, &mut line, name, place, &b, false);
    assert!(clerk.records().count() == 0 && line.records().count() == 0 && clerk == ClerkDesk::default());
}

/// Offered and rung: the line is busy again and the request is kept, or the call alerts.
fn ring(clerk: &mut ClerkDesk, line: &mut LineDesk, name: Name, place: Option<usize>, b: &Number, busy: bool) {
    assert!(line.report(COUNT, b, false).result().is_ok());
    let offered = step(line, |desk, out| desk.look(COUNT, b, out));
    assert!(offered.sends(MessageType::CcExecPossible, Carrier::Facility) && offered.record_at == Some(0));
    let recall = step(clerk, |desk, out| desk.receive(COUNT, place, &offered.message, false, out));
    assert!(recall.notice == Some(Notice::Recall) && recall.starts == 4);
    let ringing = step(clerk, |desk, out| desk.act(COUNT, name, Act::Accept, out));
    assert!(ringing.sends(MessageType::CcRingout, Carrier::Setup) && ringing.stops == 4);
    assert!(step(clerk, |desk, out| desk.act(COUNT, name, Act::GoOn, out)).refuses(Refusal::NoRow));
    assert!(line.report(COUNT, b, busy).result().is_ok());
    let rung = step(line, |desk, out| desk.receive(COUNT, None, &ringing.message, out));
    assert!(rung.record_at == Some(0));
    let answer = if busy { rung } else { step(line, |desk, out| desk.act(COUNT, name, LineAct::Alerted, out)) };
    let end = step(clerk, |desk, out| desk.receive(COUNT, place, &answer.message, false, out));
    assert!(end.notice == Some(if busy { Notice::BusyAgainKept } else { Notice::Completed }) && !end.clear);
}

/// Three requests of one end that tells no identifier, all about one line, and one that has one: places name them, move forward when one ends, and are not looked at where there is an
/// identifier. A ccCancel in Setup without an identifier is of the oldest that fits.
fn places_named() {
    let (mut clerk, mut line) = (ClerkDesk::default(), desk_of(&["80", "81"]).expect("two lines"));
    let release = Ask { preference: Preference::Release, ..KEPT };
    for (place, (id, caller)) in [(None, "1"), (Some(identifier(9)), "2"), (None, "3"), (None, "4")].iter().enumerate()
    {
        let asked = step(&mut clerk, |desk, out| desk.ask(COUNT, *id, &number(caller), &number("80"), &release, out));
        let accepted = step(&mut line, |desk, out| desk.receive(COUNT, Some(31), &asked.message, out));
        assert!(asked.record_at == Some(place) && accepted.record_at == Some(place));
        let known = step(&mut clerk, |desk, out| desk.receive(COUNT, Some(place), &accepted.message, false, out));
        assert!(known.notice == Some(Notice::Accepted) && known.record_at == Some(place));
    }
    let callers = |desk: &LineDesk| desk.records().map(|record| record.number_a.to_string()).collect::<String>();
    assert!(callers(&line) == "1234" && line.record(1).map(|r| r.identifier) == Some(Some(identifier(9))));
    assert!(line.record(0).map(|r| r.identifier) == Some(None));
    // the third, by its place: its ccCancel has its numbers, and ends the third at the other end whatever place is named
    let cancelled = step(&mut clerk, |desk, out| desk.act(COUNT, Name::Place(2), Act::Cancel, out));
    assert!(cancelled.sends(MessageType::CcCancel, Carrier::Setup) && cancelled.record_at == Some(2));
    let ended = step(&mut line, |desk, out| desk.receive(COUNT, Some(0), &cancelled.message, out));
    assert!(ended.stops == 8 && ended.record_at == Some(2) && callers(&line) == "124");
    assert!(step(&mut clerk, |desk, out| desk.act(COUNT, Name::Place(3), Act::Cancel, out)).refuses(Refusal::NoRecord));
    // with an identifier the place is not looked at; a record that has one may be named by its place
    assert!(step(&mut line, |desk, out| desk.guard(COUNT, name(8), out)).refuses(Refusal::NoRecord));
    assert!(
        step(&mut line, |desk, out| desk.guard(COUNT, Name::Place(1), out)).record_at == Some(1)
            && callers(&line) == "14"
    );
    assert!(step(&mut line, |desk, out| desk.act(COUNT, Name::Place(1), LineAct::Cancel, out)).record_at == Some(1));
    assert!(callers(&line) == "1");
    let stray = Message {
        message_type: MessageType::CcCancel,
        carrier: Carrier::Setup,
        identifier: None,
        number_a: Number::WITHHELD,
        number_b: number("80"),
        service: 16383,
        field: 0,
    };
    let mut bytes = [0; MESSAGE_MOST];
    let length = stray.write(&mut bytes, 0).expect("room");
    let told = step(&mut clerk, |desk, out| desk.receive(COUNT, None, &bytes[..length], false, out));
    assert!(told.notice == Some(Notice::Failed) && told.record_at == Some(0) && clerk.records().count() == 2);
    let other = Message { service: 1, ..stray }.write(&mut bytes, 0).expect("room");
    assert!(step(&mut clerk, |desk, out| desk.receive(COUNT, Some(0), &bytes[..other], false, out))
        .refuses(Refusal::NoRecord));
}

/// The retained connection falls: the line's end sees it first, and the clerk's takes its Setup all the same. Each end has its own mark, and the choice stays.
fn fall() {
    let (mut clerk, mut line) = (ClerkDesk::default(), desk_of(&["80"]).expect("one line"));
    let (id, b) = (name(1), number("80"));
    let asked = step(&mut clerk, |desk, out| desk.ask(COUNT, Some(identifier(1)), &number("1"), &b, &KEPT, out));
    assert!(step(&mut clerk, |desk, out| desk.act(COUNT, id, Act::Fell, out)).refuses(Refusal::NoRow));
    assert!(step(&mut line, |desk, out| desk.act(COUNT, id, LineAct::Fell, out)).refuses(Refusal::NoRecord));
    let accepted = step(&mut line, |desk, out| desk.receive(COUNT, None, &asked.message, out));
    assert!(step(&mut clerk, |desk, out| desk.receive(COUNT, None, &accepted.message, false, out)).refusal.is_none());
    assert!(step(&mut line, |desk, out| desk.act(COUNT, id, LineAct::Fell, out)).only_done(0));
    let marks = |clerk: &ClerkDesk, line: &LineDesk| {
        let (c, l) = (clerk.record(0).expect("a record"), line.record(0).expect("a record"));
        assert!(c.connection == Some(Connection::Retained) && l.connection == Connection::Retained);
        (c.down, l.down)
    };
    assert_eq!(marks(&clerk, &line), (false, true));
    let offered = step(&mut line, |desk, out| desk.look(COUNT, &b, out));
    assert!(offered.sends(MessageType::CcExecPossible, Carrier::Setup));
    assert!(step(&mut clerk, |desk, out| desk.act(COUNT, id, Act::Fell, out)).only_done(0));
    let suspended = step(&mut clerk, |desk, out| desk.receive(COUNT, None, &offered.message, true, out));
    assert!(suspended.sends(MessageType::CcSuspend, Carrier::ReleaseComplete));
    assert!(step(&mut line, |desk, out| desk.receive(COUNT, None, &suspended.message, out)).refusal.is_none());
    let resumed = step(&mut clerk, |desk, out| desk.act(COUNT, id, Act::Resume, out));
    assert!(resumed.sends(MessageType::CcResume, Carrier::Setup));
    assert!(step(&mut line, |desk, out| desk.receive(COUNT, None, &resumed.message, out)).refusal.is_none());
    assert_eq!(marks(&clerk, &line), (true, true));
    assert!(step(&mut clerk, |desk, out| desk.act(COUNT, id, Act::Cancel, out))
        .sends(MessageType::CcCancel, Carrier::Setup));
}

/// A refusal that has a reply: it stands in the outcome beside the refusal, and needs its room too.
fn replies() {
    let (mut clerk, mut line) = (ClerkDesk::default(), desk_of(&[]).expect("no lines"));
    let stray = Message {
        message_type: MessageType::CcRingout,
        carrier: Carrier::Setup,
        identifier: Some(identifier(9)),
        number_a: Number::WITHHELD,
        number_b: number("8"),
        service: 0,
        field: 0,
    };
    let mut bytes = [0; 26];
    assert_eq!(stray.write(&mut bytes, 0), Ok(23));
    let told = step(&mut line, |desk, out| desk.receive(COUNT, None, &bytes, out));
    assert!(
        told.refusal == Some(Refusal::NoRecord)
            && told.kind == Some((MessageType::RingoutError, Carrier::ReleaseComplete))
            && told.next == 23
            && told.message.len() == 20
            && told.fault_at.is_none()
            && told.record_at.is_none()
    );
    assert!(step(&mut clerk, |desk, out| desk.receive(COUNT, None, &bytes, false, out)).refuses(Refusal::OtherEnd));
    unread(&bytes[..18], Refusal::BytesEnd, 18);
    unread(&[], Refusal::BytesEnd, 0);
    assert!(step(&mut line, |desk, out| desk.guard(COUNT, name(9), out)).refuses(Refusal::NoRecord));
    let execute = Message { message_type: MessageType::CcExecPossible, identifier: None, ..stray };
    assert_eq!(execute.write(&mut bytes, 2), Ok(7));
    let told = step(&mut clerk, |desk, out| desk.receive(COUNT, None, &bytes[2..], false, out));
    assert!(
        told.refusal == Some(Refusal::NoRecord) && told.kind == Some((MessageType::CcCancel, Carrier::ReleaseComplete))
    );
    // the reply has no identifier either
    assert_eq!(told.message, [10, 4, 0]);
}

/// 16 asks and not 17; 16 lines and not 17; 5 requests of a line and not 6; 32 in all and not 33.
fn full_desks() {
    let mut clerk = ClerkDesk::default();
    let ask = |n| {
        move |desk: &mut ClerkDesk| {
            Told::of(desk.ask(
                COUNT,
                Some(identifier(n)),
                &Number::WITHHELD,
                &number("8"),
                &KEPT,
                &mut [0; MESSAGE_MOST],
            ))
        }
    };
    (0..16).for_each(|n| assert!(ask(n)(&mut clerk).starts == 1));
    assert!(ask(16)(&mut clerk).refuses(Refusal::Full) && ask(15)(&mut clerk).refuses(Refusal::Live));
    let own = |n| Some(identifier(n));
    assert!(clerk.records().map(|record| record.identifier).eq((0..16).map(own)) && clerk.record(16).is_none());

    let names: Vec<String> = (10..27).map(|n| n.to_string()).collect();
    let names: Vec<&str> = names.iter().map(String::as_str).collect();
    assert!(
        desk_of(&names).err() == Some(Refusal::OutOfRange) && desk_of(&["1", "1"]).err() == Some(Refusal::OutOfRange)
    );
    let mut line = desk_of(&names[..16]).expect("16 lines");
    assert!(
        line.lines().map(|status| status.number.to_string()).eq(names[..16].iter().copied()) && line.line(16).is_none()
    );
    let mut result = |n: u8, name: &str| {
        step(&mut line, |desk, out| desk.receive(COUNT, None, &request(n, name), out)).kind.expect("an answer").0
    };
    (0..5).for_each(|n| assert_eq!(result(n, "10"), MessageType::Result));
    assert_eq!(result(5, "10"), MessageType::RequestError);
    (5..32).for_each(|n| assert_eq!(result(n, names[usize::from(n / 5)]), MessageType::Result));
    assert_eq!(result(32, "25"), MessageType::RequestError);
    assert!(line.records().map(|record| record.identifier).eq((0..32).map(own)) && line.record(usize::MAX).is_none());
}

/// Plain numbers of an ask out of range are 2, and nothing changes.
fn numbers_out_of_range() {
    let good = [1, 16383, 1, 2];
    for (place, wrong) in [
        (0, 0),
        (0, 3),
        (1, 16384),
        (1, 65536),
        (2, 2),
        (3, 3),
        (3, 256),
        (0, u64::MAX),
        (1, u64::MAX),
        (2, u64::MAX),
        (3, u64::MAX),
    ] {
        let mut given = good;
        given[place] = wrong;
        let ask = |desk: &mut ClerkDesk, [kind, service, can_keep, preference]: [u64; 4]| {
            let mut out = [0; MESSAGE_MOST];
            Told::of(desk.ask_numbers(
                COUNT,
                Some(identifier(0)),
                kind,
                &Number::WITHHELD,
                &number("8"),
                service,
                can_keep,
                preference,
                &mut out,
            ))
        };
        let mut desk = ClerkDesk::default();
        assert!(ask(&mut desk, given).refuses(Refusal::OutOfRange) && desk == ClerkDesk::default());
        assert!(ask(&mut desk, good).starts == 1 && desk != ClerkDesk::default());
    }
    let bad = [Number([16; 16]), Number([0; 16]), Number([1, 10, 0, 0, 0, 0, 0, 0, 0, 0, 0, 0, 0, 0, 0, 0])];
    for number_b in bad {
        assert!(step(&mut ClerkDesk::default(), |desk, out| desk.ask(
            COUNT,
            Some(identifier(0)),
            &number("1"),
            &number_b,
            &KEPT,
            out
        ))
        .refuses(Refusal::OutOfRange));
    }
}

/// What is listed has its number, and no other number has a name.
fn lists() {
    fn list<T: Debug>(from: fn(u64) -> Option<T>, number: fn(T) -> u64, least: u64, most: u64) {
        for n in (0..300).chain([u64::MAX]) {
            assert_eq!(from(n).map(number), Some(n).filter(|n| (least..=most).contains(n)));
        }
    }
    list(Refusal::from_number, Refusal::number, 1, 12);
    list(Notice::from_number, Notice::number, 1, 10);
    list(Kind::from_number, Kind::number, 1, 2);
    list(Preference::from_number, Preference::number, 0, 2);
    list(Act::from_number, Act::number, 1, 5);
    list(Timer::from_number, Timer::number, 1, 3);
    list(LineAct::from_number, LineAct::number, 1, 4);
    list(MessageType::from_number, MessageType::number, 1, 12);
    list(Carrier::from_number, Carrier::number, 1, 5);
    list(RequestError::from_number, RequestError::number, 1, 2);
    list(RingoutError::from_number, RingoutError::number, 1, 2);
    list(Connection::from_number, Connection::number, 1, 2);
    list(ClerkState::from_number, ClerkState::number, 1, 5);
    list(LineState::from_number, LineState::number, 1, 3);
    assert!(
        Number::of_text("").is_none()
            && Number::of_text("1234567890123456").is_none()
            && Number::of_text("12a").is_none()
    );
    assert!(
        number("041180").to_string() == "041180"
            && Number::WITHHELD.to_string() == "-"
            && Number([255; 16]).digits().len() == 15
    );
    assert!(Number([1, 2, 3, 0, 0, 0, 0, 0, 0, 0, 0, 0, 0, 0, 0, 0]) == number("2") && number("2") != number("20"));
}

/// A message at every place of a buffer, also past its end.
fn messages() {
    let bytes = request(1, "80");
    let (message, rest) = Message::read(&bytes).expect("a message");
    assert!(rest.is_empty() && message.service == 16383 && message.field == 3 && message.number_b == number("80"));
    for place in (0..80).chain([usize::MAX, usize::MAX - bytes.len() + 1]) {
        let mut buffer = vec![0xEE; 70].into_boxed_slice();
        let written = message.write(&mut buffer, place);
        let fits = place <= 70 - bytes.len();
        assert_eq!(written, if fits { Ok(bytes.len()) } else { Err(Refusal::NoRoom) });
        assert!(!fits || buffer[place..place + bytes.len()] == bytes[..]);
        assert!((0..70).all(|k| buffer[k] == 0xEE || fits && (place..place + bytes.len()).contains(&k)));
    }
    assert_eq!(Message { service: 16384, ..message }.write(&mut [0; 64], 0), Err(Refusal::OutOfRange));
    assert_eq!(Message { field: 6, ..message }.write(&mut [], 0), Err(Refusal::OutOfRange));
}

/// Bytes that cannot be read: the reader and both desks tell the same refusal at the same place, and nothing else.
fn unread(bytes: &[u8], refusal: Refusal, at: usize) {
    let fault = Fault { refusal, at };
    let (mut clerk, mut line) = (ClerkDesk::default(), desk_of(&["80"]).expect("one line"));
    assert_eq!(Message::read(bytes), Err(fault));
    assert!(step(&mut line, |desk, out| desk.receive(COUNT, None, bytes, out)).refuses_at(fault));
    for busy in [false, true] {
        assert!(step(&mut clerk, |desk, out| desk.receive(COUNT, Some(0), bytes, busy, out)).refuses_at(fault));
    }
}

/// Bytes that are good but for those put at a place.
fn spoilt(good: &[u8], place: usize, put: &[u8], refusal: Refusal) {
    let mut bytes = good.to_vec();
    bytes.resize(good.len().max(place + put.len()), 0);
    bytes[place..place + put.len()].copy_from_slice(put);
    unread(&bytes, refusal, place);
    // with the second byte of a number cut off the bytes end inside it
    if put.len() == 2 {
        unread(&bytes[..=place], Refusal::BytesEnd, place + 1);
    }
}

/// Where the bytes went wrong: messages of every type, in Setup and in Facility, with an identifier and without, cut short at every length and spoilt in known places.
fn places() {
    for message_type in (1..=12).filter_map(MessageType::from_number) {
        for carrier in [Carrier::Setup, Carrier::Facility] {
            spoil(message_type, carrier, Some(identifier(0x80)));
            spoil(message_type, carrier, None);
        }
    }
}

fn spoil(message_type: MessageType, carrier: Carrier, identifier: Option<Identifier>) {
    let (mut good, number) = ([0; MESSAGE_MOST], number("123456789012349"));
    let message =
        Message { message_type, carrier, identifier, number_a: number, number_b: number, service: 300, field: 1 };
    let length = message.write(&mut good, 0).expect("room");
    let (good, head) = (&good[..length], if identifier.is_some() { 19 } else { 3 });
    (0..length).for_each(|length| unread(&good[..length], Refusal::BytesEnd, length));
    // each number of the message: its place, and a value of one byte that is out of its range; every readable service is in range
    let mut numbers = vec![(0, Some(13)), (1, Some(6)), (2, Some(8)), (2, Some(17))];
    match length - head {
        0 => (),
        1 => numbers.push((head, Some(3))),
        behind => {
            numbers.extend([(head, Some(16)), (head + 16, Some(16)), (head + 32, None)]);
            numbers.extend((behind == 35).then(|| (head + 34, Some(6))));
            (head + 1..head + 16)
                .chain(head + 17..head + 32)
                .for_each(|digit| spoilt(good, digit, &[10], Refusal::OutOfRange));
        }
    }
    for (place, beside) in numbers {
        for put in [[0x80, 0x80], [0xFF, 0xFF], [0x80, 0x00]] {
            spoilt(good, place, &put, Refusal::BytesEnd);
        }
        if let Some(value) = beside {
            spoilt(good, place, &[value], Refusal::OutOfRange);
            spoilt(good, place, &[0x80, 0x01], Refusal::OutOfRange);
        }
    }
}

/// A request that expired: its place, notice, whether to clear the call, and its message.
type Gone = (usize, Option<Notice>, bool, Vec<u8>);

/// A tick on copies of the desk in every room: too little is NoRoom, and nothing is done; else it is all the same tick, and behind its messages nothing is written. Then the tick for
/// good: what it tells of each request that expired.
fn tick<D: Clone + PartialEq>(
    desk: &mut D,
    call: impl for<'o> Fn(&mut D, &'o mut [u8]) -> Result<Ticked<'o>, Refusal>,
) -> Vec<Gone> {
    let told = |ticked: Ticked| -> Vec<Gone> {
        let gone: Vec<Gone> =
            ticked.expired().map(|e| (e.place, e.notice, e.clear, e.message.unwrap_or(&[]).to_vec())).collect();
        assert!(gone.len() == ticked.count());
        assert!(gone.iter().flat_map(|e| e.3.iter().copied()).eq(ticked.messages.iter().copied()));
        gone
    };
    let mut after = desk.clone();
    let mut whole = [0xEE; LINE_TICK_MOST];
    let gone = told(call(&mut after, &mut whole).expect("room"));
    let length: usize = gone.iter().map(|e| e.3.len()).sum();
    for room in 0..=length + 2 {
        let mut tried = desk.clone();
        let mut out = vec![0xEE; room].into_boxed_slice();
        let here = call(&mut tried, &mut out).map(told);
        if room < length {
            assert!(here == Err(Refusal::NoRoom) && tried == *desk && out.iter().all(|byte| *byte == 0xEE));
        } else {
            assert!(here.as_ref() == Ok(&gone) && tried == after && out[..] == whole[..room]);
        }
    }
    assert!(whole[length..].iter().all(|byte| *byte == 0xEE));
    *desk = after;
    gone
}

/// Lengths in range and out of it, deadlines as they are shown, and ticks before, at and behind them, over the turn of the count. A request that is rung is not ended by its T2.
fn ticks() {
    let good = Lengths { t1: 25, t2_ccbs: 100, t2_ccnr: 200, t3: 12 };
    for wrong in [
        Lengths { t1: 0, ..good },
        Lengths { t1: 3601, ..good },
        Lengths { t2_ccbs: 59, ..good },
        Lengths { t2_ccbs: 3601, ..good },
        Lengths { t2_ccnr: 86401, ..good },
        Lengths { t3: 9, ..good },
        Lengths { t3: 31, ..good },
    ] {
        assert!(ClerkDesk::start(&wrong).err() == Some(Refusal::OutOfRange));
    }
    let (mut clerk, mut line) = (ClerkDesk::start(&good).expect("lengths"), desk_of(&["80"]).expect("one line"));
    let (b, turn) = (number("80"), u32::MAX - 9);
    for (n, kind) in [Kind::Ccbs, Kind::Ccnr, Kind::Ccbs].iter().enumerate() {
        let (id, ask) = (Some(identifier(n as u8)), Ask { kind: *kind, ..KEPT });
        let (now, caller) = (turn + n as u32, number(&n.to_string()));
        let asked = step(&mut clerk, |desk, out| desk.ask(now, id, &caller, &b, &ask, out));
        let accepted = step(&mut line, |desk, out| desk.receive(now, None, &asked.message, out));
        if n > 0 {
            let known = step(&mut clerk, |desk, out| desk.receive(now, None, &accepted.message, false, out));
            assert!(known.notice == Some(Notice::Accepted));
        }
    }
    let deadlines: Vec<_> = clerk.records().map(|r| (r.t1, r.t2, r.t3)).collect();
    assert_eq!(deadlines, [(Some(15), None, None), (None, Some(191), None), (None, Some(92), None)]);
    assert!(line.records().map(|r| r.guard).eq([3650, 86451, 3652]));
    assert!(tick(&mut clerk, |desk, out| desk.tick(14, out)).is_empty());
    let gone = tick(&mut clerk, |desk, out| desk.tick(92, out));
    assert!(gone.iter().map(|e| e.0).eq([0, 2]) && gone.iter().all(|e| e.1 == Some(Notice::Failed) && !e.2));
    assert!(clerk.records().map(|r| r.identifier).eq([Some(identifier(1))]));
    // a ccCancel of the clerk's reaches the line as any message does
    assert!(step(&mut line, |desk, out| desk.receive(92, None, &gone[1].3, out)).record_at == Some(2));
    assert!(tick(&mut line, |desk, out| desk.tick(3649, out)).is_empty());
    let gone = tick(&mut line, |desk, out| desk.tick(3650, out));
    assert!(gone.len() == 1 && gone[0].0 == 0 && gone[0].1.is_none() && line.records().count() == 1);
    ring_on(&mut clerk, &mut line, &b);
}

/// The request in the only record of either end is rung, late, and found busy: T2, which was due in Ringout, ends it afterwards. The two ends have counts of their own.
fn ring_on(clerk: &mut ClerkDesk, line: &mut LineDesk, b: &Number) {
    assert!(line.report(4000, b, true).result().is_ok() && line.report(4000, b, false).result().is_ok());
    let offered = step(line, |desk, out| desk.look(4000, b, out));
    assert!(step(clerk, |desk, out| desk.receive(180, None, &offered.message, false, out)).starts == 4);
    assert!(clerk.record(0).map(|r| (r.t2, r.t3)) == Some((Some(191), Some(192))));
    let ringing = step(clerk, |desk, out| desk.act(185, name(1), Act::Accept, out));
    assert!(tick(clerk, |desk, out| desk.tick(5000, out)).is_empty());
    assert!(line.report(4001, b, true).result().is_ok());
    let busy = step(line, |desk, out| desk.receive(4001, None, &ringing.message, out));
    let again = step(clerk, |desk, out| desk.receive(200, None, &busy.message, false, out));
    assert!(again.notice == Some(Notice::BusyAgainWaiting) && clerk.record(0).map(|r| r.t2) == Some(Some(191)));
    assert!(tick(clerk, |desk, out| desk.tick(190, out)).is_empty());
    assert!(tick(clerk, |desk, out| desk.tick(200, out)).len() == 1 && clerk.records().count() == 0);
}

fn main() {
    evening(Some(identifier(1)));
    evening(None);
    places_named();
    fall();
    replies();
    full_desks();
    numbers_out_of_range();
    lists();
    messages();
    places();
    ticks();
    println!("an evening in every room, with an identifier and without, places, a fall, replies, full desks, numbers, messages, faults, ticks");
}
