//! Tollherring: ring-back (ITU-T H.450.9, call completion) for telephone proxies, over `libtollherring.a`. No crates; core alone; rustc 1.63 and
//! later, editions 2018 and 2021 (a program of edition 2024 takes it in as a small crate of its own).
//!
//! Two desks. The clerk's desk is User A's end: it asks to be rung back. The line desk is User B's end: it keeps the requests until the line is free. A
//! host starts a desk once and lends it to each step for the whole working day; docs/HOST.md tells, step by step, what it has to do.
//!
//! Every step is given a buffer and answers an [`Outcome`]: what the host has to send, which timers it starts and stops, what it tells User A. It is a struct
//! and no `Result`, because a host does the same with each of them: *a refusal may have a message too*, the reply, and `?` would lose it. After a
//! refusal the desk is as it was, and there is no timer, no notice and no word to clear the call. A buffer of [`MESSAGE_MOST`] bytes is always enough; with less
//! room than the message takes, the refusal is [`Refusal::NoRoom`], and nothing at all was done.
//!
//! Every step and every tick is given a count of seconds, which runs freely and wraps from 2^32 - 1 to 0: the seconds since the proxy was started will do. It need not be
//! the time of day, and the two ends need not agree on it, but for one desk it is one count, which never goes back. A host that ticks, once a second say and at least
//! once a day, keeps no timers: [`ClerkDesk::tick`] and [`LineDesk::tick`] tell which requests expired. A host that keeps its own timers starts and stops them as the
//! outcomes say and reports those that run out; it never ticks, and may give any count, 0 always.
//!
//! Take this file into a program as a module, and show rustc the folder of the archive: `rustc --edition 2021 -L target/staticlib main.rs`, or in a build.rs
//! `println!("cargo:rustc-link-search=native=target/staticlib")`.
//!
//! ```ignore
//! let mut desk = ClerkDesk::start(&Lengths::default())?;
//! let mut out = [0; MESSAGE_MOST];
//! let ask = Ask { kind: Kind::Ccbs, service: 0, can_keep: true, preference: Preference::None };
//! let outcome = desk.ask(seconds, Some(call), &Number::of_text("5550123")?, &Number::of_text("41180")?, &ask, &mut out);
//! if let (Some(message), Some(carrier)) = (outcome.message, outcome.carrier()) { send(carrier, message) }
//! ```
#![allow(dead_code)] // a host need not use all of it

use core::fmt;

/// The least and the most bytes that a message takes.
pub const MESSAGE_LEAST: usize = 3;
pub const MESSAGE_MOST: usize = 54;

/// How many bytes are always enough for what a tick sends, at each desk.
pub const CLERK_TICK_MOST: usize = 864;
pub const LINE_TICK_MOST: usize = 1728;

/// How many words of 64 bits each desk takes.
pub const CLERK_WORDS: usize = 260;
pub const LINE_WORDS: usize = 594;

/// The CallIdentifier of the failed call: any 16 bytes. A request, or a message, may have none.
#[derive(Clone, Copy, PartialEq, Eq, Debug)]
pub struct Identifier(pub [u8; 16]);

/// How a host names a request: by its identifier, or, where it has none, by the place of its record in the desk, from 0, in the order of storing. When a record
/// ends, those behind it move forward by one. A place where no record stands names none. (A record that has an identifier may be named by its place too.)
#[derive(Clone, Copy, PartialEq, Eq, Debug)]
pub enum Name {
    Identifier(Identifier),
    Place(usize),
}

/// A list of named numbers, as the papers number them: `number` gives it, `from_number` takes those that are listed.
macro_rules! numbered {
    ($(#[$note:meta])* $name:ident { $($(#[$case_note:meta])* $case:ident = $number:literal,)* }) => {
        $(#[$note])*
        #[derive(Clone, Copy, PartialEq, Eq, Debug)]
        pub enum $name { $($(#[$case_note])* $case = $number,)* }

        impl $name {
            pub const fn number(self) -> u64 {
                self as u64
            }

            pub const fn from_number(number: u64) -> Option<$name> {
                match number {
                    $($number => Some($name::$case),)*
                    _ => None,
                }
            }
        }
    };
}

numbered! {
    /// Why nothing changed.
    Refusal {
        /// Bytes end inside a message: the fault is at their length. Or a number is over two bytes or not shortest: it is before.
        BytesEnd = 1,
        /// A field or a number given is out of range.
        OutOfRange = 2,
        /// The message type isn't for this end.
        OtherEnd = 3,
        /// An ask uses an identifier that is live at this desk.
        Live = 4,
        /// The clerk's desk is full: 16 records.
        Full = 5,
        /// No record with that identifier, that fits, or at that place.
        NoRecord = 6,
        /// The record's state has no row for this input, or records fit and none is in a state that the message is for; so for "the connection fell", of an RLS
        /// record or before the acknowledgment.
        NoRow = 7,
        /// Carrier not allowed for this type and record: include/tollherring.h has the table.
        Carrier = 8,
        /// That timer isn't running, or is T2 in Ringout, where it is not heeded.
        NotRunning = 9,
        /// No such line.
        NoLine = 10,
        /// A Look has nothing to offer: the usual answer, and no fault.
        NothingToOffer = 11,
        /// No room for the message in the buffer, in a tick for all of its messages.
        NoRoom = 12,
    }
}

numbered! {
    /// What to tell User A.
    Notice {
        Accepted = 1,
        DeniedShort = 2,
        DeniedLong = 3,
        Recall = 4,
        Completed = 5,
        Failed = 6,
        BusyAgainKept = 7,
        BusyAgainEnded = 8,
        Cancelled = 9,
        /// Busy again, now waiting for free: the request was CCNR, was kept and is CCBS from now on.
        BusyAgainWaiting = 10,
    }
}

numbered! {
    /// What a request waits for: a busy line, or one where nobody answers.
    Kind {
        /// Completion of Calls to Busy Subscribers.
        Ccbs = 1,
        /// Completion of Calls on No Reply.
        Ccnr = 2,
    }
}

numbered! {
    /// Which connection choice an ask prefers.
    Preference {
        None = 0,
        Retain = 1,
        Release = 2,
    }
}

numbered! {
    /// What happens at User A's end.
    Act {
        Accept = 1,
        /// User A is free again: back to waiting.
        Resume = 2,
        /// User A is free again: on to recall.
        GoOn = 3,
        Cancel = 4,
        /// The retained connection of the request was released without a ccCancel.
        Fell = 5,
    }
}

numbered! {
    /// A timer that runs out at the clerk's end.
    Timer {
        T1 = 1,
        T2 = 2,
        T3 = 3,
    }
}

numbered! {
    /// What happens at User B's end.
    LineAct {
        Alerted = 1,
        CallFailed = 2,
        Cancel = 3,
        /// The retained connection of the request was released without a ccCancel.
        Fell = 4,
    }
}

numbered! {
    /// A message's first byte.
    MessageType {
        CcbsRequest = 1,
        CcnrRequest = 2,
        Result = 3,
        RequestError = 4,
        CcExecPossible = 5,
        CcRingout = 6,
        RingoutError = 7,
        CcSuspend = 8,
        CcResume = 9,
        CcCancel = 10,
        CallAlerts = 11,
        CallFailed = 12,
    }
}

numbered! {
    /// A message's second byte: what it goes in.
    Carrier {
        Setup = 1,
        Connect = 2,
        Facility = 3,
        ReleaseComplete = 4,
        Alerting = 5,
    }
}

numbered! {
    /// The field of a request error, type 4.
    RequestError {
        Short = 1,
        Long = 2,
    }
}

numbered! {
    /// The field of a ringout error, type 7.
    RingoutError {
        RemoteUserBusyAgain = 1,
        FailureToMatch = 2,
    }
}

numbered! {
    /// Whether the signalling connection of a request is retained (RET) or released (RLS).
    Connection {
        Retained = 1,
        Released = 2,
    }
}

numbered! {
    /// The state of a record at the clerk's desk.
    ClerkState {
        WaitAck = 1,
        Invoked = 2,
        WaitAnswer = 3,
        Ringout = 4,
        Suspended = 5,
    }
}

numbered! {
    /// The state of a record at the line desk.
    LineState {
        Invoked = 1,
        Await = 2,
        Alert = 3,
    }
}

/// A number of digits: how many (1 to 15; 0 for a numberA that is withheld), then one byte 0 to 9 for each; what stands behind the last digit doesn't count. The
/// desks look at it themselves, so that any 16 bytes may be handed in.
#[repr(transparent)]
#[derive(Clone, Copy, Debug)]
pub struct Number(pub [u8; 16]);

impl Number {
    pub const WITHHELD: Number = Number([0; 16]);

    /// 1 to 15 decimal digits.
    pub fn of_text(text: &str) -> Option<Number> {
        let mut number = [0; 16];
        if text.is_empty() || text.len() > 15 {
            return None;
        }
        number[0] = text.len() as u8;
        for (place, digit) in number[1..].iter_mut().zip(text.bytes()) {
            *place = digit.checked_sub(b'0').filter(|value| *value <= 9)?;
        }
        Some(Number(number))
    }

    /// One byte for each digit; none where the number is withheld.
    pub fn digits(&self) -> &[u8] {
        &self.0[1..=usize::from(self.0[0].min(15))]
    }
}

impl PartialEq for Number {
    fn eq(&self, other: &Number) -> bool {
        self.0[0] == other.0[0] && self.digits() == other.digits()
    }
}

impl Eq for Number {}

/// The digits as text, `-` where the number is withheld.
impl fmt::Display for Number {
    fn fmt(&self, f: &mut fmt::Formatter<'_>) -> fmt::Result {
        if self.digits().is_empty() {
            return f.write_str("-");
        }
        self.digits().iter().try_for_each(|digit| write!(f, "{}", digit))
    }
}

/// Some timers of one record: that which a step was about, or that which is shown.
#[derive(Clone, Copy, PartialEq, Eq, Debug, Default)]
pub struct Timers(u64);

impl Timers {
    pub fn t1(self) -> bool {
        self.0 & 1 != 0
    }

    pub fn t2(self) -> bool {
        self.0 & 2 != 0
    }

    pub fn t3(self) -> bool {
        self.0 & 4 != 0
    }

    /// The line desk's, one for each record.
    pub fn guard(self) -> bool {
        self.0 & 8 != 0
    }

    /// The sum of T1 1, T2 2, T3 4, guard 8.
    pub fn number(self) -> u64 {
        self.0
    }
}

/// What a step does. The host sends the message, stops and starts timers, tells the notice and clears the call. A refusal has no timer, notice or word to
/// clear the call, only perhaps a message, the reply, and after `receive` perhaps a `next` or a `fault_at`. Every step has an outcome, whatever the desk holds: any
/// words are a desk, garbage too, though here they come from `start` alone.
#[derive(Clone, Copy, PartialEq, Eq, Debug)]
#[must_use = "what a step sends, the reply to a refused message too, is sent by the host"]
pub struct Outcome<'o> {
    /// Why nothing changed, or None: the step was done.
    pub refusal: Option<Refusal>,
    /// What is to be sent, from the front of the buffer that was given; with a refusal it is the reply.
    pub message: Option<&'o [u8]>,
    /// After `receive`, how many bytes were read: 0 where the bytes themselves were refused, or there was no room. Else 0.
    pub next: usize,
    pub starts: Timers,
    pub stops: Timers,
    pub notice: Option<Notice>,
    /// Clear the call.
    pub clear: bool,
    /// Where the bytes given to `receive` could not be read (refusals 1 and 2), the place of the fault: an index into them. It is the first byte of the faulty
    /// number, also where its second byte is the fault (80 80, 80 00) or its value is out of range, and a length of digits or of an identifier is such a number;
    /// the digit that is over 9; or, where the bytes end inside the message, their length. A support desk that has the bytes, the refusal and the place need
    /// not count: what stands before the place was read without fault. None in every other outcome.
    pub fault_at: Option<usize>,
    /// The place of the record that the step was about: where it stands now, or stood until this step ended it. Of an ask and of an accepted request it is where the
    /// record was stored, of a Look that of the one which was offered. None where the step was refused, or was a denied request or a line report.
    pub record_at: Option<usize>,
}

impl Outcome<'_> {
    /// Whether the step was done; the message, if any, is to be sent either way.
    pub fn result(&self) -> Result<(), Refusal> {
        self.refusal.map_or(Ok(()), Err)
    }

    /// What the message goes in.
    pub fn carrier(&self) -> Option<Carrier> {
        Carrier::from_number(u64::from(self.message?[1]))
    }

    pub fn message_type(&self) -> Option<MessageType> {
        MessageType::from_number(u64::from(self.message?[0]))
    }

    /// The identifier of the request that the message is of, where it has one.
    pub fn identifier(&self) -> Option<Identifier> {
        Message::read(self.message?).ok()?.0.identifier
    }
}

/// A request that expired in a tick: its record is gone, and its timers with it.
#[derive(Clone, Copy, PartialEq, Eq, Debug)]
pub struct Expiry<'o> {
    /// Where its record stood before the tick.
    pub place: usize,
    /// At the clerk's desk `Failed`, at the line's none.
    pub notice: Option<Notice>,
    /// Clear the call.
    pub clear: bool,
    /// What is to be sent.
    pub message: Option<&'o [u8]>,
}

/// What a tick did.
#[derive(Clone, Copy, PartialEq, Eq, Debug)]
#[must_use = "what a tick sends is sent by the host"]
pub struct Ticked<'o> {
    /// All the messages, one behind the other, from the front of the buffer that was given.
    pub messages: &'o [u8],
    count: usize,
    records: [RawExpiry; 32],
}

impl<'o> Ticked<'o> {
    /// How many requests expired.
    pub fn count(&self) -> usize {
        self.count
    }

    /// These, from the oldest on.
    pub fn expired(&self) -> impl Iterator<Item = Expiry<'o>> + '_ {
        let mut rest = self.messages;
        self.records[..self.count].iter().map(move |raw| {
            let (message, behind) = rest.split_at(raw.length as usize);
            rest = behind;
            Expiry {
                place: raw.place as usize,
                notice: noticed(raw.notice),
                clear: raw.clear == 1,
                message: if message.is_empty() { None } else { Some(message) },
            }
        })
    }
}

/// The lengths of the timers of a clerk's desk, in seconds: T1 1 to 3600, though only 10 to 30 conforms to H.450.9, clause 11.4.1; T2 of a CCBS request 60 to 3600 and of
/// a CCNR request 60 to 86400; T3 10 to 30.
#[derive(Clone, Copy, PartialEq, Eq, Debug)]
pub struct Lengths {
    pub t1: u32,
    pub t2_ccbs: u32,
    pub t2_ccnr: u32,
    pub t3: u32,
}

/// The usual ones.
impl Default for Lengths {
    fn default() -> Lengths {
        Lengths { t1: 20, t2_ccbs: 900, t2_ccnr: 3600, t3: 20 }
    }
}

/// The choices of an ask. A service over 16383 is refused.
#[derive(Clone, Copy, PartialEq, Eq, Debug)]
pub struct Ask {
    pub kind: Kind,
    pub service: u16,
    pub can_keep: bool,
    pub preference: Preference,
}

/// A request as the clerk's desk holds it. Keep and connection are chosen by the acknowledgment.
#[derive(Clone, Copy, PartialEq, Eq, Debug)]
pub struct ClerkRecord {
    pub identifier: Option<Identifier>,
    pub kind: Kind,
    pub number_a: Number,
    pub number_b: Number,
    pub service: u16,
    pub can_keep: bool,
    pub keep: Option<bool>,
    pub connection: Option<Connection>,
    pub state: ClerkState,
    /// This end was told that the retained connection fell; the choice stays.
    pub down: bool,
    /// The counts at which its timers run out; None for one that does not run.
    pub t1: Option<u32>,
    pub t2: Option<u32>,
    pub t3: Option<u32>,
}

/// A request as the line desk holds it.
#[derive(Clone, Copy, PartialEq, Eq, Debug)]
pub struct LineRecord {
    pub identifier: Option<Identifier>,
    pub kind: Kind,
    pub number_a: Number,
    pub number_b: Number,
    pub service: u16,
    pub keep: bool,
    pub connection: Connection,
    pub state: LineState,
    /// The activity mark.
    pub active: bool,
    /// The suspended mark.
    pub suspended: bool,
    /// This end was told that the retained connection fell; the choice stays.
    pub down: bool,
    /// The count at which its guard runs out.
    pub guard: u32,
}

/// A line of the line desk.
#[derive(Clone, Copy, PartialEq, Eq, Debug)]
pub struct LineStatus {
    pub number: Number,
    /// The kinds that it allows: 1 CCBS + 2 CCNR.
    pub kinds: u8,
    pub busy: bool,
}

/// A line as it is given to [`LineDesk::start`]: its number, and the kinds that it allows, 1 CCBS + 2 CCNR.
#[repr(C)]
#[derive(Clone, Copy, PartialEq, Eq, Debug)]
pub struct LineGiven {
    pub number: Number,
    pub kinds: u8,
}

/// The clerk's desk, User A's end. Its words are not looked into.
#[repr(C)]
#[derive(Clone, PartialEq, Eq)]
pub struct ClerkDesk {
    words: [u64; CLERK_WORDS],
}

/// The line desk, User B's end. Its words are not looked into.
#[repr(C)]
#[derive(Clone, PartialEq, Eq)]
pub struct LineDesk {
    words: [u64; LINE_WORDS],
}

impl ClerkDesk {
    /// An empty desk, with the lengths of its timers. Refusal 2.
    pub fn start(lengths: &Lengths) -> Result<ClerkDesk, Refusal> {
        let mut desk = ClerkDesk { words: [0; CLERK_WORDS] };
        let Lengths { t1, t2_ccbs, t2_ccnr, t3 } = *lengths;
        let refusal = unsafe { tollherring_clerk_start(&mut desk, t1, t2_ccbs, t2_ccnr, t3) };
        refused(refusal).map_or(Ok(desk), Err)
    }

    /// User A asks to be rung back. Refusals 2, 4 (only with an identifier), 5, 12.
    pub fn ask<'o>(
        &mut self,
        count: u32,
        identifier: Option<Identifier>,
        number_a: &Number,
        number_b: &Number,
        ask: &Ask,
        out: &'o mut [u8],
    ) -> Outcome<'o> {
        let (kind, preference) = (ask.kind.number(), ask.preference.number());
        self.ask_numbers(
            count,
            identifier,
            kind,
            number_a,
            number_b,
            u64::from(ask.service),
            u64::from(ask.can_keep),
            preference,
            out,
        )
    }

    /// The same with plain numbers, for a caller that has them from elsewhere: those out of range are refused with 2.
    #[allow(clippy::too_many_arguments)]
    pub fn ask_numbers<'o>(
        &mut self,
        count: u32,
        identifier: Option<Identifier>,
        kind: u64,
        number_a: &Number,
        number_b: &Number,
        service: u64,
        can_keep: u64,
        preference: u64,
        out: &'o mut [u8],
    ) -> Outcome<'o> {
        let identifier = RawIdentifier::of(identifier);
        told(out, |out, room, raw| unsafe {
            tollherring_clerk_ask(
                self,
                count,
                &identifier,
                kind,
                number_a,
                number_b,
                service,
                can_keep,
                preference,
                out,
                room,
                raw,
            )
        })
    }

    /// Bytes reach this end; `place`: of the record that a message without an identifier is about, as the host knows it. One message is read, from the front.
    /// Refusals 1, 2, 3, 6, 7, 8, 12; 1 and 2 have a `fault_at`.
    pub fn receive<'o>(
        &mut self,
        count: u32,
        place: Option<usize>,
        bytes: &[u8],
        user_a_busy: bool,
        out: &'o mut [u8],
    ) -> Outcome<'o> {
        let (place, busy) = (named(place), u64::from(user_a_busy));
        told(out, |out, room, raw| unsafe {
            tollherring_clerk_receive(self, count, place, bytes.as_ptr(), bytes.len(), busy, out, room, raw)
        })
    }

    /// An act at this end. Refusals 6, 7, 12.
    pub fn act<'o>(&mut self, count: u32, name: Name, act: Act, out: &'o mut [u8]) -> Outcome<'o> {
        let (place, identifier) = name.parts();
        told(out, |out, room, raw| unsafe {
            tollherring_clerk_act(self, count, place, &identifier, act.number(), out, room, raw)
        })
    }

    /// A timer ran out: by hand, whatever its deadline. Refusals 6, 9, 12.
    pub fn report<'o>(&mut self, count: u32, name: Name, timer: Timer, out: &'o mut [u8]) -> Outcome<'o> {
        let (place, identifier) = name.parts();
        told(out, |out, room, raw| unsafe {
            tollherring_clerk_report(self, count, place, &identifier, timer.number(), out, room, raw)
        })
    }

    /// The desk's timers at a count: each request with one that runs and is due expires, as if it had been reported by hand, from the oldest on. T2 is not heeded in Ringout.
    /// Refusal 12 where the messages don't all have room, and then none has expired: [`CLERK_TICK_MOST`] bytes are always enough.
    pub fn tick<'o>(&mut self, count: u32, out: &'o mut [u8]) -> Result<Ticked<'o>, Refusal> {
        ticked(out, |out, room, raw| unsafe { tollherring_clerk_tick(self, count, out, room, raw) })
    }

    /// The record at a place, in the order of storing.
    pub fn record(&self, place: usize) -> Option<ClerkRecord> {
        let (identifier, number_a, number_b, raw) =
            looked(|i, a, b, raw| unsafe { tollherring_clerk_record(self, place as u64, i, a, b, raw) })?;
        Some(ClerkRecord {
            identifier,
            kind: known(Kind::from_number(raw.kind)),
            number_a,
            number_b,
            service: raw.service as u16,
            can_keep: raw.can_keep == 1,
            keep: if raw.keep == 0 { None } else { Some(raw.keep == 2) },
            connection: Connection::from_number(raw.connection),
            state: known(ClerkState::from_number(raw.state)),
            down: raw.down == 1,
            t1: runs(Timers(raw.timers).t1(), raw.t1),
            t2: runs(Timers(raw.timers).t2(), raw.t2),
            t3: runs(Timers(raw.timers).t3(), raw.t3),
        })
    }

    pub fn records(&self) -> impl Iterator<Item = ClerkRecord> + '_ {
        (0..16).map_while(move |place| self.record(place))
    }
}

/// With the usual lengths.
impl Default for ClerkDesk {
    fn default() -> ClerkDesk {
        known(ClerkDesk::start(&Lengths::default()).ok())
    }
}

/// The records.
impl fmt::Debug for ClerkDesk {
    fn fmt(&self, f: &mut fmt::Formatter<'_>) -> fmt::Result {
        f.debug_list().entries(self.records()).finish()
    }
}

/// The lines, then the records.
impl fmt::Debug for LineDesk {
    fn fmt(&self, f: &mut fmt::Formatter<'_>) -> fmt::Result {
        f.debug_list().entries(self.lines()).entries(self.records()).finish()
    }
}

impl LineDesk {
    /// A desk with its lines, all free; whether it keeps requests, and whether it retains connections by default. At most 16 lines; none at all is
    /// allowed. Refusal 2.
    pub fn start(lines: &[LineGiven], keep: bool, retain: bool) -> Result<LineDesk, Refusal> {
        let mut desk = LineDesk { words: [0; LINE_WORDS] };
        let bytes = core::mem::size_of_val(lines);
        let refusal =
            unsafe { tollherring_line_start(&mut desk, lines.as_ptr(), bytes, u64::from(keep), u64::from(retain)) };
        refused(refusal).map_or(Ok(desk), Err)
    }

    /// Bytes reach this end; `place` as at the clerk's. One message is read, from the front. Refusals 1, 2, 3, 6, 7, 8, 12; 1 and 2 have a `fault_at`.
    pub fn receive<'o>(&mut self, count: u32, place: Option<usize>, bytes: &[u8], out: &'o mut [u8]) -> Outcome<'o> {
        let place = named(place);
        told(out, |out, room, raw| unsafe {
            tollherring_line_receive(self, count, place, bytes.as_ptr(), bytes.len(), out, room, raw)
        })
    }

    /// A line is busy or free. It sends nothing. Refusal 10.
    pub fn report(&mut self, count: u32, number: &Number, busy: bool) -> Outcome<'static> {
        told(&mut [], |out, room, raw| unsafe {
            tollherring_line_report(self, count, number, u64::from(busy), out, room, raw)
        })
    }

    /// A Look at a line. Refusals 10, 11, 12.
    pub fn look<'o>(&mut self, count: u32, number: &Number, out: &'o mut [u8]) -> Outcome<'o> {
        told(out, |out, room, raw| unsafe { tollherring_line_look(self, count, number, out, room, raw) })
    }

    /// An act at this end. Refusals 6, 7, 12.
    pub fn act<'o>(&mut self, count: u32, name: Name, act: LineAct, out: &'o mut [u8]) -> Outcome<'o> {
        let (place, identifier) = name.parts();
        told(out, |out, room, raw| unsafe {
            tollherring_line_act(self, count, place, &identifier, act.number(), out, room, raw)
        })
    }

    /// The guard of a record ran out: by hand, whatever its deadline. Refusals 6, 12.
    pub fn guard<'o>(&mut self, count: u32, name: Name, out: &'o mut [u8]) -> Outcome<'o> {
        let (place, identifier) = name.parts();
        told(out, |out, room, raw| unsafe { tollherring_line_guard(self, count, place, &identifier, out, room, raw) })
    }

    /// The desk's guards at a count, as [`ClerkDesk::tick`]: 3660 seconds for a request that was accepted as CCBS, 86460 as CCNR. Refusal 12: [`LINE_TICK_MOST`] bytes are
    /// always enough.
    pub fn tick<'o>(&mut self, count: u32, out: &'o mut [u8]) -> Result<Ticked<'o>, Refusal> {
        ticked(out, |out, room, raw| unsafe { tollherring_line_tick(self, count, out, room, raw) })
    }

    /// The record at a place, in the order of acceptance.
    pub fn record(&self, place: usize) -> Option<LineRecord> {
        let (identifier, number_a, number_b, raw) =
            looked(|i, a, b, raw| unsafe { tollherring_line_record(self, place as u64, i, a, b, raw) })?;
        Some(LineRecord {
            identifier,
            kind: known(Kind::from_number(raw.kind)),
            number_a,
            number_b,
            service: raw.service as u16,
            keep: raw.keep == 2,
            connection: known(Connection::from_number(raw.connection)),
            state: known(LineState::from_number(raw.state)),
            active: raw.active == 1,
            suspended: raw.suspended == 1,
            down: raw.down == 1,
            guard: raw.guard as u32,
        })
    }

    pub fn records(&self) -> impl Iterator<Item = LineRecord> + '_ {
        (0..32).map_while(move |place| self.record(place))
    }

    /// The line at a place, in the order in which they were given.
    pub fn line(&self, place: usize) -> Option<LineStatus> {
        let mut number = Number::WITHHELD;
        let mut raw = RawStatus { kinds: 0, busy: 0 };
        let refusal = unsafe { tollherring_line_at(self, place as u64, &mut number, &mut raw) };
        let status = LineStatus { number, kinds: raw.kinds as u8, busy: raw.busy == 1 };
        if refusal == 0 {
            Some(status)
        } else {
            None
        }
    }

    pub fn lines(&self) -> impl Iterator<Item = LineStatus> + '_ {
        (0..16).map_while(move |place| self.line(place))
    }
}

/// A message as such, for logs and for those that a host hands in by itself: the desks take and give bytes. Types 1 and 2 have the two numbers, a service, and flags
/// (can-keep + 2 * preference) as their field; 5, 6, 9 and 10 in Setup the two numbers and a service; the field of type 3 is keep, of 4 and 7 the error. What a
/// type, in its carrier, doesn't have is read as 0 and not looked at when written.
#[derive(Clone, Copy, PartialEq, Eq, Debug)]
pub struct Message {
    pub message_type: MessageType,
    pub carrier: Carrier,
    pub identifier: Option<Identifier>,
    pub number_a: Number,
    pub number_b: Number,
    pub service: u64,
    pub field: u64,
}

/// Why bytes cannot be read as a message, 1 or 2, and where: `at` is an index into them, as in [`Outcome::fault_at`].
#[derive(Clone, Copy, PartialEq, Eq, Debug)]
pub struct Fault {
    pub refusal: Refusal,
    pub at: usize,
}

impl Message {
    /// One message from the front of some bytes, and the bytes that follow it. Refusals 1, 2, each with the place of the fault.
    pub fn read(bytes: &[u8]) -> Result<(Message, &[u8]), Fault> {
        let (mut identifier, mut number_a, mut number_b) =
            (RawIdentifier::of(None), Number::WITHHELD, Number::WITHHELD);
        let mut raw = RawMessage { message_type: 0, carrier: 0, service: 0, field: 0 };
        let (mut taken, mut fault_at) = (0, 0);
        let refusal = unsafe {
            tollherring_message_read(
                bytes.as_ptr(),
                bytes.len(),
                &mut identifier,
                &mut number_a,
                &mut number_b,
                &mut raw,
                &mut taken,
                &mut fault_at,
            )
        };
        if let Some(refusal) = refused(refusal) {
            return Err(Fault { refusal, at: fault_at as usize });
        }
        let message = Message {
            message_type: known(MessageType::from_number(raw.message_type)),
            carrier: known(Carrier::from_number(raw.carrier)),
            identifier: identifier.told(),
            number_a,
            number_b,
            service: raw.service,
            field: raw.field,
        };
        Ok((message, &bytes[taken as usize..]))
    }

    /// Puts the message at a place of a buffer, and tells how many bytes it takes; every other byte stays. Refusals 2, 12, and then all of them do.
    pub fn write(&self, out: &mut [u8], place: usize) -> Result<usize, Refusal> {
        let raw = RawMessage {
            message_type: self.message_type.number(),
            carrier: self.carrier.number(),
            service: self.service,
            field: self.field,
        };
        let mut written = 0;
        let (room, out) = (out.len(), out.as_mut_ptr());
        let identifier = RawIdentifier::of(self.identifier);
        let refusal = unsafe {
            tollherring_message_write(&identifier, &self.number_a, &self.number_b, &raw, out, room, place, &mut written)
        };
        refused(refusal).map_or(Ok(written as usize), Err)
    }
}

// ---- what lies under it: the functions of include/tollherring.h. They keep no pointer, and touch what they are lent and nothing else; the references and
// slices of the functions above are what they ask for.

/// An identifier as it crosses: length 16 and its bytes, or length 0.
#[repr(C)]
struct RawIdentifier {
    length: u8,
    bytes: [u8; 16],
}

impl RawIdentifier {
    fn of(identifier: Option<Identifier>) -> RawIdentifier {
        identifier.map_or(RawIdentifier { length: 0, bytes: [0; 16] }, |own| RawIdentifier { length: 16, bytes: own.0 })
    }

    fn told(&self) -> Option<Identifier> {
        if self.length == 0 {
            return None;
        }
        Some(Identifier(self.bytes))
    }
}

/// A place as it crosses: one that never has a record where the host names none.
fn named(place: Option<usize>) -> u64 {
    place.map_or(u64::MAX, |place| place as u64)
}

impl Name {
    fn parts(self) -> (u64, RawIdentifier) {
        match self {
            Name::Identifier(identifier) => (named(None), RawIdentifier::of(Some(identifier))),
            Name::Place(place) => (place as u64, RawIdentifier::of(None)),
        }
    }
}

#[repr(C)]
struct RawOutcome {
    refusal: u64,
    length: u64,
    next: u64,
    starts: u64,
    stops: u64,
    notice: u64,
    clear: u64,
    unread: u64,
    fault_at: u64,
    has_record: u64,
    record_at: u64,
}

#[repr(C)]
struct RawRecord {
    kind: u64,
    service: u64,
    can_keep: u64,
    keep: u64,
    connection: u64,
    state: u64,
    active: u64,
    suspended: u64,
    down: u64,
    timers: u64,
    t1: u64,
    t2: u64,
    t3: u64,
    guard: u64,
}

#[repr(C)]
#[derive(Clone, Copy, PartialEq, Eq, Debug)]
struct RawExpiry {
    place: u64,
    notice: u64,
    clear: u64,
    length: u64,
}

#[repr(C)]
struct RawTicked {
    refusal: u64,
    length: u64,
    expired: u64,
    records: [RawExpiry; 32],
}

#[repr(C)]
struct RawStatus {
    kinds: u64,
    busy: u64,
}

#[repr(C)]
struct RawMessage {
    message_type: u64,
    carrier: u64,
    service: u64,
    field: u64,
}

#[rustfmt::skip] // a function is a line or two, as in the header
#[link(name = "tollherring", kind = "static")]
extern "C" {
    fn tollherring_clerk_start(desk: &mut ClerkDesk, t1: u32, t2_ccbs: u32, t2_ccnr: u32, t3: u32) -> u64;
    fn tollherring_clerk_ask(desk: &mut ClerkDesk, count: u32, identifier: &RawIdentifier, kind: u64, number_a: &Number, number_b: &Number, service: u64,
        can_keep: u64, preference: u64, out: *mut u8, room: usize, outcome: &mut RawOutcome) -> u64;
    fn tollherring_clerk_receive(desk: &mut ClerkDesk, count: u32, place: u64, bytes: *const u8, length: usize, user_a_busy: u64, out: *mut u8, room: usize,
        outcome: &mut RawOutcome) -> u64;
    fn tollherring_clerk_act(desk: &mut ClerkDesk, count: u32, place: u64, identifier: &RawIdentifier, act: u64, out: *mut u8, room: usize,
        outcome: &mut RawOutcome) -> u64;
    fn tollherring_clerk_report(desk: &mut ClerkDesk, count: u32, place: u64, identifier: &RawIdentifier, timer: u64, out: *mut u8, room: usize,
        outcome: &mut RawOutcome) -> u64;
    fn tollherring_clerk_tick(desk: &mut ClerkDesk, count: u32, out: *mut u8, room: usize, ticked: &mut RawTicked) -> u64;
    fn tollherring_clerk_record(desk: &ClerkDesk, place: u64, identifier: &mut RawIdentifier, number_a: &mut Number, number_b: &mut Number,
        record: &mut RawRecord) -> u64;

    fn tollherring_line_start(desk: &mut LineDesk, lines: *const LineGiven, bytes: usize, keep: u64, retain: u64) -> u64;
    fn tollherring_line_receive(desk: &mut LineDesk, count: u32, place: u64, bytes: *const u8, length: usize, out: *mut u8, room: usize,
        outcome: &mut RawOutcome) -> u64;
    fn tollherring_line_report(desk: &mut LineDesk, count: u32, number: &Number, busy: u64, out: *mut u8, room: usize, outcome: &mut RawOutcome) -> u64;
    fn tollherring_line_look(desk: &mut LineDesk, count: u32, number: &Number, out: *mut u8, room: usize, outcome: &mut RawOutcome) -> u64;
    fn tollherring_line_act(desk: &mut LineDesk, count: u32, place: u64, identifier: &RawIdentifier, act: u64, out: *mut u8, room: usize,
        outcome: &mut RawOutcome) -> u64;
    fn tollherring_line_guard(desk: &mut LineDesk, count: u32, place: u64, identifier: &RawIdentifier, out: *mut u8, room: usize,
        outcome: &mut RawOutcome) -> u64;
    fn tollherring_line_tick(desk: &mut LineDesk, count: u32, out: *mut u8, room: usize, ticked: &mut RawTicked) -> u64;
    fn tollherring_line_record(desk: &LineDesk, place: u64, identifier: &mut RawIdentifier, number_a: &mut Number, number_b: &mut Number,
        record: &mut RawRecord) -> u64;
    fn tollherring_line_at(desk: &LineDesk, place: u64, number: &mut Number, status: &mut RawStatus) -> u64;

    fn tollherring_message_read(bytes: *const u8, length: usize, identifier: &mut RawIdentifier, number_a: &mut Number, number_b: &mut Number,
        message: &mut RawMessage, taken: &mut u64, fault_at: &mut u64) -> u64;
    fn tollherring_message_write(identifier: &RawIdentifier, number_a: &Number, number_b: &Number, message: &RawMessage, out: *mut u8, room: usize,
        place: usize, written: &mut u64) -> u64;
}

// The layout that the archive was made for. A struct made of numbered fields has to lie in memory as these numbers in their order.
const _: () = {
    use core::mem::{align_of, size_of, transmute};
    assert!(size_of::<ClerkDesk>() == 2080 && align_of::<ClerkDesk>() == 8);
    assert!(size_of::<LineDesk>() == 4752 && align_of::<LineDesk>() == 8);
    assert!(size_of::<RawIdentifier>() == 17 && align_of::<RawIdentifier>() == 1);
    assert!(size_of::<LineGiven>() == 17 && align_of::<LineGiven>() == 1);
    assert!(size_of::<Number>() == 16 && size_of::<usize>() == 8 && align_of::<u64>() == 8);
    const fn in_order<const N: usize>(words: [u64; N]) {
        let mut k = 0;
        while k < N {
            assert!(words[k] == k as u64);
            k += 1;
        }
    }
    // whole words in, whole words out: transmute holds the sizes against each other, and there is no value that a word cannot have
    unsafe {
        in_order(transmute::<RawOutcome, [u64; 11]>(RawOutcome {
            refusal: 0,
            length: 1,
            next: 2,
            starts: 3,
            stops: 4,
            notice: 5,
            clear: 6,
            unread: 7,
            fault_at: 8,
            has_record: 9,
            record_at: 10,
        }));
        in_order(transmute::<RawRecord, [u64; 14]>(RawRecord {
            kind: 0,
            service: 1,
            can_keep: 2,
            keep: 3,
            connection: 4,
            state: 5,
            active: 6,
            suspended: 7,
            down: 8,
            timers: 9,
            t1: 10,
            t2: 11,
            t3: 12,
            guard: 13,
        }));
        in_order(transmute::<RawExpiry, [u64; 4]>(RawExpiry { place: 0, notice: 1, clear: 2, length: 3 }));
        let expiry = RawExpiry { place: 3, notice: 3, clear: 3, length: 3 };
        let ticked = RawTicked { refusal: 0, length: 1, expired: 2, records: [expiry; 32] };
        let words = transmute::<RawTicked, [u64; 131]>(ticked);
        assert!(words[0] == 0 && words[1] == 1 && words[2] == 2 && words[3] == 3 && words[130] == 3);
        in_order(transmute::<RawStatus, [u64; 2]>(RawStatus { kinds: 0, busy: 1 }));
        in_order(transmute::<RawMessage, [u64; 4]>(RawMessage { message_type: 0, carrier: 1, service: 2, field: 3 }));
        let line = transmute::<LineGiven, [u8; 17]>(LineGiven { number: Number([1; 16]), kinds: 2 });
        assert!(line[0] == 1 && line[15] == 1 && line[16] == 2);
        let identifier = transmute::<RawIdentifier, [u8; 17]>(RawIdentifier { length: 2, bytes: [1; 16] });
        assert!(identifier[0] == 2 && identifier[1] == 1 && identifier[16] == 1);
    }
};

/// A number that the library gives is one of its list: else the archive is not the one that this file was written for.
fn known<T>(named: Option<T>) -> T {
    named.expect("libtollherring.a and tollherring.rs are of different versions")
}

fn refused(number: u64) -> Option<Refusal> {
    if number == 0 {
        return None;
    }
    Some(known(Refusal::from_number(number)))
}

fn noticed(number: u64) -> Option<Notice> {
    if number == 0 {
        return None;
    }
    Some(known(Notice::from_number(number)))
}

/// The deadline of a timer that runs.
fn runs(running: bool, deadline: u64) -> Option<u32> {
    if running {
        return Some(deadline as u32);
    }
    None
}

/// A tick with its tail, `out`, `room` and `ticked`, and what it did as Rust has it.
fn ticked(out: &mut [u8], call: impl FnOnce(*mut u8, usize, &mut RawTicked) -> u64) -> Result<Ticked<'_>, Refusal> {
    let records = [RawExpiry { place: 0, notice: 0, clear: 0, length: 0 }; 32];
    let mut raw = RawTicked { refusal: 0, length: 0, expired: 0, records };
    if let Some(refusal) = refused(call(out.as_mut_ptr(), out.len(), &mut raw)) {
        return Err(refusal);
    }
    Ok(Ticked { messages: &out[..raw.length as usize], count: raw.expired as usize, records: raw.records })
}

/// A call with its tail, `out`, `room` and `outcome`, and the outcome as Rust has it.
fn told(out: &mut [u8], call: impl FnOnce(*mut u8, usize, &mut RawOutcome) -> u64) -> Outcome<'_> {
    let mut raw = RawOutcome {
        refusal: 0,
        length: 0,
        next: 0,
        starts: 0,
        stops: 0,
        notice: 0,
        clear: 0,
        unread: 0,
        fault_at: 0,
        has_record: 0,
        record_at: 0,
    };
    let refusal = call(out.as_mut_ptr(), out.len(), &mut raw);
    let message = &out[..raw.length as usize];
    Outcome {
        refusal: refused(refusal),
        message: if message.is_empty() { None } else { Some(message) },
        next: raw.next as usize,
        starts: Timers(raw.starts),
        stops: Timers(raw.stops),
        notice: noticed(raw.notice),
        clear: raw.clear == 1,
        fault_at: if raw.unread == 0 { None } else { Some(raw.fault_at as usize) },
        record_at: if raw.has_record == 0 { None } else { Some(raw.record_at as usize) },
    }
}

/// A record's parts, or nothing where the place has none.
fn looked(
    call: impl FnOnce(&mut RawIdentifier, &mut Number, &mut Number, &mut RawRecord) -> u64,
) -> Option<(Option<Identifier>, Number, Number, RawRecord)> {
    let (mut identifier, mut number_a, mut number_b) = (RawIdentifier::of(None), Number::WITHHELD, Number::WITHHELD);
    let mut raw = RawRecord {
        kind: 0,
        service: 0,
        can_keep: 0,
        keep: 0,
        connection: 0,
        state: 0,
        active: 0,
        suspended: 0,
        down: 0,
        timers: 0,
        t1: 0,
        t2: 0,
        t3: 0,
        guard: 0,
    };
    if call(&mut identifier, &mut number_a, &mut number_b, &mut raw) != 0 {
        return None;
    }
    Some((identifier.told(), number_a, number_b, raw))
}
