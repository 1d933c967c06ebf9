//! The clerk's desk: User A's endpoint.

use crate::codec::{
    good_digits, good_number_a, in_range, Carrier, Content, Elements, Identifier, Message, Refusal, RequestFields,
    LARGEST_SERVICE, REMOTE_USER_BUSY_AGAIN, SHORT,
};
use crate::meant::{place_of, record_meant, record_named, Held, Name};
use crate::outcome::{message, Connection, Kind, Notice, Outcome, T1, T2, T3};
use crate::timers::{self, deadline, is_due, Lengths, Ticked, Timed};

/// "The clerk's desk is User A's endpoint and holds at most 16 records."
pub const MOST_RECORDS: usize = 16;

/// "States: Wait-Ack (T1 runs), Invoked, Wait-Answer (T3 runs), Ringout,
/// Suspended."
#[derive(Clone, Copy, PartialEq, Eq, Debug)]
pub enum State {
    WaitAck,
    Invoked,
    WaitAnswer,
    Ringout,
    Suspended,
}

impl State {
    /// REPLAY: "state 1 Wait-Ack, 2 Invoked, 3 Wait-Answer, 4 Ringout,
    /// 5 Suspended".
    pub fn number(self) -> u32 {
        match self {
            State::WaitAck => 1,
            State::Invoked => 2,
            State::WaitAnswer => 3,
            State::Ringout => 4,
            State::Suspended => 5,
        }
    }

    pub fn name(self) -> &'static str {
        match self {
            State::WaitAck => "Wait-Ack",
            State::Invoked => "Invoked",
            State::WaitAnswer => "Wait-Answer",
            State::Ringout => "Ringout",
            State::Suspended => "Suspended",
        }
    }

    /// READINGS 13: what a delete stops, "Wait-Ack T1; Invoked, Suspended,
    /// Ringout T2; Wait-Answer T2 and T3".
    pub fn running(self) -> u32 {
        match self {
            State::WaitAck => T1,
            State::Invoked | State::Suspended | State::Ringout => T2,
            State::WaitAnswer => T2 + T3,
        }
    }
}

#[derive(Clone, Copy, PartialEq, Eq, Debug)]
pub enum Timer {
    T1,
    T2,
    T3,
}

impl Timer {
    /// "T1 before T2 before T3 within one record".
    pub const ALL: [Timer; 3] = [Timer::T1, Timer::T2, Timer::T3];

    pub fn name(self) -> &'static str {
        match self {
            Timer::T1 => "T1",
            Timer::T2 => "T2",
            Timer::T3 => "T3",
        }
    }

    /// M1: "T1 is taken in Wait-Ack; T2 in Invoked, Wait-Answer and Suspended;
    /// T3 in Wait-Answer; any other report is refusal 9."
    fn taken_in(self, state: State) -> bool {
        match self {
            Timer::T1 => state == State::WaitAck,
            Timer::T2 => matches!(state, State::Invoked | State::WaitAnswer | State::Suspended),
            Timer::T3 => state == State::WaitAnswer,
        }
    }
}

/// "User A free in Suspended, as the host chooses".
#[derive(Clone, Copy, PartialEq, Eq, Debug)]
pub enum FreeChoice {
    Resume,
    Recall,
}

/// An ask as the host makes it, in range or not.
#[derive(Clone, PartialEq, Eq, Debug)]
pub struct Ask {
    pub identifier: Option<Identifier>,
    pub kind: Kind,
    pub number_a: Vec<u8>,
    pub number_b: Vec<u8>,
    pub service: u32,
    pub can_keep: bool,
    pub preference: u32,
}

/// "The clerk's desk also stores the can-keep that it sent. Its keep and
/// connection choices are empty until the acknowledgment".
#[derive(Clone, PartialEq, Eq, Debug)]
pub struct Record {
    pub identifier: Option<Identifier>,
    pub kind: Kind,
    pub number_a: Vec<u8>,
    pub number_b: Vec<u8>,
    pub service: u32,
    pub can_keep: bool,
    pub keep: Option<bool>,
    pub connection: Option<Connection>,
    pub state: State,
    /// Request 11: "A mark "connection down" goes into the record".
    pub down: bool,
    pub deadlines: Deadlines,
}

/// Request 6: "Clerk: deadlines of T1, T2, T3"; "a stored deadline of a timer that
/// does not run is not looked at".
#[derive(Clone, Copy, PartialEq, Eq, Debug, Default)]
pub struct Deadlines {
    pub t1: u32,
    pub t2: u32,
    pub t3: u32,
}

impl Deadlines {
    pub fn of(&self, timer: Timer) -> u32 {
        match timer {
            Timer::T1 => self.t1,
            Timer::T2 => self.t2,
            Timer::T3 => self.t3,
        }
    }
}

/// What a step that starts a timer goes by: the count that the host gave with it,
/// and the desk's lengths.
#[derive(Clone, Copy)]
struct Now {
    count: u32,
    lengths: Lengths,
}

impl Now {
    fn t1_ends(self) -> u32 {
        deadline(self.count, self.lengths.t1)
    }

    /// "T2's length goes by the kind at the result".
    fn t2_ends(self, kind: Kind) -> u32 {
        deadline(self.count, self.lengths.t2(kind))
    }

    fn t3_ends(self) -> u32 {
        deadline(self.count, self.lengths.t3)
    }
}

/// READINGS 19: "Records stand compact in the order of storing; a delete
/// closes the gap". Request 6: "the lengths being set at start".
#[derive(Clone, PartialEq, Eq, Debug, Default)]
pub struct ClerkDesk {
    pub records: Vec<Record>,
    pub lengths: Lengths,
}

/// READINGS 8: "2 (digits, service, preference)".
fn ask_in_range(ask: &Ask) -> bool {
    good_number_a(&ask.number_a) && good_digits(&ask.number_b) && ask.service <= LARGEST_SERVICE && ask.preference <= 2
}

/// "Ask: send type 1 or 2", carrier Setup; "Flags are can-keep (0 or 1) plus
/// 2 x preference".
fn request_of(ask: &Ask) -> Message {
    let fields = RequestFields {
        number_a: ask.number_a.clone(),
        number_b: ask.number_b.clone(),
        service: ask.service,
        flags: u32::from(ask.can_keep) + 2 * ask.preference,
    };
    let content = match ask.kind {
        Kind::Ccbs => Content::CcbsRequest(fields),
        Kind::Ccnr => Content::CcnrRequest(fields),
    };
    message(Carrier::Setup, ask.identifier, content)
}

fn record_of(ask: &Ask, now: Now) -> Record {
    Record {
        identifier: ask.identifier,
        kind: ask.kind,
        number_a: ask.number_a.clone(),
        number_b: ask.number_b.clone(),
        service: ask.service,
        can_keep: ask.can_keep,
        keep: None,
        connection: None,
        state: State::WaitAck,
        down: false,
        deadlines: Deadlines { t1: now.t1_ends(), ..Deadlines::default() },
    }
}

/// The message table's column "To"; READINGS 9: "3 at the clerk: types 1, 2,
/// 6, 8, 9. .. 10 goes to both."
fn is_for_clerk(content: &Content) -> bool {
    match content {
        Content::CcbsRequest(_) | Content::CcnrRequest(_) => false,
        Content::CcRingout | Content::CcSuspend | Content::CcResume => false,
        Content::RequestResult { .. } | Content::RequestError { .. } => true,
        Content::CcExecPossible | Content::RingoutError { .. } => true,
        Content::CcCancel | Content::CallAlerts | Content::CallFailed => true,
    }
}

/// Refusal 7, "the record's state has no row for this input".
fn has_row(state: State, content: &Content) -> bool {
    match content {
        Content::RequestResult { .. } | Content::RequestError { .. } => state == State::WaitAck,
        Content::CcExecPossible => state == State::Invoked,
        Content::RingoutError { .. } | Content::CallAlerts | Content::CallFailed => state == State::Ringout,
        Content::CcCancel => true,
        _ => false,
    }
}

/// Refusal 8, "carrier not allowed for this type and record"; the message
/// table's column "Carrier", READINGS 10 and request 11.
fn carrier_allowed(record: &Record, message: &Message) -> bool {
    let carrier = message.carrier;
    match message.content {
        Content::RequestResult { .. } => matches!(carrier, Carrier::Connect | Carrier::ReleaseComplete),
        Content::RequestError { .. } | Content::RingoutError { .. } | Content::CallFailed => {
            carrier == Carrier::ReleaseComplete
        }
        Content::CcExecPossible => record.connection.map_or(false, |c| c.takes_exec_or_resume_in(carrier)),
        Content::CcCancel => matches!(carrier, Carrier::ReleaseComplete | Carrier::Setup),
        Content::CallAlerts => matches!(carrier, Carrier::Alerting | Carrier::Connect),
        _ => false,
    }
}

/// M3: "6 on a result or ccExecPossible (any carrier), and 7 or 8 on a
/// ccExecPossible in Setup: ccCancel in Release Complete." Document 01: "A
/// reply carries the refused message's identifier. No other refusal has a
/// reply." Since request 11 a ccExecPossible in Setup is never refused with 8.
fn reply_to(refused: &Message, refusal: Refusal) -> Option<Message> {
    let exec = refused.content == Content::CcExecPossible;
    let result = matches!(refused.content, Content::RequestResult { .. });
    let replies = match refusal {
        Refusal::NoRecord => result || exec,
        Refusal::NoRow | Refusal::BadCarrier => exec && refused.carrier == Carrier::Setup,
        _ => false,
    };
    replies.then(|| message(Carrier::ReleaseComplete, refused.identifier, Content::CcCancel))
}

impl Held for Record {
    fn identifier(&self) -> Option<Identifier> {
        self.identifier
    }

    fn elements(&self) -> Elements {
        let (number_a, number_b) = (self.number_a.clone(), self.number_b.clone());
        Elements { number_a, number_b, service: self.service }
    }

    /// "For 5 that is Invoked, RET or RLS; .. for 10 any state": the rows.
    fn is_in_state_for(&self, content: &Content) -> bool {
        has_row(self.state, content)
    }
}

impl Record {
    /// Request 1: "What a record sends has the record's identifier or none, and in
    /// Setup (5, 6, 9, 10) the record's elements, numberA as it is held."
    fn sends(&self, carrier: Carrier, content: Content) -> Message {
        message(carrier, self.identifier, content).with_elements(&self.elements())
    }

    /// The choice whose carriers the record sends by; none before the
    /// acknowledgment.
    fn sends_by(&self) -> Option<Connection> {
        self.connection.map(|choice| choice.for_sending(self.down))
    }

    fn sends_cancel(&self) -> Message {
        self.sends(Connection::cancel_carrier(self.sends_by()), Content::CcCancel)
    }

    /// ccExecPossible and ccResume, "RET Facility, RLS Setup". A record that
    /// sends them has been acknowledged, so the choice is never empty here.
    fn sends_resume(&self) -> Message {
        let choice = self.sends_by().unwrap_or(Connection::Ret);
        self.sends(choice.facility_or_setup(), Content::CcResume)
    }

    /// ccSuspend: "RET Facility; RLS Release Complete, or Connect if received",
    /// so RLS sends it in Release Complete.
    fn sends_suspend(&self) -> Message {
        let carrier = match self.sends_by() {
            Some(Connection::Rls) => Carrier::ReleaseComplete,
            Some(Connection::Ret) | None => Carrier::Facility,
        };
        self.sends(carrier, Content::CcSuspend)
    }

    /// "Result in Wait-Ack: keep only if can-keep was sent true and keep is 1.
    /// Stop T1, start T2, Invoked, notice "accepted"." Carrier: "Connect means
    /// RET, Release Complete means RLS".
    fn on_result(&mut self, carrier: Carrier, keep: u32, now: Now) -> Outcome {
        self.keep = Some(self.can_keep && keep == 1);
        self.connection = Some(match carrier {
            Carrier::Connect => Connection::Ret,
            _ => Connection::Rls,
        });
        self.state = State::Invoked;
        self.deadlines.t2 = now.t2_ends(self.kind);
        Outcome::done().stopping(T1).starting(T2).telling(Notice::Accepted)
    }

    /// "start T3, Wait-Answer, "recall"".
    fn recall(&mut self, now: Now) -> Outcome {
        self.state = State::WaitAnswer;
        self.deadlines.t3 = now.t3_ends();
        Outcome::done().starting(T3).telling(Notice::Recall)
    }

    /// "ccExecPossible in Invoked, with the host's word on User A: not busy,
    /// start T3, Wait-Answer, "recall"; busy, send ccSuspend, Suspended."
    fn on_exec_possible(&mut self, user_a_busy: bool, now: Now) -> Outcome {
        if !user_a_busy {
            return self.recall(now);
        }
        self.state = State::Suspended;
        Outcome::done().sending(self.sends_suspend())
    }

    /// "busy again and keep, Invoked, "busy again, kept""; READINGS 13: it
    /// names no timer. Request 5 of document 02: "Only a record that was CCNR
    /// has the notice "busy again, now waiting for free" (notice 10); one that
    /// is CCBS, a converted one the next time too, has "busy again, kept"."; "T2
    /// and the guard go on with the time of the kind at the start."
    fn on_busy_again_kept(&mut self) -> Outcome {
        let notice = match self.kind {
            Kind::Ccbs => Notice::BusyAgainKept,
            Kind::Ccnr => Notice::NowWaitingForFree,
        };
        self.kind = Kind::Ccbs;
        self.state = State::Invoked;
        Outcome::done().telling(notice)
    }

    /// REPLAY-02: "`-` for a timer that does not run: T1 is printed in Wait-Ack, T2
    /// in the four other states, T3 in Wait-Answer."
    pub fn running_deadlines(&self) -> [Option<u32>; 3] {
        let running = self.state.running();
        let told = |bit: u32, deadline: u32| (running & bit != 0).then_some(deadline);
        [told(T1, self.deadlines.t1), told(T2, self.deadlines.t2), told(T3, self.deadlines.t3)]
    }

    /// The timer that a tick finds due, where there is one: "T1 Wait-Ack; T2
    /// Invoked, Wait-Answer, Suspended; T3 Wait-Answer", which is where a report is
    /// taken. "T2 in Ringout runs on and never expires there (mend M1)".
    pub fn due_timer(&self, count: u32) -> Option<Timer> {
        let due = |timer: &Timer| timer.taken_in(self.state) && is_due(count, self.deadlines.of(*timer));
        Timer::ALL.into_iter().find(due)
    }
}

impl Timed for Record {
    fn expires(&self, count: u32) -> bool {
        self.due_timer(count).is_some()
    }

    fn last_message(&self) -> Message {
        self.sends_cancel()
    }
}

impl ClerkDesk {
    /// Request 6: "out of range is 2 and no desk is made".
    pub fn start(lengths: Lengths) -> Result<ClerkDesk, Refusal> {
        if lengths.in_range() {
            Ok(ClerkDesk { records: Vec::new(), lengths })
        } else {
            Err(Refusal::OutOfRange)
        }
    }

    fn at(&self, count: u32) -> Now {
        Now { count, lengths: self.lengths }
    }

    /// Request 6: a tick ends each record that has a running timer due.
    pub fn tick(&mut self, count: u32, buffer: &mut [u8]) -> Result<Ticked, Refusal> {
        timers::tick(&mut self.records, count, buffer)
    }

    /// "Ask: 2, 4, 5." READINGS 8: "It tests no duplicate numbers. A live
    /// identifier at a full desk is 4." Request 1: "An ask without an identifier
    /// is never 4." Request 6: "The host gives the count with every step"; the steps
    /// that start no timer do not look at it and are not handed it here.
    pub fn ask(&mut self, ask: &Ask, count: u32) -> Outcome {
        if !ask_in_range(ask) {
            return Outcome::refused(Refusal::OutOfRange);
        }
        if ask.identifier.map_or(false, |identifier| place_of(&self.records, &identifier).is_some()) {
            return Outcome::refused(Refusal::IdentifierLive);
        }
        if self.records.len() >= MOST_RECORDS {
            return Outcome::refused(Refusal::ClerkFull);
        }
        // "Ask: send type 1 or 2, start T1, Wait-Ack."
        self.records.push(record_of(ask, self.at(count)));
        Outcome::done().sending(request_of(ask)).starting(T1).about(self.records.len() - 1)
    }

    /// "Messages: 2, 3, 6, 7, 8"; all return the number and change nothing.
    fn judge(&self, message: &Message, place: usize) -> Result<usize, Refusal> {
        if !in_range(message) {
            return Err(Refusal::OutOfRange);
        }
        if !is_for_clerk(&message.content) {
            return Err(Refusal::NotForThisEnd);
        }
        let place = record_meant(&self.records, message, place)?;
        let record = self.records.get(place).ok_or(Refusal::NoRecord)?;
        // READINGS 10: "7 before 8."
        if !has_row(record.state, &message.content) {
            return Err(Refusal::NoRow);
        }
        if !carrier_allowed(record, message) {
            return Err(Refusal::BadCarrier);
        }
        Ok(place)
    }

    /// READINGS 14: "The host's word on User A comes with every message at the
    /// clerk's desk and matters only for ccExecPossible in Invoked." Request 1: so
    /// does the place that the host names, and it matters only where the message
    /// has no identifier and is none of types 5 and 10 in Setup.
    pub fn take(&mut self, message: &Message, place: usize, user_a_busy: bool, count: u32) -> Outcome {
        match self.judge(message, place) {
            Ok(place) => self.step(place, message, user_a_busy, self.at(count)).about(place),
            Err(refusal) => {
                let mut outcome = Outcome::refused(refusal);
                outcome.message = reply_to(message, refusal);
                outcome
            }
        }
    }

    fn step(&mut self, place: usize, message: &Message, user_a_busy: bool, now: Now) -> Outcome {
        let record = match self.records.get_mut(place) {
            Some(record) => record,
            None => return Outcome::refused(Refusal::NoRecord),
        };
        match &message.content {
            Content::RequestResult { keep } => record.on_result(message.carrier, *keep, now),
            // "Request error in Wait-Ack: delete, "denied short" or "denied long"."
            Content::RequestError { error: SHORT } => self.delete(place).telling(Notice::DeniedShort),
            Content::RequestError { .. } => self.delete(place).telling(Notice::DeniedLong),
            Content::CcExecPossible => record.on_exec_possible(user_a_busy, now),
            Content::RingoutError { error } => self.on_ringout_error(place, *error),
            // "Type 11 in Ringout: delete, "completed"."
            Content::CallAlerts => self.delete(place).telling(Notice::Completed),
            // M2: "in Ringout send ccCancel (Release Complete for RET, Setup for
            // RLS), delete, "failed". No clear-the-call word: the call is gone."
            Content::CallFailed => self.cancel_record(place).telling(Notice::Failed),
            Content::CcCancel => self.on_cancel(place),
            // Never met: judge has refused the types for the other end with 3.
            _ => Outcome::refused(Refusal::NotForThisEnd),
        }
    }

    /// "Deleting stops all timers of the record."
    fn delete(&mut self, place: usize) -> Outcome {
        if place >= self.records.len() {
            return Outcome::refused(Refusal::NoRecord);
        }
        let record = self.records.remove(place);
        Outcome::done().stopping(record.state.running())
    }

    /// "send ccCancel, delete".
    fn cancel_record(&mut self, place: usize) -> Outcome {
        match self.records.get(place).map(Record::sends_cancel) {
            Some(cancel) => self.delete(place).sending(cancel),
            None => Outcome::refused(Refusal::NoRecord),
        }
    }

    fn rings_out(&self, place: usize) -> bool {
        self.records.get(place).map_or(false, |r| r.state == State::Ringout)
    }

    /// "ccCancel in any state: delete, "failed"." M4: "The host is told to
    /// clear the call on the user's cancel in Ringout and on a ccCancel
    /// received in Ringout; nowhere else."
    fn on_cancel(&mut self, place: usize) -> Outcome {
        let clear = self.rings_out(place);
        self.delete(place).telling(Notice::Failed).clearing(clear)
    }

    /// "Ringout error in Ringout: busy again and keep, Invoked, "busy again,
    /// kept"; busy again otherwise, delete, "busy again, ended";
    /// failureToMatch, delete, "failed"."
    fn on_ringout_error(&mut self, place: usize, error: u32) -> Outcome {
        if error != REMOTE_USER_BUSY_AGAIN {
            return self.delete(place).telling(Notice::Failed);
        }
        match self.records.get_mut(place) {
            Some(record) if record.keep == Some(true) => record.on_busy_again_kept(),
            _ => self.delete(place).telling(Notice::BusyAgainEnded),
        }
    }

    /// An act or a timer report: 6, or the step on the record that is named.
    fn on_named(&mut self, name: &Name, step: impl FnOnce(&mut ClerkDesk, usize) -> Outcome) -> Outcome {
        match record_named(&self.records, name) {
            Ok(place) => step(self, place).about(place),
            Err(refusal) => Outcome::refused(refusal),
        }
    }

    /// The same for a step that ends no record.
    fn on_record(&mut self, name: &Name, step: impl FnOnce(&mut Record) -> Outcome) -> Outcome {
        self.on_named(name, |desk, place| match desk.records.get_mut(place) {
            Some(record) => step(record),
            None => Outcome::refused(Refusal::NoRecord),
        })
    }

    /// "Accept in Wait-Answer: stop T3, send ccRingout, Ringout." Acts: 6, 7.
    pub fn accept(&mut self, name: &Name) -> Outcome {
        self.on_record(name, |record| {
            if record.state != State::WaitAnswer {
                return Outcome::refused(Refusal::NoRow);
            }
            record.state = State::Ringout;
            let ringout = record.sends(Carrier::Setup, Content::CcRingout);
            Outcome::done().stopping(T3).sending(ringout)
        })
    }

    /// "User A free in Suspended, as the host chooses: send ccResume, Invoked;
    /// or start T3, Wait-Answer, "recall"." Acts: 6, 7.
    pub fn user_a_free(&mut self, name: &Name, choice: FreeChoice, count: u32) -> Outcome {
        let now = self.at(count);
        self.on_record(name, |record| match choice {
            _ if record.state != State::Suspended => Outcome::refused(Refusal::NoRow),
            FreeChoice::Recall => record.recall(now),
            FreeChoice::Resume => {
                record.state = State::Invoked;
                Outcome::done().sending(record.sends_resume())
            }
        })
    }

    /// "User's cancel in any state: send ccCancel, delete, "cancelled". .. In
    /// Ringout the host is also told to clear the call." Acts: 6, 7.
    pub fn user_cancels(&mut self, name: &Name) -> Outcome {
        self.on_named(name, |desk, place| {
            let clear = desk.rings_out(place);
            desk.cancel_record(place).telling(Notice::Cancelled).clearing(clear)
        })
    }

    /// Request 11: "An act at each desk, by identifier: refusals 6, then 7
    /// (Wait-Ack, or a record that is RLS). Taken in every other state; the
    /// state stays, no timer, no message, no notice; on a marked record taken,
    /// and nothing changes."
    pub fn connection_fell(&mut self, name: &Name) -> Outcome {
        self.on_record(name, |record| {
            if record.connection != Some(Connection::Ret) {
                return Outcome::refused(Refusal::NoRow);
            }
            record.down = true;
            Outcome::done()
        })
    }

    /// "T1, T2 or T3 running out: the same, "failed"." Timers: 6, 9. M1 leaves
    /// no timer that is taken in Ringout, so no clear-the-call word either. Request
    /// 6: "Reports by hand go by the state alone and not by the deadline."
    pub fn timer_runs_out(&mut self, name: &Name, timer: Timer) -> Outcome {
        self.on_named(name, |desk, place| {
            let taken = desk.records.get(place).map_or(false, |r| timer.taken_in(r.state));
            if !taken {
                return Outcome::refused(Refusal::TimerNotRunning);
            }
            desk.cancel_record(place).telling(Notice::Failed)
        })
    }
}

#[cfg(test)]
mod tests;
#[cfg(test)]
mod tests_ticks;
