//! The line desk: User B's endpoint.

use crate::codec::{
    good_digits, in_range, Carrier, Content, Elements, Identifier, Message, Refusal, RequestFields, FAILURE_TO_MATCH,
    LONG, REMOTE_USER_BUSY_AGAIN, SHORT,
};
use crate::meant::{place_of, record_meant, record_named, Held, Name};
use crate::outcome::{message, Connection, Kind, Outcome, GUARD};
use crate::timers::{self, deadline, guard_length, is_due, Ticked, Timed};

/// "at most 16 lines, at most 32 records, at most 5 for one line".
pub const MOST_LINES: usize = 16;
pub const MOST_RECORDS: usize = 32;
pub const MOST_FOR_ONE_LINE: usize = 5;

/// "States: Invoked (CC-Invoked-User-B), Await (CC-Await-Call-Completion),
/// Alert (CC-Wait-User-B-Alert)."
#[derive(Clone, Copy, PartialEq, Eq, Debug)]
pub enum State {
    Invoked,
    Await,
    Alert,
}

impl State {
    /// REPLAY: "state 1 Invoked, 2 Await, 3 Alert".
    pub fn number(self) -> u32 {
        match self {
            State::Invoked => 1,
            State::Await => 2,
            State::Alert => 3,
        }
    }

    pub fn name(self) -> &'static str {
        match self {
            State::Invoked => "Invoked",
            State::Await => "Await",
            State::Alert => "Alert",
        }
    }
}

#[derive(Clone, Copy, PartialEq, Eq, Debug)]
pub enum Act {
    Alerted,
    CallFailed,
    Cancel,
}

impl Act {
    pub fn name(self) -> &'static str {
        match self {
            Act::Alerted => "alerted",
            Act::CallFailed => "call failed",
            Act::Cancel => "cancel",
        }
    }
}

/// "its lines (digits, allowed kinds)".
#[derive(Clone, PartialEq, Eq, Debug)]
pub struct Line {
    pub digits: Vec<u8>,
    pub allows_ccbs: bool,
    pub allows_ccnr: bool,
    pub busy: bool,
}

impl Line {
    fn allows(&self, kind: Kind) -> bool {
        match kind {
            Kind::Ccbs => self.allows_ccbs,
            Kind::Ccnr => self.allows_ccnr,
        }
    }
}

/// "A record also has an activity mark and a suspended mark."
#[derive(Clone, PartialEq, Eq, Debug)]
pub struct Record {
    pub identifier: Option<Identifier>,
    pub kind: Kind,
    pub number_a: Vec<u8>,
    pub number_b: Vec<u8>,
    pub service: u32,
    pub keep: bool,
    pub connection: Connection,
    pub state: State,
    pub active: bool,
    pub suspended: bool,
    /// Request 11: "A mark "connection down" goes into the record".
    pub down: bool,
    /// Request 6: "line: [the deadline] of the guard", which always runs.
    pub guard: u32,
}

/// "Records keep the order of acceptance."
#[derive(Clone, PartialEq, Eq, Debug, Default)]
pub struct LineDesk {
    pub lines: Vec<Line>,
    pub records: Vec<Record>,
    pub keeps: bool,
    pub retains: bool,
}

/// The message table's column "To"; READINGS 9: "3 at the line: 3, 4, 5, 7,
/// 11, 12. 10 goes to both."
fn is_for_line(content: &Content) -> bool {
    match content {
        Content::CcbsRequest(_) | Content::CcnrRequest(_) => true,
        Content::CcRingout | Content::CcSuspend | Content::CcResume | Content::CcCancel => true,
        Content::RequestResult { .. } | Content::RequestError { .. } => false,
        Content::CcExecPossible | Content::RingoutError { .. } => false,
        Content::CallAlerts | Content::CallFailed => false,
    }
}

/// Refusal 7: ccSuspend, ccResume and ccRingout have rows in Await alone,
/// "ccCancel in any state".
fn has_row(state: State, content: &Content) -> bool {
    match content {
        Content::CcSuspend | Content::CcResume | Content::CcRingout => state == State::Await,
        Content::CcCancel => true,
        _ => false,
    }
}

/// Refusal 8; the message table's column "Carrier", READINGS 10, M5 and
/// request 11.
fn carrier_allowed(record: &Record, message: &Message) -> bool {
    let carrier = message.carrier;
    match (&message.content, record.connection) {
        (Content::CcRingout, _) => carrier == Carrier::Setup,
        // Request 11, for RET: "8 in Facility, Release Complete or Connect".
        (Content::CcSuspend, Connection::Ret) => {
            matches!(carrier, Carrier::Facility | Carrier::ReleaseComplete | Carrier::Connect)
        }
        // "RLS Release Complete, or Connect if received".
        (Content::CcSuspend, Connection::Rls) => {
            matches!(carrier, Carrier::ReleaseComplete | Carrier::Connect)
        }
        // M5: "received for RET in Facility or Setup, for RLS in Setup".
        (Content::CcResume, choice) => choice.takes_exec_or_resume_in(carrier),
        (Content::CcCancel, _) => matches!(carrier, Carrier::ReleaseComplete | Carrier::Setup),
        _ => false,
    }
}

/// "Line desk, 6 or 7 on ccRingout: ringout error failureToMatch in Release
/// Complete; 6 or 7 on ccResume: ccCancel in Release Complete. .. No other
/// refusal has a reply."
fn reply_to(refused: &Message, refusal: Refusal) -> Option<Message> {
    if !matches!(refusal, Refusal::NoRecord | Refusal::NoRow) {
        return None;
    }
    let content = match refused.content {
        Content::CcRingout => Content::RingoutError { error: FAILURE_TO_MATCH },
        Content::CcResume => Content::CcCancel,
        _ => return None,
    };
    Some(message(Carrier::ReleaseComplete, refused.identifier, content))
}

/// Flags: "can-keep (0 or 1) plus 2 x preference (0 none, 1 retain, 2 release)".
fn can_keep(fields: &RequestFields) -> bool {
    fields.flags % 2 == 1
}

fn preference(fields: &RequestFields) -> u32 {
    fields.flags / 2
}

impl Held for Record {
    fn identifier(&self) -> Option<Identifier> {
        self.identifier
    }

    fn elements(&self) -> Elements {
        let (number_a, number_b) = (self.number_a.clone(), self.number_b.clone());
        Elements { number_a, number_b, service: self.service }
    }

    /// "for 6 and 9 Await; for 10 any state": the rows.
    fn is_in_state_for(&self, content: &Content) -> bool {
        has_row(self.state, content)
    }
}

impl Timed for Record {
    fn expires(&self, count: u32) -> bool {
        is_due(count, self.guard)
    }

    fn last_message(&self) -> Message {
        self.sends_cancel()
    }
}

impl Record {
    /// Request 1: "What a record sends has the record's identifier or none, and in
    /// Setup (5, 6, 9, 10) the record's elements, numberA as it is held."
    fn sends(&self, carrier: Carrier, content: Content) -> Message {
        message(carrier, self.identifier, content).with_elements(&self.elements())
    }

    /// Request 11: "A marked record sends by the RLS carriers".
    fn sends_by(&self) -> Connection {
        self.connection.for_sending(self.down)
    }

    fn sends_cancel(&self) -> Message {
        self.sends(Connection::cancel_carrier(Some(self.sends_by())), Content::CcCancel)
    }

    /// "A record fits if Invoked and CCBS, or Invoked, CCNR and marked active."
    fn fits(&self) -> bool {
        self.state == State::Invoked && (self.kind == Kind::Ccbs || self.active)
    }

    /// "nothing to offer if .. one of its records is in Alert or in Await
    /// without suspended mark".
    fn blocks(&self) -> bool {
        self.state == State::Alert || (self.state == State::Await && !self.suspended)
    }
}

impl LineDesk {
    /// "More than 16 lines, bad digits or one number twice is refused with 2
    /// and no desk is made; no lines at all is allowed. Every line starts
    /// free". READINGS 15: "Both kinds disallowed is allowed."
    pub fn start(lines: Vec<Line>, keeps: bool, retains: bool) -> Result<LineDesk, Refusal> {
        if lines.len() > MOST_LINES {
            return Err(Refusal::OutOfRange);
        }
        let mut desk = LineDesk { lines: Vec::new(), records: Vec::new(), keeps, retains };
        for line in lines {
            if !good_digits(&line.digits) || desk.line_place(&line.digits).is_some() {
                return Err(Refusal::OutOfRange);
            }
            desk.lines.push(Line { busy: false, ..line });
        }
        Ok(desk)
    }

    pub fn line_place(&self, digits: &[u8]) -> Option<usize> {
        self.lines.iter().position(|l| l.digits == digits)
    }

    pub fn line_busy(&self, digits: &[u8]) -> bool {
        self.lines.iter().any(|l| l.digits == digits && l.busy)
    }

    /// READINGS 17: "the identifier of any live record, or numberA given on
    /// both sides and equal with equal numberB; kind and service don't count;
    /// withheld numberA leaves the identifier test only." Request 1: "At the line
    /// the identifier test of a duplicate needs one on both sides".
    fn is_duplicate(&self, identifier: &Option<Identifier>, fields: &RequestFields) -> bool {
        let same_numbers =
            |r: &Record| !fields.number_a.is_empty() && r.number_a == fields.number_a && r.number_b == fields.number_b;
        let live = identifier.and_then(|identifier| place_of(&self.records, &identifier));
        live.is_some() || self.records.iter().any(same_numbers)
    }

    /// "then short error if duplicate, or the line has 5, or the desk has 32".
    fn short_of_room(&self, fields: &RequestFields) -> bool {
        let on_line = self.records.iter().filter(|r| r.number_b == fields.number_b).count();
        on_line >= MOST_FOR_ONE_LINE || self.records.len() >= MOST_RECORDS
    }

    /// "long error if numberB is no line or the kind isn't allowed". READINGS
    /// 17: "Long before short, also at a full desk." "These are completed
    /// steps that store nothing."
    fn error_for(&self, identifier: &Option<Identifier>, kind: Kind, fields: &RequestFields) -> Option<u32> {
        let allowed = self.lines.iter().any(|l| l.digits == fields.number_b && l.allows(kind));
        if !allowed {
            Some(LONG)
        } else if self.is_duplicate(identifier, fields) || self.short_of_room(fields) {
            Some(SHORT)
        } else {
            None
        }
    }

    /// READINGS 11: "A request at the line: 2, 8, then the completed steps
    /// long, short, accepted".
    fn take_request(&mut self, request: &Message, kind: Kind, fields: &RequestFields, count: u32) -> Outcome {
        if request.carrier != Carrier::Setup {
            return Outcome::refused(Refusal::BadCarrier);
        }
        if let Some(error) = self.error_for(&request.identifier, kind, fields) {
            let answer = message(Carrier::ReleaseComplete, request.identifier, Content::RequestError { error });
            return Outcome::done().sending(answer);
        }
        self.accept(request.identifier, kind, fields, deadline(count, guard_length(kind)))
    }

    /// "Connect or Release Complete by preference, by the desk's default if
    /// none"; Connect means RET, Release Complete means RLS.
    fn choose_connection(&self, fields: &RequestFields) -> Connection {
        match preference(fields) {
            1 => Connection::Ret,
            2 => Connection::Rls,
            _ if self.retains => Connection::Ret,
            _ => Connection::Rls,
        }
    }

    /// "Otherwise store, Invoked, start the guard, send the result: keep is 1
    /// exactly if can-keep and the desk keeps; .. The activity mark starts set
    /// if the line is busy." READINGS 18: "Accepted: suspended mark clear,
    /// activity mark = line busy (either kind)." Request 6: the guard's length goes
    /// "by the kind of the request".
    fn accept(&mut self, identifier: Option<Identifier>, kind: Kind, fields: &RequestFields, guard: u32) -> Outcome {
        let keep = can_keep(fields) && self.keeps;
        let connection = self.choose_connection(fields);
        self.records.push(Record {
            identifier,
            kind,
            number_a: fields.number_a.clone(),
            number_b: fields.number_b.clone(),
            service: fields.service,
            keep,
            connection,
            state: State::Invoked,
            active: self.line_busy(&fields.number_b),
            suspended: false,
            down: false,
            guard,
        });
        let carrier = match connection {
            Connection::Ret => Carrier::Connect,
            Connection::Rls => Carrier::ReleaseComplete,
        };
        let result = message(carrier, identifier, Content::RequestResult { keep: u32::from(keep) });
        Outcome::done().sending(result).starting(GUARD).about(self.records.len() - 1)
    }

    /// "Messages: 2, 3, 6, 7, 8 (a request at the line desk: 2, 3, 8)." Request 1:
    /// the host's place comes with every message and is not looked at for types 1
    /// and 2, for types 6, 9 and 10 in Setup, or where there is an identifier. Request
    /// 6: only an accepted request looks at the count, as it starts the guard.
    pub fn take(&mut self, message: &Message, place: usize, count: u32) -> Outcome {
        if !in_range(message) {
            return Outcome::refused(Refusal::OutOfRange);
        }
        match &message.content {
            Content::CcbsRequest(fields) => self.take_request(message, Kind::Ccbs, fields, count),
            Content::CcnrRequest(fields) => self.take_request(message, Kind::Ccnr, fields, count),
            _ => self.take_other(message, place),
        }
    }

    fn take_other(&mut self, message: &Message, place: usize) -> Outcome {
        match self.judge(message, place) {
            Ok(place) => self.step(place, message).about(place),
            Err(refusal) => {
                let mut outcome = Outcome::refused(refusal);
                outcome.message = reply_to(message, refusal);
                outcome
            }
        }
    }

    fn judge(&self, message: &Message, place: usize) -> Result<usize, Refusal> {
        if !is_for_line(&message.content) {
            return Err(Refusal::NotForThisEnd);
        }
        let place = record_meant(&self.records, message, place)?;
        let record = self.records.get(place).ok_or(Refusal::NoRecord)?;
        // READINGS 10: "7 before 8."
        if !has_row(record.state, &message.content) {
            return Err(Refusal::NoRow);
        }
        if !carrier_allowed(record, message) {
            return Err(Refusal::BadCarrier);
        }
        Ok(place)
    }

    fn step(&mut self, place: usize, message: &Message) -> Outcome {
        let record = match self.records.get_mut(place) {
            Some(record) => record,
            None => return Outcome::refused(Refusal::NoRecord),
        };
        match message.content {
            // "ccSuspend in Await: set the suspended mark."
            Content::CcSuspend => record.suspended = true,
            // "ccResume in Await: clear that mark, Invoked. The activity mark stays."
            Content::CcResume => {
                record.suspended = false;
                record.state = State::Invoked;
            }
            Content::CcRingout => return self.on_ringout(place),
            // "ccCancel in any state: delete."
            Content::CcCancel => return self.delete(place),
            // Never met: judge has refused the types for the other end with 3.
            _ => return Outcome::refused(Refusal::NotForThisEnd),
        }
        Outcome::done()
    }

    /// "ccRingout in Await: line free, clear the suspended mark, Alert. Line
    /// busy: send remoteUserBusyAgain; keep, Invoked with activity marked and
    /// the suspended mark cleared; otherwise delete." Request 5 of document 02:
    /// "The line's end makes a CCNR record CCBS when it sends
    /// remoteUserBusyAgain and keeps"; "The line's allowed kinds are not asked
    /// again."
    fn on_ringout(&mut self, place: usize) -> Outcome {
        let busy = self.records.get(place).map_or(false, |r| self.line_busy(&r.number_b));
        let record = match self.records.get_mut(place) {
            Some(record) => record,
            None => return Outcome::refused(Refusal::NoRecord),
        };
        if !busy {
            record.suspended = false;
            record.state = State::Alert;
            return Outcome::done();
        }
        let content = Content::RingoutError { error: REMOTE_USER_BUSY_AGAIN };
        let answer = record.sends(Carrier::ReleaseComplete, content);
        if !record.keep {
            return self.delete(place).sending(answer);
        }
        record.kind = Kind::Ccbs;
        record.state = State::Invoked;
        record.active = true;
        record.suspended = false;
        Outcome::done().sending(answer)
    }

    /// READINGS 13: "Line: accepted starts the guard, a delete stops it."
    fn delete(&mut self, place: usize) -> Outcome {
        if place >= self.records.len() {
            return Outcome::refused(Refusal::NoRecord);
        }
        self.records.remove(place);
        Outcome::done().stopping(GUARD)
    }

    /// "Act "cancel", or the guard running out: send ccCancel, delete."
    fn cancel_record(&mut self, place: usize) -> Outcome {
        match self.records.get(place).map(Record::sends_cancel) {
            Some(cancel) => self.delete(place).sending(cancel),
            None => Outcome::refused(Refusal::NoRecord),
        }
    }

    /// "Line report, busy or free: stores the status; busy also sets the
    /// activity mark of that line's Invoked records. Repeats are allowed."
    /// Line report: 10; READINGS 16: "bad or unknown digits are 10".
    pub fn report(&mut self, digits: &[u8], busy: bool) -> Outcome {
        let line = match self.lines.iter_mut().find(|l| l.digits == digits) {
            Some(line) => line,
            None => return Outcome::refused(Refusal::NoSuchLine),
        };
        line.busy = busy;
        for record in &mut self.records {
            if busy && record.number_b == digits && record.state == State::Invoked {
                record.active = true;
            }
        }
        Outcome::done()
    }

    /// "Look at a line: nothing to offer if the line is busy, or one of its
    /// records is in Alert or in Await without suspended mark. .. The oldest
    /// fitting record is offered, or there is none. Offering sends
    /// ccExecPossible; Await." READINGS 16: "Look then 11 for each of: busy,
    /// blocked, nothing fits."
    pub fn look(&mut self, digits: &[u8]) -> Outcome {
        if self.line_place(digits).is_none() {
            return Outcome::refused(Refusal::NoSuchLine);
        }
        let blocked = self.records.iter().any(|r| r.number_b == digits && r.blocks());
        if self.line_busy(digits) || blocked {
            return Outcome::refused(Refusal::NothingToOffer);
        }
        let oldest = self.records.iter_mut().enumerate().find(|(_, r)| r.number_b == digits && r.fits());
        let (place, record) = match oldest {
            Some((place, record)) => (place, record),
            None => return Outcome::refused(Refusal::NothingToOffer),
        };
        record.state = State::Await;
        let carrier = record.sends_by().facility_or_setup();
        Outcome::done().sending(record.sends(carrier, Content::CcExecPossible)).about(place)
    }

    /// An act or a timer report: 6, or the step on the record that is named.
    fn on_named(&mut self, name: &Name, step: impl FnOnce(&mut LineDesk, usize) -> Outcome) -> Outcome {
        match record_named(&self.records, name) {
            Ok(place) => step(self, place).about(place),
            Err(refusal) => Outcome::refused(refusal),
        }
    }

    /// "Act "alerted" in Alert: send type 11 in Alerting, delete. Act "call
    /// failed" in Alert: send type 12, delete." Acts: 6, 7.
    pub fn act(&mut self, name: &Name, act: Act) -> Outcome {
        self.on_named(name, |desk, place| match act {
            Act::Cancel => desk.cancel_record(place),
            Act::Alerted => desk.end_alert(place, Carrier::Alerting, Content::CallAlerts),
            Act::CallFailed => desk.end_alert(place, Carrier::ReleaseComplete, Content::CallFailed),
        })
    }

    fn end_alert(&mut self, place: usize, carrier: Carrier, content: Content) -> Outcome {
        match self.records.get(place) {
            Some(record) if record.state == State::Alert => {
                let sent = record.sends(carrier, content);
                self.delete(place).sending(sent)
            }
            _ => Outcome::refused(Refusal::NoRow),
        }
    }

    /// Request 11: "An act at each desk, by identifier: refusals 6, then 7 (..
    /// a record that is RLS). Taken in every other state; the state stays, no
    /// timer, no message, no notice; on a marked record taken, and nothing
    /// changes. There is no "up again"."
    pub fn connection_fell(&mut self, name: &Name) -> Outcome {
        self.on_named(name, |desk, place| match desk.records.get_mut(place) {
            Some(record) if record.connection == Connection::Ret => {
                record.down = true;
                Outcome::done()
            }
            _ => Outcome::refused(Refusal::NoRow),
        })
    }

    /// READINGS 13: "The guard always runs, so its report is only ever 6 or
    /// taken."
    pub fn guard_runs_out(&mut self, name: &Name) -> Outcome {
        self.on_named(name, LineDesk::cancel_record)
    }

    /// Request 6: a tick ends each record whose guard is due.
    pub fn tick(&mut self, count: u32, buffer: &mut [u8]) -> Result<Ticked, Refusal> {
        timers::tick(&mut self.records, count, buffer)
    }
}

#[cfg(test)]
mod tests;
#[cfg(test)]
mod tests_ticks;
