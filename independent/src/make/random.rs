//! Random scripts: two desks over two wires, played inside the generator, so
//! that deep states are reached.

mod clock;
mod dice;
mod host;
#[cfg(test)]
mod tests;

use self::dice::Dice;
use self::host::{Origins, Parcel};
use super::codec::FORMS;
use super::{
    bytes_of, contents_without_requests, look, report, request_content, start_line, to_clerk, to_line, with_choice,
    with_name, write_entry, AskEntry, Scripts, ACCEPT, ACT, FELL_AT_CLERK, FELL_AT_LINE, GUARD_RUNS_OUT, PRINT_CLERK,
    PRINT_LINE, TIMER, USER_A_FREE, USER_CANCELS,
};
use crate::clerk;
use crate::codec::{message_bytes, Carrier, Content, Identifier};
use crate::line;
use crate::outcome::Kind;
use crate::script::{take_entry, Answer, Session};

/// What the run is like for a while.
#[derive(Clone, Copy, PartialEq)]
enum Mood {
    Calm,
    Crowd,
    Storm,
}

/// What the generator does next, with the weights of each mood: calm, crowd,
/// storm.
#[derive(Clone, Copy, PartialEq)]
enum Move {
    Ask,
    DeliverToLine,
    DeliverToClerk,
    SensibleClerkAct,
    SensibleLineAct,
    Look,
    Report,
    ConnectionFalls,
    AnyClerkAct,
    AnyLineAct,
    StrayToClerk,
    StrayToLine,
    StrayRequest,
    BadAsk,
    BadNumber,
    BadBytes,
    Restart,
    Clock,
    TickAtClerk,
    TickAtLine,
    Write,
    Print,
}

const MOVES: [(Move, [usize; 3]); 22] = [
    (Move::Ask, [16, 40, 14]),
    (Move::DeliverToLine, [80, 60, 50]),
    (Move::DeliverToClerk, [80, 60, 50]),
    (Move::SensibleClerkAct, [60, 10, 40]),
    (Move::SensibleLineAct, [40, 6, 25]),
    (Move::Look, [30, 15, 25]),
    (Move::Report, [14, 10, 14]),
    (Move::ConnectionFalls, [5, 4, 8]),
    (Move::AnyClerkAct, [1, 2, 8]),
    (Move::AnyLineAct, [1, 2, 6]),
    (Move::StrayToClerk, [2, 2, 18]),
    (Move::StrayToLine, [2, 2, 18]),
    (Move::StrayRequest, [1, 40, 4]),
    (Move::BadAsk, [1, 4, 2]),
    (Move::BadNumber, [1, 1, 2]),
    (Move::BadBytes, [2, 2, 12]),
    (Move::Restart, [0, 0, 1]),
    (Move::Clock, [22, 16, 26]),
    (Move::TickAtClerk, [5, 3, 7]),
    (Move::TickAtLine, [5, 3, 6]),
    (Move::Write, [1, 1, 3]),
    (Move::Print, [25, 25, 25]),
];

/// Numbers that begin one another, with zeros in front, of 1 and of 15 digits.
const NUMBERS: [&[u8]; 20] = [
    &[1],
    &[1, 0],
    &[1, 0, 0],
    &[0],
    &[0, 0],
    &[0, 1],
    &[5; 15],
    &[5; 14],
    &[9, 9, 9],
    &[2],
    &[2, 3],
    &[3, 2],
    &[7, 1, 7],
    &[4],
    &[6, 6],
    &[8, 0, 8],
    &[1, 2, 3, 4, 5, 6, 7, 8, 9, 0, 1, 2, 3, 4, 5],
    &[1, 2, 3, 4, 5, 6, 7, 8, 9, 0, 1, 2, 3, 4, 6],
    &[3],
    &[4, 4, 4, 4],
];

/// Two desks, two wires, and a host that knows where each message comes from, so
/// that it can name the right places.
struct Player {
    dice: Dice,
    session: Session,
    scripts: Scripts,
    left: usize,
    wire_to_line: Vec<Parcel>,
    wire_to_clerk: Vec<Parcel>,
    origins: Origins,
    known: Vec<Identifier>,
    mood: Mood,
    mood_left: usize,
}

/// How many messages a wire, and identifiers the memory, hold at most.
const MOST_ON_WIRE: usize = 24;
const MOST_KNOWN: usize = 60;

impl Player {
    fn new(seed: u64, entries: usize) -> Player {
        Player {
            dice: Dice { state: seed },
            session: Session::default(),
            scripts: Scripts::default(),
            left: entries,
            wire_to_line: Vec::new(),
            wire_to_clerk: Vec::new(),
            origins: Origins::default(),
            known: Vec::new(),
            mood: Mood::Calm,
            mood_left: 0,
        }
    }

    /// Adds an entry that speaks of nothing on a wire.
    fn put(&mut self, entry: &[u8]) {
        let origin = self.origins.fresh();
        self.put_from(entry, origin);
    }

    /// Adds an entry, plays it on the generator's own desks and puts what they
    /// send on the wire to the other end. The origin is that of the message that
    /// the entry hands in, or of the request that the entry makes.
    fn put_from(&mut self, entry: &[u8], origin: usize) {
        if self.left == 0 {
            return;
        }
        if !self.scripts.has_room(entry.len()) {
            self.new_file();
            if self.left == 0 {
                return;
            }
        }
        self.left -= 1;
        self.scripts.add(entry);
        let parsed = match take_entry(entry) {
            Some((parsed, _)) => parsed,
            None => return,
        };
        let line_end = host::is_at_line(&parsed);
        match self.session.play(&parsed) {
            Answer::Step { outcome, .. } => {
                let origin = self.origins.follow(&self.session, &parsed, &outcome, origin);
                if let Some(message) = outcome.message {
                    self.put_on_wire(line_end, Parcel { bytes: message_bytes(&message), origin });
                }
            }
            Answer::Ticked { told: Ok(ticked), buffer } => self.follow_tick(line_end, &ticked, &buffer),
            _ => {}
        }
    }

    /// What one end sends goes behind the last message of the wire to the other.
    fn put_on_wire(&mut self, line_end: bool, parcel: Parcel) {
        let wire = if line_end { &mut self.wire_to_clerk } else { &mut self.wire_to_line };
        wire.push(parcel);
        if wire.len() > MOST_ON_WIRE {
            wire.remove(0);
        }
    }

    /// The replay begins each script with new desks, so the generator does too.
    fn new_file(&mut self) {
        self.scripts.close();
        self.session = Session::default();
        self.origins = Origins::default();
        self.wire_to_line.clear();
        self.wire_to_clerk.clear();
        let starts = [self.some_start(), self.first_count(), self.some_start_of_clerk()];
        for start in starts {
            self.put(&start);
        }
    }

    /// A start of the line desk, mostly a good one.
    fn some_start(&mut self) -> Vec<u8> {
        let count = 1 + self.dice.below(16);
        let turn = self.dice.below(NUMBERS.len());
        let mut lines: Vec<(Vec<u8>, u8)> = Vec::new();
        for n in 0..count {
            let digits = NUMBERS.get((turn + n) % NUMBERS.len()).map_or(vec![1], |d| d.to_vec());
            let kinds = if self.dice.once_in(4) { self.dice.below(4) as u8 } else { 3 };
            lines.push((digits, kinds));
        }
        if self.dice.once_in(8) {
            lines.push((vec![2], 3));
        }
        start_line(&lines, self.dice.below(4) as u8)
    }

    fn remember(&mut self, identifier: Identifier) {
        self.known.push(identifier);
        if self.known.len() > MOST_KNOWN {
            self.known.remove(0);
        }
    }

    /// A new identifier: random bytes, or a known one's bytes in another
    /// order, or a known one with a single byte changed.
    fn new_identifier(&mut self) -> Identifier {
        let mut identifier = [0; 16];
        for byte in identifier.iter_mut() {
            *byte = self.dice.byte();
        }
        if let Some(known) = self.dice.pick(&self.known) {
            match self.dice.below(6) {
                0 => identifier = self.reordered(known),
                1 => {
                    identifier = known;
                    let place = self.dice.below(16);
                    if let Some(byte) = identifier.get_mut(place) {
                        *byte = byte.wrapping_add(1);
                    }
                }
                _ => {}
            }
        }
        self.remember(identifier);
        identifier
    }

    fn reordered(&mut self, mut identifier: Identifier) -> Identifier {
        match self.dice.below(3) {
            0 => identifier.reverse(),
            1 => identifier.rotate_left(1),
            _ => identifier.swap(0, 15),
        }
        identifier
    }

    /// One that is known: live at a desk, or over, or none of these.
    fn some_identifier(&mut self) -> Identifier {
        self.dice.pick(&self.known).unwrap_or([0xA5; 16])
    }

    fn some_kind(&mut self) -> Kind {
        if self.dice.once_in(2) {
            Kind::Ccbs
        } else {
            Kind::Ccnr
        }
    }

    /// Mostly the number of a line, so that requests are accepted.
    fn some_number_b(&mut self) -> Vec<u8> {
        let lines: Vec<Vec<u8>> = self.session.line.lines.iter().map(|l| l.digits.clone()).collect();
        if self.dice.once_in(12) || lines.is_empty() {
            return self.dice.pick(&NUMBERS).map_or(vec![1], |d| d.to_vec());
        }
        self.dice.pick(&lines).unwrap_or(vec![1])
    }

    fn some_number_a(&mut self) -> Vec<u8> {
        if self.dice.once_in(3) {
            return Vec::new();
        }
        self.dice.pick(&NUMBERS).map_or(vec![1], |d| d.to_vec())
    }

    fn some_service(&mut self) -> u16 {
        let edge = self.dice.pick(&[0, 1, 127, 128, 300, 16382, 16383]).unwrap_or(0);
        if self.dice.once_in(2) {
            edge
        } else {
            self.dice.below(16384) as u16
        }
    }

    /// An identifier for an ask: a new one, or none, or one that may be live.
    fn identifier_of_ask(&mut self) -> Option<Identifier> {
        match self.dice.below(15) {
            0 => Some(self.some_identifier()),
            1..=5 => None,
            _ => Some(self.new_identifier()),
        }
    }

    fn ask(&mut self, bad: bool) {
        let identifier = self.identifier_of_ask();
        let mut number_a = self.some_number_a();
        let mut number_b = self.some_number_b();
        let mut service = self.some_service();
        if identifier.is_none() && self.dice.once_in(3) {
            // Ends that withhold their number and look alike.
            (number_a, service) = (Vec::new(), 300);
        }
        let mut preference = self.dice.below(3) as u8;
        if bad {
            match self.dice.below(7) {
                0 => number_a = vec![1; 16 + self.dice.below(4)],
                1 => number_a = vec![10 + self.dice.byte() % 200],
                2 => number_b = Vec::new(),
                3 => number_b = vec![0; 16],
                4 => number_b = vec![1, 10 + self.dice.byte() % 200],
                5 => service = 16384 + self.dice.below(40000) as u16,
                _ => preference = 3 + self.dice.byte() % 200,
            }
        }
        let kind = self.some_kind();
        let can_keep = !self.dice.once_in(3);
        let entry =
            AskEntry { identifier, kind, number_a: &number_a, number_b: &number_b, service, can_keep, preference };
        self.put(&entry.bytes());
    }

    /// Takes a message off a wire: in calm always the first, which is delivered
    /// or dropped; else mostly the first and sometimes any. A lost one is None,
    /// and a doubled one (never in calm) stays on the wire.
    fn take_off(&mut self, to_the_line: bool) -> Option<Parcel> {
        let (drop, shuffle) = match self.mood {
            Mood::Calm => (60, None),
            Mood::Crowd => (10, Some(10)),
            Mood::Storm => (6, Some(3)),
        };
        let any = shuffle.map_or(false, |times| self.dice.once_in(times));
        let lost = self.dice.once_in(drop);
        let doubled = shuffle.is_some() && self.dice.once_in(25);
        let length = if to_the_line { self.wire_to_line.len() } else { self.wire_to_clerk.len() };
        let place = if any { self.dice.below(length) } else { 0 };
        let wire = if to_the_line { &mut self.wire_to_line } else { &mut self.wire_to_clerk };
        let message = wire.get(place)?.clone();
        if !doubled {
            wire.remove(place);
        }
        if lost {
            None
        } else {
            Some(message)
        }
    }

    /// What the wire does to bytes now and then: a changed byte, a cut end,
    /// bytes behind, another identifier or none.
    fn weather(&mut self, mut bytes: Vec<u8>) -> Vec<u8> {
        let calm = if self.mood == Mood::Storm { 6 } else { 60 };
        if !self.dice.once_in(calm) {
            return bytes;
        }
        match self.dice.below(5) {
            0 => {
                let place = self.dice.below(bytes.len());
                let value = self.dice.byte();
                if let Some(byte) = bytes.get_mut(place) {
                    *byte = value;
                }
            }
            1 => bytes.truncate(self.dice.below(bytes.len())),
            2 => {
                let count = 1 + self.dice.below(60);
                bytes.extend((0..count).map(|n| n as u8));
            }
            3 => bytes = self.with_other_identifier(bytes),
            _ => {
                // Another type, or another carrier.
                let place = self.dice.below(bytes.len().min(2));
                if let Some(byte) = bytes.get_mut(place) {
                    *byte = 1 + *byte % 12;
                }
            }
        }
        bytes
    }

    /// A message with another identifier, or with one more or less.
    fn with_other_identifier(&mut self, bytes: Vec<u8>) -> Vec<u8> {
        let behind = match bytes.get(2) {
            Some(16) => bytes.get(19..),
            Some(0) => bytes.get(3..),
            _ => None,
        };
        let (head, behind) = match (bytes.get(..2), behind) {
            (Some(head), Some(behind)) => (head, behind),
            _ => return bytes,
        };
        let identifier = if self.dice.once_in(3) { None } else { Some(self.some_identifier()) };
        [head, &super::id_bytes(&identifier), behind].concat()
    }

    /// The host names the place of the message's own record, mostly.
    fn deliver(&mut self, to_the_line: bool) {
        let (bytes, origin) = match self.take_off(to_the_line) {
            Some(Parcel { bytes, origin }) => (bytes, origin),
            _ => return,
        };
        let bytes = self.weather(bytes);
        let place = self.place_for(to_the_line, origin);
        if to_the_line {
            self.put_from(&to_line(place, &bytes), origin);
        } else {
            let busy = self.dice.once_in(3);
            self.put_from(&to_clerk(busy, place, &bytes), origin);
        }
    }

    /// True where nothing of this origin travels and the two ends are none of
    /// document 01's "Pairs when the wires are quiet": only a timer helps such a
    /// record.
    fn is_stuck(&self, origin: usize) -> bool {
        if self.wire_to_line.iter().chain(self.wire_to_clerk.iter()).any(|parcel| parcel.origin == origin) {
            return false;
        }
        let at_clerk = self.origins.place(false, origin).and_then(|place| self.session.clerk.records.get(place));
        let at_line = self.origins.place(true, origin).and_then(|place| self.session.line.records.get(place));
        let (here, there) = match (at_clerk, at_line) {
            (Some(here), Some(there)) => (here, there),
            _ => return true,
        };
        match here.state {
            clerk::State::WaitAck => true,
            clerk::State::Invoked => there.state != line::State::Invoked,
            clerk::State::WaitAnswer => there.state != line::State::Await,
            clerk::State::Suspended => !there.suspended,
            clerk::State::Ringout => there.state != line::State::Alert,
        }
    }

    /// The act that fits the state of a record at the clerk's desk. A record
    /// that is stuck is soon timed out, so that it doesn't stand in the way of
    /// others; M1: "a CC call that dies silently is handed in as type 12".
    fn sensible_clerk_act(&mut self) {
        let place = self.dice.below(self.session.clerk.records.len());
        let record = match self.session.clerk.records.get(place) {
            Some(record) => record,
            None => return,
        };
        let (state, stuck) = (record.state, self.is_stuck(self.origins.of(false, place)));
        let id = self.who_at(false, place);
        let entry = match state {
            clerk::State::WaitAck if stuck => with_choice(TIMER, id, 1),
            clerk::State::Ringout if stuck => {
                let elements = self.elements_near(false, place);
                let failed = bytes_of(Carrier::ReleaseComplete, id.identifier, Content::CallFailed, &elements);
                to_clerk(false, id.place, &failed)
            }
            _ if stuck => with_choice(TIMER, id, 2),
            clerk::State::WaitAnswer if self.dice.once_in(8) => with_choice(TIMER, id, 3),
            clerk::State::WaitAnswer => with_name(ACCEPT, id),
            clerk::State::Suspended => with_choice(USER_A_FREE, id, self.dice.below(2) as u8),
            clerk::State::WaitAck if self.dice.once_in(60) => with_choice(TIMER, id, 1),
            clerk::State::Invoked if self.dice.once_in(200) => with_choice(TIMER, id, 2),
            clerk::State::Ringout if self.dice.once_in(20) => with_name(USER_CANCELS, id),
            _ if self.dice.once_in(150) => with_name(USER_CANCELS, id),
            _ => return,
        };
        self.put(&entry);
    }

    fn sensible_line_act(&mut self) {
        let place = self.dice.below(self.session.line.records.len());
        let record = match self.session.line.records.get(place) {
            Some(record) => record,
            None => return,
        };
        let (state, stuck) = (record.state, self.is_stuck(self.origins.of(true, place)));
        let id = self.who_at(true, place);
        let entry = match state {
            _ if stuck && self.mood != Mood::Crowd => with_name(GUARD_RUNS_OUT, id),
            line::State::Alert if self.dice.once_in(3) => with_choice(ACT, id, 2),
            line::State::Alert => with_choice(ACT, id, 1),
            _ if self.dice.once_in(150) => with_choice(ACT, id, 3),
            _ if self.dice.once_in(150) => with_name(GUARD_RUNS_OUT, id),
            _ => return,
        };
        self.put(&entry);
    }

    /// The connection of a record falls, retained or not: mostly both ends see
    /// it, with other steps between the two or not, and sometimes only one does.
    fn connection_falls(&mut self) {
        let place = self.dice.below(self.session.line.records.len());
        let origin = self.origins.of(true, place);
        let (clerk_sees, line_sees) = (!self.dice.once_in(4), !self.dice.once_in(4));
        if let Some(there) = self.origins.place(false, origin).filter(|_| clerk_sees) {
            let who = self.who_at(false, there);
            self.put(&with_name(FELL_AT_CLERK, who));
        }
        if line_sees {
            let who = self.who_at(true, place);
            self.put(&with_name(FELL_AT_LINE, who));
        }
    }

    fn any_clerk_act(&mut self) {
        let id = self.some_who(false);
        let entry = match self.dice.below(8) {
            0 => with_name(ACCEPT, id),
            1 | 2 => with_choice(USER_A_FREE, id, self.dice.below(2) as u8),
            3 => with_name(USER_CANCELS, id),
            4 => with_name(FELL_AT_CLERK, id),
            _ => with_choice(TIMER, id, 1 + self.dice.below(3) as u8),
        };
        self.put(&entry);
    }

    fn any_line_act(&mut self) {
        let id = self.some_who(true);
        let entry = match self.dice.below(5) {
            0 => with_name(GUARD_RUNS_OUT, id),
            1 => with_name(FELL_AT_LINE, id),
            _ => with_choice(ACT, id, 1 + self.dice.below(3) as u8),
        };
        self.put(&entry);
    }

    fn some_content(&mut self) -> Content {
        if self.dice.once_in(10) {
            return self.some_request();
        }
        let content = self.dice.pick(&contents_without_requests()).unwrap_or(Content::CcCancel);
        // A cancel ends a record's life, so it comes less often than the others.
        if content == Content::CcCancel && !self.dice.once_in(3) {
            return Content::CcExecPossible;
        }
        content
    }

    fn some_request(&mut self) -> Content {
        let number_a = self.some_number_a();
        let number_b = self.some_number_b();
        let service = u32::from(self.some_service());
        request_content(self.some_kind(), &number_a, &number_b, service, self.dice.below(6) as u32)
    }

    fn stray(&mut self, to_the_line: bool) {
        let carrier = self.dice.pick(&Carrier::ALL).unwrap_or(Carrier::Setup);
        let who = self.some_who(to_the_line);
        let content = self.some_content();
        let elements = self.elements_near(to_the_line, who.place.into());
        let bytes = bytes_of(carrier, who.identifier, content, &elements);
        if to_the_line {
            self.put(&to_line(who.place, &bytes));
        } else {
            let busy = self.dice.once_in(2);
            self.put(&to_clerk(busy, who.place, &bytes));
        }
    }

    /// A request that no ask stands behind: only so the line desk gets full.
    fn stray_request(&mut self) {
        let identifier = if self.dice.once_in(3) { None } else { Some(self.new_identifier()) };
        let content = self.some_request();
        let elements = self.elements_near(true, 0);
        self.put(&to_line(0, &bytes_of(Carrier::Setup, identifier, content, &elements)));
    }

    /// Looks where there is something to find, and sometimes anywhere.
    fn look(&mut self) {
        let waiting = self.session.line.records.iter().filter(|r| r.state == line::State::Invoked);
        let lines: Vec<Vec<u8>> = waiting.map(|r| r.number_b.clone()).collect();
        let anywhere = self.dice.once_in(5);
        let digits = match self.dice.pick(&lines) {
            Some(digits) if !anywhere => digits,
            _ => self.some_number_b(),
        };
        self.put(&look(&digits));
    }

    /// A busy line is mostly freed, a free one gets busy now and then.
    fn report(&mut self) {
        let digits = self.some_number_b();
        let times = if self.session.line.line_busy(&digits) { 8 } else { 3 };
        let busy = self.dice.once_in(times);
        self.put(&report(&digits, busy));
    }

    fn bad_number(&mut self) {
        let length = self.dice.below(20);
        let digits: Vec<u8> = (0..length).map(|_| self.dice.byte() % 12).collect();
        if self.dice.once_in(2) {
            self.put(&look(&digits));
        } else {
            let busy = self.dice.once_in(2);
            self.put(&report(&digits, busy));
        }
    }

    /// A byte of a number or a digit: all but the identifier's sixteen, if it is
    /// there.
    fn place_of_field(&mut self, bytes: &[u8]) -> usize {
        let raw = if bytes.get(2) == Some(&16) { 16 } else { 0 };
        let thrown = self.dice.below(bytes.len().saturating_sub(raw));
        if thrown < 3 {
            thrown
        } else {
            thrown + raw
        }
    }

    /// A message with a fault in it, mostly, and often with more behind that:
    /// a cut end, a number in another form, a byte that is out of most ranges.
    fn with_fault(&mut self, mut bytes: Vec<u8>) -> Vec<u8> {
        let place = self.place_of_field(&bytes);
        match self.dice.below(3) {
            0 => bytes.truncate(self.dice.below(bytes.len())),
            1 => {
                let form = self.dice.pick(&FORMS).unwrap_or(&[0x80]);
                let behind = bytes.get(place + 1..).unwrap_or(&[]).to_vec();
                bytes.truncate(place);
                bytes.extend_from_slice(form);
                if !self.dice.once_in(3) {
                    bytes.extend(behind);
                }
            }
            _ => {
                let value = 6 + self.dice.below(250) as u8;
                if let Some(byte) = bytes.get_mut(place) {
                    *byte = value;
                }
                if self.dice.once_in(3) {
                    bytes.truncate(place + 1);
                }
            }
        }
        bytes
    }

    /// Bytes that hold no message, mostly, for either desk or a write; half of
    /// them would have been requests, which have the most fields.
    fn bad_bytes(&mut self) {
        let content = if self.dice.once_in(2) { self.some_request() } else { self.some_content() };
        let carrier = self.dice.pick(&Carrier::ALL).unwrap_or(Carrier::Setup);
        let line_end = self.dice.once_in(2);
        let who = self.some_who(line_end);
        let elements = self.elements_near(line_end, who.place.into());
        let bytes = self.with_fault(bytes_of(carrier, who.identifier, content, &elements));
        let entry = match self.dice.below(5) {
            0..=3 if line_end => to_line(who.place, &bytes),
            0..=3 => to_clerk(self.dice.once_in(2), who.place, &bytes),
            _ => write_entry(&bytes, self.dice.below(12) as u8, self.dice.below(75) as u8),
        };
        self.put(&entry);
    }

    /// A desk is started anew, sometimes in vain.
    fn restart(&mut self) {
        let nothing: [(Vec<u8>, u8); 0] = [];
        let entry = match self.dice.below(24) {
            0..=3 => self.some_start_of_clerk(),
            4..=7 => self.some_start(),
            8 => start_line(&nothing, 3),
            9..=12 => start_line(&[([1, 1], 3), ([1, 10], 3)], 0),
            13..=15 => start_line(&[(vec![1], 3), (vec![], 3)], 1),
            16..=18 => start_line(&[(vec![1], 3), (vec![1; 16], 3)], 2),
            _ => start_line(&[([1, 1], 3), ([1, 1], 3)], 3),
        };
        self.put(&entry);
    }

    fn write(&mut self) {
        let content = self.some_content();
        let who = self.some_who(true);
        let carrier = self.dice.pick(&Carrier::ALL).unwrap_or(Carrier::Setup);
        let elements = self.elements_near(true, who.place.into());
        let bytes = self.weather(bytes_of(carrier, who.identifier, content, &elements));
        let place = self.dice.below(12) as u8;
        let size = self.dice.below(75) as u8;
        self.put(&write_entry(&bytes, place, size));
    }

    fn print(&mut self) {
        let code = if self.dice.once_in(2) { PRINT_CLERK } else { PRINT_LINE };
        self.put(&[code]);
    }

    fn choose_move(&mut self) -> Move {
        let weight = |moves: &[usize; 3], mood: Mood| match mood {
            Mood::Calm => moves[0],
            Mood::Crowd => moves[1],
            Mood::Storm => moves[2],
        };
        let all: usize = MOVES.iter().map(|(_, weights)| weight(weights, self.mood)).sum();
        let mut thrown = self.dice.below(all);
        for (chosen, weights) in MOVES.iter() {
            let share = weight(weights, self.mood);
            if thrown < share {
                return *chosen;
            }
            thrown -= share;
        }
        Move::Print
    }

    fn change_mood(&mut self) {
        self.mood = match self.dice.below(20) {
            0..=2 => Mood::Crowd,
            3..=8 => Mood::Storm,
            _ => Mood::Calm,
        };
        self.mood_left = 100 + self.dice.below(500);
        if self.mood == Mood::Calm {
            // All that is under way is lost, or calm would be late in coming.
            self.wire_to_line.clear();
            self.wire_to_clerk.clear();
        }
    }

    fn turn(&mut self) {
        if self.mood_left == 0 {
            self.change_mood();
        }
        self.mood_left -= usize::from(self.mood_left > 0);
        match self.choose_move() {
            // Half a desk is enough for most of the time.
            Move::Ask if self.mood != Mood::Crowd && self.session.clerk.records.len() > 9 => {}
            Move::Ask => self.ask(false),
            Move::DeliverToLine => self.deliver(true),
            Move::DeliverToClerk => self.deliver(false),
            Move::SensibleClerkAct => self.sensible_clerk_act(),
            Move::SensibleLineAct => self.sensible_line_act(),
            Move::Look => self.look(),
            Move::Report => self.report(),
            Move::ConnectionFalls => self.connection_falls(),
            Move::AnyClerkAct => self.any_clerk_act(),
            Move::AnyLineAct => self.any_line_act(),
            Move::StrayToClerk => self.stray(false),
            Move::StrayToLine => self.stray(true),
            Move::StrayRequest => self.stray_request(),
            Move::BadAsk => self.ask(true),
            Move::BadNumber => self.bad_number(),
            Move::BadBytes => self.bad_bytes(),
            Move::Restart => self.restart(),
            Move::Clock => self.clock(),
            Move::TickAtClerk => self.tick(false),
            Move::TickAtLine => self.tick(true),
            Move::Write => self.write(),
            Move::Print => self.print(),
        }
    }
}

pub fn scripts(seed: u64, entries: usize) -> Scripts {
    let mut player = Player::new(seed, entries);
    player.new_file();
    while player.left > 0 {
        player.turn();
    }
    player.scripts
}
