//! Plays a script from standard input on the library, through the Rust module, and prints the lines of docs/REPLAY.md. With the word `short` it lends a heap
//! block of two bytes as one of 54: a fault that a checker has to find.

#[path = "../../rust/tollherring.rs"]
mod tollherring;

use std::fmt::Write as _;
use std::io::{Read, Write};
use tollherring::*;

/// The part of the script that hasn't been read: None where it ends inside an entry, or a choice is not listed.
struct Unread<'s>(&'s [u8]);

impl<'s> Unread<'s> {
    fn run(&mut self, count: usize) -> Option<&'s [u8]> {
        let run = self.0.get(..count)?;
        self.0 = &self.0[count..];
        Some(run)
    }

    fn byte(&mut self) -> Option<u8> {
        self.run(1).map(|run| run[0])
    }

    /// A byte that has to be one of those listed.
    fn listed(&mut self, least: u8, most: u8) -> Option<u8> {
        self.byte().filter(|value| (least..=most).contains(value))
    }

    fn counted(&mut self) -> Option<&'s [u8]> {
        let count = self.byte()?;
        self.run(usize::from(count))
    }

    /// Low byte first.
    fn four(&mut self) -> Option<u32> {
        Some(u32::from_le_bytes(self.run(4)?.try_into().ok()?))
    }

    /// How many bytes a tick is lent.
    fn room(&mut self) -> Option<usize> {
        let room = usize::from(u16::from_le_bytes(self.run(2)?.try_into().ok()?));
        Some(room).filter(|room| *room <= 2048)
    }

    /// A length, 0 or 16, and so many bytes: None within where there is no identifier.
    fn identifier(&mut self) -> Option<Option<Identifier>> {
        match self.byte()? {
            0 => Some(None),
            16 => Some(Some(Identifier(self.run(16)?.try_into().ok()?))),
            _ => None,
        }
    }

    /// The place that the host names.
    fn place(&mut self) -> Option<usize> {
        self.byte().map(usize::from)
    }

    /// An identifier or none, and a place, which is there either way.
    fn name(&mut self) -> Option<Name> {
        let (identifier, place) = (self.identifier()?, self.place()?);
        Some(identifier.map_or(Name::Place(place), Name::Identifier))
    }

    /// The length, in range or not, and at most the first 15 of the bytes.
    fn number(&mut self) -> Option<Number> {
        let mut number = [0; 16];
        let digits = self.counted()?;
        number[0] = digits.len() as u8;
        number[1..].iter_mut().zip(digits).for_each(|(place, digit)| *place = *digit);
        Some(Number(number))
    }
}

struct Session {
    clerk: Box<ClerkDesk>,
    line: Box<LineDesk>,
    count: u32,
    out: Box<[u8]>,
    text: String,
}

fn hex(bytes: &[u8]) -> String {
    if bytes.is_empty() {
        return "-".to_string();
    }
    let digit = |value: u8| char::from(b"0123456789abcdef"[usize::from(value)]);
    bytes.iter().flat_map(|byte| [digit(byte / 16), digit(byte % 16)]).collect()
}

/// The last fields of a step and of a write: only bytes that cannot be read have the place of a fault, and only some steps are about a record.
fn place_text(place: Option<usize>) -> String {
    place.map_or("-".to_string(), |place| place.to_string())
}

/// A deadline, of a timer that runs.
fn count_text(count: Option<u32>) -> String {
    count.map_or("-".to_string(), |count| count.to_string())
}

fn identifier_text(identifier: Option<Identifier>) -> String {
    hex(identifier.as_ref().map_or(&[], |identifier| &identifier.0))
}

fn outcome_text(number: usize, outcome: &Outcome, left: usize) -> String {
    format!(
        "{} {} {} {} {} {} {} {} {} {}\n",
        number,
        outcome.refusal.map_or(0, Refusal::number),
        hex(outcome.message.unwrap_or(&[])),
        outcome.starts.number(),
        outcome.stops.number(),
        outcome.notice.map_or(0, Notice::number),
        u8::from(outcome.clear),
        left,
        place_text(outcome.fault_at),
        place_text(outcome.record_at)
    )
}

/// A desk's start has no outcome of its own.
fn start_text(number: usize, refusal: Option<Refusal>) -> String {
    format!("{} {} - 0 0 0 0 0 - -\n", number, refusal.map_or(0, Refusal::number))
}

/// The tick is lent a block of the room's own size, so that a checker sees a byte too far.
fn tick_text(
    number: usize,
    room: usize,
    tick: impl for<'o> FnOnce(&'o mut [u8]) -> Result<Ticked<'o>, Refusal>,
) -> Option<String> {
    let mut out = vec![0xEE; room].into_boxed_slice();
    let (refusal, places, length) = match tick(&mut out) {
        Ok(ticked) => (0, ticked.expired().map(|e| e.place.to_string()).collect(), ticked.messages.len()),
        Err(refusal) => (refusal.number(), Vec::new(), 0),
    };
    let named = if places.is_empty() { "-".to_string() } else { places.join(",") };
    Some(format!("{} {} {} {} {} {}\n", number, refusal, places.len(), named, length, hex(&out)))
}

impl Session {
    fn start_clerk(&mut self, number: usize, unread: &mut Unread) -> Option<String> {
        let (t1, t2_ccbs, t2_ccnr, t3) = (unread.four()?, unread.four()?, unread.four()?, unread.four()?);
        let started = ClerkDesk::start(&Lengths { t1, t2_ccbs, t2_ccnr, t3 });
        let refusal = started.as_ref().err().copied();
        if let Ok(desk) = started {
            *self.clerk = desk;
        }
        Some(start_text(number, refusal))
    }

    fn start_line(&mut self, number: usize, unread: &mut Unread) -> Option<String> {
        let mut lines = Vec::new();
        for _ in 0..unread.byte()? {
            lines.push(LineGiven { number: unread.number()?, kinds: unread.listed(0, 3)? });
        }
        let settings = unread.listed(0, 3)?;
        let started = LineDesk::start(&lines, settings % 2 == 1, settings >= 2);
        let refusal = started.as_ref().err().copied();
        if let Ok(desk) = started {
            *self.line = desk;
        }
        Some(start_text(number, refusal))
    }

    fn ask(&mut self, number: usize, unread: &mut Unread) -> Option<String> {
        let identifier = unread.identifier()?;
        let kind = Kind::from_number(u64::from(unread.byte()?))?;
        let (number_a, number_b) = (unread.number()?, unread.number()?);
        let service = u16::from_le_bytes([unread.byte()?, unread.byte()?]);
        let can_keep = unread.listed(0, 1)? == 1;
        let preference = u64::from(unread.byte()?);
        let outcome = match Preference::from_number(preference) {
            Some(preference) => {
                let ask = Ask { kind, service, can_keep, preference };
                self.clerk.ask(self.count, identifier, &number_a, &number_b, &ask, &mut self.out)
            }
            None => {
                let (kind, service, can_keep) = (kind.number(), u64::from(service), u64::from(can_keep));
                self.clerk.ask_numbers(
                    self.count,
                    identifier,
                    kind,
                    &number_a,
                    &number_b,
                    service,
                    can_keep,
                    preference,
                    &mut self.out,
                )
            }
        };
        Some(outcome_text(number, &outcome, 0))
    }

    fn clerk_entry(&mut self, code: u8, number: usize, unread: &mut Unread) -> Option<String> {
        if code == 17 {
            let (busy, place) = (unread.listed(0, 1)? == 1, Some(unread.place()?));
            // a block of the bytes' own size, so that a checker sees one that is read too far
            let bytes = unread.counted()?.to_vec().into_boxed_slice();
            let outcome = self.clerk.receive(self.count, place, &bytes, busy, &mut self.out);
            return Some(outcome_text(number, &outcome, bytes.len() - outcome.next));
        }
        let name = unread.name()?;
        let outcome = match code {
            18 => self.clerk.act(self.count, name, Act::Accept, &mut self.out),
            19 => {
                let act = if unread.listed(0, 1)? == 1 { Act::GoOn } else { Act::Resume };
                self.clerk.act(self.count, name, act, &mut self.out)
            }
            20 => self.clerk.act(self.count, name, Act::Cancel, &mut self.out),
            22 => self.clerk.act(self.count, name, Act::Fell, &mut self.out),
            _ => self.clerk.report(self.count, name, Timer::from_number(u64::from(unread.byte()?))?, &mut self.out),
        };
        Some(outcome_text(number, &outcome, 0))
    }

    fn line_entry(&mut self, code: u8, number: usize, unread: &mut Unread) -> Option<String> {
        if code == 32 {
            let place = Some(unread.place()?);
            let bytes = unread.counted()?.to_vec().into_boxed_slice();
            let outcome = self.line.receive(self.count, place, &bytes, &mut self.out);
            return Some(outcome_text(number, &outcome, bytes.len() - outcome.next));
        }
        let outcome = match code {
            33 => {
                let digits = unread.number()?;
                self.line.report(self.count, &digits, unread.listed(0, 1)? == 1)
            }
            34 => self.line.look(self.count, &unread.number()?, &mut self.out),
            35 => {
                let name = unread.name()?;
                self.line.act(self.count, name, LineAct::from_number(u64::from(unread.listed(1, 3)?))?, &mut self.out)
            }
            37 => self.line.act(self.count, unread.name()?, LineAct::Fell, &mut self.out),
            _ => self.line.guard(self.count, unread.name()?, &mut self.out),
        };
        Some(outcome_text(number, &outcome, 0))
    }

    fn clerk_text(&self, number: usize) -> String {
        let mut text = format!("{} c {}\n", number, self.clerk.records().count());
        for r in self.clerk.records() {
            let keep = r.keep.map_or("-".to_string(), |keep| u8::from(keep).to_string());
            let connection = r.connection.map_or("-".to_string(), |connection| connection.number().to_string());
            let (id, kind, can_keep) = (identifier_text(r.identifier), r.kind.number(), u8::from(r.can_keep));
            let (state, down) = (r.state.number(), u8::from(r.down));
            let _ = writeln!(
                text,
                "c {} {} {} {} {} {} {} {} {} {} {} {} {}",
                id,
                kind,
                r.number_a,
                r.number_b,
                r.service,
                can_keep,
                keep,
                connection,
                state,
                down,
                count_text(r.t1),
                count_text(r.t2),
                count_text(r.t3)
            );
        }
        text
    }

    fn line_text(&self, number: usize) -> String {
        let mut text = format!("{} l {} {}\n", number, self.line.lines().count(), self.line.records().count());
        for line in self.line.lines() {
            let _ = writeln!(text, "l {} {} {}", line.number, line.kinds, u8::from(line.busy));
        }
        for r in self.line.records() {
            let (id, kind, keep, connection) =
                (identifier_text(r.identifier), r.kind.number(), u8::from(r.keep), r.connection.number());
            let (state, active, suspended, down) =
                (r.state.number(), u8::from(r.active), u8::from(r.suspended), u8::from(r.down));
            let _ = write!(text, "r {} {} {} {} {}", id, kind, r.number_a, r.number_b, r.service);
            let _ = writeln!(text, " {} {} {} {} {} {} {}", keep, connection, state, active, suspended, down, r.guard);
        }
        text
    }

    /// The lines of one entry; None where the program has to stop.
    fn entry(&mut self, number: usize, unread: &mut Unread) -> Option<String> {
        match unread.byte()? {
            1 => self.start_line(number, unread),
            2 => self.start_clerk(number, unread),
            3 => {
                self.count = unread.four()?;
                Some(start_text(number, None))
            }
            16 => self.ask(number, unread),
            23 => {
                let (count, clerk) = (self.count, &mut self.clerk);
                tick_text(number, unread.room()?, |out| clerk.tick(count, out))
            }
            38 => {
                let (count, line) = (self.count, &mut self.line);
                tick_text(number, unread.room()?, |out| line.tick(count, out))
            }
            code @ 17..=22 => self.clerk_entry(code, number, unread),
            code @ 32..=37 => self.line_entry(code, number, unread),
            48 => written_text(number, unread),
            64 => Some(self.clerk_text(number)),
            65 => Some(self.line_text(number)),
            _ => None,
        }
    }

    fn play(&mut self, script: &[u8]) {
        let mut unread = Unread(script);
        let mut number = 0;
        while !unread.0.is_empty() {
            match self.entry(number, &mut unread) {
                Some(lines) => self.text.push_str(&lines),
                None => {
                    let _ = writeln!(self.text, "stop {}", number);
                    return;
                }
            }
            number += 1;
        }
    }
}

fn written_text(number: usize, unread: &mut Unread) -> Option<String> {
    let bytes = unread.counted()?.to_vec().into_boxed_slice();
    let place = usize::from(unread.byte()?);
    let mut buffer = vec![0xEE; usize::from(unread.byte()?)].into_boxed_slice();
    let (written, fault) = match Message::read(&bytes) {
        Ok((message, _)) => (message.write(&mut buffer, place), None),
        Err(fault) => (Err(fault.refusal), Some(fault.at)),
    };
    let refusal = written.err().map_or(0, Refusal::number);
    Some(format!("{} {} {} {} {}\n", number, refusal, written.unwrap_or(0), hex(&buffer), place_text(fault)))
}

fn main() -> std::io::Result<()> {
    let mut script = Vec::new();
    std::io::stdin().read_to_end(&mut script)?;
    let mut session = Session {
        clerk: Box::new(ClerkDesk::default()),
        line: Box::new(LineDesk::start(&[], false, false).expect("a desk without lines")),
        count: 0,
        out: vec![0; MESSAGE_MOST].into_boxed_slice(),
        text: String::new(),
    };
    if std::env::args().nth(1).as_deref() == Some("short") {
        let block = Box::leak(vec![0u8; MESSAGE_LEAST - 1].into_boxed_slice()).as_mut_ptr();
        // the fault: the block is not of that size
        session.out = unsafe { Box::from_raw(std::ptr::slice_from_raw_parts_mut(block, MESSAGE_MOST)) };
    }
    session.play(&script);
    std::io::stdout().write_all(session.text.as_bytes())
}
