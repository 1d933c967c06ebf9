//! Plays a script: entries in, lines out, as REPLAY.md has them, and REPLAY-02.md
//! in its sections on requests 2, 5, 11, 1 and 6.

use crate::clerk::{Ask, ClerkDesk, FreeChoice, Timer};
use crate::codec::{message_bytes, read_message, write_message, Fault, Identifier, Refusal};
use crate::line::{Act, Line, LineDesk};
use crate::meant::Name;
use crate::outcome::{Kind, Notice, Outcome};
use crate::timers::{Lengths, Ticked};

/// One entry of a script. Choices that REPLAY.md doesn't list have no entry.
#[derive(Clone, PartialEq, Eq, Debug)]
pub enum Entry {
    StartLine { lines: Vec<Line>, keeps: bool, retains: bool },
    StartClerk(Lengths),
    Count(u32),
    Ask(Ask),
    ToClerk { user_a_busy: bool, place: usize, bytes: Vec<u8> },
    Accept(Name),
    UserAFree(Name, FreeChoice),
    UserCancels(Name),
    TimerRunsOut(Name, Timer),
    FellAtClerk(Name),
    TickAtClerk { room: usize },
    ToLine { place: usize, bytes: Vec<u8> },
    Report { digits: Vec<u8>, busy: bool },
    Look { digits: Vec<u8> },
    Act(Name, Act),
    GuardRunsOut(Name),
    FellAtLine(Name),
    TickAtLine { room: usize },
    Write { bytes: Vec<u8>, place: usize, size: usize },
    PrintClerk,
    PrintLine,
}

/// REPLAY-02: "room, two bytes, 0 to 2048 (more is a choice that is not listed)".
pub const MOST_ROOM: usize = 2048;

/// The part of the script that hasn't been read. Every reader gives None where
/// "the script ends inside an entry, or an entry has a code or a choice not
/// listed".
struct Unread<'a> {
    bytes: &'a [u8],
}

impl Unread<'_> {
    fn byte(&mut self) -> Option<u8> {
        let (first, rest) = self.bytes.split_first()?;
        self.bytes = rest;
        Some(*first)
    }

    fn raw(&mut self, count: usize) -> Option<Vec<u8>> {
        let taken = self.bytes.get(..count)?.to_vec();
        self.bytes = self.bytes.get(count..)?;
        Some(taken)
    }

    /// "numbers of more than one byte in an entry stand low byte first".
    fn four_bytes(&mut self) -> Option<u32> {
        Some(u32::from_le_bytes([self.byte()?, self.byte()?, self.byte()?, self.byte()?]))
    }

    /// "digits is a byte L and then L bytes"; "N, N bytes" reads the same way.
    /// The desk gets "the length L and at most the first 15 of the bytes": a
    /// length above 15 is out of range whatever the bytes, so all L of them
    /// can stand in the Vec.
    fn counted(&mut self) -> Option<Vec<u8>> {
        let count = self.byte()?;
        self.raw(usize::from(count))
    }

    /// Request 1: "id in an entry is a byte 0 or 16 (else it is a choice that is
    /// not listed) and so many bytes; 0 says that there is none".
    fn identifier(&mut self) -> Option<Option<Identifier>> {
        match self.byte()? {
            0 => Some(None),
            16 => {
                let mut identifier = [0; 16];
                for byte in identifier.iter_mut() {
                    *byte = self.byte()?;
                }
                Some(Some(identifier))
            }
            _ => None,
        }
    }

    /// "The place counts the desk's records from 0"; "one byte, always there". A
    /// desk has at most 32 records, so that "255 always is" absent.
    fn place(&mut self) -> Option<usize> {
        self.byte().map(usize::from)
    }

    /// "name is an id and then a place".
    fn name(&mut self) -> Option<Name> {
        Some(Name { identifier: self.identifier()?, place: self.place()? })
    }

    fn yes_or_no(&mut self) -> Option<bool> {
        match self.byte()? {
            0 => Some(false),
            1 => Some(true),
            _ => None,
        }
    }

    /// Sums of 1 and 2: 0 to 3 are listed, nothing above.
    fn two_bits(&mut self) -> Option<(bool, bool)> {
        match self.byte()? {
            sum @ 0..=3 => Some((sum % 2 == 1, sum >= 2)),
            _ => None,
        }
    }

    /// "count C, C times (digits, kinds: 1 CCBS + 2 CCNR), settings: 1 keeps +
    /// 2 retains by default".
    fn start_line(&mut self) -> Option<Entry> {
        let count = self.byte()?;
        let mut lines = Vec::new();
        for _ in 0..count {
            let digits = self.counted()?;
            let (allows_ccbs, allows_ccnr) = self.two_bits()?;
            lines.push(Line { digits, allows_ccbs, allows_ccnr, busy: false });
        }
        let (keeps, retains) = self.two_bits()?;
        Some(Entry::StartLine { lines, keeps, retains })
    }

    /// "four lengths of four bytes: T1, T2 of CCBS, T2 of CCNR, T3".
    fn start_clerk(&mut self) -> Option<Entry> {
        let (t1, t2_ccbs) = (self.four_bytes()?, self.four_bytes()?);
        let (t2_ccnr, t3) = (self.four_bytes()?, self.four_bytes()?);
        Some(Entry::StartClerk(Lengths { t1, t2_ccbs, t2_ccnr, t3 }))
    }

    fn room(&mut self) -> Option<usize> {
        let room = usize::from(u16::from_le_bytes([self.byte()?, self.byte()?]));
        (room <= MOST_ROOM).then_some(room)
    }

    /// "id, kind 1 CCBS or 2 CCNR, digits A, digits B, service low byte,
    /// service high byte, can-keep 0 or 1, preference"; the preference is
    /// "0 to 255, so that values out of range can be tried".
    fn ask(&mut self) -> Option<Entry> {
        let identifier = self.identifier()?;
        let kind = match self.byte()? {
            1 => Kind::Ccbs,
            2 => Kind::Ccnr,
            _ => return None,
        };
        let number_a = self.counted()?;
        let number_b = self.counted()?;
        let low = u32::from(self.byte()?);
        let high = u32::from(self.byte()?);
        let can_keep = self.yes_or_no()?;
        let preference = u32::from(self.byte()?);
        let service = low + 256 * high;
        Some(Entry::Ask(Ask { identifier, kind, number_a, number_b, service, can_keep, preference }))
    }

    /// "name; the choice", 0 resume or 1 go on to recall.
    fn user_a_free(&mut self) -> Option<Entry> {
        let name = self.name()?;
        let choice = if self.yes_or_no()? { FreeChoice::Recall } else { FreeChoice::Resume };
        Some(Entry::UserAFree(name, choice))
    }

    /// "name; the choice", 1 T1, 2 T2, 3 T3.
    fn timer(&mut self) -> Option<Entry> {
        let name = self.name()?;
        let timer = match self.byte()? {
            1 => Timer::T1,
            2 => Timer::T2,
            3 => Timer::T3,
            _ => return None,
        };
        Some(Entry::TimerRunsOut(name, timer))
    }

    /// "name; the act", 1 alerted, 2 call failed, 3 cancel.
    fn act(&mut self) -> Option<Entry> {
        let name = self.name()?;
        let act = match self.byte()? {
            1 => Act::Alerted,
            2 => Act::CallFailed,
            3 => Act::Cancel,
            _ => return None,
        };
        Some(Entry::Act(name, act))
    }

    /// "N, N bytes that hold a message, place P, size S".
    fn write(&mut self) -> Option<Entry> {
        let bytes = self.counted()?;
        let place = usize::from(self.byte()?);
        let size = usize::from(self.byte()?);
        Some(Entry::Write { bytes, place, size })
    }

    fn entry(&mut self) -> Option<Entry> {
        match self.byte()? {
            1 => self.start_line(),
            2 => self.start_clerk(),
            3 => Some(Entry::Count(self.four_bytes()?)),
            16 => self.ask(),
            17 => Some(Entry::ToClerk { user_a_busy: self.yes_or_no()?, place: self.place()?, bytes: self.counted()? }),
            18 => Some(Entry::Accept(self.name()?)),
            19 => self.user_a_free(),
            20 => Some(Entry::UserCancels(self.name()?)),
            21 => self.timer(),
            22 => Some(Entry::FellAtClerk(self.name()?)),
            23 => Some(Entry::TickAtClerk { room: self.room()? }),
            32 => Some(Entry::ToLine { place: self.place()?, bytes: self.counted()? }),
            33 => Some(Entry::Report { digits: self.counted()?, busy: self.yes_or_no()? }),
            34 => Some(Entry::Look { digits: self.counted()? }),
            35 => self.act(),
            36 => Some(Entry::GuardRunsOut(self.name()?)),
            37 => Some(Entry::FellAtLine(self.name()?)),
            38 => Some(Entry::TickAtLine { room: self.room()? }),
            48 => self.write(),
            64 => Some(Entry::PrintClerk),
            65 => Some(Entry::PrintLine),
            _ => None,
        }
    }
}

/// Takes one entry from the front of a script: the entry and what follows it.
pub fn take_entry(script: &[u8]) -> Option<(Entry, &[u8])> {
    let mut unread = Unread { bytes: script };
    let entry = unread.entry()?;
    Some((entry, unread.bytes))
}

/// What an entry gives. The fault's place is there "where a 17 or 32 is refused
/// with 1 or 2, because its bytes cannot be read", and in a write "where the
/// reader refused" (REPLAY-02, request 2).
#[derive(Clone, PartialEq, Eq, Debug)]
pub enum Answer {
    Step {
        outcome: Outcome,
        left: usize,
        fault_place: Option<usize>,
    },
    Written {
        refusal: u32,
        length: usize,
        buffer: Vec<u8>,
        fault_place: Option<usize>,
    },
    /// Request 6: what a tick told, and all of the bytes that it was lent.
    Ticked {
        told: Result<Ticked, Refusal>,
        buffer: Vec<u8>,
    },
    Printed {
        lines: Vec<String>,
    },
}

/// "At the start the clerk's desk is empty, and the line desk has no lines,
/// does not keep requests and does not retain connections." Request 6: "Before the
/// first entry the lengths are 20, 900, 3600 and 20, and the count is 0. The count
/// holds for every step and tick from its entry on, at both desks, over starts too."
#[derive(Clone, PartialEq, Eq, Debug, Default)]
pub struct Session {
    pub clerk: ClerkDesk,
    pub line: LineDesk,
    pub count: u32,
}

/// A step without bytes that could be refused: "`-` in every other line, a 2 of
/// an ask or of a start among them".
fn step(outcome: Outcome) -> Answer {
    Answer::Step { outcome, left: 0, fault_place: None }
}

/// A message was read and handed to the desk; what follows it is left.
fn heard(outcome: Outcome, rest: &[u8]) -> Answer {
    Answer::Step { outcome, left: rest.len(), fault_place: None }
}

/// "`left` stays as it was: all of the bytes."
fn unread(fault: Fault, bytes: &[u8]) -> Answer {
    Answer::Step { outcome: Outcome::refused(fault.refusal), left: bytes.len(), fault_place: Some(fault.place) }
}

impl Session {
    pub fn play(&mut self, entry: &Entry) -> Answer {
        match entry {
            Entry::StartLine { lines, keeps, retains } => step(self.start_line(lines, *keeps, *retains)),
            Entry::StartClerk(lengths) => step(self.start_clerk(*lengths)),
            Entry::Count(count) => {
                self.count = *count;
                step(Outcome::done())
            }
            Entry::Ask(ask) => step(self.clerk.ask(ask, self.count)),
            Entry::ToClerk { user_a_busy, place, bytes } => self.clerk_gets(*user_a_busy, *place, bytes),
            Entry::Accept(name) => step(self.clerk.accept(name)),
            Entry::UserAFree(name, choice) => step(self.clerk.user_a_free(name, *choice, self.count)),
            Entry::UserCancels(name) => step(self.clerk.user_cancels(name)),
            Entry::TimerRunsOut(name, timer) => step(self.clerk.timer_runs_out(name, *timer)),
            Entry::FellAtClerk(name) => step(self.clerk.connection_fell(name)),
            Entry::TickAtClerk { room } => tick(*room, |buffer| self.clerk.tick(self.count, buffer)),
            Entry::ToLine { place, bytes } => self.line_gets(*place, bytes),
            Entry::Report { digits, busy } => step(self.line.report(digits, *busy)),
            Entry::Look { digits } => step(self.line.look(digits)),
            Entry::Act(name, act) => step(self.line.act(name, *act)),
            Entry::GuardRunsOut(name) => step(self.line.guard_runs_out(name)),
            Entry::FellAtLine(name) => step(self.line.connection_fell(name)),
            Entry::TickAtLine { room } => tick(*room, |buffer| self.line.tick(self.count, buffer)),
            Entry::Write { bytes, place, size } => write(bytes, *place, *size),
            Entry::PrintClerk => Answer::Printed { lines: clerk_lines(&self.clerk) },
            Entry::PrintLine => Answer::Printed { lines: line_lines(&self.line) },
        }
    }

    /// "Refused: the desk stays as it was".
    fn start_line(&mut self, lines: &[Line], keeps: bool, retains: bool) -> Outcome {
        match LineDesk::start(lines.to_vec(), keeps, retains) {
            Ok(desk) => {
                self.line = desk;
                Outcome::done()
            }
            Err(refusal) => Outcome::refused(refusal),
        }
    }

    /// "Refused: the desk stays as it was", its lengths too.
    fn start_clerk(&mut self, lengths: Lengths) -> Outcome {
        match ClerkDesk::start(lengths) {
            Ok(desk) => {
                self.clerk = desk;
                Outcome::done()
            }
            Err(refusal) => Outcome::refused(refusal),
        }
    }

    /// "`left` is, for 17 and 32, how many bytes follow the message that was
    /// read (all of them where the bytes are refused)": a message that the
    /// desk refuses has been read, so there it is what follows the message. "The
    /// place of an entry is handed to the desk with the message".
    fn clerk_gets(&mut self, user_a_busy: bool, place: usize, bytes: &[u8]) -> Answer {
        match read_message(bytes) {
            Ok((message, rest)) => heard(self.clerk.take(&message, place, user_a_busy, self.count), rest),
            Err(fault) => unread(fault, bytes),
        }
    }

    fn line_gets(&mut self, place: usize, bytes: &[u8]) -> Answer {
        match read_message(bytes) {
            Ok((message, rest)) => heard(self.line.take(&message, place, self.count), rest),
            Err(fault) => unread(fault, bytes),
        }
    }
}

/// "the message is read, and written at P into S bytes of 0xEE"; "the reader's
/// refusal if the bytes hold no message, length 0 on a refusal". REPLAY-02: "the
/// place as above where the reader refused; `-` else, and so with 12".
fn write(bytes: &[u8], place: usize, size: usize) -> Answer {
    let mut buffer = vec![0xEE; size];
    let (refusal, length, fault_place) = match read_message(bytes) {
        Err(fault) => (fault.refusal.number(), 0, Some(fault.place)),
        Ok((message, _)) => match write_message(&message, &mut buffer, place) {
            Ok(length) => (0, length, None),
            Err(refusal) => (refusal.number(), 0, None),
        },
    };
    Answer::Written { refusal, length, buffer, fault_place }
}

/// "The tick is lent `room` bytes of 0xEE, and `buffer` is all of them afterwards".
fn tick(room: usize, desk_ticks: impl FnOnce(&mut [u8]) -> Result<Ticked, Refusal>) -> Answer {
    let mut buffer = vec![0xEE; room];
    let told = desk_ticks(&mut buffer);
    Answer::Ticked { told, buffer }
}

/// "bytes in lower-case hexadecimal, .. `-` for nothing".
fn hex(bytes: &[u8]) -> String {
    if bytes.is_empty() {
        return "-".to_string();
    }
    bytes.iter().map(|b| format!("{b:02x}")).collect()
}

/// Request 1: an identifier that there is not "prints as `-`".
fn identifier_text(identifier: &Option<Identifier>) -> String {
    identifier.map_or("-".to_string(), |identifier| hex(&identifier))
}

/// "digits as themselves, `-` withheld".
fn digits_text(digits: &[u8]) -> String {
    if digits.is_empty() {
        return "-".to_string();
    }
    digits.iter().map(|d| d.to_string()).collect()
}

fn bit(choice: bool) -> u32 {
    u32::from(choice)
}

/// "`-` for a timer that does not run".
fn deadline_text(deadline: Option<u32>) -> String {
    deadline.map_or("-".to_string(), |deadline| deadline.to_string())
}

/// "`c id kind A B service can-keep keep connection state down t1 t2 t3`. .. keep
/// 0, 1 or `-`; connection `-`, 1 RET, 2 RLS", "(1 for a record that is down)".
fn clerk_record_line(record: &crate::clerk::Record) -> String {
    let keep = record.keep.map_or("-".to_string(), |k| bit(k).to_string());
    let connection = record.connection.map_or("-".to_string(), |c| c.number().to_string());
    let deadlines = record.running_deadlines().map(deadline_text);
    format!(
        "c {} {} {} {} {} {} {} {} {} {} {}",
        identifier_text(&record.identifier),
        record.kind.number(),
        digits_text(&record.number_a),
        digits_text(&record.number_b),
        record.service,
        bit(record.can_keep),
        keep,
        connection,
        record.state.number(),
        bit(record.down),
        deadlines.join(" ")
    )
}

/// "`N c RECORDS`, then a line for each record in the order of storing"; the
/// entry's number N is put before the first line where the lines are printed.
fn clerk_lines(desk: &ClerkDesk) -> Vec<String> {
    let mut lines = vec![format!("c {}", desk.records.len())];
    lines.extend(desk.records.iter().map(clerk_record_line));
    lines
}

/// "`r id kind A B service keep connection state active suspended down guard`"; the
/// guard always runs.
fn line_record_line(record: &crate::line::Record) -> String {
    format!(
        "r {} {} {} {} {} {} {} {} {} {} {} {}",
        identifier_text(&record.identifier),
        record.kind.number(),
        digits_text(&record.number_a),
        digits_text(&record.number_b),
        record.service,
        bit(record.keep),
        record.connection.number(),
        record.state.number(),
        bit(record.active),
        bit(record.suspended),
        bit(record.down),
        record.guard
    )
}

/// "`N l LINES RECORDS`, then for each line `l digits kinds busy`, then for
/// each record in the order of acceptance" its own line.
fn line_lines(desk: &LineDesk) -> Vec<String> {
    let mut lines = vec![format!("l {} {}", desk.lines.len(), desk.records.len())];
    for line in &desk.lines {
        let kinds = bit(line.allows_ccbs) + 2 * bit(line.allows_ccnr);
        lines.push(format!("l {} {} {}", digits_text(&line.digits), kinds, bit(line.busy)));
    }
    lines.extend(desk.records.iter().map(line_record_line));
    lines
}

/// A place in decimal, that of a fault or of a record, "`-` for nothing".
fn place_text(place: Option<usize>) -> String {
    place.map_or("-".to_string(), |place| place.to_string())
}

/// "`N refusal message starts stops notice clear left place at`. `refusal` is 0 or
/// document 01's number."
fn step_line(number: usize, outcome: &Outcome, left: usize, fault_place: Option<usize>) -> String {
    let message = outcome.message.as_ref().map_or("-".to_string(), |m| hex(&message_bytes(m)));
    format!(
        "{} {} {} {} {} {} {} {} {} {}",
        number,
        outcome.refusal.map_or(0, |r| r.number()),
        message,
        outcome.starts,
        outcome.stops,
        outcome.notice.map_or(0, Notice::number),
        bit(outcome.clear),
        left,
        place_text(fault_place),
        place_text(outcome.at)
    )
}

/// "`N refusal expired places length buffer`"; "`places` are theirs, .. with a comma
/// between two and no space (`-` for none)"; "With refusal 12 these are `0 - 0`".
fn tick_line(number: usize, told: &Result<Ticked, Refusal>, buffer: &[u8]) -> String {
    let (refusal, places, length) = match told {
        Ok(ticked) => (0, &ticked.places[..], ticked.length),
        Err(refusal) => (refusal.number(), &[][..], 0),
    };
    let listed: Vec<String> = places.iter().map(usize::to_string).collect();
    let listed = if listed.is_empty() { "-".to_string() } else { listed.join(",") };
    format!("{number} {refusal} {} {listed} {length} {}", places.len(), hex(buffer))
}

/// The lines of one entry, each closed by a line feed; a write is "`N refusal
/// length buffer place`".
fn answer_text(number: usize, answer: &Answer) -> String {
    match answer {
        Answer::Step { outcome, left, fault_place } => {
            format!("{}\n", step_line(number, outcome, *left, *fault_place))
        }
        Answer::Written { refusal, length, buffer, fault_place } => {
            format!("{} {} {} {} {}\n", number, refusal, length, hex(buffer), place_text(*fault_place))
        }
        Answer::Ticked { told, buffer } => format!("{}\n", tick_line(number, told, buffer)),
        Answer::Printed { lines } => format!("{} {}\n", number, lines.join("\n")),
    }
}

/// Plays a whole script and hands each entry's text on.
pub fn play_script(script: &[u8], mut print: impl FnMut(&str)) {
    let mut session = Session::default();
    let mut rest = script;
    let mut number = 0;
    while !rest.is_empty() {
        let (entry, behind) = match take_entry(rest) {
            Some((entry, behind)) => (entry, behind),
            None => {
                // "the program prints `stop N`, N being the entry's number, and ends."
                print(&format!("stop {number}\n"));
                return;
            }
        };
        let answer = session.play(&entry);
        print(&answer_text(number, &answer));
        rest = behind;
        number += 1;
    }
}

#[cfg(test)]
mod tests;
