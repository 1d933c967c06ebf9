//! The independent program's side: its own reader, desks and writer, unchanged. Around each step stands only what makes the two comparable: a
//! message is read from bytes, the message sent is written into the caller's buffer, and the outcome is told as the same eleven numbers, that of a tick as its own.
//! Each is a function of its own that is not inlined, as the library's exports are, with a name that callgrind can be given.

use crate::clerk::{ClerkDesk, FreeChoice, Timer};
use crate::codec::{read_message, write_message, Fault, Message, Refusal};
use crate::line::{Act, Line, LineDesk};
use crate::meant::Name;
use crate::outcome::{Notice, Outcome};
use crate::side::{Ask, ClerkInput, CodecInput, Desk, LineInput, Number, Step, Ticked, Told, LENGTHS};
use crate::timers::{self, Lengths};

fn tell(outcome: &Outcome, next: usize, out: &mut [u8], told: &mut Step) -> u64 {
    let length = match &outcome.message {
        Some(message) => match write_message(message, out, 0) {
            Ok(length) => length,
            Err(refusal) => return refuse(refusal, told),
        },
        None => 0,
    };
    let refusal = outcome.refusal.map_or(0, |r| u64::from(r.number()));
    let notice = outcome.notice.map_or(0, |n: Notice| u64::from(n.number()));
    let (starts, stops) = (u64::from(outcome.starts), u64::from(outcome.stops));
    let (clear, placed, at) = (u64::from(outcome.clear), u64::from(outcome.at.is_some()), outcome.at.unwrap_or(0) as u64);
    *told = [refusal, length as u64, next as u64, starts, stops, notice, clear, 0, 0, placed, at];
    refusal
}

fn refuse(refusal: Refusal, told: &mut Step) -> u64 {
    *told = [u64::from(refusal.number()), 0, 0, 0, 0, 0, 0, 0, 0, 0, 0];
    told[0]
}

/// Bytes that cannot be read, and the place of the fault.
fn refuse_bytes(fault: Fault, told: &mut Step) -> u64 {
    *told = [u64::from(fault.refusal.number()), 0, 0, 0, 0, 0, 0, 1, fault.place as u64, 0, 0];
    told[0]
}

/// What a tick did. The notice is the same for each record that expired, and no call is to be cleared; the lengths of the messages are found out later.
fn tell_tick(ticked: Result<timers::Ticked, Refusal>, notice: u64, told: &mut Ticked) -> u64 {
    *told = [0; 131];
    match ticked {
        Ok(done) => {
            told[1] = done.length as u64;
            told[2] = done.places.len() as u64;
            for (expiry, place) in told[3..].chunks_exact_mut(4).zip(&done.places) {
                expiry[0] = *place as u64;
                expiry[1] = notice;
            }
        }
        Err(refusal) => told[0] = u64::from(refusal.number()),
    }
    told[0]
}

/// The program tells the bytes of all messages of a tick: the length of each is read out of them.
fn tell_lengths(out: &[u8], told: &mut Ticked) {
    let (mut rest, expired) = (&out[..told[1] as usize], told[2] as usize);
    for expiry in told[3..].chunks_exact_mut(4).take(expired) {
        let (_, behind) = read_message(rest).unwrap();
        expiry[3] = (rest.len() - behind.len()) as u64;
        rest = behind;
    }
}

#[inline(never)]
#[no_mangle]
pub fn independent_clerk_ask(desk: &mut ClerkDesk, count: u32, ask: &Ask, out: &mut [u8], told: &mut Step) -> u64 {
    tell(&desk.ask(&ask.own, count), 0, out, told)
}

#[inline(never)]
#[no_mangle]
#[rustfmt::skip]
pub fn independent_clerk_receive(desk: &mut ClerkDesk, count: u32, place: usize, bytes: &[u8], busy: u64, out: &mut [u8], told: &mut Step) -> u64 {
    match read_message(bytes) {
        Ok((message, rest)) => tell(&desk.take(&message, place, busy == 1, count), bytes.len() - rest.len(), out, told),
        Err(fault) => refuse_bytes(fault, told),
    }
}

#[inline(never)]
#[no_mangle]
pub fn independent_clerk_act(desk: &mut ClerkDesk, count: u32, id: &Name, act: u64, out: &mut [u8], told: &mut Step) -> u64 {
    let outcome = match act {
        1 => desk.accept(id),
        2 => desk.user_a_free(id, FreeChoice::Resume, count),
        3 => desk.user_a_free(id, FreeChoice::Recall, count),
        4 => desk.user_cancels(id),
        _ => return refuse(Refusal::OutOfRange, told),
    };
    tell(&outcome, 0, out, told)
}

#[inline(never)]
#[no_mangle]
pub fn independent_clerk_report(desk: &mut ClerkDesk, id: &Name, timer: u64, out: &mut [u8], told: &mut Step) -> u64 {
    let which = match timer {
        1 => Timer::T1,
        2 => Timer::T2,
        3 => Timer::T3,
        _ => return refuse(Refusal::OutOfRange, told),
    };
    tell(&desk.timer_runs_out(id, which), 0, out, told)
}

#[inline(never)]
#[no_mangle]
pub fn independent_clerk_tick(desk: &mut ClerkDesk, count: u32, out: &mut [u8], told: &mut Ticked) -> u64 {
    tell_tick(desk.tick(count, out), u64::from(Notice::Failed.number()), told)
}

#[inline(never)]
#[no_mangle]
#[rustfmt::skip]
pub fn independent_line_receive(desk: &mut LineDesk, count: u32, place: usize, bytes: &[u8], out: &mut [u8], told: &mut Step) -> u64 {
    match read_message(bytes) {
        Ok((message, rest)) => tell(&desk.take(&message, place, count), bytes.len() - rest.len(), out, told),
        Err(fault) => refuse_bytes(fault, told),
    }
}

#[inline(never)]
#[no_mangle]
pub fn independent_line_report(desk: &mut LineDesk, digits: &[u8], busy: u64, out: &mut [u8], told: &mut Step) -> u64 {
    if busy > 1 {
        return refuse(Refusal::OutOfRange, told);
    }
    tell(&desk.report(digits, busy == 1), 0, out, told)
}

#[inline(never)]
#[no_mangle]
pub fn independent_line_look(desk: &mut LineDesk, digits: &[u8], out: &mut [u8], told: &mut Step) -> u64 {
    tell(&desk.look(digits), 0, out, told)
}

#[inline(never)]
#[no_mangle]
pub fn independent_line_act(desk: &mut LineDesk, id: &Name, act: u64, out: &mut [u8], told: &mut Step) -> u64 {
    let what = match act {
        1 => Act::Alerted,
        2 => Act::CallFailed,
        3 => Act::Cancel,
        _ => return refuse(Refusal::OutOfRange, told),
    };
    tell(&desk.act(id, what), 0, out, told)
}

#[inline(never)]
#[no_mangle]
pub fn independent_line_guard(desk: &mut LineDesk, id: &Name, out: &mut [u8], told: &mut Step) -> u64 {
    tell(&desk.guard_runs_out(id), 0, out, told)
}

#[inline(never)]
#[no_mangle]
pub fn independent_line_tick(desk: &mut LineDesk, count: u32, out: &mut [u8], told: &mut Ticked) -> u64 {
    tell_tick(desk.tick(count, out), 0, told)
}

/// The reader alone: the message, with its own heap, stays in the caller's place until the next one is read there.
#[inline(never)]
#[no_mangle]
pub fn independent_message_read(bytes: &[u8], message: &mut Option<Message>, taken: &mut u64, place: &mut u64) -> u64 {
    match read_message(bytes) {
        Ok((read, rest)) => {
            *message = Some(read);
            *taken = (bytes.len() - rest.len()) as u64;
            0
        }
        Err(fault) => {
            *place = fault.place as u64;
            u64::from(fault.refusal.number())
        }
    }
}

#[inline(never)]
#[no_mangle]
pub fn independent_message_write(message: &Message, out: &mut [u8], place: usize, written: &mut u64) -> u64 {
    match write_message(message, out, place) {
        Ok(length) => {
            *written = length as u64;
            0
        }
        Err(refusal) => u64::from(refusal.number()),
    }
}

pub fn clerk_desk() -> ClerkDesk {
    let [t1, t2_ccbs, t2_ccnr, t3] = LENGTHS;
    ClerkDesk::start(Lengths { t1, t2_ccbs, t2_ccnr, t3 }).unwrap()
}

/// Each line allows both kinds.
pub fn line_desk(lines: &[Number], keep: bool, retain: bool) -> LineDesk {
    let line = |n: &Number| Line { digits: n.digits.clone(), allows_ccbs: true, allows_ccnr: true, busy: false };
    LineDesk::start(lines.iter().map(line).collect(), keep, retain).unwrap()
}

impl Desk for ClerkDesk {
    type Input = ClerkInput;

    #[inline(always)]
    fn step(&mut self, count: u32, input: &ClerkInput, out: &mut [u8], told: &mut Told) -> u64 {
        let Told { step, tick } = told;
        match input {
            ClerkInput::Ask(a) => independent_clerk_ask(self, count, a, out, step),
            ClerkInput::Bytes(b, place, busy) => independent_clerk_receive(self, count, *place, b, *busy, out, step),
            ClerkInput::Act(name, act) => independent_clerk_act(self, count, &name.own, *act, out, step),
            ClerkInput::Timer(name, timer) => independent_clerk_report(self, &name.own, *timer, out, step),
            ClerkInput::Tick(at, room) => independent_clerk_tick(self, *at, &mut out[..*room], tick),
        }
    }

    fn complete(out: &[u8], told: &mut Told) {
        tell_lengths(out, &mut told.tick);
    }
}

impl Desk for LineDesk {
    type Input = LineInput;

    #[inline(always)]
    fn step(&mut self, count: u32, input: &LineInput, out: &mut [u8], told: &mut Told) -> u64 {
        let Told { step, tick } = told;
        match input {
            LineInput::Bytes(b, place) => independent_line_receive(self, count, *place, b, out, step),
            LineInput::Report(n, busy) => independent_line_report(self, &n.digits, *busy, out, step),
            LineInput::Look(n) => independent_line_look(self, &n.digits, out, step),
            LineInput::Act(name, act) => independent_line_act(self, &name.own, *act, out, step),
            LineInput::Guard(name) => independent_line_guard(self, &name.own, out, step),
            LineInput::Tick(at, room) => independent_line_tick(self, *at, &mut out[..*room], tick),
        }
    }

    fn complete(out: &[u8], told: &mut Told) {
        tell_lengths(out, &mut told.tick);
    }
}

/// A message as the independent program holds it.
pub type Held = Option<Message>;

impl Desk for Held {
    type Input = CodecInput;

    #[inline(always)]
    fn step(&mut self, _: u32, input: &CodecInput, out: &mut [u8], told: &mut Told) -> u64 {
        let [_, written, taken, .., fault, _, _] = &mut told.step;
        match (input, self) {
            (CodecInput::Read(b), held) => independent_message_read(b, held, taken, fault),
            (CodecInput::Write(place), Some(message)) => independent_message_write(message, out, *place, written),
            (CodecInput::Write(_), None) => unreachable!("a message is read before it is written"),
        }
    }
}
