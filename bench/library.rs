//! The library's side: the exports of include/tollherring.h, and desks that are the host's own words.

use crate::side::{Ask, ClerkInput, CodecInput, Desk, Given, LineInput, Number, Step, Ticked, Told, LENGTHS};

const CLERK_WORDS: usize = 260;
const LINE_WORDS: usize = 594;
type ClerkWords = [u64; CLERK_WORDS];
type LineWords = [u64; LINE_WORDS];

#[rustfmt::skip]
extern "C" {
    fn tollherring_clerk_start(desk: &mut ClerkWords, t1: u32, t2_ccbs: u32, t2_ccnr: u32, t3: u32) -> u64;
    fn tollherring_clerk_ask(desk: &mut ClerkWords, count: u32, identifier: &Given, kind: u64, number_a: &[u8; 16], number_b: &[u8; 16],
        service: u64, can_keep: u64, preference: u64, out: *mut u8, room: usize, told: &mut Step) -> u64;
    fn tollherring_clerk_receive(desk: &mut ClerkWords, count: u32, place: u64, bytes: *const u8, length: usize, busy: u64, out: *mut u8, room: usize,
        told: &mut Step) -> u64;
    fn tollherring_clerk_act(desk: &mut ClerkWords, count: u32, place: u64, identifier: &Given, act: u64, out: *mut u8, room: usize,
        told: &mut Step) -> u64;
    fn tollherring_clerk_report(desk: &mut ClerkWords, count: u32, place: u64, identifier: &Given, timer: u64, out: *mut u8, room: usize,
        told: &mut Step) -> u64;
    fn tollherring_clerk_tick(desk: &mut ClerkWords, count: u32, out: *mut u8, room: usize, told: &mut Ticked) -> u64;
    fn tollherring_line_start(desk: &mut LineWords, lines: *const u8, bytes: usize, keep: u64, retain: u64) -> u64;
    fn tollherring_line_receive(desk: &mut LineWords, count: u32, place: u64, bytes: *const u8, length: usize, out: *mut u8, room: usize,
        told: &mut Step) -> u64;
    fn tollherring_line_report(desk: &mut LineWords, count: u32, number: &[u8; 16], busy: u64, out: *mut u8, room: usize, told: &mut Step) -> u64;
    fn tollherring_line_look(desk: &mut LineWords, count: u32, number: &[u8; 16], out: *mut u8, room: usize, told: &mut Step) -> u64;
    fn tollherring_line_act(desk: &mut LineWords, count: u32, place: u64, identifier: &Given, act: u64, out: *mut u8, room: usize,
        told: &mut Step) -> u64;
    fn tollherring_line_guard(desk: &mut LineWords, count: u32, place: u64, identifier: &Given, out: *mut u8, room: usize, told: &mut Step) -> u64;
    fn tollherring_line_tick(desk: &mut LineWords, count: u32, out: *mut u8, room: usize, told: &mut Ticked) -> u64;
    fn tollherring_message_read(bytes: *const u8, length: usize, identifier: &mut Given, number_a: &mut [u8; 16], number_b: &mut [u8; 16],
        message: &mut [u64; 4], taken: &mut u64, fault_at: &mut u64) -> u64;
    fn tollherring_message_write(identifier: &Given, number_a: &[u8; 16], number_b: &[u8; 16], message: &[u64; 4],
        out: *mut u8, room: usize, place: usize, written: &mut u64) -> u64;
}

#[derive(Clone)]
pub struct Clerk(ClerkWords);

#[derive(Clone)]
pub struct Line(LineWords);

/// A message in the header's form.
#[derive(Clone, Default)]
pub struct Held {
    identifier: Given,
    number_a: [u8; 16],
    number_b: [u8; 16],
    message: [u64; 4],
}

impl Clerk {
    pub fn start() -> Clerk {
        let mut words = [0; CLERK_WORDS];
        let [t1, t2_ccbs, t2_ccnr, t3] = LENGTHS;
        let refusal = unsafe { tollherring_clerk_start(&mut words, t1, t2_ccbs, t2_ccnr, t3) };
        assert_eq!(refusal, 0);
        Clerk(words)
    }
}

impl Line {
    /// Each line allows both kinds.
    pub fn start(lines: &[Number], keep: bool, retain: bool) -> Line {
        let mut words = [0; LINE_WORDS];
        let given: Vec<u8> = lines.iter().flat_map(|l| l.sixteen.iter().copied().chain([3])).collect();
        let refusal =
            unsafe { tollherring_line_start(&mut words, given.as_ptr(), given.len(), u64::from(keep), u64::from(retain)) };
        assert_eq!(refusal, 0);
        Line(words)
    }
}

#[rustfmt::skip]
fn ask(desk: &mut ClerkWords, count: u32, a: &Ask, out: &mut [u8], told: &mut Step) -> u64 {
    let (to, room) = (out.as_mut_ptr(), out.len());
    unsafe {
        tollherring_clerk_ask(desk, count, &a.identifier, a.kind, &a.number_a, &a.number_b, a.service, a.can_keep, a.preference, to, room, told)
    }
}

// Why every call here is safe: the pointers are of Rust references and slices, which are as long as they say and do not overlap.
impl Desk for Clerk {
    type Input = ClerkInput;

    #[inline(always)]
    fn step(&mut self, count: u32, input: &ClerkInput, out: &mut [u8], told: &mut Told) -> u64 {
        let (desk, to, room) = (&mut self.0, out.as_mut_ptr(), out.len());
        let Told { step, tick } = told;
        unsafe {
            match input {
                ClerkInput::Ask(a) => ask(desk, count, a, out, step),
                ClerkInput::Bytes(b, place, busy) => {
                    tollherring_clerk_receive(desk, count, *place as u64, b.as_ptr(), b.len(), *busy, to, room, step)
                }
                ClerkInput::Act(name, act) => {
                    tollherring_clerk_act(desk, count, name.own.place as u64, &name.given, *act, to, room, step)
                }
                ClerkInput::Timer(name, timer) => {
                    tollherring_clerk_report(desk, count, name.own.place as u64, &name.given, *timer, to, room, step)
                }
                ClerkInput::Tick(at, room) => tollherring_clerk_tick(desk, *at, out[..*room].as_mut_ptr(), *room, tick),
            }
        }
    }
}

impl Desk for Line {
    type Input = LineInput;

    #[inline(always)]
    fn step(&mut self, count: u32, input: &LineInput, out: &mut [u8], told: &mut Told) -> u64 {
        let (desk, to, room) = (&mut self.0, out.as_mut_ptr(), out.len());
        let Told { step, tick } = told;
        unsafe {
            match input {
                LineInput::Bytes(b, place) => {
                    tollherring_line_receive(desk, count, *place as u64, b.as_ptr(), b.len(), to, room, step)
                }
                LineInput::Report(n, busy) => tollherring_line_report(desk, count, &n.sixteen, *busy, to, room, step),
                LineInput::Look(n) => tollherring_line_look(desk, count, &n.sixteen, to, room, step),
                LineInput::Act(name, act) => {
                    tollherring_line_act(desk, count, name.own.place as u64, &name.given, *act, to, room, step)
                }
                LineInput::Guard(name) => tollherring_line_guard(desk, count, name.own.place as u64, &name.given, to, room, step),
                LineInput::Tick(at, room) => tollherring_line_tick(desk, *at, out[..*room].as_mut_ptr(), *room, tick),
            }
        }
    }
}

impl Desk for Held {
    type Input = CodecInput;

    #[inline(always)]
    fn step(&mut self, _: u32, input: &CodecInput, out: &mut [u8], told: &mut Told) -> u64 {
        let Held { identifier, number_a, number_b, message } = self;
        let [_, written, taken, .., fault, _, _] = &mut told.step;
        unsafe {
            match input {
                CodecInput::Read(b) => tollherring_message_read(b.as_ptr(), b.len(), identifier, number_a, number_b, message, taken, fault),
                CodecInput::Write(place) => {
                    tollherring_message_write(identifier, number_a, number_b, message, out.as_mut_ptr(), out.len(), *place, written)
                }
            }
        }
    }
}
