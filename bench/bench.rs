//! Speed: the library beside the independent program, the same inputs in one run. docs/SPEED.md tells what is measured and how;
//! bench/run builds and runs this.
//!
//!     bench clock          alternating rounds, medians; a row for each case
//!     bench once           each case once on each side, between two calls of `mark`: callgrind dumps its count there
//!     bench names          the cases, a line each
//!
//! Built with `--cfg pool`, the independent program's heap is the one of pool.rs.

#![allow(unknown_lints, unexpected_cfgs)]

#[path = "cases.rs"]
mod cases;
#[path = "../independent/src/clerk.rs"]
#[allow(dead_code)]
mod clerk;
#[path = "../independent/src/codec.rs"]
#[allow(dead_code)]
mod codec;
#[path = "library.rs"]
mod library;
#[path = "../independent/src/line.rs"]
#[allow(dead_code)]
mod line;
#[path = "../independent/src/meant.rs"]
#[allow(dead_code)]
mod meant;
#[path = "../independent/src/outcome.rs"]
#[allow(dead_code)]
mod outcome;
#[cfg(pool)]
#[path = "pool.rs"]
mod pool;
#[path = "reference.rs"]
mod reference;
#[path = "side.rs"]
mod side;
#[path = "../independent/src/timers.rs"]
#[allow(dead_code)]
mod timers;

use cases::{at_place, line_number, name, Case};
use side::{ClerkInput, Desk, LineInput, Number, Told, ROOM, UNTOLD};
use std::time::{Duration, Instant};

/// Copies of the prepared desk that a pass goes through, each stepped once; they are made anew outside the clock.
const COPIES: usize = 16;
const PASSES: usize = 100;
const ROUNDS: usize = 41;

/// What a step answers: its number, the outcome, and the buffer whole.
type Answer = (u64, Told, [u8; ROOM]);

fn answer<D: Desk>(desk: &mut D, count: u32, input: &D::Input) -> Answer {
    let (mut out, mut told) = ([0xEE; ROOM], UNTOLD);
    let refusal = desk.step(count, input, &mut out, &mut told);
    D::complete(&out, &mut told);
    (refusal, told, out)
}

/// Both desks after some inputs, one a second; every answer must be the same.
fn stepped<A: Desk, B: Desk<Input = A::Input>>(a: &A, b: &B, from: u32, inputs: &[A::Input], what: &str) -> (A, B) {
    let (mut a, mut b) = (a.clone(), b.clone());
    for (count, input) in (from..).zip(inputs) {
        assert_eq!(answer(&mut a, count, input), answer(&mut b, count, input), "{what}");
    }
    (a, b)
}

/// Both desks before the input that is measured. What they answer to it must be the same, and so must what they answer afterwards to each list of inputs.
fn prepared<A: Desk, B: Desk<Input = A::Input>>(a: &A, b: &B, case: &Case<A::Input>, after: &[Vec<A::Input>]) -> (A, B) {
    let (a, b) = stepped(a, b, 0, &case.given, case.name);
    let (mut c, mut d) = (a.clone(), b.clone());
    let (x, y) = (answer(&mut c, case.count(), &case.input), answer(&mut d, case.count(), &case.input));
    assert_eq!(x, y, "{}", case.name);
    assert_eq!(x.0, case.refusal, "{}", case.name);
    for inputs in after {
        stepped(&c, &d, case.count() + 1, inputs, &format!("{}, and then", case.name));
    }
    (a, b)
}

/// One pass: a step on each copy of the desk.
fn pass<D: Desk>(desk: &D, count: u32, input: &D::Input, copies: &mut Vec<D>) -> Duration {
    let (mut out, mut told) = ([0; ROOM], UNTOLD);
    copies.clear();
    copies.resize(COPIES, desk.clone());
    let start = Instant::now();
    for copy in copies.iter_mut() {
        copy.step(count, input, &mut out, &mut told);
    }
    start.elapsed()
}

/// What the clock itself takes.
fn empty() -> Duration {
    let start = Instant::now();
    start.elapsed()
}

fn median(mut samples: Vec<f64>) -> f64 {
    samples.sort_by(f64::total_cmp);
    samples[samples.len() / 2]
}

/// Nanoseconds a step on each side, and their ratio: medians over rounds in which the two sides take turns pass by pass.
fn clock<A: Desk, B: Desk<Input = A::Input>>(a: &A, b: &B, count: u32, input: &A::Input) -> (f64, f64, f64) {
    let (mut copies_a, mut copies_b) = (Vec::new(), Vec::new());
    let (mut library, mut independent, mut ratios) = (Vec::new(), Vec::new(), Vec::new());
    for _ in 0..ROUNDS {
        let mut spent = [Duration::ZERO; 3];
        for _ in 0..PASSES {
            spent[0] += pass(a, count, input, &mut copies_a);
            spent[1] += pass(b, count, input, &mut copies_b);
            spent[2] += empty();
        }
        let [x, y, none] = spent.map(|d| d.as_nanos() as f64 / (PASSES * COPIES) as f64);
        library.push(x - none);
        independent.push(y - none);
        ratios.push((x - none) / (y - none));
    }
    (median(library), median(independent), median(ratios))
}

/// A place that callgrind is told of (--dump-before=mark): what was counted since the last one is written down there.
#[inline(never)]
#[no_mangle]
pub extern "C" fn mark() {
    // a call of an empty function could be left out
    unsafe { std::ptr::read_volatile(&ROOM) };
}

/// The step once on each side, on a copy; a first time before, so that no side pays for its first call.
fn once<D: Desk>(desk: &D, count: u32, input: &D::Input) {
    for _ in 0..2 {
        let (mut copy, mut out, mut told) = (desk.clone(), [0; ROOM], UNTOLD);
        mark();
        copy.step(count, input, &mut out, &mut told);
        mark();
    }
}

/// What is done with the cases of one desk.
fn run<A: Desk, B: Desk<Input = A::Input>>(mode: &str, what: &str, a: A, b: B, cases: &[Case<A::Input>], after: &[Vec<A::Input>]) {
    for case in cases {
        let name = format!("{what}: {}", case.name);
        let (a, b) = prepared(&a, &b, case, after);
        match mode {
            "clock" => {
                let (library, independent, ratio) = clock(&a, &b, case.count(), &case.input);
                println!("{name}\t{library:.1}\t{independent:.1}\t{ratio:.2}");
            }
            "once" => {
                once(&a, case.count(), &case.input);
                once(&b, case.count(), &case.input);
            }
            _ => println!("{name}"),
        }
    }
}

fn main() {
    let mode = std::env::args().nth(1).unwrap_or_default();
    let lines: Vec<Number> = (0..16).map(line_number).collect();
    // afterwards every record is cancelled, by its identifier, and those that have none by their place: both desks must hold the same ones, in the same state
    let cancels = (0..17).map(name).chain((0..17).map(|_| at_place(0))).map(|name| ClerkInput::Act(name, 4)).collect();
    let looks = (0..16).map(|n| LineInput::Look(line_number(n)));
    let line_names = (0..48).map(name).chain((0..33).map(|_| at_place(0)));
    let line_cancels = looks.chain(line_names.map(|name| LineInput::Act(name, 3))).collect();
    // or else every record expires, in ticks a second apart where timers of each length run out: both desks must hold the same deadlines
    let ticks = (20..70).chain(900..980).chain([5000]).map(|count| ClerkInput::Tick(count, ROOM)).collect();
    let line_ticks = (3660..3710).chain(86460..86510).map(|count| LineInput::Tick(count, ROOM)).collect();
    run(&mode, "codec", library::Held::default(), reference::Held::None, &cases::codec_cases(), &[]);
    run(&mode, "clerk", library::Clerk::start(), reference::clerk_desk(), &cases::clerk_cases(), &[cancels, ticks]);
    let desks = (library::Line::start(&lines, true, true), reference::line_desk(&lines, true, true));
    run(&mode, "line", desks.0, desks.1, &cases::line_cases(), &[line_cancels, line_ticks]);
}
