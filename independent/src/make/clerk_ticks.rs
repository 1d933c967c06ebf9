//! Directed scripts for the clerk's desk, request 6 of document 02: lengths,
//! deadlines and ticks. The prints stand behind the ticks, not on the way there.

use super::clerk::{
    acts, ask, hand_in, offer, plain_ask, result, road_behind_acknowledgment, Choices, Road, ACKNOWLEDGED_ROADS,
};
use super::ticks::{long_rooms, sent_lengths, short_rooms, starts, HALF, OFFSETS};
use super::{
    count, start_clerk, tick, with_choice, with_name, AskEntry, Case, Scripts, Who, FELL_AT_CLERK, PRINT_CLERK,
    TICK_AT_CLERK, TIMER, USER_CANCELS,
};
use crate::clerk::Timer;
use crate::codec::{Carrier, Content};
use crate::outcome::{Connection, Kind};
use crate::timers::Lengths;

const LENGTHS: Lengths = Lengths { t1: 15, t2_ccbs: 100, t2_ccnr: 200, t3: 12 };

/// Room for the longest message.
const ENOUGH: u16 = 60;

fn started() -> Case {
    let mut case = Case::new(PRINT_CLERK);
    case.quiet(&start_clerk(LENGTHS));
    case
}

fn ticks(room: u16) -> Vec<u8> {
    tick(TICK_AT_CLERK, room)
}

/// Both kinds, with keep; retained, retained and fallen, released.
fn all_choices() -> Vec<Choices> {
    let mut choices = Vec::new();
    for kind in [Kind::Ccbs, Kind::Ccnr] {
        for (connection, down) in [(Connection::Ret, false), (Connection::Ret, true), (Connection::Rls, false)] {
            choices.push(Choices { kind, can_keep: true, keep: 1, connection, down });
        }
    }
    choices
}

/// A road's end and the timer that is looked at there.
fn roads_and_timers() -> Vec<(Road, Timer)> {
    let mut all = vec![(Road::WaitAck, Timer::T1)];
    all.extend(ACKNOWLEDGED_ROADS.map(|road| (road, Timer::T2)));
    all.extend([(Road::WaitAnswer, Timer::T3), (Road::WaitAnswerFromSuspended, Timer::T3)]);
    all
}

fn length(timer: Timer, kind: Kind) -> u32 {
    match timer {
        Timer::T1 => LENGTHS.t1,
        Timer::T2 => LENGTHS.t2(kind),
        Timer::T3 => LENGTHS.t3,
    }
}

fn number(timer: Timer) -> u8 {
    match timer {
        Timer::T1 => 1,
        Timer::T2 => 2,
        Timer::T3 => 3,
    }
}

/// A record of these scripts: asked for and acknowledged at one count, brought
/// along its road at another.
#[derive(Clone, Copy)]
struct Life {
    road: Road,
    who: Who,
    choices: Choices,
    start: u32,
    road_at: u32,
}

fn settle(case: &mut Case, life: Life) {
    case.quiet(&count(life.start));
    case.quiet(&ask(life.who, life.choices));
    if life.road == Road::WaitAck {
        return;
    }
    case.quiet(&result(life.who, life.choices));
    if life.choices.down {
        case.quiet(&with_name(FELL_AT_CLERK, life.who));
    }
    if life.road_at != life.start {
        case.quiet(&count(life.road_at));
    }
    for entry in road_behind_acknowledgment(life.road, life.who, life.choices) {
        case.quiet(&entry);
    }
}

/// A life whose timer starts at this count; at the offset behind its deadline no
/// other timer of it is due. Gives the count there too.
fn around(road: Road, timer: Timer, who: Who, choices: Choices, start: u32, offset: u32) -> (Life, u32) {
    let then = start.wrapping_add(length(timer, choices.kind)).wrapping_add(offset);
    // T3 is started one count before, so that it is not due; where T3 itself is
    // looked at after half of all counts, T2's half is over by then.
    let t2 = length(Timer::T2, choices.kind);
    let (start, road_at) = match timer {
        Timer::T1 => (start, start),
        Timer::T2 => (start, then.wrapping_sub(1)),
        Timer::T3 if offset < HALF - 1 || offset == u32::MAX => (start, start),
        Timer::T3 => (start.wrapping_sub(t2 - 10), start),
    };
    (Life { road, who, choices, start, road_at }, then)
}

/// One record, in every state: each of its timers around its deadline, then a
/// report by hand and a second tick.
fn alone(scripts: &mut Scripts, who: Who) {
    for choices in all_choices() {
        for (road, timer) in roads_and_timers() {
            for start in starts(length(timer, choices.kind)) {
                for offset in OFFSETS {
                    let (life, then) = around(road, timer, who, choices, start, offset);
                    let mut case = started();
                    settle(&mut case, life);
                    case.quiet(&count(then));
                    case.step(&ticks(ENOUGH));
                    case.step(&with_choice(TIMER, who, number(timer)));
                    case.step(&ticks(ENOUGH));
                    scripts.add(&case.bytes);
                }
            }
        }
    }
}

/// "Reports by hand go by the state alone and not by the deadline"; "A step by itself
/// expires nothing": every act and report, and messages that go on, on a record whose
/// timer is due or not, before the tick.
fn before_the_tick(scripts: &mut Scripts, who: Who) {
    for choices in all_choices() {
        let mut inputs = acts(who);
        inputs.extend([result(who, choices), offer(who, choices, false), offer(who, choices, true), busy_again(who)]);
        for (road, timer) in roads_and_timers() {
            for offset in [u32::MAX, 0, HALF] {
                let (life, then) = around(road, timer, who, choices, 1000, offset);
                let mut refused = started();
                settle(&mut refused, life);
                refused.quiet(&count(then));
                let ready = refused.clone();
                let taken = refused.step_refused(&inputs);
                refused.step(&ticks(ENOUGH));
                scripts.add(&refused.bytes);
                for input in taken {
                    let mut case = ready.clone();
                    case.step(input);
                    case.step(&ticks(ENOUGH));
                    scripts.add(&case.bytes);
                }
            }
        }
    }
}

fn busy_again(who: Who) -> Vec<u8> {
    hand_in(Carrier::ReleaseComplete, who, Content::RingoutError { error: 1 })
}

/// "T2 in Ringout does not expire in a tick (M1); back in Invoked it is due at
/// once."
fn back_from_ringout(scripts: &mut Scripts, who: Who) {
    for choices in all_choices() {
        let start = 1000;
        let due = start + length(Timer::T2, choices.kind);
        for road in [Road::Ringout, Road::RingoutFromSuspended] {
            for back_at in [due - 1, due, due + 5000, due + (HALF - 1), due + HALF] {
                let mut case = started();
                settle(&mut case, Life { road, who, choices, start, road_at: due - 1 });
                case.step(&ticks(ENOUGH));
                case.quiet(&count(due));
                case.step(&ticks(ENOUGH));
                case.quiet(&count(back_at));
                case.step(&ticks(0));
                case.step(&with_choice(TIMER, who, 2));
                case.step(&busy_again(who));
                case.step(&ticks(0));
                case.step(&ticks(ENOUGH));
                case.quiet(&count(due));
                case.step(&ticks(ENOUGH));
                scripts.add(&case.bytes);
            }
        }
    }
}

/// "a stored deadline of a timer that does not run is not looked at": T1's behind
/// the result, T3's behind accept; and T3 is started anew by each recall.
fn stale_deadlines(scripts: &mut Scripts, who: Who) {
    for choices in all_choices() {
        for road in ACKNOWLEDGED_ROADS {
            let mut case = started();
            settle(&mut case, Life { road, who, choices, start: 100, road_at: 110 });
            for then in [115, 121, 122, 160] {
                case.quiet(&count(then));
                case.step(&ticks(ENOUGH));
            }
            scripts.add(&case.bytes);
        }
        let mut case = started();
        settle(&mut case, Life { road: Road::InvokedAfterBusyAgain, who, choices, start: 100, road_at: 110 });
        for (recall_at, road) in [(125, Road::WaitAnswerFromSuspended), (150, Road::WaitAnswer)] {
            case.quiet(&count(recall_at));
            for entry in road_behind_acknowledgment(road, who, choices) {
                case.step(&entry);
            }
            case.quiet(&count(recall_at + LENGTHS.t3 - 1));
            case.step(&ticks(ENOUGH));
            if road == Road::WaitAnswerFromSuspended {
                case.step(&with_name(super::ACCEPT, who));
                case.step(&busy_again(who));
            }
        }
        case.quiet(&count(150 + LENGTHS.t3));
        case.step(&ticks(ENOUGH));
        scripts.add(&case.bytes);
    }
}

/// The count at which those that are to be due are due, and no others.
const PROBE: u32 = 5000;

/// A record of several: its road and the timer that makes it due at PROBE, or would
/// one count later.
#[derive(Clone, Copy)]
struct Wanted {
    road: Road,
    timer: Timer,
    named: bool,
    choices: Choices,
}

fn life_of(wanted: Wanted, place: usize, due: bool) -> Life {
    let who = match wanted.named {
        true => Who::seed(place as u8),
        false => Who::at(place as u8),
    };
    let started = PROBE + u32::from(!due) - length(wanted.timer, wanted.choices.kind);
    let road_at = if wanted.timer == Timer::T3 { started } else { PROBE - 1 };
    Life { road: wanted.road, who, choices: wanted.choices, start: started, road_at }
}

/// Records without an identifier that are driven on by place are retained ones, as
/// what reaches them in Setup would be fitted.
fn layouts() -> Vec<Vec<Wanted>> {
    let [ret, down, rls]: [Choices; 3] = [all_choices()[0], all_choices()[1], all_choices()[2]];
    let ccnr = |choices: Choices| Choices { kind: Kind::Ccnr, ..choices };
    let wanted = |road, timer, named, choices| Wanted { road, timer, named, choices };
    vec![
        vec![wanted(Road::WaitAck, Timer::T1, false, ret); 4],
        vec![wanted(Road::Invoked, Timer::T2, true, rls); 4],
        vec![
            wanted(Road::WaitAnswer, Timer::T3, true, rls),
            wanted(Road::WaitAck, Timer::T1, false, ret),
            wanted(Road::Suspended, Timer::T2, true, down),
            wanted(Road::InvokedAfterResume, Timer::T2, false, ccnr(ret)),
        ],
        vec![
            wanted(Road::Invoked, Timer::T2, false, ccnr(rls)),
            wanted(Road::WaitAnswer, Timer::T2, true, ret),
            wanted(Road::WaitAnswerFromSuspended, Timer::T3, false, ret),
            wanted(Road::WaitAck, Timer::T1, true, ret),
        ],
        vec![
            wanted(Road::Suspended, Timer::T2, false, ret),
            wanted(Road::Ringout, Timer::T2, true, ret),
            wanted(Road::WaitAnswer, Timer::T2, true, down),
            wanted(Road::InvokedAfterBusyAgain, Timer::T2, true, ccnr(rls)),
            wanted(Road::WaitAck, Timer::T1, false, ret),
        ],
    ]
}

/// Rooms that are too little, one behind the other; then each that is enough, a
/// tick with no room, and a step on what is left.
fn in_every_room(scripts: &mut Scripts, case: &Case) {
    let lengths = sent_lengths(&case.bytes, TICK_AT_CLERK);
    let mut short = case.clone();
    for room in short_rooms(&lengths) {
        short.step(&ticks(room));
    }
    scripts.add(&short.bytes);
    for room in long_rooms(&lengths) {
        let mut enough = case.clone();
        enough.step(&ticks(room));
        enough.step(&ticks(0));
        enough.step(&with_name(USER_CANCELS, Who::at(0)));
        enough.step(&plain_ask(77, &[1], &[2], 0, 0).bytes());
        scripts.add(&enough.bytes);
    }
}

/// Of several records every choice of those that are due.
fn several(scripts: &mut Scripts) {
    for layout in layouts() {
        for due in 0..1_u32 << layout.len() {
            let mut case = started();
            for (place, wanted) in layout.iter().enumerate() {
                settle(&mut case, life_of(*wanted, place, due >> place & 1 == 1));
            }
            case.quiet(&count(PROBE));
            in_every_room(scripts, &case);
        }
    }
}

/// T2 and T3 of one record due at once: "for each at most one expiry".
fn both_due(scripts: &mut Scripts, who: Who) {
    for choices in all_choices() {
        let due = 1000 + length(Timer::T2, choices.kind);
        for road in [Road::WaitAnswer, Road::WaitAnswerFromSuspended] {
            for road_at in [due - LENGTHS.t3 - 1, due - LENGTHS.t3] {
                let mut case = started();
                settle(&mut case, Life { road, who, choices, start: 1000, road_at });
                case.quiet(&count(due));
                in_every_room(scripts, &case);
            }
        }
    }
}

/// Sixteen records: all due, none, every other, all but one.
fn full_desk(scripts: &mut Scripts) {
    let layouts = layouts();
    let some: Vec<Wanted> = layouts.iter().skip(1).flatten().copied().filter(|w| w.road != Road::Ringout).collect();
    let alike = vec![layouts[0][0]; 16];
    let long = vec![Wanted { choices: Choices { kind: Kind::Ccnr, ..layouts[1][0].choices }, ..layouts[1][0] }; 16];
    for layout in [some.get(..16).unwrap_or(&some).to_vec(), alike, long] {
        for due in [0, 0xFFFF, 0x5555, 0xAAAA, 0xFFFE, 0x7FFF, 0xFEFF, 0x8000, 1] {
            let mut case = started();
            for (place, wanted) in layout.iter().enumerate() {
                settle(&mut case, life_of(*wanted, place, due >> place & 1 == 1));
            }
            case.quiet(&count(PROBE));
            in_every_room(scripts, &case);
        }
    }
}

/// Nothing is due at an empty desk, started or not.
fn empty_desk(scripts: &mut Scripts) {
    let mut case = started();
    for now in [0, 1, HALF, u32::MAX] {
        case.step(&count(now));
        for room in [0, 1, 53, 54, 256, 2047, 2048] {
            case.step(&ticks(room));
        }
    }
    scripts.add(&case.bytes);
}

/// Lengths on the edges of their ranges and one outside, and such as would be in range
/// if their high bytes were not read.
fn lengths_to_try() -> Vec<Lengths> {
    let ranges = [(1, 3600), (60, 3600), (60, 86400), (10, 30)];
    let mut all = Vec::new();
    for (place, (lowest, highest)) in ranges.into_iter().enumerate() {
        let high_bytes = [0x100, 0x1_0000, 0x100_0000, HALF].map(|high| high + lowest);
        let edges = [lowest - 1, lowest, lowest + 1, highest - 1, highest, highest + 1, 0, HALF, u32::MAX];
        for value in edges.into_iter().chain(high_bytes) {
            let mut four = [11, 61, 62, 13];
            four[place] = value;
            all.push(lengths(four));
        }
    }
    let more = [[0; 4], [1, 60, 60, 10], [3600, 3600, 86400, 30], [3601, 3601, 86401, 31], [0, 59, 59, 9]];
    all.extend(more.map(lengths));
    // Two fields in each other's place.
    all.extend([[13, 61, 62, 11], [11, 62, 61, 13], [11, 86400, 3600, 13], [30, 60, 60, 3600]].map(lengths));
    all
}

fn lengths([t1, t2_ccbs, t2_ccnr, t3]: [u32; 4]) -> Lengths {
    Lengths { t1, t2_ccbs, t2_ccnr, t3 }
}

/// Asks of both kinds, acknowledged, and one recalled: every length is printed as a
/// deadline.
fn show_lengths(case: &mut Case, seed: u8) {
    for (n, kind) in [Kind::Ccbs, Kind::Ccnr].into_iter().enumerate() {
        let who = Who::seed(seed + n as u8);
        let choices = Choices { kind, ..all_choices()[0] };
        case.step(&AskEntry { kind, ..plain_ask(seed + n as u8, &[1], &[2], 0, 0) }.bytes());
        case.step(&result(who, choices));
        for entry in road_behind_acknowledgment(Road::WaitAnswer, who, choices) {
            case.step(&entry);
        }
    }
}

/// "out of range is 2 and no desk is made": at an empty desk and at one with
/// records, and then at a desk that was never started.
fn lengths_at_start(scripts: &mut Scripts) {
    for lengths in lengths_to_try() {
        for filled in [false, true] {
            let mut case = started();
            case.quiet(&count(1000));
            if filled {
                show_lengths(&mut case, 1);
            }
            case.step(&start_clerk(lengths));
            show_lengths(&mut case, 5);
            case.quiet(&count(1015));
            case.step(&ticks(2048));
            scripts.add(&case.bytes);
        }
    }
}

/// What is there before the first entry, shortly: the stored script begins so.
pub fn opening() -> Vec<u8> {
    let mut case = Case::new(PRINT_CLERK);
    case.hush(true);
    show_lengths(&mut case, 1);
    case.hush(false);
    case.step(&plain_ask(3, &[1], &[2], 0, 0).bytes());
    case.step(&ticks(0));
    case.bytes
}

/// The lengths and the count before any start: 20, 900, 3600, 20 and 0.
fn before_any_start(scripts: &mut Scripts) {
    scripts.close();
    let mut case = Case::new(PRINT_CLERK);
    show_lengths(&mut case, 1);
    case.step(&start_clerk(Lengths { t1: 0, ..LENGTHS }));
    show_lengths(&mut case, 5);
    case.step(&ticks(0));
    for then in [19, 20, 899, 900, 3600] {
        case.step(&count(then));
        case.step(&ticks(500));
    }
    scripts.add(&case.bytes);
    scripts.close();
}

/// The count goes on, back and over the wrap between asks; a start leaves it.
fn counts(scripts: &mut Scripts) {
    let walks: [&[u32]; 5] = [
        &[100, 50, 64, 65, 114, 115],
        &[u32::MAX, 0, 14, 15],
        &[0, u32::MAX, 0, 13, 14, 15],
        &[HALF, 0, HALF - 1, HALF + 15, 15],
        &[7, 7, 22 + HALF, 22, 21 + HALF, 21],
    ];
    for walk in walks {
        let mut case = started();
        for (n, now) in walk.iter().enumerate() {
            case.step(&count(*now));
            case.step(&plain_ask(n as u8, &[1], &[2], 0, 0).bytes());
            case.step(&ticks(200));
        }
        case.step(&start_clerk(LENGTHS));
        case.step(&plain_ask(60, &[1], &[2], 0, 0).bytes());
        scripts.add(&case.bytes);
    }
}

pub fn add(scripts: &mut Scripts) {
    for who in [Who::seed(8), Who::at(0)] {
        alone(scripts, who);
        before_the_tick(scripts, who);
        back_from_ringout(scripts, who);
        stale_deadlines(scripts, who);
        both_due(scripts, who);
    }
    several(scripts);
    full_desk(scripts);
    empty_desk(scripts);
    lengths_at_start(scripts);
    counts(scripts);
    before_any_start(scripts);
}
