//! Directed scripts for the line desk, request 6 of document 02: the guards'
//! deadlines and ticks. The prints stand behind the ticks, not on the way there.

use super::clerk::plain_ask;
use super::line::{
    acts, all_choices, behind_the_request, fallen_choices, flags, hand_in, line_digits, request, settings,
    sixteen_lines, suspend, two_lines, Choices, Road, NUMBER_A, ONE, ROADS, TWO,
};
use super::ticks::{long_rooms, sent_lengths, short_rooms, starts, HALF, OFFSETS};
use super::{
    bytes_of, count, look, played, report, start_clerk, start_line, tick, to_line, with_choice, with_name, Case,
    Scripts, Who, ACT, FELL_AT_LINE, GUARD_RUNS_OUT, PRINT_CLERK, PRINT_LINE, TICK_AT_LINE,
};
use crate::codec::{Carrier, Content};
use crate::line::State;
use crate::meant::Held;
use crate::outcome::{Connection, Kind};
use crate::timers::{guard_length, Lengths};

/// Room for the longest message.
const ENOUGH: u16 = 60;

fn ticks(room: u16) -> Vec<u8> {
    tick(TICK_AT_LINE, room)
}

fn started(settings: u8) -> Case {
    let mut case = Case::new(PRINT_LINE);
    case.quiet(&start_line(&two_lines(), settings));
    case
}

/// A record that was accepted at one count and went its road at another. The number
/// of User A is withheld where the connection is released, in half of the kinds.
fn settled(road: Road, who: Who, choices: Choices, start: u32, road_at: u32) -> Case {
    let mut case = started(settings(choices));
    let withheld = choices.connection == Connection::Rls && choices.kind == Kind::Ccbs;
    let number_a: &[u8] = if withheld { &[] } else { &NUMBER_A };
    case.hush(true);
    case.step(&count(start));
    case.step(&request(who, choices.kind, number_a, &ONE, flags(choices)));
    case.step(&count(road_at));
    behind_the_request(&mut case, road, who, choices);
    case.hush(false);
    case
}

/// Every road that ends with a record.
fn roads(choices: Choices) -> impl Iterator<Item = Road> {
    let kept = choices.keep;
    ROADS.into_iter().filter(move |road| match road {
        Road::NoRecord => false,
        Road::InvokedAfterBusyAgain => kept,
        _ => true,
    })
}

fn every_choice() -> Vec<Choices> {
    all_choices().into_iter().chain(fallen_choices()).collect()
}

/// One record, in every state: its guard around its deadline; then the report by
/// hand and a second tick. "the guard's [length goes] by the kind of the request".
fn alone(scripts: &mut Scripts, who: Who) {
    for choices in every_choice() {
        let length = guard_length(choices.kind);
        for road in roads(choices) {
            for start in starts(length) {
                for offset in OFFSETS {
                    let then = start.wrapping_add(length).wrapping_add(offset);
                    let mut case = settled(road, who, choices, start, then.wrapping_sub(1));
                    case.quiet(&count(then));
                    case.step(&ticks(ENOUGH));
                    case.step(&with_name(GUARD_RUNS_OUT, who));
                    case.step(&ticks(ENOUGH));
                    scripts.add(&case.bytes);
                }
            }
        }
    }
}

/// The report by hand before the tick, and every step on a record whose guard is
/// due: "A step by itself expires nothing."
fn before_the_tick(scripts: &mut Scripts, who: Who) {
    for choices in every_choice() {
        let due = 1000 + guard_length(choices.kind);
        for road in roads(choices) {
            for then in [due - 1, due, due + HALF] {
                let mut inputs = acts(who);
                inputs.extend([look(&ONE), report(&ONE, true), report(&ONE, false)]);
                for content in [Content::CcRingout, Content::CcSuspend, Content::CcResume] {
                    for carrier in [Carrier::Setup, Carrier::Facility, Carrier::ReleaseComplete] {
                        inputs.push(hand_in(carrier, who, content.clone()));
                    }
                }
                let mut refused = settled(road, who, choices, 1000, due - 2);
                refused.quiet(&count(then));
                let ready = refused.clone();
                let taken = refused.step_refused(&inputs);
                refused.step(&ticks(ENOUGH));
                scripts.add(&refused.bytes);
                for input in taken {
                    let mut case = ready.clone();
                    case.step(input);
                    case.step(&ticks(ENOUGH));
                    scripts.add(&case.bytes);
                }
            }
        }
    }
}

/// "neither T2 nor the guard is restarted": a long life, with the count going on,
/// and the guard is still that of the request.
fn not_restarted(scripts: &mut Scripts, who: Who) {
    for choices in every_choice().into_iter().filter(|c| c.keep) {
        let (start, length) = (500, guard_length(choices.kind));
        let connection = choices.connection.for_sending(choices.down);
        let mut case = settled(Road::InvokedActive, who, choices, start, start);
        for turn in 1..=3 {
            case.quiet(&count(start + turn * 1000));
            case.step(&look(&ONE));
            case.step(&suspend(who, connection));
            case.step(&hand_in(Carrier::Setup, who, Content::CcResume));
            case.step(&look(&ONE));
            case.step(&report(&ONE, true));
            case.step(&hand_in(Carrier::Setup, who, Content::CcRingout));
            case.step(&report(&ONE, false));
            case.step(&ticks(ENOUGH));
        }
        case.quiet(&count(start + guard_length(Kind::Ccbs)));
        case.step(&look(&ONE));
        case.quiet(&count(start + length - 1));
        case.step(&ticks(ENOUGH));
        case.quiet(&count(start + length));
        case.step(&ticks(ENOUGH));
        scripts.add(&case.bytes);
    }
}

/// The count at which those that are to be due are due, and no others.
const PROBE: u32 = 200_000;

/// A record of several: kind, numberA, line, flags, whether it has an identifier.
type Wanted = (Kind, &'static [u8], &'static [u8], u32, bool);

const LAYOUTS: [[Wanted; 5]; 3] = [
    [
        (Kind::Ccbs, &[1], &ONE, 3, true),
        (Kind::Ccnr, &[], &TWO, 4, false),
        (Kind::Ccbs, &[2, 2], &TWO, 5, true),
        (Kind::Ccnr, &[3], &ONE, 3, false),
        (Kind::Ccbs, &[], &ONE, 5, false),
    ],
    [
        (Kind::Ccbs, &[], &ONE, 3, false),
        (Kind::Ccbs, &[], &ONE, 3, false),
        (Kind::Ccbs, &[], &ONE, 3, false),
        (Kind::Ccbs, &[], &ONE, 3, false),
        (Kind::Ccbs, &[], &ONE, 3, false),
    ],
    [
        (Kind::Ccnr, &[9; 15], &TWO, 4, true),
        (Kind::Ccnr, &[8; 15], &TWO, 5, true),
        (Kind::Ccbs, &[7; 15], &ONE, 4, true),
        (Kind::Ccbs, &[6; 15], &ONE, 5, true),
        (Kind::Ccnr, &[5; 15], &ONE, 3, true),
    ],
];

fn who_of(place: usize, named: bool) -> Who {
    match named {
        true => Who::seed(place as u8),
        false => Who::at(place as u8),
    }
}

/// The requests in their order, some due at PROBE and some one count later.
fn settle(case: &mut Case, layout: &[Wanted], due: u32) {
    for (place, (kind, number_a, number_b, flags, named)) in layout.iter().enumerate() {
        let later = u32::from(due >> place & 1 == 0);
        case.quiet(&count(PROBE + later - guard_length(*kind)));
        case.quiet(&request(who_of(place, *named), *kind, number_a, number_b, *flags));
    }
    case.quiet(&count(PROBE));
}

/// The oldest of each line is offered: the first of them suspends, the other rings.
/// The connection of the fourth falls, if it is retained.
fn stir(case: &mut Case) {
    for line in [&ONE[..], &TWO] {
        case.quiet(&report(line, true));
        case.quiet(&report(line, false));
        case.quiet(&look(line));
    }
    let records = played(&case.bytes).line.records;
    let offered = records.iter().enumerate().filter(|(_, record)| record.state == State::Await);
    for (n, (place, record)) in offered.enumerate() {
        let (carrier, content) = match (n, record.connection) {
            (0, Connection::Ret) => (Carrier::Facility, Content::CcSuspend),
            (0, Connection::Rls) => (Carrier::ReleaseComplete, Content::CcSuspend),
            _ => (Carrier::Setup, Content::CcRingout),
        };
        let bytes = bytes_of(carrier, record.identifier, content, &record.elements());
        case.quiet(&to_line(place as u8, &bytes));
    }
    case.quiet(&with_name(FELL_AT_LINE, Who::at(3)));
}

/// Rooms that are too little, one behind the other; then each that is enough, a
/// tick with no room, and steps on what is left.
fn in_every_room(scripts: &mut Scripts, case: &Case) {
    let lengths = sent_lengths(&case.bytes, TICK_AT_LINE);
    let mut short = case.clone();
    for room in short_rooms(&lengths) {
        short.step(&ticks(room));
    }
    scripts.add(&short.bytes);
    for room in long_rooms(&lengths) {
        let mut enough = case.clone();
        enough.step(&ticks(room));
        enough.step(&ticks(0));
        enough.step(&look(&ONE));
        enough.step(&with_choice(ACT, Who::at(0), 3));
        enough.step(&request(Who::seed(77), Kind::Ccbs, &[7], &ONE, 1));
        scripts.add(&enough.bytes);
    }
}

/// Of several records every choice of those that are due, in Invoked or with one
/// suspended, one ringing and one whose connection has fallen.
fn several(scripts: &mut Scripts) {
    for layout in LAYOUTS {
        for due in 0..1_u32 << layout.len() {
            let mut case = started(1);
            settle(&mut case, &layout, due);
            in_every_room(scripts, &case);
            stir(&mut case);
            in_every_room(scripts, &case);
        }
    }
}

/// 32 records on sixteen lines: all due, none, every other, all but one.
fn full_desk(scripts: &mut Scripts) {
    for named in [true, false] {
        for due in [0, u32::MAX, 0x5555_5555, 0xAAAA_AAAA, 0xFFFF_FFFE, 0x7FFF_FFFF, 0xFFFE_FFFF, 1, 1 << 31] {
            let mut case = Case::new(PRINT_LINE);
            case.quiet(&start_line(&sixteen_lines(), 3));
            for place in 0..32 {
                let kind = if place % 3 == 1 { Kind::Ccnr } else { Kind::Ccbs };
                let later = u32::from(due >> place & 1 == 0);
                case.quiet(&count(PROBE + later - guard_length(kind)));
                let who = who_of(place, named || place % 4 == 0);
                let number_a = [place as u8 / 10, place as u8 % 10];
                let line = line_digits(place as u8 / 4);
                case.quiet(&request(who, kind, &number_a, &line, place as u32 % 6));
            }
            case.quiet(&count(PROBE));
            in_every_room(scripts, &case);
        }
    }
}

/// Nothing is due at a desk without records, or without lines.
fn empty_desk(scripts: &mut Scripts) {
    let no_lines: [(&[u8], u8); 0] = [];
    for start in [start_line(&no_lines, 0), start_line(&two_lines(), 3)] {
        let mut case = Case::new(PRINT_LINE);
        case.quiet(&start);
        for now in [0, 1, HALF, u32::MAX] {
            case.step(&count(now));
            for room in [0, 1, 53, 54, 256, 2047, 2048] {
                case.step(&ticks(room));
            }
        }
        scripts.add(&case.bytes);
    }
}

/// The count goes on, back and over the wrap between requests; a start leaves it, a
/// refused one too.
fn counts(scripts: &mut Scripts) {
    let walks: [&[u32]; 5] = [
        &[100, 50, 3709, 3710, 3759, 3760],
        &[u32::MAX, 0, 3658, 3659, 3660],
        &[0, u32::MAX - 9, 3650, 3651, 3660],
        &[HALF, 0, HALF + 3659, HALF + 3660, 3660],
        &[7, 7, 3667 + HALF, 3666 + HALF, 3667],
    ];
    for walk in walks {
        let mut case = started(1);
        for (n, now) in walk.iter().enumerate() {
            case.step(&count(*now));
            let kind = if n % 3 == 2 { Kind::Ccnr } else { Kind::Ccbs };
            case.step(&request(Who::seed(n as u8), kind, &[n as u8], [&ONE[..], &TWO][n % 2], 3));
            case.step(&ticks(200));
        }
        case.step(&start_line(&[(&ONE, 3), (&ONE, 3)], 0));
        case.step(&ticks(200));
        case.step(&start_line(&two_lines(), 1));
        case.step(&request(Who::seed(60), Kind::Ccbs, &[1], &ONE, 3));
        scripts.add(&case.bytes);
    }
}

/// Starts of both desks leave the count: an ask and a request behind them show it.
pub fn closing() -> Vec<u8> {
    let mut closing = count(u32::MAX - 8);
    closing.extend(start_line(&[(&TWO, 3)], 1));
    closing.extend(start_line(&[(&TWO, 3), (&TWO, 3)], 1));
    closing.extend(request(Who::seed(60), Kind::Ccbs, &[1], &TWO, 3));
    closing.push(PRINT_LINE);
    closing.extend(start_clerk(Lengths::default()));
    closing.extend(start_clerk(Lengths { t3: 9, ..Lengths::default() }));
    closing.extend(plain_ask(60, &[1], &[2], 0, 0).bytes());
    closing.push(PRINT_CLERK);
    closing
}

pub fn add(scripts: &mut Scripts) {
    for who in [Who::seed(8), Who::at(0)] {
        alone(scripts, who);
        before_the_tick(scripts, who);
        not_restarted(scripts, who);
    }
    several(scripts);
    full_desk(scripts);
    empty_desk(scripts);
    counts(scripts);
}
