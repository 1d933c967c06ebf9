//! Directed scripts for the line desk.

use super::{
    bad_input, bytes_of, contents_without_requests, damaged, elements, line_meant, line_ticks, look, report,
    request_content, requests_on_edges, start_line, to_line, with_choice, with_name, Case, Scripts, Who, ACT,
    FELL_AT_LINE, GUARD_RUNS_OUT,
};
use crate::codec::{Carrier, Content};
use crate::outcome::{Connection, Kind};

pub const ONE: [u8; 1] = [1];
pub const TWO: [u8; 2] = [1, 2];
pub const NUMBER_A: [u8; 3] = [4, 0, 4];
pub const SERVICE: u32 = 300;

/// Both lines allow both kinds; the number of one begins the other's.
pub fn two_lines() -> Vec<(Vec<u8>, u8)> {
    vec![(ONE.to_vec(), 3), (TWO.to_vec(), 3)]
}

/// A message's bytes, its elements those of the record that `drive` makes.
fn message(carrier: Carrier, who: Who, content: Content) -> Vec<u8> {
    bytes_of(carrier, who.identifier, content, &elements(&NUMBER_A, &ONE, SERVICE))
}

pub fn hand_in(carrier: Carrier, who: Who, content: Content) -> Vec<u8> {
    to_line(who.place, &message(carrier, who, content))
}

pub fn request(who: Who, kind: Kind, number_a: &[u8], number_b: &[u8], flags: u32) -> Vec<u8> {
    hand_in(Carrier::Setup, who, request_content(kind, number_a, number_b, SERVICE, flags))
}

/// How a record comes to its state: each state, by each road that leads there.
#[derive(Clone, Copy, PartialEq)]
pub enum Road {
    NoRecord,
    Invoked,
    InvokedActive,
    InvokedAfterResume,
    InvokedAfterBusyAgain,
    Await,
    AwaitSuspended,
    Alert,
    AlertFromSuspended,
}

pub const ROADS: [Road; 9] = [
    Road::NoRecord,
    Road::Invoked,
    Road::InvokedActive,
    Road::InvokedAfterResume,
    Road::InvokedAfterBusyAgain,
    Road::Await,
    Road::AwaitSuspended,
    Road::Alert,
    Road::AlertFromSuspended,
];

/// What is chosen for a record; whether the connection falls behind the answer.
#[derive(Clone, Copy)]
pub struct Choices {
    pub kind: Kind,
    pub keep: bool,
    pub connection: Connection,
    pub down: bool,
}

pub fn all_choices() -> Vec<Choices> {
    let mut choices = Vec::new();
    for kind in [Kind::Ccbs, Kind::Ccnr].iter() {
        for keep in [false, true].iter() {
            for connection in [Connection::Ret, Connection::Rls].iter() {
                choices.push(Choices { kind: *kind, keep: *keep, connection: *connection, down: false });
            }
        }
    }
    choices
}

/// The desk's settings: it keeps where keep is chosen, and its default is the
/// other connection, so that the preference is what decides.
pub fn settings(choices: Choices) -> u8 {
    let default = match choices.connection {
        Connection::Ret => 0,
        Connection::Rls => 2,
    };
    u8::from(choices.keep) + default
}

pub fn flags(choices: Choices) -> u32 {
    1 + 2 * choices.connection.number()
}

pub fn suspend(who: Who, connection: Connection) -> Vec<u8> {
    let carrier = match connection {
        Connection::Ret => Carrier::Facility,
        Connection::Rls => Carrier::ReleaseComplete,
    };
    hand_in(carrier, who, Content::CcSuspend)
}

pub fn resume(who: Who, connection: Connection) -> Vec<u8> {
    hand_in(connection.facility_or_setup(), who, Content::CcResume)
}

fn ringout(who: Who) -> Vec<u8> {
    hand_in(Carrier::Setup, who, Content::CcRingout)
}

/// A CCNR record is only offered after a period of activity.
pub fn activity(case: &mut Case, line: &[u8]) {
    case.step(&report(line, true));
    case.step(&report(line, false));
}

/// Brings a record of line ONE along its road; the line is free afterwards.
fn drive(case: &mut Case, road: Road, who: Who, choices: Choices) {
    if road == Road::NoRecord {
        return;
    }
    case.step(&request(who, choices.kind, &NUMBER_A, &ONE, flags(choices)));
    behind_the_request(case, road, who, choices);
}

/// The steps behind the accepted request that make up a road.
pub fn behind_the_request(case: &mut Case, road: Road, who: Who, choices: Choices) {
    if choices.down {
        case.step(&with_name(FELL_AT_LINE, who));
    }
    if road == Road::Invoked {
        return;
    }
    if choices.kind == Kind::Ccnr || road == Road::InvokedActive {
        activity(case, &ONE);
    }
    if road == Road::InvokedActive {
        return;
    }
    case.step(&look(&ONE));
    behind_the_offer(case, road, who, choices);
}

/// The messages come in the carriers of the other end, which has seen the fall
/// too.
fn behind_the_offer(case: &mut Case, road: Road, who: Who, choices: Choices) {
    let connection = choices.connection.for_sending(choices.down);
    match road {
        Road::InvokedAfterResume => {
            case.step(&suspend(who, connection));
            case.step(&resume(who, connection));
        }
        Road::InvokedAfterBusyAgain => {
            case.step(&report(&ONE, true));
            case.step(&ringout(who));
            case.step(&report(&ONE, false));
        }
        Road::AwaitSuspended => case.step(&suspend(who, connection)),
        Road::Alert => case.step(&ringout(who)),
        Road::AlertFromSuspended => {
            case.step(&suspend(who, connection));
            case.step(&ringout(who));
        }
        _ => {}
    }
}

/// Every message type in every carrier, with the record's identifier or without.
fn message_inputs(who: Who) -> Vec<Vec<u8>> {
    let mut contents = contents_without_requests();
    contents.push(request_content(Kind::Ccbs, &NUMBER_A, &ONE, SERVICE, 1));
    contents.push(request_content(Kind::Ccnr, &[], &TWO, 0, 4));
    let mut inputs = Vec::new();
    for content in contents {
        for carrier in Carrier::ALL.iter() {
            inputs.push(hand_in(*carrier, who, content.clone()));
        }
    }
    inputs
}

/// Every act and the guard, the fallen connection too.
pub fn acts(who: Who) -> Vec<Vec<u8>> {
    vec![
        with_choice(ACT, who, 1),
        with_choice(ACT, who, 2),
        with_choice(ACT, who, 3),
        with_name(GUARD_RUNS_OUT, who),
        with_name(FELL_AT_LINE, who),
    ]
}

/// The acts, Looks, reports, requests near to the record, starts taken and refused,
/// and no bytes at all.
fn other_inputs(who: Who) -> Vec<Vec<u8>> {
    let other = Who::seed(90);
    let mut inputs = acts(who);
    inputs.extend(vec![
        look(&ONE),
        look(&TWO),
        report(&ONE, true),
        report(&ONE, false),
        report(&TWO, true),
        report(&TWO, false),
        look(&[2]),
        report(&[2], true),
        start_line(&[(&ONE, 3)], 2),
        start_line(&[(&ONE, 3), (&ONE, 3)], 2),
        to_line(who.place, &[]),
        request(other, Kind::Ccbs, &NUMBER_A, &ONE, 0),
        request(other, Kind::Ccnr, &NUMBER_A, &ONE, 5),
        request(other, Kind::Ccbs, &NUMBER_A, &TWO, 3),
        request(other, Kind::Ccnr, &[], &ONE, 2),
        request(who, Kind::Ccnr, &[9], &TWO, 1),
    ]);
    inputs
}

/// One road, every input, the line busy or free at that moment; the way there is
/// printed once. With neighbours the
/// record stands between an older one of the other line and a younger one of its
/// own line, so that a delete has a gap to close and a Look something to find.
fn every_input(scripts: &mut Scripts, road: Road, choices: Choices, busy: bool, who: Who, neighbours: bool) {
    let mut inputs = message_inputs(who);
    inputs.extend(other_inputs(who));
    for (n, input) in inputs.iter().enumerate() {
        let mut case = Case::at_line(&two_lines(), settings(choices));
        case.hush(n > 0);
        if neighbours {
            case.step(&request(Who::seed(41), Kind::Ccnr, &[3], &TWO, 0));
        }
        drive(&mut case, road, who, choices);
        if neighbours {
            case.step(&request(Who::seed(39), Kind::Ccnr, &[], &ONE, 2));
        }
        if busy {
            case.step(&report(&ONE, true));
        }
        case.hush(false);
        case.step(input);
        case.step(&look(&ONE));
        scripts.add(&case.bytes);
    }
}

fn every_state(scripts: &mut Scripts) {
    for choices in all_choices() {
        for road in ROADS.iter() {
            if *road == Road::InvokedAfterBusyAgain && !choices.keep {
                continue;
            }
            for busy in [false, true].iter() {
                every_input(scripts, *road, choices, *busy, Who::seed(40), true);
                if choices.keep && choices.kind == Kind::Ccbs {
                    every_input(scripts, *road, choices, *busy, Who::seed(40), false);
                }
            }
        }
    }
}

/// The same for a record without an identifier, by place and by fit; without keep,
/// and CCNR, from Await alone, where they decide.
fn every_state_nameless(scripts: &mut Scripts) {
    for choices in all_choices().into_iter().chain(fallen_choices()) {
        for road in ROADS {
            let in_await = matches!(road, Road::Await | Road::AwaitSuspended);
            let full = choices.keep && choices.kind == Kind::Ccbs;
            for busy in [false, true] {
                if full || in_await {
                    every_input(scripts, road, choices, busy, Who::at(0), false);
                }
                if full && !choices.down && !busy {
                    every_input(scripts, road, choices, busy, Who::at(1), true);
                }
            }
        }
    }
}

/// Both kinds, keep and not, of records whose connection has fallen.
pub fn fallen_choices() -> Vec<Choices> {
    let retained = all_choices().into_iter().filter(|c| c.connection == Connection::Ret);
    retained.map(|choices| Choices { down: true, ..choices }).collect()
}

/// "we want that in all states at both ends": every input to a marked record in
/// every state; without keep, and CCNR, from Await alone, where they decide.
fn every_state_fallen(scripts: &mut Scripts) {
    for choices in fallen_choices() {
        for road in ROADS {
            let in_await = matches!(road, Road::Await | Road::AwaitSuspended);
            let full = choices.keep && choices.kind == Kind::Ccbs && road != Road::NoRecord;
            for busy in [false, true] {
                if full || in_await {
                    every_input(scripts, road, choices, busy, Who::seed(40), false);
                }
            }
        }
    }
}

/// The connection falls in each state and is reported twice; the record's life
/// goes on, with messages in the carriers of either kind.
fn falls_on_the_way(scripts: &mut Scripts, who: Who) {
    for choices in all_choices() {
        for road in ROADS {
            let mut case = Case::at_line(&two_lines(), settings(choices));
            drive(&mut case, road, who, choices);
            case.step(&with_name(FELL_AT_LINE, who));
            case.step(&with_name(FELL_AT_LINE, who));
            activity(&mut case, &ONE);
            for carrier in [Carrier::Facility, Carrier::Setup] {
                case.step(&look(&ONE));
                case.step(&hand_in(carrier, who, Content::CcResume));
            }
            for carrier in [Carrier::Facility, Carrier::ReleaseComplete, Carrier::Connect] {
                case.step(&look(&ONE));
                case.step(&hand_in(carrier, who, Content::CcSuspend));
                case.step(&hand_in(Carrier::Setup, who, Content::CcResume));
            }
            busy_again_once(&mut case, who, choices.connection, false);
            case.step(&with_name(FELL_AT_LINE, who));
            case.step(&with_choice(ACT, who, 3));
            case.step(&with_name(FELL_AT_LINE, who));
            scripts.add(&case.bytes);
        }
    }
}

/// All that is refused in a state, one input behind the other: they change
/// nothing.
fn refused_in_a_row(scripts: &mut Scripts, who: Who) {
    let mut every = all_choices();
    every.extend(fallen_choices());
    for choices in every {
        for road in ROADS {
            for busy in [false, true] {
                let mut case = Case::at_line(&two_lines(), settings(choices));
                drive(&mut case, road, who, choices);
                case.step(&report(&ONE, busy));
                let mut inputs = message_inputs(who);
                inputs.extend(other_inputs(who));
                case.step_refused(&inputs);
                scripts.add(&case.bytes);
            }
        }
    }
}

/// Kinds, flags, settings and the line's status: all that an accepted request
/// hangs on.
fn requests_accepted(scripts: &mut Scripts) {
    for settings in 0..=3 {
        for flags in 0..=5 {
            for kind in [Kind::Ccbs, Kind::Ccnr].iter() {
                for busy in [false, true].iter() {
                    let mut case = Case::at_line(&two_lines(), settings);
                    case.step(&report(&TWO, *busy));
                    case.step(&request(Who::seed(1), *kind, &NUMBER_A, &TWO, flags));
                    case.step(&look(&TWO));
                    case.step(&report(&TWO, false));
                    case.step(&look(&TWO));
                    scripts.add(&case.bytes);
                }
            }
        }
    }
}

/// Numbers and services on their edges, and lines of 1 and of 15 digits.
fn request_fields(scripts: &mut Scripts) {
    let long = [7; 15];
    let lines = [(&ONE[..], 3), (&long[..], 3), (&[0][..], 3)];
    let mut seed = 0;
    for service in [0, 127, 128, 300, 16383].iter() {
        let mut case = Case::at_line(&lines, 3);
        for number_a in [&[][..], &[0], &[0, 0], &[9; 14], &[9; 15]].iter() {
            for number_b in [&ONE[..], &long, &[0], &[7; 14], &[0, 0]].iter() {
                let content = request_content(Kind::Ccbs, number_a, number_b, *service, 5);
                case.step(&hand_in(Carrier::Setup, Who::seed(seed), content));
                seed = seed.wrapping_add(1);
            }
        }
        scripts.add(&case.bytes);
    }
}

/// "long error if numberB is no line or the kind isn't allowed", for each set
/// of allowed kinds; READINGS 15: "Both kinds disallowed is allowed."
fn kinds_allowed(scripts: &mut Scripts) {
    let lines = [([1], 0), ([2], 1), ([3], 2), ([4], 3)];
    for digit in 1..=5 {
        let mut case = Case::at_line(&lines, 1);
        case.step(&request(Who::seed(1), Kind::Ccbs, &[1], &[digit], 1));
        case.step(&request(Who::seed(2), Kind::Ccnr, &[2], &[digit], 1));
        case.step(&request(Who::seed(1), Kind::Ccnr, &[1], &[digit], 1));
        case.step(&request(Who::seed(2), Kind::Ccbs, &[2], &[digit], 1));
        scripts.add(&case.bytes);
    }
}

/// ccRingout that finds the line busy, three times where the record is kept:
/// both kinds on a line that allows both and on one that allows only that kind,
/// keep and not, RET and RLS, suspended before or not (request 5). Looks show
/// how it goes on, and requests near to it what the desk holds.
fn busy_again(scripts: &mut Scripts, who: Who) {
    for choices in all_choices() {
        for kinds in [choices.kind.number() as u8, 3] {
            for suspended in [false, true] {
                let mut case = Case::at_line(&[(&ONE, kinds)], settings(choices));
                drive(&mut case, Road::InvokedActive, who, choices);
                for _ in 0..3 {
                    busy_again_once(&mut case, who, choices.connection, suspended);
                }
                case.step(&request(Who::seed(9), Kind::Ccbs, &NUMBER_A, &ONE, 1));
                case.step(&request(Who::seed(9), Kind::Ccnr, &[], &ONE, 1));
                let nameless = Who::at(1);
                case.step(&request(nameless, Kind::Ccbs, &NUMBER_A, &ONE, 1));
                for carrier in [Carrier::Facility, Carrier::Setup] {
                    case.step(&look(&ONE));
                    case.step(&hand_in(carrier, who, Content::CcResume));
                }
                case.step(&look(&ONE));
                case.step(&ringout(who));
                case.step(&with_choice(ACT, who, 1));
                scripts.add(&case.bytes);
            }
        }
    }
}

/// A Look, the line busy, ccRingout, a Look in vain, the line free.
fn busy_again_once(case: &mut Case, who: Who, connection: Connection, suspended: bool) {
    case.step(&look(&ONE));
    if suspended {
        case.step(&suspend(who, connection));
    }
    case.step(&report(&ONE, true));
    case.step(&ringout(who));
    case.step(&look(&ONE));
    case.step(&report(&ONE, false));
}

/// READINGS 17, duplicates and their near misses, in every state of the record
/// that is there already.
fn duplicates(scripts: &mut Scripts) {
    let numbers_a: [&[u8]; 6] = [&[], &NUMBER_A, &[4, 0], &[4, 0, 4, 0], &[4, 0, 5], &[0]];
    for road in ROADS.iter() {
        for kind in [Kind::Ccbs, Kind::Ccnr].iter() {
            let choices = Choices { kind: *kind, keep: true, connection: Connection::Ret, down: false };
            for number_a in numbers_a.iter() {
                let mut case = Case::at_line(&two_lines(), settings(choices));
                drive(&mut case, *road, Who::seed(40), choices);
                for number_b in [&ONE[..], &TWO].iter() {
                    for other in [Kind::Ccbs, Kind::Ccnr].iter() {
                        case.step(&request(Who::seed(40), *other, number_a, number_b, 1));
                        case.step(&request(Who::seed(50), *other, number_a, number_b, 1));
                        case.step(&request(Who::seed(51), *other, number_a, number_b, 1));
                    }
                }
                scripts.add(&case.bytes);
            }
        }
    }
    withheld_first(scripts);
}

/// A record with a withheld numberA is there already.
fn withheld_first(scripts: &mut Scripts) {
    let mut case = Case::at_line(&two_lines(), 0);
    case.step(&request(Who::seed(1), Kind::Ccbs, &[], &ONE, 0));
    case.step(&request(Who::seed(2), Kind::Ccbs, &[], &ONE, 0));
    case.step(&request(Who::seed(3), Kind::Ccbs, &[1], &ONE, 0));
    case.step(&request(Who::seed(1), Kind::Ccbs, &[], &ONE, 0));
    case.step(&request(Who::seed(4), Kind::Ccnr, &[], &ONE, 0));
    scripts.add(&case.bytes);
}

/// A record of line `line`, the n-th of the desk.
fn fill_one(case: &mut Case, seed: u8, line: &[u8]) {
    let kind = if seed % 2 == 1 { Kind::Ccnr } else { Kind::Ccbs };
    let number_a = [seed / 10 % 10, seed % 10];
    case.step(&request(Who::seed(seed), kind, &number_a, line, u32::from(seed % 6)));
}

/// "a line's 5 against 6"; a freed place is used again.
fn five_of_a_line(scripts: &mut Scripts) {
    for gone in 0..5 {
        for removal in 0..4 {
            let mut case = Case::at_line(&two_lines(), 1);
            for seed in 0..6 {
                fill_one(&mut case, seed, &ONE);
            }
            fill_one(&mut case, 6, &TWO);
            remove(&mut case, Who::seed(gone), removal);
            fill_one(&mut case, 7, &ONE);
            fill_one(&mut case, 8, &ONE);
            scripts.add(&case.bytes);
        }
    }
}

/// Four ways in which a record goes.
fn remove(case: &mut Case, who: Who, which: u8) {
    match which {
        0 => case.step(&with_choice(ACT, who, 3)),
        1 => case.step(&with_name(GUARD_RUNS_OUT, who)),
        2 => case.step(&hand_in(Carrier::Setup, who, Content::CcCancel)),
        _ => case.step(&hand_in(Carrier::ReleaseComplete, who, Content::CcCancel)),
    }
}

/// Sixteen lines; the last allows CCBS alone, the last but one CCNR alone.
pub fn sixteen_lines() -> Vec<(Vec<u8>, u8)> {
    let kinds = |n: u8| match n {
        14 => 2,
        15 => 1,
        _ => 3,
    };
    (0..16).map(|n| (line_digits(n).to_vec(), kinds(n))).collect()
}

pub fn line_digits(n: u8) -> [u8; 2] {
    [n / 10, n % 10]
}

/// "32 against 33 records", with a long error at the full desk; each record is
/// then deleted once and its place used again.
fn full_desk(scripts: &mut Scripts) {
    for gone in 0..32 {
        let mut case = Case::at_line(&sixteen_lines(), 3);
        for seed in 0..33 {
            fill_one(&mut case, seed, &line_digits(seed / 4));
        }
        let fresh = Who::seed(99);
        for kind in [Kind::Ccbs, Kind::Ccnr].iter() {
            case.step(&request(fresh, *kind, &[9], &line_digits(12), 0));
            case.step(&request(fresh, *kind, &[9], &line_digits(14), 0));
            case.step(&request(fresh, *kind, &[9], &line_digits(15), 0));
            case.step(&request(fresh, *kind, &[9], &[5], 0));
            case.step(&request(Who::seed(gone), *kind, &[9], &[5], 0));
            case.step(&request(Who::seed(gone), *kind, &[9], &line_digits(1), 0));
        }
        remove(&mut case, Who::seed(gone), gone % 4);
        fill_one(&mut case, 34, &line_digits(9));
        fill_one(&mut case, 35, &line_digits(9));
        scripts.add(&case.bytes);
    }
}

/// What a record of the Look scripts is to be when the Look comes.
#[derive(Clone, Copy, PartialEq)]
enum Aim {
    CcbsInvoked,
    CcnrNeverActive,
    CcnrActive,
    Await,
    Suspended,
    Alert,
}

const AIMS: [Aim; 6] =
    [Aim::CcbsInvoked, Aim::CcnrNeverActive, Aim::CcnrActive, Aim::Await, Aim::Suspended, Aim::Alert];

/// Accepts the records in order and parks each as a suspended one, so that the
/// next can be offered; then brings each to its aim. Some mixes can't be
/// reached (two in Await without mark), and then the nearest comes out: it is
/// compared all the same.
fn look_at_mix(scripts: &mut Scripts, aims: &[Aim]) {
    let mut case = Case::at_line(&two_lines(), 1);
    let who = |place: usize| Who::seed(60 + place as u8);
    for (place, aim) in aims.iter().enumerate() {
        let kind = if matches!(aim, Aim::CcnrNeverActive | Aim::CcnrActive) { Kind::Ccnr } else { Kind::Ccbs };
        case.step(&request(who(place), kind, &[place as u8], &ONE, 3));
        if *aim == Aim::CcnrActive {
            activity(&mut case, &ONE);
        }
        case.step(&look(&ONE));
        case.step(&suspend(who(place), Connection::Ret));
    }
    let all = |wanted: &[Aim]| -> Vec<Who> {
        let chosen = aims.iter().enumerate().filter(|(_, aim)| wanted.contains(aim));
        chosen.map(|(place, _)| who(place)).collect()
    };
    for who in all(&[Aim::Await]) {
        case.step(&resume(who, Connection::Ret));
        case.step(&look(&ONE));
    }
    for who in all(&[Aim::Alert]) {
        case.step(&ringout(who));
    }
    for who in all(&[Aim::CcbsInvoked, Aim::CcnrActive]) {
        case.step(&resume(who, Connection::Ret));
    }
    looks_and_reports(&mut case);
    scripts.add(&case.bytes);
}

fn looks_and_reports(case: &mut Case) {
    case.step(&look(&TWO));
    case.step(&report(&TWO, true));
    case.step(&look(&ONE));
    case.step(&look(&ONE));
    case.step(&report(&ONE, true));
    case.step(&look(&ONE));
    case.step(&report(&ONE, false));
    case.step(&look(&ONE));
    case.step(&look(&ONE));
}

fn looks(scripts: &mut Scripts) {
    look_at_mix(scripts, &[]);
    for first in AIMS.iter() {
        look_at_mix(scripts, &[*first]);
        for second in AIMS.iter() {
            look_at_mix(scripts, &[*first, *second]);
            for third in AIMS.iter() {
                look_at_mix(scripts, &[*first, *second, *third]);
            }
        }
    }
}

/// READINGS 16: "bad or unknown digits are 10". Some begin like a line's
/// number, or are one with a zero in front or behind.
fn no_such_line(scripts: &mut Scripts) {
    let long = [7; 15];
    let lines = [(&ONE[..], 3), (&TWO[..], 3), (&long[..], 3)];
    let mut numbers: Vec<Vec<u8>> = vec![vec![], vec![0], vec![2], vec![1, 0], vec![0, 1], vec![1, 2, 0]];
    numbers.extend(vec![vec![7; 14], vec![7; 16], vec![7; 17], vec![7; 255], vec![1; 16]]);
    numbers.extend(vec![vec![10], vec![255], vec![1, 10], vec![129], vec![1, 130]]);
    numbers.extend(vec![ONE.to_vec(), TWO.to_vec(), long.to_vec()]);
    let mut case = Case::at_line(&lines, 1);
    for (place, line) in [&ONE[..], &TWO[..], &long[..]].iter().enumerate() {
        case.step(&request(Who::seed(place as u8), Kind::Ccbs, &[1], line, 0));
    }
    for number in &numbers {
        case.step(&report(number, true));
        case.step(&look(number));
        case.step(&report(number, false));
        case.step(&look(number));
    }
    scripts.add(&case.bytes);
}

/// Lines for starts: taken and refused (READINGS 15).
fn starts_to_try() -> Vec<Vec<(Vec<u8>, u8)>> {
    let mut lines = Vec::new();
    for count in [0, 1, 2, 15, 16, 17, 18, 40].iter() {
        lines.push((0..*count).map(|n: u8| (vec![n / 10, n % 10, 1], n % 4)).collect());
    }
    for bad in [vec![], vec![10], vec![255], vec![1, 2, 10], vec![1; 16], vec![1; 255]].iter() {
        lines.push(vec![(bad.clone(), 3)]);
        lines.push(vec![(vec![5], 3), (bad.clone(), 0)]);
        lines.push(vec![(bad.clone(), 1), (vec![5], 3)]);
    }
    for good in [vec![0], vec![9], vec![0; 15], vec![9; 15]].iter() {
        lines.push(vec![(good.clone(), 3)]);
        lines.push(vec![(good.clone(), 3), (good.clone(), 3)]);
        lines.push(vec![(good.clone(), 1), (vec![5, 5], 0), (good.clone(), 2)]);
    }
    lines.push(vec![(vec![0], 3), (vec![0, 0], 3), (vec![0, 0, 0], 3)]);
    lines.push(vec![(vec![1], 3), (vec![1, 0], 3), (vec![0, 1], 3)]);
    let mut twice: Vec<(Vec<u8>, u8)> = (0..16).map(|n: u8| (vec![n / 10, n % 10], 3)).collect();
    twice[15] = (vec![0, 0], 3);
    lines.push(twice);
    lines
}

/// "Refused: the desk stays as it was", without and with records.
fn starts(scripts: &mut Scripts) {
    for lines in starts_to_try() {
        for settings in 0..=3 {
            for with_record in [false, true].iter() {
                let mut case = Case::at_line(&two_lines(), 3 - settings);
                case.step(&report(&TWO, true));
                if *with_record {
                    case.step(&request(Who::seed(1), Kind::Ccbs, &[1], &ONE, 1));
                }
                case.step(&start_line(&lines, settings));
                // The settings aren't printed: a request shows them.
                case.step(&request(Who::seed(2), Kind::Ccbs, &[2], &ONE, 1));
                if let Some((digits, _)) = lines.first() {
                    let short = digits.len() <= 15 && digits.iter().all(|d| *d <= 9) && !digits.is_empty();
                    let number_b = if short { &digits[..] } else { &TWO[..] };
                    case.step(&request(Who::seed(3), Kind::Ccbs, &[3], number_b, 1));
                    case.step(&request(Who::seed(4), Kind::Ccnr, &[4], number_b, 1));
                }
                scripts.add(&case.bytes);
            }
        }
    }
}

/// What is there before code 1 is played: no lines, keeps nothing, retains nothing.
fn before_any_start(scripts: &mut Scripts) {
    scripts.close();
    let mut case = Case::new(super::PRINT_LINE);
    case.step(&look(&ONE));
    case.step(&report(&ONE, true));
    case.step(&request(Who::seed(1), Kind::Ccbs, &[1], &ONE, 5));
    for input in message_inputs(Who::seed(1)) {
        case.step(&input);
    }
    scripts.add(&case.bytes);
}

/// A carrier that the line desk takes this type in; any for the others.
fn usual_carrier(content: &Content) -> Carrier {
    match content {
        Content::CcbsRequest(_) | Content::CcnrRequest(_) | Content::CcRingout => Carrier::Setup,
        Content::CcSuspend | Content::CcResume => Carrier::Facility,
        Content::RequestResult { .. } => Carrier::Connect,
        _ => Carrier::ReleaseComplete,
    }
}

/// Bytes that hold no message, and bytes behind one, for every type; but for
/// the requests the record that they speak of is live and in Await.
fn bad_bytes(scripts: &mut Scripts, who: Who) {
    let choices = Choices { kind: Kind::Ccbs, keep: true, connection: Connection::Ret, down: false };
    let mut contents = contents_without_requests();
    contents.push(request_content(Kind::Ccbs, &[], &ONE, 0, 3));
    contents.push(request_content(Kind::Ccnr, &[8, 8], &TWO, SERVICE, 5));
    for content in contents {
        let is_request = matches!(content, Content::CcbsRequest(_) | Content::CcnrRequest(_));
        let usual = usual_carrier(&content);
        let elements = content.carries_elements(Carrier::Setup) && usual != Carrier::Setup;
        for carrier in [usual].into_iter().chain(elements.then_some(Carrier::Setup)) {
            for bytes in damaged(&message(carrier, who, content.clone())) {
                let mut case = Case::at_line(&two_lines(), 1);
                case.hush(true);
                if !is_request {
                    drive(&mut case, Road::Await, who, choices);
                }
                case.hush(false);
                case.step(&to_line(who.place, &bytes));
                scripts.add(&case.bytes);
            }
        }
    }
    let long = [7; 15];
    for type_number in [1, 2] {
        let mut case = Case::at_line(&[(&ONE[..], 3), (&long[..], 3)], 1);
        for bytes in requests_on_edges(type_number, who.identifier, &long) {
            case.step(&to_line(who.place, &bytes));
        }
        scripts.add(&case.bytes);
    }
}

pub fn scripts() -> Scripts {
    let mut scripts = Scripts::default();
    before_any_start(&mut scripts);
    requests_accepted(&mut scripts);
    request_fields(&mut scripts);
    kinds_allowed(&mut scripts);
    duplicates(&mut scripts);
    busy_again(&mut scripts, Who::seed(8));
    busy_again(&mut scripts, Who::at(0));
    five_of_a_line(&mut scripts);
    full_desk(&mut scripts);
    looks(&mut scripts);
    no_such_line(&mut scripts);
    starts(&mut scripts);
    bad_bytes(&mut scripts, Who::seed(9));
    bad_bytes(&mut scripts, Who::at(0));
    bad_input::at_line(&mut scripts);
    every_state(&mut scripts);
    every_state_fallen(&mut scripts);
    every_state_nameless(&mut scripts);
    falls_on_the_way(&mut scripts, Who::seed(6));
    falls_on_the_way(&mut scripts, Who::at(0));
    refused_in_a_row(&mut scripts, Who::seed(40));
    refused_in_a_row(&mut scripts, Who::at(0));
    line_meant::add(&mut scripts);
    line_ticks::add(&mut scripts);
    scripts
}
