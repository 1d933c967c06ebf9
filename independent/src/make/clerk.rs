//! Directed scripts for the clerk's desk.

use super::{
    bad_input, bytes_of, clerk_meant, clerk_ticks, contents_without_requests, damaged, elements, request_content,
    requests_on_edges, spread_identifier, to_clerk, with_choice, with_name, AskEntry, Case, Scripts, Who, ACCEPT,
    FELL_AT_CLERK, TIMER, USER_A_FREE, USER_CANCELS,
};
use crate::codec::{Carrier, Content, Identifier};
use crate::outcome::{Connection, Kind};

/// How a record comes to its state: each state, by each road that leads there.
#[derive(Clone, Copy, PartialEq)]
pub enum Road {
    NoRecord,
    WaitAck,
    Invoked,
    InvokedAfterResume,
    InvokedAfterBusyAgain,
    WaitAnswer,
    WaitAnswerFromSuspended,
    Ringout,
    RingoutFromSuspended,
    Suspended,
}

pub const ACKNOWLEDGED_ROADS: [Road; 8] = [
    Road::Invoked,
    Road::InvokedAfterResume,
    Road::InvokedAfterBusyAgain,
    Road::WaitAnswer,
    Road::WaitAnswerFromSuspended,
    Road::Ringout,
    Road::RingoutFromSuspended,
    Road::Suspended,
];

/// What is chosen for a record: can-keep as sent, keep as answered, the
/// connection as answered; whether the connection falls behind the answer.
#[derive(Clone, Copy)]
pub struct Choices {
    pub kind: Kind,
    pub can_keep: bool,
    pub keep: u32,
    pub connection: Connection,
    pub down: bool,
}

fn all_choices() -> Vec<Choices> {
    let mut choices = Vec::new();
    for connection in [Connection::Ret, Connection::Rls].iter() {
        for (can_keep, keep) in [(false, 0), (false, 1), (true, 0), (true, 1)].iter() {
            let kind = if *can_keep == (*keep == 1) { Kind::Ccbs } else { Kind::Ccnr };
            choices.push(Choices { kind, can_keep: *can_keep, keep: *keep, connection: *connection, down: false });
        }
    }
    choices
}

pub const NUMBER_A: [u8; 3] = [2, 0, 1];
pub const NUMBER_B: [u8; 2] = [7, 5];
pub const SERVICE: u16 = 300;

pub fn ask(who: Who, choices: Choices) -> Vec<u8> {
    let withheld = choices.keep == 1 && choices.connection == Connection::Rls;
    AskEntry {
        identifier: who.identifier,
        kind: choices.kind,
        number_a: if withheld { &[] } else { &NUMBER_A },
        number_b: &NUMBER_B,
        service: SERVICE,
        can_keep: choices.can_keep,
        preference: 0,
    }
    .bytes()
}

/// A message's bytes, its elements those of `ask`.
fn message(carrier: Carrier, who: Who, content: Content) -> Vec<u8> {
    bytes_of(carrier, who.identifier, content, &elements(&NUMBER_A, &NUMBER_B, SERVICE.into()))
}

pub fn hand_in(carrier: Carrier, who: Who, content: Content) -> Vec<u8> {
    to_clerk(false, who.place, &message(carrier, who, content))
}

pub fn result(who: Who, choices: Choices) -> Vec<u8> {
    let carrier = match choices.connection {
        Connection::Ret => Carrier::Connect,
        Connection::Rls => Carrier::ReleaseComplete,
    };
    hand_in(carrier, who, Content::RequestResult { keep: choices.keep })
}

/// In the carrier that the other end sends by, which has seen the fall too.
pub fn offer(who: Who, choices: Choices, user_a_busy: bool) -> Vec<u8> {
    let carrier = choices.connection.for_sending(choices.down).facility_or_setup();
    to_clerk(user_a_busy, who.place, &message(carrier, who, Content::CcExecPossible))
}

/// The steps behind the acknowledgment that make up a road.
pub fn road_behind_acknowledgment(road: Road, who: Who, choices: Choices) -> Vec<Vec<u8>> {
    let recall = offer(who, choices, false);
    let suspend = offer(who, choices, true);
    let resume = with_choice(USER_A_FREE, who, 0);
    let go_on = with_choice(USER_A_FREE, who, 1);
    let accept = with_name(ACCEPT, who);
    let again = hand_in(Carrier::ReleaseComplete, who, Content::RingoutError { error: 1 });
    match road {
        Road::NoRecord | Road::WaitAck | Road::Invoked => vec![],
        Road::InvokedAfterResume => vec![suspend, resume],
        Road::InvokedAfterBusyAgain => vec![recall, accept, again],
        Road::WaitAnswer => vec![recall],
        Road::WaitAnswerFromSuspended => vec![suspend, go_on],
        Road::Ringout => vec![recall, accept],
        Road::RingoutFromSuspended => vec![suspend, go_on, accept],
        Road::Suspended => vec![suspend],
    }
}

pub fn drive(case: &mut Case, road: Road, who: Who, choices: Choices) {
    if road == Road::NoRecord {
        return;
    }
    case.step(&ask(who, choices));
    if road == Road::WaitAck {
        return;
    }
    case.step(&result(who, choices));
    if choices.down {
        case.step(&with_name(FELL_AT_CLERK, who));
    }
    for entry in road_behind_acknowledgment(road, who, choices) {
        case.step(&entry);
    }
}

/// Every message type in every carrier, User A busy and not busy.
fn message_inputs(who: Who) -> Vec<Vec<u8>> {
    let mut contents = contents_without_requests();
    contents.push(request_content(Kind::Ccbs, &NUMBER_A, &NUMBER_B, 300, 1));
    contents.push(request_content(Kind::Ccnr, &[], &NUMBER_B, 0, 4));
    let mut inputs = Vec::new();
    for content in contents {
        for carrier in Carrier::ALL.iter() {
            for busy in [false, true].iter() {
                inputs.push(to_clerk(*busy, who.place, &message(*carrier, who, content.clone())));
            }
        }
    }
    inputs
}

/// Every act and every timer that name a record, the fallen connection too.
pub fn acts(who: Who) -> Vec<Vec<u8>> {
    vec![
        with_name(ACCEPT, who),
        with_choice(USER_A_FREE, who, 0),
        with_choice(USER_A_FREE, who, 1),
        with_name(USER_CANCELS, who),
        with_choice(TIMER, who, 1),
        with_choice(TIMER, who, 2),
        with_choice(TIMER, who, 3),
        with_name(FELL_AT_CLERK, who),
    ]
}

/// The acts, asks with the same and with another identifier, and no bytes at all.
fn other_inputs(who: Who, choices: Choices) -> Vec<Vec<u8>> {
    let mut inputs = acts(who);
    inputs.push(ask(who, choices));
    inputs.push(ask(Who::seed(90), choices));
    inputs.push(to_clerk(false, who.place, &[]));
    inputs
}

/// A record of other numbers than the others have.
fn stranger(case: &mut Case, seed: u8, acknowledged: bool) {
    case.step(&plain_ask(seed, &[1], &[8, 8], 7, 1).bytes());
    if acknowledged {
        let content = Content::RequestResult { keep: 1 };
        case.step(&hand_in(Carrier::Connect, Who::seed(seed), content));
    }
}

/// Who the record is that every input is tried on.
#[derive(Clone, Copy, PartialEq)]
enum Naming {
    /// With an identifier, alone at the desk.
    Alone,
    /// With one, between others with the same numbers, so that a delete has a gap
    /// to close.
    Between,
    /// Without an identifier, alone at the desk.
    Nameless,
    /// Without one, between others that its messages don't fit.
    NamelessBetween,
}

impl Naming {
    fn who(self) -> Who {
        match self {
            Naming::Alone | Naming::Between => Who::seed(40),
            Naming::Nameless => Who::at(0),
            Naming::NamelessBetween => Who::at(1),
        }
    }
}

/// One road, every input; the way there is printed once.
fn every_input(scripts: &mut Scripts, road: Road, choices: Choices, naming: Naming) {
    let who = naming.who();
    let mut inputs = message_inputs(who);
    inputs.extend(other_inputs(who, choices));
    for (n, input) in inputs.iter().enumerate() {
        let mut case = Case::at_clerk();
        case.hush(n > 0);
        match naming {
            Naming::Between => drive(&mut case, Road::Invoked, Who::seed(41), choices),
            Naming::NamelessBetween => stranger(&mut case, 41, true),
            _ => {}
        }
        drive(&mut case, road, who, choices);
        match naming {
            Naming::Between => drive(&mut case, Road::WaitAck, Who::seed(39), choices),
            Naming::NamelessBetween => stranger(&mut case, 39, false),
            _ => {}
        }
        case.hush(false);
        case.step(input);
        scripts.add(&case.bytes);
    }
}

/// "every input in every state and with no record, .. RET and RLS, keep and not".
fn every_state(scripts: &mut Scripts) {
    for choices in all_choices() {
        if choices.connection == Connection::Ret {
            every_input(scripts, Road::WaitAck, choices, Naming::Between);
        }
        let kept = choices.can_keep && choices.keep == 1;
        for road in ACKNOWLEDGED_ROADS.iter() {
            if *road != Road::InvokedAfterBusyAgain || kept {
                every_input(scripts, *road, choices, Naming::Between);
                if kept {
                    every_input(scripts, *road, choices, Naming::Alone);
                    every_input(scripts, *road, Choices { kind: Kind::Ccnr, ..choices }, Naming::Alone);
                }
            }
        }
        if kept {
            every_input(scripts, Road::NoRecord, choices, Naming::Between);
            every_input(scripts, Road::NoRecord, choices, Naming::Alone);
            every_input(scripts, Road::WaitAck, choices, Naming::Alone);
        }
    }
}

/// The same for a record without an identifier, by place and by fit.
fn every_state_nameless(scripts: &mut Scripts) {
    for choices in all_choices().into_iter().chain(fallen_choices()) {
        let kept = choices.can_keep && choices.keep == 1;
        if choices.connection == Connection::Ret && !choices.down {
            every_input(scripts, Road::WaitAck, choices, Naming::Nameless);
        }
        for road in ACKNOWLEDGED_ROADS {
            let in_ringout = matches!(road, Road::Ringout | Road::RingoutFromSuspended);
            if kept || in_ringout {
                every_input(scripts, road, choices, Naming::Nameless);
                every_input(scripts, road, Choices { kind: Kind::Ccnr, ..choices }, Naming::Nameless);
            }
            if kept && choices.kind == Kind::Ccbs {
                every_input(scripts, road, choices, Naming::NamelessBetween);
            }
        }
        if kept && choices.kind == Kind::Ccbs {
            every_input(scripts, Road::WaitAck, choices, Naming::NamelessBetween);
            every_input(scripts, Road::NoRecord, choices, Naming::Nameless);
        }
    }
}

/// The choices of records whose connection has fallen: both kinds, keep and not.
fn fallen_choices() -> Vec<Choices> {
    let kinds = [Kind::Ccbs, Kind::Ccnr].into_iter();
    let with_keep =
        |kind: Kind| [0, 1].map(|keep| Choices { kind, can_keep: true, keep, connection: Connection::Ret, down: true });
    kinds.flat_map(with_keep).collect()
}

/// "we want that in all states at both ends": every input to a marked record in
/// every state; without keep from Ringout alone, where keep decides.
fn every_state_fallen(scripts: &mut Scripts) {
    for choices in fallen_choices() {
        for road in ACKNOWLEDGED_ROADS {
            let in_ringout = matches!(road, Road::Ringout | Road::RingoutFromSuspended);
            if choices.keep == 1 || in_ringout {
                every_input(scripts, road, choices, Naming::Alone);
            }
        }
    }
}

/// The connection falls at each step of a life and is reported twice; the
/// record's life goes on, with messages in the carriers of either kind.
fn falls_on_the_way(scripts: &mut Scripts, who: Who) {
    for choices in all_choices() {
        for road in [Road::WaitAck].into_iter().chain(ACKNOWLEDGED_ROADS) {
            let mut case = Case::at_clerk();
            drive(&mut case, road, who, choices);
            case.step(&with_name(FELL_AT_CLERK, who));
            case.step(&with_name(FELL_AT_CLERK, who));
            case.step(&result(who, choices));
            for carrier in [Carrier::Setup, Carrier::Facility] {
                case.step(&to_clerk(true, who.place, &message(carrier, who, Content::CcExecPossible)));
                case.step(&with_choice(USER_A_FREE, who, 0));
            }
            case.step(&offer(who, choices, false));
            case.step(&with_name(ACCEPT, who));
            case.step(&hand_in(Carrier::ReleaseComplete, who, Content::RingoutError { error: 1 }));
            case.step(&with_name(FELL_AT_CLERK, who));
            case.step(&with_name(USER_CANCELS, who));
            case.step(&with_name(FELL_AT_CLERK, who));
            scripts.add(&case.bytes);
        }
    }
}

/// All that is refused in a state, one input behind the other: they change
/// nothing.
fn refused_in_a_row(scripts: &mut Scripts, who: Who) {
    let mut every = all_choices();
    every.extend(fallen_choices());
    for choices in every.into_iter().filter(|c| c.can_keep) {
        for road in [Road::NoRecord, Road::WaitAck].into_iter().chain(ACKNOWLEDGED_ROADS) {
            let mut case = Case::at_clerk();
            drive(&mut case, road, who, choices);
            let mut inputs = message_inputs(who);
            inputs.extend(other_inputs(who, choices));
            case.step_refused(&inputs);
            scripts.add(&case.bytes);
        }
    }
}

pub fn plain_ask<'a>(seed: u8, number_a: &'a [u8], number_b: &'a [u8], service: u16, preference: u8) -> AskEntry<'a> {
    let identifier = Some(spread_identifier(seed));
    AskEntry { identifier, kind: Kind::Ccbs, number_a, number_b, service, can_keep: true, preference }
}

/// Every choice of an ask that is taken, and the edges of its fields.
fn asks_taken(scripts: &mut Scripts) {
    for kind in [Kind::Ccbs, Kind::Ccnr].iter() {
        for number_a in [&[][..], &[0], &[9; 15]].iter() {
            for number_b in [&[0][..], &[9], &[5; 15]].iter() {
                for flags in 0..6 {
                    let mut case = Case::at_clerk();
                    let mut entry = plain_ask(1, number_a, number_b, 7, flags / 2);
                    entry.kind = *kind;
                    entry.can_keep = flags % 2 == 1;
                    case.step(&entry.bytes());
                    entry.identifier = None;
                    case.step(&entry.bytes());
                    scripts.add(&case.bytes);
                }
            }
        }
    }
    for service in [0, 1, 127, 128, 129, 255, 256, 300, 16382, 16383].iter() {
        let mut case = Case::at_clerk();
        case.step(&plain_ask(2, &[1], &[2], *service, 2).bytes());
        scripts.add(&case.bytes);
    }
}

/// Refusal 2, one fault at a time and two at once.
fn asks_out_of_range() -> Vec<Vec<u8>> {
    let seed = 3;
    let mut entries = Vec::new();
    for length in [16, 17, 31, 100, 255].iter() {
        let long = vec![1; *length];
        entries.push(plain_ask(seed, &long, &[2], 0, 0).bytes());
        entries.push(plain_ask(seed, &[1], &long, 0, 0).bytes());
    }
    for digit in [10, 11, 127, 128, 255].iter() {
        for place in [0, 7, 14].iter() {
            let mut bad = vec![3; 15];
            bad[*place] = *digit;
            entries.push(plain_ask(seed, &bad, &[2], 0, 0).bytes());
            entries.push(plain_ask(seed, &[1], &bad, 0, 0).bytes());
        }
        entries.push(plain_ask(seed, &[*digit], &[2], 0, 0).bytes());
        entries.push(plain_ask(seed, &[1], &[*digit], 0, 0).bytes());
    }
    entries.push(plain_ask(seed, &[1], &[], 0, 0).bytes());
    entries.push(plain_ask(seed, &[], &[], 0, 0).bytes());
    for service in [16384, 16385, 32767, 32768, 65535].iter() {
        entries.push(plain_ask(seed, &[1], &[2], *service, 0).bytes());
    }
    for preference in [3, 4, 6, 127, 128, 254, 255].iter() {
        entries.push(plain_ask(seed, &[1], &[2], 0, *preference).bytes());
    }
    entries.push(plain_ask(seed, &[], &[], 65535, 255).bytes());
    entries
}

/// "Ask: 2, 4, 5": each fault at an empty desk, on a live identifier, at a
/// full desk, and on a live identifier at a full desk.
fn asks_refused(scripts: &mut Scripts) {
    let fill = |count: u8| {
        let mut case = Case::at_clerk();
        for seed in 0..count {
            case.step(&plain_ask(seed, &[1], &[2], 0, 0).bytes());
        }
        case
    };
    for filled in [0, 3, 4, 15, 16].iter() {
        let mut case = fill(*filled);
        for entry in asks_out_of_range() {
            case.step(&entry);
        }
        case.step(&plain_ask(3, &[1], &[2], 0, 0).bytes());
        case.step(&plain_ask(200, &[1], &[2], 0, 0).bytes());
        for _ in 0..2 {
            case.step(&AskEntry { identifier: None, ..plain_ask(0, &[1], &[2], 0, 0) }.bytes());
        }
        case.step(&plain_ask(201, &[1], &[2], 0, 0).bytes());
        scripts.add(&case.bytes);
    }
}

/// The ways in which a record in Wait-Ack goes.
fn removals(who: Who) -> Vec<Vec<u8>> {
    vec![
        with_name(USER_CANCELS, who),
        with_choice(TIMER, who, 1),
        hand_in(Carrier::ReleaseComplete, who, Content::CcCancel),
        hand_in(Carrier::Setup, who, Content::CcCancel),
        hand_in(Carrier::ReleaseComplete, who, Content::RequestError { error: 1 }),
        hand_in(Carrier::ReleaseComplete, who, Content::RequestError { error: 2 }),
    ]
}

/// "16 against 17 asks"; "A freed place is used again", for each of the places.
fn full_desk(scripts: &mut Scripts) {
    for gone in 0..16 {
        for (which, _) in removals(Who::seed(0)).iter().enumerate() {
            let mut case = Case::at_clerk();
            for seed in 0..17 {
                case.step(&plain_ask(seed, &[seed % 10], &[2], u16::from(seed), seed % 3).bytes());
            }
            if let Some(removal) = removals(Who::seed(gone)).get(which) {
                case.step(removal);
                case.step(removal);
            }
            case.step(&plain_ask(gone, &[], &[8, 8], 9, 1).bytes());
            case.step(&plain_ask(77, &[1], &[2], 0, 0).bytes());
            scripts.add(&case.bytes);
        }
    }
}

/// Sixteen identifiers that differ from one another in a single byte each.
fn nearly_equal_identifiers(scripts: &mut Scripts) {
    let mut case = Case::at_clerk();
    let one_off = |place: usize| -> Identifier {
        let mut identifier = [0x80; 16];
        identifier[place % 16] = 0x81;
        identifier
    };
    let who = |identifier: Identifier| Who { identifier: Some(identifier), place: 3 };
    for place in 0..16 {
        let mut entry = plain_ask(0, &[1], &[2], 0, 0);
        entry.identifier = Some(one_off(place));
        case.step(&entry.bytes());
    }
    for place in [5, 0, 15, 8, 1, 14, 2, 13, 3, 12, 4, 11, 6, 10, 7, 9].iter() {
        case.step(&hand_in(Carrier::Connect, who(one_off(*place)), Content::RequestResult { keep: 1 }));
        case.step(&with_name(USER_CANCELS, who([0x80; 16])));
    }
    for place in 0..16 {
        case.step(&hand_in(Carrier::Setup, who(one_off(15 - place)), Content::CcCancel));
    }
    scripts.add(&case.bytes);
}

/// A state in which the desk takes a message of this type, where there is one,
/// and a carrier that it takes it in.
fn road_and_carrier(content: &Content) -> (Road, Carrier) {
    match content {
        Content::RequestResult { .. } => (Road::WaitAck, Carrier::Connect),
        Content::RequestError { .. } | Content::CcCancel => (Road::WaitAck, Carrier::ReleaseComplete),
        Content::CcExecPossible => (Road::Invoked, Carrier::Facility),
        Content::CallAlerts => (Road::Ringout, Carrier::Alerting),
        Content::RingoutError { .. } | Content::CallFailed => (Road::Ringout, Carrier::ReleaseComplete),
        Content::CcSuspend => (Road::Invoked, Carrier::Facility),
        Content::CcbsRequest(_) | Content::CcnrRequest(_) | Content::CcRingout | Content::CcResume => {
            (Road::Invoked, Carrier::Setup)
        }
    }
}

/// Bytes that hold no message, and bytes behind one, for every type; the record
/// they speak of is live, so that a fault that isn't seen would change the desk.
fn bad_bytes(scripts: &mut Scripts, who: Who) {
    let choices = Choices { kind: Kind::Ccbs, can_keep: true, keep: 1, connection: Connection::Ret, down: false };
    let mut contents = contents_without_requests();
    contents.push(request_content(Kind::Ccbs, &NUMBER_A, &NUMBER_B, 300, 5));
    contents.push(request_content(Kind::Ccnr, &[], &NUMBER_B, 0, 4));
    for content in contents {
        let (road, usual) = road_and_carrier(&content);
        let elements = content.carries_elements(Carrier::Setup) && usual != Carrier::Setup;
        for carrier in [usual].into_iter().chain(elements.then_some(Carrier::Setup)) {
            for bytes in damaged(&message(carrier, who, content.clone())) {
                let mut case = Case::at_clerk();
                case.hush(true);
                drive(&mut case, road, who, choices);
                case.hush(false);
                case.step(&to_clerk(false, who.place, &bytes));
                scripts.add(&case.bytes);
            }
        }
    }
    for type_number in [1, 2] {
        let mut case = Case::at_clerk();
        drive(&mut case, Road::WaitAck, who, choices);
        for bytes in requests_on_edges(type_number, who.identifier, &[7; 15]) {
            case.step(&to_clerk(false, who.place, &bytes));
        }
        scripts.add(&case.bytes);
    }
}

/// Busy again in Ringout, three times where the record is kept: CCBS and CCNR,
/// every can-keep and keep, RET and RLS, by both roads to Ringout. A CCNR record
/// is CCBS from the first time on (request 5).
fn busy_again(scripts: &mut Scripts, who: Who) {
    for choices in all_choices() {
        for kind in [Kind::Ccbs, Kind::Ccnr] {
            for suspended in [false, true] {
                let choices = Choices { kind, ..choices };
                let mut case = Case::at_clerk();
                drive(&mut case, Road::Invoked, who, choices);
                for _ in 0..3 {
                    busy_again_once(&mut case, who, choices, suspended);
                }
                case.step(&offer(who, choices, false));
                case.step(&with_choice(TIMER, who, 2));
                scripts.add(&case.bytes);
            }
        }
    }
}

/// From Invoked to Ringout, where the ringout error meets the record.
fn busy_again_once(case: &mut Case, who: Who, choices: Choices, suspended: bool) {
    let road = if suspended { Road::RingoutFromSuspended } else { Road::Ringout };
    for entry in road_behind_acknowledgment(road, who, choices) {
        case.step(&entry);
    }
    case.step(&hand_in(Carrier::ReleaseComplete, who, Content::RingoutError { error: 1 }));
}

/// A long run: the same identifier, or none, goes through its life again and again;
/// each turn leaves a record in Wait-Ack behind.
fn lives(scripts: &mut Scripts, identifier: Option<Identifier>) {
    let mut case = Case::at_clerk();
    for (turn, choices) in all_choices().into_iter().enumerate() {
        let who = Who { identifier, place: turn as u8 + 1 };
        drive(&mut case, Road::WaitAck, Who::seed(100 + turn as u8), choices);
        drive(&mut case, Road::InvokedAfterResume, who, choices);
        case.step(&offer(who, choices, false));
        case.step(&with_choice(TIMER, who, 2 + (turn % 2) as u8));
        drive(&mut case, Road::RingoutFromSuspended, who, choices);
        case.step(&with_choice(TIMER, who, 2));
        case.step(&hand_in(Carrier::ReleaseComplete, who, Content::RingoutError { error: 1 }));
        case.step(&with_choice(TIMER, who, 2));
        drive(&mut case, Road::Ringout, who, choices);
        case.step(&hand_in(Carrier::Alerting, who, Content::CallAlerts));
    }
    scripts.add(&case.bytes);
}

pub fn scripts() -> Scripts {
    let mut scripts = Scripts::default();
    asks_taken(&mut scripts);
    asks_refused(&mut scripts);
    nearly_equal_identifiers(&mut scripts);
    lives(&mut scripts, Some(spread_identifier(5)));
    lives(&mut scripts, None);
    busy_again(&mut scripts, Who::seed(8));
    busy_again(&mut scripts, Who::at(0));
    full_desk(&mut scripts);
    bad_bytes(&mut scripts, Who::seed(9));
    bad_bytes(&mut scripts, Who::at(0));
    bad_input::at_clerk(&mut scripts);
    every_state(&mut scripts);
    every_state_fallen(&mut scripts);
    every_state_nameless(&mut scripts);
    falls_on_the_way(&mut scripts, Who::seed(6));
    falls_on_the_way(&mut scripts, Who::at(0));
    refused_in_a_row(&mut scripts, Who::seed(40));
    refused_in_a_row(&mut scripts, Who::at(0));
    clerk_meant::add(&mut scripts);
    clerk_ticks::add(&mut scripts);
    scripts
}
