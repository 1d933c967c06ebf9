//! Directed scripts for the clerk's desk, request 1 of document 02: which record a
//! message, an act or a timer report is about. The prints stand where the record is
//! chosen, and not on the way there.

use super::clerk::{acts, road_behind_acknowledgment, Choices, Road};
use super::{
    bytes_of, contents_without_requests, elements, spread_identifier, to_clerk, with_choice, with_name, AskEntry, Case,
    Scripts, Who, ABSENT, FELL_AT_CLERK, TIMER, USER_A_FREE, USER_CANCELS,
};
use crate::codec::{Carrier, Content, Elements, Identifier};
use crate::outcome::{Connection, Kind};

const A: [u8; 1] = [1];
const OTHER_A: [u8; 1] = [9];
const B: [u8; 1] = [7];
const OTHER_B: [u8; 2] = [7, 7];
const SERVICE: u32 = 3;

/// Types 5 and 10, which are fitted at this desk.
const FITTED: [Content; 2] = [Content::CcExecPossible, Content::CcCancel];

const ROADS: [Road; 5] = [Road::WaitAck, Road::Invoked, Road::WaitAnswer, Road::Ringout, Road::Suspended];

/// One that retains its connection, so that its life goes on outside Setup and its
/// messages are meant by identifier or by place alone.
const RETAINED: Choices =
    Choices { kind: Kind::Ccbs, can_keep: true, keep: 1, connection: Connection::Ret, down: false };

/// A record of these scripts.
#[derive(Clone)]
struct Wanted {
    identifier: Option<Identifier>,
    elements: Elements,
    road: Road,
}

fn id(seed: u8) -> Option<Identifier> {
    Some(spread_identifier(seed))
}

fn numbers(number_a: &[u8]) -> Elements {
    elements(number_a, &B, SERVICE)
}

fn hand_in(who: Who, carrier: Carrier, content: Content, elements: &Elements) -> Vec<u8> {
    to_clerk(false, who.place, &bytes_of(carrier, who.identifier, content, elements))
}

fn ask(identifier: Option<Identifier>, elements: &Elements) -> Vec<u8> {
    let Elements { number_a, number_b, service } = elements;
    let service = *service as u16;
    AskEntry { identifier, kind: Kind::Ccbs, number_a, number_b, service, can_keep: true, preference: 1 }.bytes()
}

/// Asks for the record and brings it along its road; it stands at the place.
fn settle(case: &mut Case, place: usize, wanted: &Wanted) {
    let who = Who { identifier: wanted.identifier, place: place as u8 };
    case.quiet(&ask(wanted.identifier, &wanted.elements));
    if wanted.road == Road::WaitAck {
        return;
    }
    let result = Content::RequestResult { keep: 1 };
    case.quiet(&hand_in(who, Carrier::Connect, result, &wanted.elements));
    for entry in road_behind_acknowledgment(wanted.road, who, RETAINED) {
        case.quiet(&entry);
    }
}

fn settled(records: &[Wanted]) -> Case {
    let mut case = Case::at_clerk();
    for (place, wanted) in records.iter().enumerate() {
        settle(&mut case, place, wanted);
    }
    case
}

/// The desk with these records, one input and a print behind it.
fn probe(scripts: &mut Scripts, records: &[Wanted], input: &[u8]) {
    let mut case = settled(records);
    case.step(input);
    scripts.add(&case.bytes);
}

/// One record and one message: an identifier on both sides, on one, on none, the
/// same or another; every element equal, other or withheld; in every state.
fn one_against_one(scripts: &mut Scripts) {
    for road in ROADS {
        for identifier in [None, id(1)] {
            for held in [&A[..], &[]] {
                let wanted = Wanted { identifier, elements: numbers(held), road };
                for told in messages_near(id(1)) {
                    probe(scripts, &[wanted.clone()], &told);
                }
            }
        }
    }
}

/// Types 5 and 10 in Setup, with an identifier, another or none, and all elements.
fn messages_near(identifier: Option<Identifier>) -> Vec<Vec<u8>> {
    let mut inputs = Vec::new();
    for content in FITTED {
        for (place, told) in [(0, None), (ABSENT, identifier), (1, id(2))] {
            for number_a in [&A[..], &OTHER_A, &[]] {
                for number_b in [&B[..], &OTHER_B] {
                    for service in [SERVICE, 300] {
                        let who = Who { identifier: told, place };
                        let elements = elements(number_a, number_b, service);
                        inputs.push(hand_in(who, Carrier::Setup, content.clone(), &elements));
                    }
                }
            }
        }
    }
    inputs
}

/// Two and three records that fit, of all states: which is taken. The second gives
/// its numberA, the others withhold it.
fn several(scripts: &mut Scripts) {
    let wanted = |place: usize, named: bool, road: Road| Wanted {
        identifier: if named { id(10 + place as u8) } else { None },
        elements: numbers(if place == 1 { &A } else { &[] }),
        road,
    };
    for first in ROADS {
        for second in ROADS {
            for naming in [[false, false], [true, false], [false, true], [true, true]] {
                let records = [wanted(0, naming[0], first), wanted(1, naming[1], second)];
                probes_of_several(scripts, &records);
            }
            for third in ROADS {
                for naming in [[false; 3], [true, false, false], [false, true, true]] {
                    let roads = [first, second, third];
                    let records: Vec<Wanted> = (0..3).map(|n| wanted(n, naming[n], roads[n])).collect();
                    probes_of_several(scripts, &records);
                }
            }
        }
    }
}

/// Messages without an identifier, with an unknown one, and with the youngest
/// record's.
fn probes_of_several(scripts: &mut Scripts, records: &[Wanted]) {
    let youngest = records.last().and_then(|wanted| wanted.identifier);
    for content in FITTED {
        for identifier in [None, id(99)].into_iter().chain(youngest.map(Some)) {
            for number_a in [&[][..], &A, &OTHER_A] {
                let who = Who { identifier, place: records.len() as u8 - 1 };
                let input = hand_in(who, Carrier::Setup, content.clone(), &numbers(number_a));
                probe(scripts, records, &input);
            }
        }
    }
}

/// An older record, or a younger one, that doesn't fit for one reason alone.
fn passed_over(scripts: &mut Scripts) {
    let good = Wanted { identifier: None, elements: numbers(&A), road: Road::Invoked };
    let misfits = [
        Wanted { identifier: id(5), ..good.clone() },
        Wanted { elements: numbers(&OTHER_A), ..good.clone() },
        Wanted { elements: elements(&A, &OTHER_B, SERVICE), ..good.clone() },
        Wanted { elements: elements(&A, &B, 4), ..good.clone() },
    ];
    for misfit in misfits {
        for records in [[misfit.clone(), good.clone()], [good.clone(), misfit.clone()]] {
            for content in FITTED {
                for place in [0, 1, ABSENT] {
                    let who = Who { identifier: id(6), place };
                    probe(scripts, &records, &hand_in(who, Carrier::Setup, content.clone(), &numbers(&A)));
                }
            }
        }
    }
}

/// With and without identifiers, in four states.
fn four_records() -> Vec<Wanted> {
    let wanted = |identifier, number_a: &[u8], road| Wanted { identifier, elements: numbers(number_a), road };
    vec![
        wanted(id(20), &A, Road::Invoked),
        wanted(None, &[], Road::WaitAck),
        wanted(None, &A, Road::Ringout),
        wanted(id(21), &[], Road::Suspended),
    ]
}

/// "places absent, 255, of another record, of a record with an identifier", with
/// every input; and the same though an identifier is there, a live one or not.
fn places(scripts: &mut Scripts) {
    for identifier in [None, id(20), id(21), id(99)] {
        for place in [0, 1, 2, 3, 4, 16, 254, ABSENT] {
            let who = Who { identifier, place };
            let mut inputs = acts(who);
            for content in contents_without_requests() {
                for carrier in Carrier::ALL {
                    inputs.push(hand_in(who, carrier, content.clone(), &numbers(&A)));
                }
            }
            add_inputs(scripts, &inputs);
        }
    }
    for place in [0, 1, ABSENT] {
        let mut case = Case::at_clerk();
        for input in acts(Who::at(place)) {
            case.step(&input);
        }
        scripts.add(&case.bytes);
    }
}

/// A record with an identifier, in every state, and one without beside it: what
/// the place does with the identifier and without.
fn named_and_placed(scripts: &mut Scripts) {
    let other = Wanted { identifier: None, elements: elements(&A, &OTHER_B, SERVICE), road: Road::WaitAck };
    for road in ROADS {
        let records = [Wanted { identifier: id(1), elements: numbers(&A), road }, other.clone()];
        for who in [(None, 0), (id(1), 0), (id(1), 1), (id(1), 2), (id(1), ABSENT)] {
            let who = Who { identifier: who.0, place: who.1 };
            let mut inputs = acts(who);
            for content in contents_without_requests() {
                for carrier in [Carrier::Connect, Carrier::Facility, Carrier::ReleaseComplete, Carrier::Setup] {
                    inputs.push(hand_in(who, carrier, content.clone(), &numbers(&A)));
                }
            }
            for input in inputs {
                probe(scripts, &records, &input);
            }
        }
    }
}

/// Those that are refused follow one another; each of the others has its own case.
fn add_inputs(scripts: &mut Scripts, inputs: &[Vec<u8>]) {
    let mut case = settled(&four_records());
    let taken = case.step_refused(inputs);
    scripts.add(&case.bytes);
    for input in taken {
        probe(scripts, &four_records(), input);
    }
}

/// Sixteen asks without an identifier, and a seventeenth; each place freed once, by
/// place or by fit, and used again.
fn full_desk(scripts: &mut Scripts) {
    for gone in 0..16 {
        let who = Who::at(gone);
        let short = Content::RequestError { error: 1 };
        let removals = [
            with_name(USER_CANCELS, who),
            with_choice(TIMER, who, 1),
            hand_in(who, Carrier::ReleaseComplete, Content::CcCancel, &numbers(&A)),
            hand_in(who, Carrier::Setup, Content::CcCancel, &elements(&A, &B, gone.into())),
            hand_in(who, Carrier::ReleaseComplete, short, &numbers(&A)),
        ];
        for removal in removals {
            let mut case = Case::at_clerk();
            for service in 0..17 {
                case.quiet(&ask(None, &elements(&A, &B, service)));
            }
            case.step(&removal);
            case.quiet(&ask(None, &elements(&[], &B, 100)));
            case.step(&ask(None, &elements(&[], &B, 101)));
            case.step(&ask(id(1), &elements(&[], &B, 101)));
            scripts.add(&case.bytes);
        }
    }
}

/// The connection falls and User A is busy, for one of two records without an
/// identifier that are otherwise alike.
fn marks(scripts: &mut Scripts) {
    let alike = Wanted { identifier: None, elements: numbers(&[]), road: Road::Invoked };
    for place in 0..2 {
        let (who, other) = (Who::at(place), Who::at(1 - place));
        let mut case = settled(&[alike.clone(), alike.clone()]);
        case.step(&with_name(FELL_AT_CLERK, who));
        let offer = |who: Who, carrier: Carrier| {
            let bytes = bytes_of(carrier, who.identifier, Content::CcExecPossible, &numbers(&A));
            to_clerk(true, who.place, &bytes)
        };
        case.step(&offer(other, Carrier::Facility));
        case.step(&offer(other, Carrier::Setup));
        case.step(&offer(other, Carrier::Setup));
        case.step(&with_choice(USER_A_FREE, who, 0));
        case.step(&with_choice(USER_A_FREE, other, 1));
        case.step(&with_name(FELL_AT_CLERK, other));
        case.step(&with_choice(TIMER, who, 2));
        case.step(&with_name(USER_CANCELS, Who::at(0)));
        scripts.add(&case.bytes);
    }
}

/// READINGS-02: "It fails in ordinary use too .. ask, cancel, ask again; the first
/// request is accepted and then cancelled by the line, and its ccCancel in Setup
/// takes the second's record."
fn ask_cancel_ask_again(scripts: &mut Scripts) {
    for identifier in [None, id(1)] {
        let mut case = Case::at_clerk();
        case.step(&ask(None, &numbers(&A)));
        case.step(&with_name(USER_CANCELS, Who::at(0)));
        case.step(&ask(identifier, &numbers(&A)));
        let result = Content::RequestResult { keep: 1 };
        case.step(&hand_in(Who::at(0), Carrier::ReleaseComplete, result, &numbers(&A)));
        case.step(&hand_in(Who::at(ABSENT), Carrier::Setup, Content::CcCancel, &numbers(&A)));
        scripts.add(&case.bytes);
    }
}

pub fn add(scripts: &mut Scripts) {
    one_against_one(scripts);
    several(scripts);
    passed_over(scripts);
    places(scripts);
    named_and_placed(scripts);
    full_desk(scripts);
    marks(scripts);
    ask_cancel_ask_again(scripts);
}
