//! Directed scripts for the line desk, request 1 of document 02: which record a
//! message, an act or a guard's report is about, and what is a duplicate. The prints
//! stand where the record is chosen, and not on the way there.

use super::line::{activity, acts, resume, suspend, two_lines, ONE, TWO};
use super::{
    bytes_of, contents_without_requests, elements, look, report, request_content, spread_identifier, to_line,
    with_choice, with_name, Case, Scripts, Who, ABSENT, ACT, FELL_AT_LINE, GUARD_RUNS_OUT,
};
use crate::codec::{Carrier, Content, Elements, Identifier};
use crate::outcome::{Connection, Kind};

const SERVICE: u32 = 3;

/// Types 6, 9 and 10, which are fitted at this desk.
const FITTED: [Content; 3] = [Content::CcRingout, Content::CcResume, Content::CcCancel];

/// What a record is to be when the message comes.
#[derive(Clone, Copy, PartialEq)]
enum Aim {
    Invoked,
    Await,
    Suspended,
    Alert,
}

const AIMS: [Aim; 4] = [Aim::Invoked, Aim::Await, Aim::Suspended, Aim::Alert];

/// A record of these scripts; its request is CCBS, can-keep, RET.
#[derive(Clone)]
struct Wanted {
    identifier: Option<Identifier>,
    elements: Elements,
    aim: Aim,
}

fn id(seed: u8) -> Option<Identifier> {
    Some(spread_identifier(seed))
}

fn numbers(number_a: &[u8]) -> Elements {
    elements(number_a, &ONE, SERVICE)
}

fn hand_in(who: Who, carrier: Carrier, content: Content, elements: &Elements) -> Vec<u8> {
    to_line(who.place, &bytes_of(carrier, who.identifier, content, elements))
}

fn request(who: Who, kind: Kind, elements: &Elements) -> Vec<u8> {
    let content = request_content(kind, &elements.number_a, &elements.number_b, elements.service, 3);
    hand_in(who, Carrier::Setup, content, elements)
}

/// Accepts the records in order and parks each as a suspended one, so that the next
/// can be offered; then brings each to its aim. A ccRingout is fitted, so that some
/// mixes can't be reached; the nearest comes out, and is compared all the same.
fn settled(records: &[Wanted]) -> Case {
    let mut case = Case::at_line(&two_lines(), 1);
    let who = |place: usize| Who { identifier: records[place].identifier, place: place as u8 };
    for (place, wanted) in records.iter().enumerate() {
        case.quiet(&request(who(place), Kind::Ccbs, &wanted.elements));
        if records.len() > 1 || wanted.aim != Aim::Invoked {
            case.quiet(&look(&wanted.elements.number_b));
        }
        if records.len() > 1 || wanted.aim == Aim::Suspended {
            case.quiet(&suspend(who(place), Connection::Ret));
        }
    }
    let all = |aim: Aim| (0..records.len()).filter(move |place| records[*place].aim == aim);
    for place in all(Aim::Alert) {
        case.quiet(&hand_in(who(place), Carrier::Setup, Content::CcRingout, &records[place].elements));
    }
    for place in all(Aim::Await).filter(|_| records.len() > 1) {
        case.quiet(&resume(who(place), Connection::Ret));
        case.quiet(&look(&records[place].elements.number_b));
    }
    for place in all(Aim::Invoked).filter(|_| records.len() > 1) {
        case.quiet(&resume(who(place), Connection::Ret));
    }
    case
}

/// The desk with these records, one input and a print behind it.
fn probe(scripts: &mut Scripts, records: &[Wanted], input: &[u8]) {
    let mut case = settled(records);
    case.step(input);
    scripts.add(&case.bytes);
}

/// One record and one message: an identifier on both sides, on one, on none, the
/// same or another; every element equal, other or withheld; in every state.
fn one_against_one(scripts: &mut Scripts) {
    for aim in AIMS {
        for identifier in [None, id(1)] {
            for held in [&[5][..], &[]] {
                let wanted = Wanted { identifier, elements: numbers(held), aim };
                for told in messages_near(id(1)) {
                    probe(scripts, &[wanted.clone()], &told);
                }
            }
        }
    }
}

/// Types 6, 9 and 10 in Setup, with an identifier, another or none, and all elements.
fn messages_near(identifier: Option<Identifier>) -> Vec<Vec<u8>> {
    let mut inputs = Vec::new();
    for content in FITTED {
        for (place, told) in [(0, None), (ABSENT, identifier), (1, id(2))] {
            for number_a in [&[5][..], &[9], &[]] {
                for number_b in [&ONE[..], &TWO] {
                    for service in [SERVICE, 300] {
                        let who = Who { identifier: told, place };
                        let elements = elements(number_a, number_b, service);
                        inputs.push(hand_in(who, Carrier::Setup, content.clone(), &elements));
                    }
                }
            }
        }
    }
    inputs
}

/// Two and three records of all states: which is taken. They give numbers 0, 1 and
/// 2 as their numberA, or withhold it.
fn several(scripts: &mut Scripts) {
    for first in AIMS {
        for second in AIMS {
            for (naming, withheld) in [([false, false], false), ([true, false], true), ([false, true], true)] {
                let records = mix(&[first, second], &naming, withheld);
                probes_of_several(scripts, &records);
            }
            for third in AIMS {
                for (naming, withheld) in
                    [([false; 3], false), ([true, false, false], false), ([false, true, true], true), ([true; 3], true)]
                {
                    let records = mix(&[first, second, third], &naming, withheld);
                    probes_of_several(scripts, &records);
                }
            }
        }
    }
}

fn mix(aims: &[Aim], named: &[bool], withheld: bool) -> Vec<Wanted> {
    let wanted = |(place, aim): (usize, &Aim)| Wanted {
        identifier: if named[place] { id(10 + place as u8) } else { None },
        elements: numbers(&if withheld && place != 1 { vec![] } else { vec![place as u8] }),
        aim: *aim,
    };
    aims.iter().enumerate().map(wanted).collect()
}

/// Messages without an identifier, with an unknown one, and with the youngest
/// record's.
fn probes_of_several(scripts: &mut Scripts, records: &[Wanted]) {
    let youngest = records.last().and_then(|wanted| wanted.identifier);
    for content in FITTED {
        for identifier in [None, id(99)].into_iter().chain(youngest.map(Some)) {
            for number_a in [&[][..], &[1], &[9]] {
                let who = Who { identifier, place: records.len() as u8 - 1 };
                let input = hand_in(who, Carrier::Setup, content.clone(), &numbers(number_a));
                probe(scripts, records, &input);
            }
        }
    }
}

/// An older record, or a younger one, that doesn't fit for one reason alone. Both
/// are in Await and suspended.
fn passed_over(scripts: &mut Scripts) {
    let good = Wanted { identifier: None, elements: numbers(&[]), aim: Aim::Suspended };
    let misfits = [
        Wanted { identifier: id(5), ..good.clone() },
        Wanted { elements: numbers(&[8]), ..good.clone() },
        Wanted { elements: elements(&[], &TWO, SERVICE), ..good.clone() },
        Wanted { elements: elements(&[], &ONE, 4), ..good.clone() },
    ];
    for misfit in misfits {
        for records in [[misfit.clone(), good.clone()], [good.clone(), misfit.clone()]] {
            for content in FITTED {
                for place in [0, 1, ABSENT] {
                    let who = Who { identifier: id(6), place };
                    probe(scripts, &records, &hand_in(who, Carrier::Setup, content.clone(), &numbers(&[7])));
                }
            }
        }
    }
}

/// With and without identifiers, in four states.
fn four_records() -> Vec<Wanted> {
    let wanted = |identifier, number_a: &[u8], aim| Wanted { identifier, elements: numbers(number_a), aim };
    vec![
        wanted(id(20), &[1], Aim::Alert),
        wanted(None, &[2], Aim::Invoked),
        wanted(None, &[3], Aim::Alert),
        wanted(id(21), &[], Aim::Suspended),
    ]
}

/// "places absent, 255, of another record, of a record with an identifier", with
/// every input; and the same though an identifier is there, a live one or not.
fn places(scripts: &mut Scripts) {
    for identifier in [None, id(20), id(21), id(99)] {
        for place in [0, 1, 2, 3, 4, 32, 254, ABSENT] {
            let who = Who { identifier, place };
            let mut inputs = acts(who);
            for content in contents_without_requests() {
                for carrier in Carrier::ALL {
                    inputs.push(hand_in(who, carrier, content.clone(), &numbers(&[2])));
                }
            }
            inputs.push(request(who, Kind::Ccbs, &numbers(&[6])));
            add_inputs(scripts, &inputs);
        }
    }
    for place in [0, 1, ABSENT] {
        let mut case = Case::at_line(&two_lines(), 1);
        for input in acts(Who::at(place)) {
            case.step(&input);
        }
        scripts.add(&case.bytes);
    }
}

/// A record with an identifier, in every state, and one without beside it: what
/// the place does with the identifier and without.
fn named_and_placed(scripts: &mut Scripts) {
    let other = Wanted { identifier: None, elements: elements(&[], &TWO, SERVICE), aim: Aim::Suspended };
    for aim in AIMS {
        let records = [Wanted { identifier: id(1), elements: numbers(&[5]), aim }, other.clone()];
        for who in [(None, 0), (id(1), 0), (id(1), 1), (id(1), 2), (id(1), ABSENT)] {
            let who = Who { identifier: who.0, place: who.1 };
            let mut inputs = acts(who);
            for content in contents_without_requests() {
                for carrier in [Carrier::Facility, Carrier::ReleaseComplete, Carrier::Setup] {
                    inputs.push(hand_in(who, carrier, content.clone(), &numbers(&[5])));
                }
            }
            for input in inputs {
                probe(scripts, &records, &input);
            }
        }
    }
}

/// Those that are refused follow one another; each of the others has its own case.
fn add_inputs(scripts: &mut Scripts, inputs: &[Vec<u8>]) {
    let mut case = settled(&four_records());
    let taken = case.step_refused(inputs);
    scripts.add(&case.bytes);
    for input in taken {
        probe(scripts, &four_records(), input);
    }
}

/// "the identifier test only where both have one; the numbers' test as in 01": a
/// record and a request, with identifiers, the same, other or none, in every state.
fn duplicates(scripts: &mut Scripts) {
    for aim in AIMS {
        for held in [None, id(1)] {
            for number_a in [&[5][..], &[]] {
                let wanted = Wanted { identifier: held, elements: numbers(number_a), aim };
                let mut case = settled(&[wanted]);
                for identifier in [None, id(1), id(2)] {
                    add_requests_near(&mut case, identifier);
                }
                scripts.add(&case.bytes);
            }
        }
    }
}

/// Requests of both kinds on both lines; what is accepted is cancelled again.
fn add_requests_near(case: &mut Case, identifier: Option<Identifier>) {
    for number_a in [&[5][..], &[6], &[]] {
        for number_b in [&ONE[..], &TWO] {
            for kind in [Kind::Ccbs, Kind::Ccnr] {
                let who = Who { identifier, place: 0 };
                case.step(&request(who, kind, &elements(number_a, number_b, 8)));
                case.quiet(&with_choice(ACT, Who::at(1), 3));
            }
        }
    }
}

/// Five requests of a line without an identifier, and a sixth; each place freed
/// once, by place or by fit, and used again.
fn five_of_a_line(scripts: &mut Scripts) {
    for gone in 0..5 {
        for which in 0..4 {
            let mut case = Case::at_line(&two_lines(), 1);
            for service in 0..6 {
                case.step(&request(Who::at(0), Kind::Ccbs, &elements(&[], &ONE, service)));
            }
            case.quiet(&request(Who::at(0), Kind::Ccnr, &elements(&[], &TWO, 0)));
            case.step(&removal(gone, which));
            case.step(&request(Who::at(0), Kind::Ccnr, &elements(&[], &ONE, 0)));
            case.step(&request(Who::at(0), Kind::Ccnr, &elements(&[], &ONE, 0)));
            scripts.add(&case.bytes);
        }
    }
}

/// Four ways in which the record of a place goes; its service is its place.
fn removal(gone: u8, which: u8) -> Vec<u8> {
    let cancel = |carrier| hand_in(Who::at(gone), carrier, Content::CcCancel, &elements(&[4], &ONE, gone.into()));
    match which {
        0 => with_choice(ACT, Who::at(gone), 3),
        1 => with_name(GUARD_RUNS_OUT, Who::at(gone)),
        2 => cancel(Carrier::Setup),
        _ => cancel(Carrier::ReleaseComplete),
    }
}

/// Thirty-two records without an identifier, four on each of eight lines; a
/// thirty-third; the last place freed and used again, and the one behind it absent.
fn full_desk(scripts: &mut Scripts) {
    let lines: Vec<([u8; 1], u8)> = (0..9).map(|n| ([n], 3)).collect();
    for gone in [0, 1, 15, 30, 31, 32] {
        let mut case = Case::at_line(&lines, 3);
        for n in 0..32 {
            case.quiet(&request(Who::at(0), Kind::Ccbs, &elements(&[], &[n / 4], n.into())));
        }
        case.step(&request(Who::at(0), Kind::Ccbs, &elements(&[], &[8], 0)));
        case.step(&with_name(GUARD_RUNS_OUT, Who::at(gone)));
        case.step(&request(Who::at(0), Kind::Ccbs, &elements(&[], &[8], 0)));
        case.step(&with_choice(ACT, Who::at(31), 3));
        scripts.add(&case.bytes);
    }
}

/// Marks of activity and of suspension, and the fallen connection, for one of two
/// records without an identifier that are otherwise alike.
fn marks(scripts: &mut Scripts) {
    for place in 0..2 {
        for kind in [Kind::Ccbs, Kind::Ccnr] {
            let (who, other) = (Who::at(place), Who::at(1 - place));
            let mut case = Case::at_line(&two_lines(), 1);
            for _ in 0..2 {
                case.step(&request(Who::at(ABSENT), kind, &numbers(&[])));
            }
            case.step(&with_name(FELL_AT_LINE, who));
            activity(&mut case, &ONE);
            case.step(&look(&ONE));
            case.step(&suspend(who, Connection::Ret));
            case.step(&suspend(other, Connection::Ret));
            case.step(&look(&ONE));
            case.step(&hand_in(other, Carrier::Setup, Content::CcResume, &numbers(&[5])));
            case.step(&report(&ONE, true));
            case.step(&hand_in(other, Carrier::Setup, Content::CcRingout, &numbers(&[5])));
            case.step(&hand_in(other, Carrier::Setup, Content::CcRingout, &numbers(&[5])));
            case.step(&with_name(FELL_AT_LINE, other));
            case.step(&with_choice(ACT, who, 3));
            case.step(&with_name(GUARD_RUNS_OUT, Who::at(0)));
            scripts.add(&case.bytes);
        }
    }
}

/// What a record sends in Setup has its numberA, or says that it is withheld; RLS,
/// with an identifier and without.
fn sent_in_setup(scripts: &mut Scripts) {
    for identifier in [None, id(1)] {
        for number_a in [&[5, 6, 7][..], &[]] {
            let who = Who { identifier, place: 0 };
            let content = request_content(Kind::Ccbs, number_a, &ONE, 16383, 5);
            for end in [with_choice(ACT, who, 3), with_name(GUARD_RUNS_OUT, who)] {
                let mut case = Case::at_line(&two_lines(), 2);
                case.step(&hand_in(who, Carrier::Setup, content.clone(), &numbers(&[])));
                case.step(&look(&ONE));
                case.step(&end);
                scripts.add(&case.bytes);
            }
        }
    }
}

pub fn add(scripts: &mut Scripts) {
    one_against_one(scripts);
    several(scripts);
    passed_over(scripts);
    places(scripts);
    named_and_placed(scripts);
    duplicates(scripts);
    five_of_a_line(scripts);
    full_desk(scripts);
    marks(scripts);
    sent_in_setup(scripts);
}
