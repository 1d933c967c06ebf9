//! Tests of the line desk, request 6 of document 02: the guards' deadlines and ticks.

use super::*;

fn desk() -> LineDesk {
    let line = |digit: u8| Line { digits: vec![digit], allows_ccbs: true, allows_ccnr: true, busy: false };
    LineDesk::start((0..8).map(line).collect(), true, true).unwrap()
}

fn request(desk: &mut LineDesk, kind: Kind, identifier: Option<Identifier>, number_b: u8, flags: u32, count: u32) {
    let fields = RequestFields { number_a: vec![], number_b: vec![number_b], service: 1, flags };
    let content = match kind {
        Kind::Ccbs => Content::CcbsRequest(fields),
        Kind::Ccnr => Content::CcnrRequest(fields),
    };
    let outcome = desk.take(&message(Carrier::Setup, identifier, content), 255, count);
    assert_eq!(outcome.starts, GUARD);
}

fn hand_in(desk: &mut LineDesk, carrier: Carrier, content: Content, count: u32) {
    let elements = Elements { number_a: vec![], number_b: vec![1], service: 1 };
    let outcome = desk.take(&message(carrier, None, content).with_elements(&elements), 0, count);
    assert_eq!((outcome.refusal, outcome.at), (None, Some(0)));
}

fn ticked(desk: &mut LineDesk, count: u32) -> Vec<usize> {
    desk.tick(count, &mut [0; 2048]).unwrap().places
}

#[test]
fn the_guards_length_goes_by_the_kind_of_the_request_and_is_never_restarted() {
    for (kind, length) in [(Kind::Ccbs, 3660), (Kind::Ccnr, 86460)] {
        let mut desk = desk();
        request(&mut desk, kind, None, 1, 1, 500);
        let guard = |desk: &LineDesk| desk.records[0].guard;
        assert_eq!(guard(&desk), 500 + length);
        desk.report(&[1], true);
        desk.report(&[1], false);
        for count in [600, 700] {
            assert_eq!(desk.look(&[1]).refusal, None);
            hand_in(&mut desk, Carrier::Facility, Content::CcSuspend, count);
            hand_in(&mut desk, Carrier::Setup, Content::CcResume, count + 1);
            assert_eq!(guard(&desk), 500 + length);
            desk.look(&[1]);
            desk.report(&[1], true);
            hand_in(&mut desk, Carrier::Setup, Content::CcRingout, count + 2);
            assert_eq!(desk.records[0].kind, Kind::Ccbs);
            assert_eq!(guard(&desk), 500 + length);
            desk.report(&[1], false);
        }
        assert!(ticked(&mut desk, 500 + length - 1).is_empty());
        assert_eq!(ticked(&mut desk, 500 + length), [0]);
    }
}

#[test]
fn the_guard_expires_in_every_state_by_the_records_carrier() {
    for state in [State::Invoked, State::Await, State::Alert] {
        for (flags, down) in [(2, false), (2, true), (4, false)] {
            let mut desk = desk();
            request(&mut desk, Kind::Ccbs, None, 1, flags, 4_294_967_295);
            desk.records[0].state = state;
            desk.records[0].down = down;
            let mut buffer = [0xEE; 8];
            assert_eq!(desk.tick(3658, &mut buffer).map(|ticked| ticked.length), Ok(0));
            let released = down || flags == 4;
            let expected: &[u8] = if released { &[10, 1, 0, 0, 1, 1, 1] } else { &[10, 4, 0] };
            let ticked = desk.tick(3659, &mut buffer).unwrap();
            assert_eq!((&buffer[..ticked.length], ticked.places), (expected, vec![0]));
            assert!(desk.records.is_empty());
        }
    }
}

#[test]
fn a_full_desk_of_the_longest_has_room_in_2048() {
    let fifteen = |n: u8| vec![n; 15];
    let line = |n: u8| Line { digits: fifteen(n), allows_ccbs: true, allows_ccnr: true, busy: false };
    let mut desk = LineDesk::start((0..8).map(line).collect(), true, true).unwrap();
    for n in 0..32 {
        let mut number_a = fifteen(9);
        number_a[0] = n % 10;
        number_a[1] = n / 10;
        let fields = RequestFields { number_a, number_b: fifteen(n / 4), service: 16383, flags: 4 };
        let message = message(Carrier::Setup, [n; 16], Content::CcbsRequest(fields));
        assert_eq!(desk.take(&message, 255, u32::from(n % 2)).at, Some(n.into()));
    }
    let before = desk.clone();
    let mut buffer = vec![0xEE; 16 * 53 - 1];
    assert_eq!(desk.tick(3660, &mut buffer), Err(Refusal::NoRoom));
    assert_eq!(desk, before);
    assert_eq!(desk.clone().tick(3661, &mut [0; 2048]).map(|ticked| ticked.length), Ok(32 * 53));
    let even: Vec<usize> = (0..32).filter(|place| place % 2 == 0).collect();
    assert_eq!(desk.tick(3660, &mut [0; 16 * 53]), Ok(Ticked { places: even, length: 16 * 53 }));
    let odd = before.records.iter().skip(1).step_by(2).cloned().collect::<Vec<_>>();
    assert_eq!(desk.records, odd);
}

#[test]
fn a_tick_leaves_lines_and_their_status() {
    let mut desk = desk();
    request(&mut desk, Kind::Ccbs, Some([1; 16]), 1, 1, 0);
    desk.report(&[1], true);
    desk.report(&[2], true);
    let lines = desk.lines.clone();
    assert_eq!(ticked(&mut desk, 3660), [0]);
    assert_eq!(desk.lines, lines);
    // The place is free again, and the identifier too.
    request(&mut desk, Kind::Ccbs, Some([1; 16]), 1, 1, 3660);
}
