//! Tests of the clerk's desk, request 6 of document 02: deadlines and ticks.

use super::*;

const LENGTHS: Lengths = Lengths { t1: 15, t2_ccbs: 100, t2_ccnr: 200, t3: 12 };

fn desk() -> ClerkDesk {
    ClerkDesk::start(LENGTHS).unwrap()
}

fn at(place: usize) -> Name {
    Name { identifier: None, place }
}

fn ask(desk: &mut ClerkDesk, kind: Kind, identifier: Option<Identifier>, count: u32) {
    let (number_a, number_b) = (vec![], vec![3]);
    let ask = Ask { identifier, kind, number_a, number_b, service: 9, can_keep: true, preference: 0 };
    assert_eq!(desk.ask(&ask, count).refusal, None);
}

/// Hands a message without an identifier to the record at a place.
fn take(desk: &mut ClerkDesk, place: usize, carrier: Carrier, content: Content, user_a_busy: bool, count: u32) {
    let message = message(carrier, None, content);
    let outcome = desk.take(&message, place, user_a_busy, count);
    assert_eq!((outcome.refusal, outcome.at), (None, Some(place)));
}

fn result(desk: &mut ClerkDesk, place: usize, count: u32) {
    take(desk, place, Carrier::Connect, Content::RequestResult { keep: 1 }, false, count);
}

fn offer(desk: &mut ClerkDesk, place: usize, user_a_busy: bool, count: u32) {
    take(desk, place, Carrier::Facility, Content::CcExecPossible, user_a_busy, count);
}

fn busy_again(desk: &mut ClerkDesk, place: usize, count: u32) {
    let content = Content::RingoutError { error: REMOTE_USER_BUSY_AGAIN };
    take(desk, place, Carrier::ReleaseComplete, content, false, count);
}

/// The places that a tick with room enough ends.
fn ticked(desk: &mut ClerkDesk, count: u32) -> Vec<usize> {
    desk.tick(count, &mut [0; 2048]).unwrap().places
}

fn told(desk: &ClerkDesk) -> [Option<u32>; 3] {
    desk.records[0].running_deadlines()
}

#[test]
fn a_deadline_is_stored_when_its_timer_starts() {
    for (kind, t2) in [(Kind::Ccbs, 100), (Kind::Ccnr, 200)] {
        let mut desk = desk();
        ask(&mut desk, kind, None, 1000);
        assert_eq!(told(&desk), [Some(1015), None, None]);
        result(&mut desk, 0, 2000);
        assert_eq!(told(&desk), [None, Some(2000 + t2), None]);
        offer(&mut desk, 0, false, 2050);
        assert_eq!(told(&desk), [None, Some(2000 + t2), Some(2062)]);
        desk.accept(&at(0));
        assert_eq!(told(&desk), [None, Some(2000 + t2), None]);
        // "neither T2 nor the guard is restarted", also where the kind changes.
        busy_again(&mut desk, 0, 2060);
        assert_eq!(told(&desk), [None, Some(2000 + t2), None]);
        offer(&mut desk, 0, true, 2070);
        desk.user_a_free(&at(0), FreeChoice::Resume, 2080);
        assert_eq!(told(&desk), [None, Some(2000 + t2), None]);
        offer(&mut desk, 0, true, 2090);
        desk.user_a_free(&at(0), FreeChoice::Recall, u32::MAX);
        assert_eq!(told(&desk), [None, Some(2000 + t2), Some(11)]);
    }
}

#[test]
fn a_refused_start_makes_no_desk() {
    assert_eq!(ClerkDesk::start(Lengths { t3: 31, ..LENGTHS }), Err(Refusal::OutOfRange));
    assert_eq!(ClerkDesk::start(Lengths { t1: 0, ..LENGTHS }), Err(Refusal::OutOfRange));
    assert_eq!(desk().lengths, LENGTHS);
}

#[test]
fn each_timer_expires_where_it_runs_and_is_due() {
    // Deadlines: T1 15, T2 100, T3 12 behind 95.
    let states = [State::WaitAck, State::Invoked, State::WaitAnswer, State::Ringout, State::Suspended];
    let due_from = [Some(15), Some(100), Some(100), None, Some(100)];
    for (state, due_from) in states.into_iter().zip(due_from) {
        for count in [0, 14, 15, 16, 99, 100, 106, 107, 1 << 30] {
            let mut desk = desk();
            ask(&mut desk, Kind::Ccbs, None, 0);
            desk.records[0].state = state;
            desk.records[0].deadlines = Deadlines { t1: 15, t2: 100, t3: 107 };
            let expires = due_from.map_or(false, |from| count >= from);
            assert_eq!(ticked(&mut desk, count).len(), usize::from(expires), "{state:?} {count}");
            assert_eq!(desk.records.len(), usize::from(!expires));
        }
    }
}

#[test]
fn t3_alone_ends_a_record_in_wait_answer() {
    let mut desk = desk();
    ask(&mut desk, Kind::Ccbs, None, 0);
    result(&mut desk, 0, 0);
    offer(&mut desk, 0, false, 10);
    assert_eq!(desk.records[0].due_timer(21), None);
    assert_eq!(desk.records[0].due_timer(22), Some(Timer::T3));
    // "T1 before T2 before T3 within one record".
    assert_eq!(desk.records[0].due_timer(100), Some(Timer::T2));
    assert!(ticked(&mut desk, 21).is_empty());
    assert_eq!(ticked(&mut desk, 22), [0]);
}

#[test]
fn t2_passes_in_ringout_and_is_due_at_once_in_invoked() {
    let mut desk = desk();
    ask(&mut desk, Kind::Ccbs, None, 0);
    result(&mut desk, 0, 0);
    offer(&mut desk, 0, false, 99);
    desk.accept(&at(0));
    for count in [100, 111, 5000] {
        assert!(ticked(&mut desk, count).is_empty());
    }
    busy_again(&mut desk, 0, 5000);
    assert_eq!(desk.records.len(), 1);
    assert_eq!(ticked(&mut desk, 5000), [0]);
}

#[test]
fn a_step_by_itself_expires_nothing() {
    let mut desk = desk();
    ask(&mut desk, Kind::Ccbs, None, 0);
    result(&mut desk, 0, 900);
    offer(&mut desk, 0, false, 5000);
    assert_eq!(desk.accept(&at(0)).stops, T3);
    assert_eq!(desk.records[0].state, State::Ringout);
    // A report by hand goes by the state alone.
    assert_eq!(desk.timer_runs_out(&at(0), Timer::T2).refusal, Some(Refusal::TimerNotRunning));
    ask(&mut desk, Kind::Ccbs, None, 6000);
    assert_eq!(desk.timer_runs_out(&at(1), Timer::T1).notice, Some(Notice::Failed));
}

/// Four records; the second is not due, the third has no identifier.
fn some_due() -> ClerkDesk {
    let mut desk = desk();
    for (n, count) in [0, 1, 0, 0].into_iter().enumerate() {
        ask(&mut desk, Kind::Ccbs, Some([n as u8; 16]).filter(|_| n != 2), count);
    }
    desk
}

#[test]
fn messages_go_in_the_order_of_storing_or_nothing_changes() {
    let full = some_due();
    for room in [0, 1, 18, 19, 22, 40] {
        let (mut desk, mut buffer) = (full.clone(), vec![0xEE; room]);
        assert_eq!(desk.tick(15, &mut buffer), Err(Refusal::NoRoom));
        assert_eq!((desk, buffer), (full.clone(), vec![0xEE; room]));
    }
    let cancel = |n: u8| [&[10, 4, 16][..], &[n; 16]].concat();
    let sent = [cancel(0), vec![10, 4, 0], cancel(3)].concat();
    for room in [41, 42, 2048] {
        let (mut desk, mut buffer) = (full.clone(), vec![0xEE; room]);
        assert_eq!(desk.tick(15, &mut buffer), Ok(Ticked { places: vec![0, 2, 3], length: 41 }));
        assert_eq!(buffer[..41], sent[..]);
        assert!(buffer[41..].iter().all(|byte| *byte == 0xEE));
        assert_eq!(desk.records, full.records[1..2]);
        // "an expired record has no further timers": the next tick has only the other.
        assert_eq!(ticked(&mut desk, 15), [] as [usize; 0]);
        assert_eq!(ticked(&mut desk, 16), [0]);
    }
}

#[test]
fn nothing_due_needs_no_room() {
    assert_eq!(desk().tick(7, &mut []), Ok(Ticked { places: vec![], length: 0 }));
    let mut desk = some_due();
    assert_eq!(desk.tick(14, &mut []), Ok(Ticked { places: vec![], length: 0 }));
    assert_eq!(desk, some_due());
}

#[test]
fn a_marked_or_released_record_expires_in_setup() {
    for (connection, down) in [(Connection::Rls, false), (Connection::Ret, true)] {
        let mut desk = desk();
        ask(&mut desk, Kind::Ccbs, None, 0);
        result(&mut desk, 0, 0);
        desk.records[0].connection = Some(connection);
        desk.records[0].down = down;
        let mut buffer = [0; 8];
        assert_eq!(desk.tick(100, &mut buffer).map(|ticked| ticked.length), Ok(7));
        assert_eq!(buffer, [10, 1, 0, 0, 1, 3, 9, 0]);
    }
}

#[test]
fn a_full_desk_expires_at_once() {
    let mut desk = desk();
    for n in 0..16 {
        ask(&mut desk, Kind::Ccnr, Some([n; 16]), 0xFFFF_FFFA);
    }
    assert!(ticked(&mut desk, 8).is_empty());
    assert_eq!(ticked(&mut desk, 9), (0..16).collect::<Vec<_>>());
    assert!(desk.records.is_empty());
}
