//! Tests of the line desk.

use super::*;

fn line(digits: &[u8]) -> Line {
    Line { digits: digits.to_vec(), allows_ccbs: true, allows_ccnr: true, busy: false }
}

fn desk(lines: &[&[u8]], keeps: bool, retains: bool) -> LineDesk {
    LineDesk::start(lines.iter().map(|l| line(l)).collect(), keeps, retains).unwrap()
}

fn request(n: u8, kind: Kind, a: &[u8], b: &[u8], flags: u32) -> Message {
    let fields = RequestFields { number_a: a.to_vec(), number_b: b.to_vec(), service: 1, flags };
    let content = match kind {
        Kind::Ccbs => Content::CcbsRequest(fields),
        Kind::Ccnr => Content::CcnrRequest(fields),
    };
    message(Carrier::Setup, [n; 16], content)
}

/// A message with the elements of `request`, its numberA withheld.
fn message(carrier: Carrier, identifier: impl Into<Option<Identifier>>, content: Content) -> Message {
    let elements = Elements { number_a: vec![], number_b: vec![1], service: 1 };
    super::message(carrier, identifier, content).with_elements(&elements)
}

fn named(n: u8) -> Name {
    Name { identifier: Some([n; 16]), place: 30 }
}

/// What a record with a numberA sends in Setup.
fn in_setup(n: u8, number_a: u8, content: Content) -> Message {
    let elements = Elements { number_a: vec![number_a], number_b: vec![1], service: 1 };
    message(Carrier::Setup, [n; 16], content).with_elements(&elements)
}

fn error(n: u8, error: u32) -> Outcome {
    Outcome::done().sending(message(Carrier::ReleaseComplete, [n; 16], Content::RequestError { error }))
}

/// A step about the first record.
fn done() -> Outcome {
    Outcome::done().about(0)
}

#[test]
fn example_6_busy_line_ccbs_can_keep_no_preference() {
    // "desk keeps and defaults to release: result keep 1 in Release
    // Complete, record Invoked RLS."
    let mut desk = desk(&[&[1]], true, false);
    desk.report(&[1], true);
    let result = message(Carrier::ReleaseComplete, [1; 16], Content::RequestResult { keep: 1 });
    let outcome = desk.take(&request(1, Kind::Ccbs, &[9], &[1], 1), 255, 0);
    assert_eq!(outcome, done().sending(result).starting(GUARD));
    assert_eq!(desk.records[0].state, State::Invoked);
    assert_eq!(desk.records[0].connection, Connection::Rls);
    assert!(desk.records[0].active);
}

#[test]
fn example_7_other_identifier_same_two_numbers_short() {
    let mut desk = desk(&[&[1]], true, false);
    desk.take(&request(1, Kind::Ccbs, &[9], &[1], 1), 255, 0);
    assert_eq!(desk.take(&request(2, Kind::Ccnr, &[9], &[1], 1), 255, 0), error(2, SHORT));
    // READINGS 17: "withheld numberA leaves the identifier test only".
    assert_eq!(desk.take(&request(3, Kind::Ccbs, &[], &[1], 1), 255, 0).starts, GUARD);
    assert_eq!(desk.take(&request(4, Kind::Ccbs, &[], &[1], 1), 255, 0).starts, GUARD);
}

#[test]
fn example_8_unknown_number_b_at_a_full_desk_long() {
    let lines: Vec<[u8; 1]> = (0..7).map(|n| [n]).collect();
    let lines: Vec<&[u8]> = lines.iter().map(|l| &l[..]).collect();
    let mut desk = desk(&lines, true, false);
    for n in 0..32 {
        assert_eq!(desk.take(&request(n, Kind::Ccbs, &[], &[n / 5], 0), 255, 0).starts, GUARD);
    }
    assert_eq!(desk.take(&request(32, Kind::Ccbs, &[], &[8], 0), 255, 0), error(32, LONG));
    assert_eq!(desk.take(&request(32, Kind::Ccbs, &[], &[6], 0), 255, 0), error(32, SHORT));
    assert_eq!(desk.records.len(), 32);
}

#[test]
fn example_9_ccnr_on_a_free_line_look_11_after_busy_free_look_offered() {
    let mut desk = desk(&[&[1]], true, true);
    desk.take(&request(1, Kind::Ccnr, &[9], &[1], 1), 255, 0);
    assert_eq!(desk.look(&[1]), Outcome::refused(Refusal::NothingToOffer));
    desk.report(&[1], true);
    assert_eq!(desk.look(&[1]), Outcome::refused(Refusal::NothingToOffer));
    desk.report(&[1], false);
    let exec = message(Carrier::Facility, [1; 16], Content::CcExecPossible);
    assert_eq!(desk.look(&[1]), done().sending(exec));
    assert_eq!(desk.records[0].state, State::Await);
}

#[test]
fn five_against_six_on_one_line() {
    let mut desk = desk(&[&[1], &[2]], true, true);
    for n in 0..5 {
        assert_eq!(desk.take(&request(n, Kind::Ccbs, &[n], &[1], 1), 255, 0).starts, GUARD);
    }
    assert_eq!(desk.take(&request(5, Kind::Ccbs, &[5], &[1], 1), 255, 0), error(5, SHORT));
    assert_eq!(desk.take(&request(5, Kind::Ccbs, &[5], &[2], 1), 255, 0).starts, GUARD);
}

#[test]
fn seen_in_class_letting_a_suspended_record_block_the_line() {
    let mut desk = desk(&[&[1]], true, true);
    desk.take(&request(1, Kind::Ccbs, &[1], &[1], 1), 255, 0);
    desk.take(&request(2, Kind::Ccbs, &[2], &[1], 1), 255, 0);
    desk.look(&[1]);
    assert_eq!(desk.look(&[1]), Outcome::refused(Refusal::NothingToOffer));
    desk.take(&message(Carrier::Facility, [1; 16], Content::CcSuspend), 255, 0);
    assert_eq!(desk.look(&[1]).refusal, None);
    assert_eq!(desk.records[1].state, State::Await);
}

#[test]
fn seen_in_class_deleting_the_record_on_a_ccresume_met_in_invoked() {
    let mut desk = desk(&[&[1]], true, true);
    desk.take(&request(1, Kind::Ccbs, &[1], &[1], 1), 255, 0);
    let reply = message(Carrier::ReleaseComplete, [1; 16], Content::CcCancel);
    let outcome = desk.take(&message(Carrier::Setup, [1; 16], Content::CcResume), 255, 0);
    assert_eq!(outcome, Outcome::refused(Refusal::NoRow).sending(reply));
    assert_eq!(desk.records.len(), 1);
}

#[test]
fn m5_ccresume_in_setup_for_a_ret_record() {
    // "received for RET in Facility or Setup, for RLS in Setup. (Facility
    // for an RLS record stays 8 ..)"
    let mut desk = desk(&[&[1]], true, true);
    desk.take(&request(1, Kind::Ccbs, &[1], &[1], 3), 255, 0);
    desk.look(&[1]);
    desk.take(&message(Carrier::Facility, [1; 16], Content::CcSuspend), 255, 0);
    let outcome = desk.take(&message(Carrier::Setup, [1; 16], Content::CcResume), 255, 0);
    assert_eq!(outcome, done());
    assert_eq!(desk.records[0].state, State::Invoked);
    assert!(!desk.records[0].suspended);
    desk.take(&message(Carrier::Setup, [1; 16], Content::CcCancel), 255, 0);
    desk.take(&request(2, Kind::Ccbs, &[1], &[1], 5), 255, 0);
    desk.look(&[1]);
    let outcome = desk.take(&message(Carrier::Facility, [2; 16], Content::CcResume), 255, 0);
    assert_eq!(outcome, Outcome::refused(Refusal::BadCarrier));
}

#[test]
fn cc_ringout_met_by_a_busy_line() {
    // "Line busy: send remoteUserBusyAgain; keep, Invoked with activity
    // marked and the suspended mark cleared; otherwise delete."
    for keeps in [true, false] {
        let mut desk = desk(&[&[1]], keeps, true);
        desk.take(&request(1, Kind::Ccbs, &[1], &[1], 1), 255, 0);
        desk.look(&[1]);
        desk.take(&message(Carrier::Facility, [1; 16], Content::CcSuspend), 255, 0);
        desk.report(&[1], true);
        assert!(!desk.records[0].active);
        let outcome = desk.take(&message(Carrier::Setup, [1; 16], Content::CcRingout), 255, 0);
        let content = Content::RingoutError { error: REMOTE_USER_BUSY_AGAIN };
        let answer = done().sending(message(Carrier::ReleaseComplete, [1; 16], content));
        if keeps {
            assert_eq!(outcome, answer);
            let record = &desk.records[0];
            assert!(record.state == State::Invoked && record.active && !record.suspended);
        } else {
            assert_eq!(outcome, answer.stopping(GUARD));
            assert!(desk.records.is_empty());
        }
    }
}

#[test]
fn request_5_a_kept_ccnr_record_becomes_ccbs_on_any_line() {
    // "The line's allowed kinds are not asked again."
    let only_ccnr = Line { allows_ccbs: false, ..line(&[1]) };
    let mut desk = LineDesk::start(vec![only_ccnr], true, true).unwrap();
    desk.take(&request(1, Kind::Ccnr, &[1], &[1], 1), 255, 0);
    desk.report(&[1], true);
    desk.report(&[1], false);
    for _ in 0..2 {
        assert_eq!(desk.look(&[1]).refusal, None);
        desk.report(&[1], true);
        let outcome = desk.take(&message(Carrier::Setup, [1; 16], Content::CcRingout), 255, 0);
        let content = Content::RingoutError { error: REMOTE_USER_BUSY_AGAIN };
        let answer = message(Carrier::ReleaseComplete, [1; 16], content);
        assert_eq!(outcome, done().sending(answer));
        let record = &desk.records[0];
        assert_eq!((record.kind, record.state, record.active), (Kind::Ccbs, State::Invoked, true));
        desk.report(&[1], false);
    }
}

#[test]
fn request_5_a_ccringout_that_finds_the_line_free_keeps_the_kind() {
    let mut desk = desk(&[&[1]], true, true);
    desk.report(&[1], true);
    desk.take(&request(1, Kind::Ccnr, &[1], &[1], 1), 255, 0);
    desk.report(&[1], false);
    desk.look(&[1]);
    desk.take(&message(Carrier::Setup, [1; 16], Content::CcRingout), 255, 0);
    assert_eq!((desk.records[0].kind, desk.records[0].state), (Kind::Ccnr, State::Alert));
}

#[test]
fn request_11_the_report_and_what_a_marked_record_sends() {
    let mut desk = desk(&[&[1]], true, true);
    assert_eq!(desk.connection_fell(&named(1)), Outcome::refused(Refusal::NoRecord));
    desk.take(&request(1, Kind::Ccbs, &[1], &[1], 5), 255, 0);
    assert_eq!(desk.connection_fell(&named(1)), Outcome::refused(Refusal::NoRow));
    desk.take(&request(2, Kind::Ccbs, &[2], &[1], 3), 255, 0);
    desk.take(&message(Carrier::Setup, [1; 16], Content::CcCancel), 255, 0);
    assert_eq!(desk.connection_fell(&named(2)), done());
    let marked = desk.clone();
    assert_eq!(desk.connection_fell(&named(2)), done());
    assert_eq!(desk, marked);
    let exec = in_setup(2, 2, Content::CcExecPossible);
    assert_eq!(desk.look(&[1]), done().sending(exec));
    let cancel = in_setup(2, 2, Content::CcCancel);
    assert_eq!(desk.guard_runs_out(&named(2)), done().sending(cancel).stopping(GUARD));
}

#[test]
fn request_11_a_ret_record_takes_either_carrier() {
    let offered = |down: bool| {
        let mut desk = desk(&[&[1]], true, true);
        desk.take(&request(1, Kind::Ccbs, &[1], &[1], 3), 255, 0);
        desk.records[0].down = down;
        desk.look(&[1]);
        desk
    };
    for down in [false, true] {
        for carrier in Carrier::ALL {
            let taken = |content: Content| offered(down).take(&message(carrier, [1; 16], content), 255, 0).refusal;
            let setup_or_facility = matches!(carrier, Carrier::Setup | Carrier::Facility);
            let resume = if setup_or_facility { None } else { Some(Refusal::BadCarrier) };
            assert_eq!(taken(Content::CcResume), resume);
            let bad = matches!(carrier, Carrier::Setup | Carrier::Alerting);
            assert_eq!(taken(Content::CcSuspend), bad.then_some(Refusal::BadCarrier));
        }
    }
}

#[test]
fn reading_15_starts() {
    let too_many = (0..17).map(|n| line(&[n / 10, n % 10])).collect();
    assert_eq!(LineDesk::start(too_many, false, false), Err(Refusal::OutOfRange));
    let twice = vec![line(&[1, 2]), line(&[1, 2])];
    assert_eq!(LineDesk::start(twice, false, false), Err(Refusal::OutOfRange));
    for bad in [&[][..], &[10], &[1; 16]] {
        assert_eq!(LineDesk::start(vec![line(bad)], false, false), Err(Refusal::OutOfRange));
    }
    assert!(LineDesk::start(vec![], false, false).is_ok());
    assert!(LineDesk::start(vec![line(&[1; 15]), line(&[0]), line(&[0, 0])], false, false).is_ok());
}

fn nameless(kind: Kind, a: &[u8], flags: u32) -> Message {
    Message { identifier: None, ..request(0, kind, a, &[1], flags) }
}

fn at(place: usize) -> Name {
    Name { identifier: None, place }
}

#[test]
fn request_1_duplicates_without_identifiers() {
    // "two requests without identifiers whose numberA is withheld never are
    // duplicates"; the numbers' test stays.
    let mut desk = desk(&[&[1]], true, true);
    for place in 0..2 {
        assert_eq!(desk.take(&nameless(Kind::Ccbs, &[], 1), 0, 0).at, Some(place));
    }
    assert_eq!(desk.take(&nameless(Kind::Ccbs, &[7], 1), 0, 0).at, Some(2));
    for duplicate in [nameless(Kind::Ccnr, &[7], 1), request(1, Kind::Ccbs, &[7], &[1], 1)] {
        let outcome = desk.take(&duplicate, 0, 0);
        assert_eq!((outcome.at, outcome.starts), (None, 0));
        let error = outcome.message.unwrap();
        assert_eq!((error.identifier, error.content), (duplicate.identifier, Content::RequestError { error: SHORT }));
    }
}

#[test]
fn request_1_ccringout_is_fitted_to_the_oldest_in_await() {
    let mut desk = desk(&[&[1]], true, true);
    for a in [&[][..], &[], &[7], &[8]] {
        desk.take(&nameless(Kind::Ccbs, a, 3), 255, 0);
    }
    desk.records[1].state = State::Await;
    desk.records[2].state = State::Await;
    let ringout = |a: &[u8], service: u32| {
        let elements = Elements { number_a: a.to_vec(), number_b: vec![1], service };
        message(Carrier::Setup, None, Content::CcRingout).with_elements(&elements)
    };
    // Numbers 8 fit the first two and the last: the one in Await is taken.
    assert_eq!(desk.clone().take(&ringout(&[8], 1), 2, 0).at, Some(1));
    // 7 fits 0, 1 and 2.
    assert_eq!(desk.clone().take(&ringout(&[7], 1), 0, 0).at, Some(1));
    let match_failure = message(Carrier::ReleaseComplete, None, Content::RingoutError { error: FAILURE_TO_MATCH });
    // "none fits, 6": the place is ignored.
    let outcome = desk.take(&ringout(&[7], 2), 1, 0);
    assert_eq!(outcome, Outcome::refused(Refusal::NoRecord).sending(match_failure.clone()));
    // "one fits but none in such a state, 7".
    desk.records[1].state = State::Alert;
    let outcome = desk.take(&ringout(&[8], 1), 2, 0);
    assert_eq!(outcome, Outcome::refused(Refusal::NoRow).sending(match_failure));
}

#[test]
fn request_1_an_identifier_is_taken_first_and_different_ones_never_fit() {
    let mut desk = desk(&[&[1]], true, true);
    desk.take(&nameless(Kind::Ccbs, &[], 3), 255, 0);
    desk.take(&request(2, Kind::Ccbs, &[], &[1], 3), 255, 0);
    // By identifier: "whatever its elements and state".
    let other = Elements { number_a: vec![3], number_b: vec![9], service: 5 };
    let cancel = message(Carrier::Setup, [2; 16], Content::CcCancel).with_elements(&other);
    assert_eq!(desk.clone().take(&cancel, 0, 0).at, Some(1));
    let resume = message(Carrier::Setup, [2; 16], Content::CcResume);
    assert_eq!(desk.clone().take(&resume, 0, 0).refusal, Some(Refusal::NoRow));
    // An unknown identifier fits the record without one, and no other.
    let cancel = message(Carrier::Setup, [3; 16], Content::CcCancel);
    assert_eq!(desk.take(&cancel, 1, 0).at, Some(0));
    assert_eq!(desk.take(&cancel, 0, 0).refusal, Some(Refusal::NoRecord));
    // Without an identifier it fits the record that has one.
    assert_eq!(desk.take(&message(Carrier::Setup, None, Content::CcCancel), 9, 0).at, Some(0));
}

#[test]
fn request_1_by_place_and_an_identifier_before_the_place() {
    let mut desk = desk(&[&[1]], true, true);
    desk.take(&nameless(Kind::Ccbs, &[], 3), 255, 0);
    desk.take(&request(2, Kind::Ccbs, &[], &[1], 3), 255, 0);
    desk.look(&[1]);
    let suspend = |identifier: Option<Identifier>| message(Carrier::Facility, identifier, Content::CcSuspend);
    assert_eq!(desk.clone().take(&suspend(None), 0, 0), done());
    assert_eq!(desk.clone().take(&suspend(None), 1, 0).refusal, Some(Refusal::NoRow));
    assert_eq!(desk.clone().take(&suspend(None), 2, 0).refusal, Some(Refusal::NoRecord));
    assert_eq!(desk.clone().take(&suspend(Some([3; 16])), 0, 0).refusal, Some(Refusal::NoRecord));
    assert_eq!(desk.clone().take(&suspend(Some([2; 16])), 0, 0).refusal, Some(Refusal::NoRow));
    // "A named place may be that of a record with an identifier."
    assert_eq!(desk.clone().guard_runs_out(&at(1)).at, Some(1));
    let unknown = Name { identifier: Some([3; 16]), place: 1 };
    assert_eq!(desk.clone().guard_runs_out(&unknown), Outcome::refused(Refusal::NoRecord));
    assert_eq!(desk.clone().act(&at(0), Act::Cancel).message.map(|m| m.identifier), Some(None));
    assert_eq!(desk.connection_fell(&at(255)), Outcome::refused(Refusal::NoRecord));
}
